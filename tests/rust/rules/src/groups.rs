//! 01 "Groups in one frame", with the trailers of 02 E5: the groups of a frame, and groups packed into one.

use crate::frame::{is_pgn, least_length};
use crate::Refusal;

const HEADER_BYTES: usize = 4;

/// 001's Table 9, the lines of one service type: by trailer format how many bytes the trailer has; none where the format is reserved.
type Formats = [Option<usize>; 8];

/// Service type 1: cybersecurity, functional safety, one behind the other, and then each by itself in 64 bits.
const WITH_TRAILER: Formats = [None, Some(4), Some(4), Some(4 + 4), None, Some(8), Some(8), None];
/// Service type 2: no trailer.
const PLAIN: Formats = [Some(0), None, None, None, None, None, None, None];

/// None for padding, which is no group, and for the service types that are reserved.
fn formats_of(service: u8) -> Option<Formats> {
    match service {
        1 => Some(WITH_TRAILER),
        2 => Some(PLAIN),
        _ => None,
    }
}

/// How many bytes the trailer has, or 6 or 7.
fn trailer_due(service: u8, format: u8) -> Result<usize, Refusal> {
    let formats = formats_of(service).ok_or(Refusal::ServiceType)?;
    let trailer = formats.get(usize::from(format)).copied().flatten();
    trailer.ok_or(Refusal::TrailerFormat)
}

/// One group: what its header says, where its data stands in the frame, and how long the trailer behind the data is.
#[derive(Clone, Copy, Debug, PartialEq, Eq)]
pub struct Group {
    pub pgn: u32,
    pub service: u8,
    pub format: u8,
    pub start: usize,
    pub length: usize,
    pub trailer: usize,
}

impl Group {
    /// Where the next one is looked for.
    pub fn end(&self) -> usize {
        self.start + self.length + self.trailer
    }

    /// Its data and its trailer.
    pub fn parts<'a>(&self, frame: &'a [u8]) -> (&'a [u8], &'a [u8]) {
        frame[self.start..self.end()].split_at(self.length)
    }
}

/// All groups of a frame, or the first fault in it.
pub fn read(frame: &[u8]) -> Result<Vec<Group>, Refusal> {
    match walk(frame) {
        (groups, None) => Ok(groups),
        (_, Some(refusal)) => Err(refusal),
    }
}

/// The groups before the frame's end or its first fault, and that fault.
pub fn walk(frame: &[u8]) -> (Vec<Group>, Option<Refusal>) {
    let mut groups = Vec::new();
    let mut at = 0;
    // Padding is known by its first byte, also where fewer than four bytes are left.
    while at < frame.len() && frame[at] >> 5 != 0 {
        match read_one(frame, at) {
            Err(refusal) => return (groups, Some(refusal)),
            Ok(group) => {
                at = group.end();
                groups.push(group);
            }
        }
    }
    (groups, None)
}

fn read_one(frame: &[u8], at: usize) -> Result<Group, Refusal> {
    let start = at + HEADER_BYTES;
    let Some(header) = frame.get(at..start) else {
        return Err(Refusal::GroupHeaderCut);
    };
    let (service, format) = (header[0] >> 5, header[0] >> 2 & 0b111);
    let trailer = trailer_due(service, format)?;
    let pgn = u32::from(header[0] & 0b11) << 16 | u32::from(header[1]) << 8 | u32::from(header[2]);
    if !is_pgn(pgn) {
        return Err(Refusal::WrongPgn);
    }
    // The length byte counts data and trailer.
    let counted = usize::from(header[3]);
    if start + counted > frame.len() || trailer > counted {
        return Err(Refusal::GroupDataCut);
    }
    Ok(Group { pgn, service, format, start, length: counted - trailer, trailer })
}

/// What a packer is lent: a number for each group in each of five lists, and the bytes of all groups joined.
#[derive(Clone, Copy, Debug)]
pub struct Request<'a> {
    pub services: &'a [u8],
    pub formats: &'a [u8],
    pub pgns: &'a [u32],
    /// Without the trailers.
    pub lengths: &'a [u8],
    pub trailer_lengths: &'a [u8],
    pub data: &'a [u8],
    pub trailers: &'a [u8],
}

fn sum(lengths: &[u8]) -> usize {
    lengths.iter().map(|&length| usize::from(length)).sum()
}

/// Takes the first bytes off the front.
fn split<'a>(joined: &mut &'a [u8], length: u8) -> &'a [u8] {
    let (own, behind) = joined.split_at(length.into());
    *joined = behind;
    own
}

impl Request<'_> {
    /// The packed frame. `room` is the length of the lent output.
    pub fn pack(&self, room: usize) -> Result<Vec<u8>, Refusal> {
        if !self.services.iter().all(|&service| formats_of(service).is_some()) {
            return Err(Refusal::ServiceType);
        }
        // Up to the shorter of the two lists.
        for (&service, &format) in self.services.iter().zip(self.formats) {
            trailer_due(service, format)?;
        }
        if !self.pgns.iter().all(|&pgn| is_pgn(pgn)) {
            return Err(Refusal::WrongPgn);
        }
        if !self.agrees() || room != 64 {
            return Err(Refusal::Packer);
        }
        let need = HEADER_BYTES * self.pgns.len() + self.data.len() + self.trailers.len();
        match least_length(need) {
            None => Err(Refusal::Packer),
            Some(length) => Ok(self.padded(length)),
        }
    }

    /// One number for each group in each list, each trailer as long as its format wants, and as many bytes as the lengths say.
    fn agrees(&self) -> bool {
        let lists = [self.formats.len(), self.pgns.len(), self.lengths.len(), self.trailer_lengths.len()];
        let pairs = self.services.iter().zip(self.formats);
        lists == [self.services.len(); 4]
            && pairs.zip(self.trailer_lengths).all(|((&s, &f), &trailer)| trailer_due(s, f) == Ok(trailer.into()))
            && self.data.len() == sum(self.lengths)
            && self.trailers.len() == sum(self.trailer_lengths)
    }

    /// The groups back to back, and padding up to this length.
    fn padded(&self, length: usize) -> Vec<u8> {
        let mut frame = Vec::with_capacity(64);
        let (mut data, mut trailers) = (self.data, self.trailers);
        for (i, pgn) in self.pgns.iter().enumerate() {
            let [_, top, middle, low] = pgn.to_be_bytes();
            let (length, trailer) = (self.lengths[i], self.trailer_lengths[i]);
            frame.extend([self.services[i] << 5 | self.formats[i] << 2 | top, middle, low, length + trailer]);
            frame.extend(split(&mut data, length));
            frame.extend(split(&mut trailers, trailer));
        }
        let zeros_end = frame.len() + 3;
        while frame.len() < length {
            frame.push(if frame.len() < zeros_end { 0x00 } else { 0xAA });
        }
        frame
    }
}
