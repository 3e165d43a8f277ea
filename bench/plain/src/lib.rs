//! The data link in plain Rust, to measure against and to compare with: frames, groups, packing, the receiver, the sender and a node of
//! both. Written from 01 and E1, E2, E4, E5 and E6 of 02; shares nothing with crates/.

pub mod node;
pub mod receiver;
pub mod sender;
pub mod transport;

use transport::is_pgn;

/// A number of 01, "Numbered refusals", or of 02.
pub type Refusal = u8;

pub const SLOTS: usize = 8;
pub const SLOT_BYTES: usize = 4096;
pub const FRAME_BYTES: usize = 64;
pub const MOST_GROUPS: usize = FRAME_BYTES / 4;

pub fn is_can_fd_length(length: usize) -> bool {
    matches!(length, 0..=8 | 12 | 16 | 20 | 24 | 32 | 48 | 64)
}

/// A group of a frame, its data and its trailer still in the frame.
#[derive(Clone, Copy, Default, PartialEq, Eq)]
pub struct Group<'a> {
    pub pgn: u32,
    pub service: u8,
    pub format: u8,
    pub data: &'a [u8],
    /// Empty for a plain group.
    pub trailer: &'a [u8],
}

impl<'a> Group<'a> {
    /// The group of a header and what is behind it, and the rest; none if its payload is longer than that, or its trailer than its payload.
    #[inline(always)]
    fn split(head: u32, behind: &'a [u8], trailer: usize) -> Option<(Self, &'a [u8])> {
        let (payload, rest) = behind.split_at_checked((head & 0xff) as usize)?;
        let (data, trailer) = payload.split_at(payload.len().checked_sub(trailer)?);
        let group = Group {
            pgn: pgn_of(head),
            service: (head >> 29) as u8,
            format: (head >> 26) as u8 & 7,
            data,
            trailer,
        };
        Some((group, rest))
    }
}

/// How long the trailer is (001, Table 9); none if the two are not taken.
const fn trailer_bytes(service: u8, format: u8) -> Option<u8> {
    match (service, format) {
        (2, 0) => Some(0),
        (1, 1 | 2) => Some(4),
        (1, 3 | 5 | 6) => Some(8),
        _ => None,
    }
}

/// Longer than any payload.
const NOT_TAKEN: u16 = 256;

/// The same by the top six bits of a header.
const TRAILERS: [u16; 64] = {
    let mut all = [NOT_TAKEN; 64];
    let mut top = 0;
    while top < 64 {
        if let Some(bytes) = trailer_bytes(top >> 3, top & 7) {
            all[top as usize] = bytes as u16;
        }
        top += 1;
    }
    all
};

fn pgn_of(head: u32) -> u32 {
    (head >> 8) & 0x3_ffff
}

/// With PF below 240 the low byte is 0.
pub fn low_byte_is_wrong(pgn: u32) -> bool {
    (pgn >> 8) & 0xff < 240 && pgn & 0xff != 0
}

/// The group at the start of `rest` and what is behind it; none at the end or at padding.
#[inline(always)]
fn split_group(rest: &[u8]) -> Result<Option<(Group<'_>, &[u8])>, Refusal> {
    let Some((head, behind)) = rest.split_first_chunk::<4>() else {
        return match rest.first() {
            Some(first) if first >> 5 != 0 => Err(4),
            _ => Ok(None),
        };
    };
    let head = u32::from_be_bytes(*head);
    let trailer = TRAILERS[(head >> 26) as usize];
    // What is not taken fails here too, so a good group is not asked for its kind.
    match Group::split(head, behind, trailer.into()) {
        Some(found) if !low_byte_is_wrong(pgn_of(head)) => Ok(Some(found)),
        _ => match head >> 29 {
            0 => Ok(None),
            1 | 2 if trailer == NOT_TAKEN => Err(7),
            1 | 2 if low_byte_is_wrong(pgn_of(head)) => Err(8),
            1 | 2 => Err(5),
            _ => Err(6),
        },
    }
}

/// Judges a frame whole, then writes its groups and says how many there are. Nothing is written on a refusal.
#[inline(never)]
pub fn unpack<'a>(frame: &'a [u8], groups: &mut [Group<'a>; MOST_GROUPS]) -> Result<usize, Refusal> {
    if !is_can_fd_length(frame.len()) {
        return Err(1);
    }
    let mut count = 0;
    for group in Groups::judged(frame)? {
        groups[count] = group;
        count += 1;
    }
    Ok(count)
}

/// The same in one pass: on a refusal `groups` holds what was read up to the fault.
#[inline(never)]
pub fn unpack_as_read<'a>(frame: &'a [u8], groups: &mut [Group<'a>; MOST_GROUPS]) -> Result<usize, Refusal> {
    if !is_can_fd_length(frame.len()) {
        return Err(1);
    }
    let mut rest = frame;
    let mut count = 0;
    while let Some((group, behind)) = split_group(rest)? {
        groups[count] = group;
        count += 1;
        rest = behind;
    }
    Ok(count)
}

/// The groups of a frame that was judged good, one after another.
#[derive(Clone)]
pub struct Groups<'a> {
    rest: &'a [u8],
}

impl<'a> Groups<'a> {
    #[inline(always)]
    fn judged(frame: &'a [u8]) -> Result<Self, Refusal> {
        let mut rest = frame;
        while let Some((_, behind)) = split_group(rest)? {
            rest = behind;
        }
        // What is behind the last group is padding, so a reader may stop there without looking at it.
        Ok(Groups {
            rest: &frame[..frame.len() - rest.len()],
        })
    }
}

impl<'a> Iterator for Groups<'a> {
    type Item = Group<'a>;

    #[inline(always)]
    fn next(&mut self) -> Option<Group<'a>> {
        let (head, behind) = self.rest.split_first_chunk::<4>()?;
        let head = u32::from_be_bytes(*head);
        let (group, rest) = Group::split(head, behind, TRAILERS[(head >> 26) as usize].into())?;
        self.rest = rest;
        Some(group)
    }
}

/// The least CAN FD length that holds so many bytes.
fn least_length(need: usize) -> Option<usize> {
    match need {
        0..=8 => Some(need),
        9..=12 => Some(12),
        13..=16 => Some(16),
        17..=20 => Some(20),
        21..=24 => Some(24),
        25..=32 => Some(32),
        33..=48 => Some(48),
        49..=64 => Some(64),
        _ => None,
    }
}

/// What fills a frame up to the next length.
const PADDING: [u8; 15] = {
    let mut bytes = [0xaa; 15];
    (bytes[0], bytes[1], bytes[2]) = (0, 0, 0);
    bytes
};

/// Makes the headers; how long the data of all groups is, and how long the trailers are. None if a group is not good or the lists differ
/// in length.
#[inline(always)]
fn make_heads(
    services: &[u8],
    formats: &[u8],
    pgns: &[u32],
    lengths: &[u8],
    trailer_lengths: &[u8],
    heads: &mut [u32; MOST_GROUPS],
) -> Option<(usize, usize)> {
    let groups = services.len();
    let are_equal = formats.len() == groups && pgns.len() == groups && lengths.len() == groups && trailer_lengths.len() == groups;
    if !are_equal || groups > MOST_GROUPS {
        return None;
    }
    let (mut bytes, mut bytes_of_trailers) = (0, 0);
    for i in 0..groups {
        let (service, format, pgn) = (services[i], formats[i], pgns[i]);
        if trailer_bytes(service, format) != Some(trailer_lengths[i]) || !is_pgn(pgn) {
            return None;
        }
        let (length, trailer) = (usize::from(lengths[i]), usize::from(trailer_lengths[i]));
        // A sum too large for the byte is too large for a frame.
        heads[i] = u32::from(service) << 29 | u32::from(format) << 26 | pgn << 8 | (length + trailer) as u32;
        bytes += length;
        bytes_of_trailers += trailer;
    }
    Some((bytes, bytes_of_trailers))
}

/// Why there are no headers: the first check that fails.
#[cold]
fn first_fault(services: &[u8], formats: &[u8], pgns: &[u32]) -> Refusal {
    let mut kinds = services.iter().zip(formats);
    if services.iter().any(|service| !matches!(service, 1 | 2)) {
        6
    } else if kinds.any(|(&service, &format)| trailer_bytes(service, format).is_none()) {
        7
    } else if pgns.iter().any(|&pgn| !is_pgn(pgn)) {
        8
    } else {
        24
    }
}

/// Copies `bytes` to the front of `to`, and leaves there what is behind them.
#[inline(always)]
fn put(to: &mut &mut [u8], bytes: &[u8]) {
    let (front, behind) = std::mem::take(to).split_at_mut(bytes.len());
    front.copy_from_slice(bytes);
    *to = behind;
}

/// Copies so many bytes of the front of `from`, and leaves there too what is behind them.
#[inline(always)]
fn carry(to: &mut &mut [u8], from: &mut &[u8], count: usize) {
    let (bytes, behind) = from.split_at(count);
    put(to, bytes);
    *from = behind;
}

/// Packs groups into a frame; `data` has the data of all groups back to back, `trailers` their trailers. Nothing is written on a refusal.
#[inline(never)]
pub fn pack(
    services: &[u8],
    formats: &[u8],
    pgns: &[u32],
    lengths: &[u8],
    trailer_lengths: &[u8],
    mut data: &[u8],
    mut trailers: &[u8],
    out: &mut [u8],
) -> Result<usize, Refusal> {
    let mut heads = [0; MOST_GROUPS];
    let Some((bytes, bytes_of_trailers)) = make_heads(services, formats, pgns, lengths, trailer_lengths, &mut heads) else {
        return Err(first_fault(services, formats, pgns));
    };
    let Ok(out) = <&mut [u8; FRAME_BYTES]>::try_from(out) else {
        return Err(24);
    };
    let length = match least_length(4 * services.len() + bytes + bytes_of_trailers) {
        Some(length) if data.len() == bytes && trailers.len() == bytes_of_trailers => length,
        _ => return Err(24),
    };
    let mut to = &mut out[..length];
    for ((head, &length), trailer) in heads.iter().zip(lengths).zip(trailer_lengths) {
        put(&mut to, &head.to_be_bytes());
        carry(&mut to, &mut data, length.into());
        // each copy of a fixed length
        match trailer {
            0 => {}
            4 => carry(&mut to, &mut trailers, 4),
            _ => carry(&mut to, &mut trailers, 8),
        }
    }
    to.copy_from_slice(&PADDING[..to.len()]);
    Ok(length)
}
