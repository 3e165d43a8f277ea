//! 02 E5, groups with trailers: Table 9 once more, 001's figures, what the reader and the packer refuse and which of several faults each
//! of them names. Frames stand in hex. Every call is made on buffers that were full of something else, and what it must leave alone is
//! looked at.

mod figures;
mod packing;
mod reading;

use rules::calls::{self, GROUPS_WORDS};
use rules::frame::DATA_LENGTHS;
use rules::groups::{self, Group};
use rules::Refusal;

const PGN: u32 = 65_226;
/// What stands in a buffer before a call.
const FORMER: u8 = 0x77;

/// The trailer's bytes, or the refusal.
type Trailer = Result<usize, u8>;
const T0: Trailer = Ok(0);
const T4: Trailer = Ok(4);
const T8: Trailer = Ok(8);
const R6: Trailer = Err(6);
const R7: Trailer = Err(7);

/// By service type, from 1 on, and trailer format.
const TABLE_9: [[Trailer; 8]; 7] = [
    [R7, T4, T4, T8, R7, T8, T8, R7],
    [T0, R7, R7, R7, R7, R7, R7, R7],
    [R6, R6, R6, R6, R6, R6, R6, R6],
    [R6, R6, R6, R6, R6, R6, R6, R6],
    [R6, R6, R6, R6, R6, R6, R6, R6],
    [R6, R6, R6, R6, R6, R6, R6, R6],
    [R6, R6, R6, R6, R6, R6, R6, R6],
];

/// Service type, trailer format and the trailer's bytes of every group that there can be.
const PAIRS: [(u8, u8, u8); 6] = [(2, 0, 0), (1, 1, 4), (1, 2, 4), (1, 3, 8), (1, 5, 8), (1, 6, 8)];

fn hex(text: &str) -> Vec<u8> {
    text.split_whitespace().map(|byte| u8::from_str_radix(byte, 16).expect("hex")).collect()
}

/// The groups of a frame of any length, or the refusal's number; the call says the same of it.
fn read(frame: &[u8]) -> Result<Vec<Group>, u8> {
    let read = groups::read(frame).map_err(Refusal::number);
    let by_call = call_groups(frame);
    if DATA_LENGTHS.contains(&frame.len()) {
        assert_eq!(by_call, read, "{frame:02X?}");
    } else {
        assert_eq!(by_call, Err(1), "{frame:02X?}");
    }
    read
}

/// By the call, six numbers a group. The numbers behind those of the groups stay, all of them where the frame is refused.
fn call_groups(frame: &[u8]) -> Result<Vec<Group>, u8> {
    let former = u32::from(FORMER) * 0x0101_0101;
    let mut words = [former; GROUPS_WORDS];
    let given = calls::groups(frame, &mut words);
    let (number, count) = ((given / 256) as u8, given % 256);
    assert!(count == 0 || number == 0, "{frame:02X?}");
    assert!(words[6 * count..].iter().all(|&word| word == former), "{frame:02X?}");
    if number != 0 {
        return Err(number);
    }
    Ok(words[..6 * count].chunks_exact(6).map(group).collect())
}

fn group(words: &[u32]) -> Group {
    Group {
        pgn: words[0],
        service: words[1] as u8,
        format: words[2] as u8,
        start: words[3] as usize,
        length: words[4] as usize,
        trailer: words[5] as usize,
    }
}

/// Service type, trailer format, PGN, data and trailer of a group: all that is packed, and all that is read back.
type Whole = (u8, u8, u32, Vec<u8>, Vec<u8>);

fn whole(service: u8, format: u8, pgn: u32, data: &str, trailer: &str) -> Whole {
    (service, format, pgn, hex(data), hex(trailer))
}

/// The frame's groups in all their parts.
fn read_whole(frame: &[u8]) -> Result<Vec<Whole>, u8> {
    let part = |start: usize, length: usize| frame[start..start + length].to_vec();
    let in_parts = |group: &Group| {
        let Group { pgn, service, format, start, length, trailer } = *group;
        let parts = (part(start, length), part(start + length, trailer));
        assert_eq!(group.parts(frame), (&parts.0[..], &parts.1[..]));
        (service, format, pgn, parts.0, parts.1)
    };
    Ok(read(frame)?.iter().map(in_parts).collect())
}

/// What a packer is lent.
#[derive(Clone, Debug)]
struct Lists {
    services: Vec<u8>,
    formats: Vec<u8>,
    pgns: Vec<u32>,
    lengths: Vec<u8>,
    trailer_lengths: Vec<u8>,
    data: Vec<u8>,
    trailers: Vec<u8>,
    room: usize,
}

impl Lists {
    fn of(groups: &[Whole]) -> Lists {
        Lists {
            services: groups.iter().map(|group| group.0).collect(),
            formats: groups.iter().map(|group| group.1).collect(),
            pgns: groups.iter().map(|group| group.2).collect(),
            lengths: groups.iter().map(|group| group.3.len() as u8).collect(),
            trailer_lengths: groups.iter().map(|group| group.4.len() as u8).collect(),
            data: groups.iter().flat_map(|group| group.3.clone()).collect(),
            trailers: groups.iter().flat_map(|group| group.4.clone()).collect(),
            room: 64,
        }
    }

    /// The frame, or the refusal's number. The bytes behind the frame stay, all of them where the request is refused.
    fn pack(&self) -> Result<Vec<u8>, u8> {
        let mut out = vec![FORMER; self.room];
        let given = calls::pack(
            &self.services,
            &self.formats,
            &self.pgns,
            &self.lengths,
            &self.trailer_lengths,
            &self.data,
            &self.trailers,
            &mut out,
        );
        let (number, length) = ((given / 256) as u8, given % 256);
        assert!(length == 0 || number == 0, "{self:?}");
        assert!(out[length..].iter().all(|&byte| byte == FORMER), "{self:?}");
        if number == 0 {
            Ok(out[..length].to_vec())
        } else {
            Err(number)
        }
    }
}
