//! Groups as an originator means them, with and without trailers (02 E5): drawn, laid out in a frame, or lent to a packer. Layout by
//! Figure 19 and Table 9, written apart from the rules.

use crate::pair::{expect, Pair, Verdict};
use crate::random::Random;
use crate::sender::good_pgn;
use rules::groups::Group;

/// Service type, trailer format and the trailer's bytes of each group that there can be.
pub const PAIRS: [(u8, u8, usize); 6] = [(2, 0, 0), (1, 1, 4), (1, 2, 4), (1, 3, 8), (1, 5, 8), (1, 6, 8)];

/// How long the trailer is; none where there is no such group.
pub fn trailer_of(service: u8, format: u8) -> Option<usize> {
    PAIRS.into_iter().find(|pair| (pair.0, pair.1) == (service, format)).map(|pair| pair.2)
}

#[derive(Clone, Debug, PartialEq, Eq)]
pub struct Meant {
    pub service: u8,
    pub format: u8,
    pub pgn: u32,
    pub data: Vec<u8>,
    pub trailer: Vec<u8>,
}

impl Meant {
    /// A good one that needs at most `room` bytes, which is four or more, with at most `most` bytes of data.
    fn within(random: &mut Random, room: usize, most: usize) -> Meant {
        let (service, format, trailer) = random.pick(&PAIRS);
        // Where there is no room for the trailer, or once in four, a plain one.
        if 4 + trailer > room || random.once_in(4) {
            return Meant::of(random, (2, 0, 0), most.min(room - 4));
        }
        Meant::of(random, (service, format, trailer), most.min(room - 4 - trailer))
    }

    /// Of this pair, with at most `most` bytes of data.
    fn of(random: &mut Random, (service, format, trailer): (u8, u8, usize), most: usize) -> Meant {
        let length = random.between(0, most);
        let pgn = good_pgn(random);
        Meant { service, format, pgn, data: random.bytes(length), trailer: random.bytes(trailer) }
    }

    pub fn need(&self) -> usize {
        4 + self.data.len() + self.trailer.len()
    }

    fn read(frame: &[u8], group: Group) -> Meant {
        let behind = group.start + group.length;
        Meant {
            service: group.service,
            format: group.format,
            pgn: group.pgn,
            data: frame[group.start..behind].to_vec(),
            trailer: frame[behind..behind + group.trailer].to_vec(),
        }
    }
}

/// Groups that need at most `room` bytes, mostly as many as fit.
pub fn within(random: &mut Random, room: usize) -> Vec<Meant> {
    let mut groups = Vec::new();
    let most = random.pick(&[0, 4, 8, 20, 60]);
    let mut left = room;
    while left >= 4 && !random.once_in(12) {
        let group = Meant::within(random, left, most);
        left -= group.need();
        groups.push(group);
    }
    groups
}

/// Groups that need just `room` bytes, which is 0 or four and more.
pub fn filling(random: &mut Random, room: usize) -> Vec<Meant> {
    let mut groups = Vec::new();
    let most = random.pick(&[0, 4, 8, 20, 60]);
    let mut left = room;
    while left > 0 {
        let mut group = Meant::within(random, left, most);
        left -= group.need();
        // Too few for another header, or as the draw will: the last group's data takes them.
        if left < 4 || random.once_in(6) {
            group.data.extend(random.bytes(left));
            left = 0;
        }
        groups.push(group);
    }
    groups
}

pub fn bytes(groups: &[Meant]) -> Vec<u8> {
    let mut bytes = Vec::new();
    for group in groups {
        let [_, top, middle, low] = group.pgn.to_be_bytes();
        bytes.extend([group.service << 5 | group.format << 2 | top, middle, low, (group.need() - 4) as u8]);
        bytes.extend(&group.data);
        bytes.extend(&group.trailer);
    }
    bytes
}

/// The frame is read as these groups, in all five parts.
pub fn are_read(pair: &mut Pair, frame: &[u8], meant: &[Meant]) -> Verdict<()> {
    let count = pair.groups(frame)?;
    expect(count == meant.len(), || format!("groups of {frame:02X?}: {count}, not {}", meant.len()))?;
    let read: Vec<Meant> = (0..count).map(|i| Meant::read(frame, pair.group(i))).collect();
    expect(read == meant, || format!("{frame:02X?} was read as {read:?}, not as {meant:?}"))
}

/// What a packer is lent.
#[derive(Clone, Debug, Default, PartialEq, Eq)]
pub struct Lists {
    pub services: Vec<u8>,
    pub formats: Vec<u8>,
    pub pgns: Vec<u32>,
    pub lengths: Vec<u8>,
    pub trailer_lengths: Vec<u8>,
    pub data: Vec<u8>,
    pub trailers: Vec<u8>,
}

impl Lists {
    pub fn of(groups: &[Meant]) -> Lists {
        let mut lists = Lists::default();
        groups.iter().for_each(|group| lists.push(group));
        lists
    }

    pub fn push(&mut self, group: &Meant) {
        self.services.push(group.service);
        self.formats.push(group.format);
        self.pgns.push(group.pgn);
        self.lengths.push(group.data.len() as u8);
        self.trailer_lengths.push(group.trailer.len() as u8);
        self.data.extend(&group.data);
        self.trailers.extend(&group.trailer);
    }
}
