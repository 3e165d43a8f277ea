//! The frames that both sides are given. They are the same in every run.

use plain::receiver::{Limits, Session};
use plain::Refusal;
use std::ops::RangeInclusive;

pub const OWN: u8 = 33;
/// The idle limit of a sender.
pub const LIMIT: u32 = 1250;
/// Those of a receiver.
pub const LIMITS: Limits = Limits {
    first: LIMIT,
    second: LIMIT,
};
/// The largest message: 69 segments.
pub const TOTAL: u32 = 4096;

#[derive(Clone, Copy)]
pub struct Frame {
    pub id: u32,
    length: usize,
    bytes: [u8; 64],
}

impl Frame {
    pub fn new(id: u32, bytes: &[u8]) -> Self {
        let mut frame = Frame {
            id,
            length: bytes.len(),
            bytes: [0; 64],
        };
        frame.bytes[..bytes.len()].copy_from_slice(bytes);
        frame
    }

    #[inline(always)]
    pub fn bytes(&self) -> &[u8] {
        &self.bytes[..self.length]
    }
}

/// Numbers that look random.
pub struct Dice(pub u64);

impl Dice {
    pub fn roll(&mut self, sides: usize) -> usize {
        self.0 = self.0.wrapping_mul(6364136223846793005).wrapping_add(1442695040888963407);
        (self.0 >> 33) as usize % sides
    }
}

/// Groups to pack: for each a number in the first five lists.
#[derive(Clone, Debug, Default, PartialEq)]
pub struct Request {
    pub services: Vec<u8>,
    pub formats: Vec<u8>,
    pub pgns: Vec<u32>,
    pub lengths: Vec<u8>,
    pub trailer_lengths: Vec<u8>,
    pub data: Vec<u8>,
    pub trailers: Vec<u8>,
}

impl Request {
    #[inline(always)]
    pub fn pack(&self, out: &mut [u8]) -> Result<usize, Refusal> {
        plain::pack(
            &self.services,
            &self.formats,
            &self.pgns,
            &self.lengths,
            &self.trailer_lengths,
            &self.data,
            &self.trailers,
            out,
        )
    }
}

/// The service types of a group with a trailer and of a plain one.
pub const WITH_TRAILER: u8 = 1;
pub const PLAIN: u8 = 2;

/// The trailer formats, each with its trailer's length, the short ones first.
const TRAILERS: [(u8, u8); 5] = [(1, 4), (2, 4), (3, 8), (5, 8), (6, 8)];

fn some_bytes(count: usize, dice: &mut Dice) -> Vec<u8> {
    (0..count).map(|_| dice.roll(256) as u8).collect()
}

/// Groups of these service types, with trailers as they fit. They fill a frame, or leave room for padding if they can.
pub fn request(services: Vec<u8>, is_full: bool, dice: &mut Dice) -> Request {
    let groups = services.len();
    let with_trailer: Vec<usize> = (0..groups).filter(|&i| services[i] == WITH_TRAILER).collect();
    // what is left when each trailer is a short one
    let mut room = 64 - 4 * groups - 4 * with_trailer.len();
    let (mut formats, mut trailer_lengths) = (vec![0; groups], vec![0; groups]);
    for i in with_trailer {
        let (format, length) = TRAILERS[dice.roll(if room < 4 { 2 } else { 5 })];
        (formats[i], trailer_lengths[i]) = (format, length);
        room -= usize::from(length) - 4;
    }
    let bytes = if is_full || room == 0 { room } else { dice.roll(room) };
    let mut lengths = vec![0; groups];
    for _ in 0..bytes {
        lengths[dice.roll(groups)] += 1;
    }
    Request {
        services,
        formats,
        pgns: (0..groups)
            .map(|_| match dice.roll(2) {
                0 => (dice.roll(240) as u32) << 8,
                _ => 0xf000 + dice.roll(4096) as u32,
            })
            .collect(),
        lengths,
        data: some_bytes(bytes, dice),
        trailers: some_bytes(trailer_lengths.iter().map(|&length| usize::from(length)).sum(), dice),
        trailer_lengths,
    }
}

/// Sixteen requests of so many groups, so many of them with a trailer: half of them fill a frame, half leave room for padding if they can.
pub fn requests(groups: usize, trailers: usize) -> Vec<Request> {
    let mut dice = Dice((trailers << 8 | groups) as u64);
    (0..16)
        .map(|i| {
            let mut services = vec![PLAIN; groups];
            while services.iter().filter(|&&service| service == WITH_TRAILER).count() < trailers {
                services[dice.roll(groups)] = WITH_TRAILER;
            }
            request(services, i % 2 == 0, &mut dice)
        })
        .collect()
}

/// A Multi-PG frame from the camera.
pub fn multi_pg(bytes: &[u8]) -> Frame {
    Frame::new(0x1825_0080 | u32::from(OWN) << 8, bytes)
}

/// The requests packed.
pub fn packed(requests: &[Request]) -> Vec<Frame> {
    requests
        .iter()
        .map(|r| {
            let mut out = [0; 64];
            let length = r.pack(&mut out).expect("a good request");
            multi_pg(&out[..length])
        })
        .collect()
}

/// A stream of Multi-PG frames of plain groups: 1, 4 and 15 groups in turn, every fourth to all.
pub fn stream() -> Vec<Frame> {
    let kinds = [1, 4, 15].map(|n| packed(&requests(n, 0)));
    (0..48)
        .map(|i| {
            let mut frame = kinds[i % 3][i / 3];
            if i % 4 == 3 {
                frame.id |= 0xff00;
            }
            frame
        })
        .collect()
}

/// A sender of one transfer.
#[derive(Clone, Copy)]
pub struct Sender {
    sa: u8,
    number: u8,
    is_bam: bool,
    pgn: u32,
    total: u32,
    /// MAX SGMTS.
    max: u8,
}

impl Sender {
    /// The n-th of eight: RTS and BAM in turn, some of one address, with the largest message.
    pub fn nth(n: u8) -> Self {
        Sender {
            sa: 0x80 + n / 3,
            number: n,
            is_bam: n % 2 == 1,
            pgn: 0xfe00 + u32::from(n),
            total: TOTAL,
            max: 255,
        }
    }

    /// The same with another message, of at most ten segments, and small grants.
    pub fn with_small_grants(self, dice: &mut Dice) -> Self {
        Sender {
            total: 1 + dice.roll(600) as u32,
            max: 1 + dice.roll(4) as u8,
            ..self
        }
    }

    /// The same with a message of so many segments, the last of them 16 bytes long.
    pub fn with_segments(self, segments: u32) -> Self {
        Sender {
            total: 60 * (segments - 1) + 16,
            ..self
        }
    }

    /// The same with a message of any length, and grants of any size.
    pub fn with_any_message(self, dice: &mut Dice) -> Self {
        Sender {
            total: 1 + dice.roll(TOTAL as usize) as u32,
            max: [1, 3, 15, 16, 17, 255][dice.roll(6)],
            ..self
        }
    }

    fn da(&self) -> u8 {
        if self.is_bam {
            255
        } else {
            OWN
        }
    }

    fn id(&self, pf: u32) -> u32 {
        7 << 26 | pf << 16 | u32::from(self.da()) << 8 | u32::from(self.sa)
    }

    /// SA, DA and session number.
    pub fn key(&self) -> (u8, u8, u8) {
        (self.sa, self.da(), self.number)
    }

    /// Whether a session is this sender's.
    pub fn has(&self, s: &Session) -> bool {
        (s.key.sa(), s.key.da(), s.key.number()) == self.key()
    }

    pub fn segments(&self) -> u32 {
        self.total.div_ceil(60)
    }

    fn control(&self, control: u8, max: u8) -> Frame {
        let mut bytes = [0; 12];
        bytes[0] = self.number << 4 | control;
        bytes[1..4].copy_from_slice(&self.total.to_le_bytes()[..3]);
        bytes[4..7].copy_from_slice(&self.segments().to_le_bytes()[..3]);
        bytes[7] = max;
        bytes[9..12].copy_from_slice(&self.pgn.to_le_bytes()[..3]);
        Frame::new(self.id(77), &bytes)
    }

    pub fn announcement(&self) -> Frame {
        self.control(if self.is_bam { 4 } else { 0 }, self.max)
    }

    /// A segment, or what is none for its number.
    pub fn segment(&self, n: u32) -> Frame {
        let mut dice = Dice(u64::from(self.number) << 32 | u64::from(n));
        let mut bytes = [0; 64];
        bytes[0] = self.number << 4;
        bytes[1..4].copy_from_slice(&n.to_le_bytes()[..3]);
        bytes[4..].fill_with(|| dice.roll(256) as u8);
        let due = self.total.saturating_sub(60 * n.saturating_sub(1)).min(60);
        let length = [20, 64][usize::from(due > 16)];
        Frame::new(self.id(78), &bytes[..length])
    }

    pub fn status(&self) -> Frame {
        self.control(2, 255)
    }

    pub fn abort(&self) -> Frame {
        self.control(15, 0)
    }
}

/// Whole transfers, their segments in turn.
pub fn transfers(senders: &[Sender]) -> Vec<Frame> {
    let mut frames: Vec<Frame> = senders.iter().map(Sender::announcement).collect();
    for n in 1..=TOTAL.div_ceil(60) {
        frames.extend(senders.iter().map(|s| s.segment(n)));
    }
    frames.extend(senders.iter().map(Sender::status));
    frames
}

/// The segments of 69 that get lost, in three runs. None ends a grant of 16: its CTS would not come, and the sender would wait for it.
const LOST: [RangeInclusive<u32>; 3] = [7..=7, 23..=25, 69..=69];

/// A transfer whose lost segments are asked for again, run by run: each EOMS but the last brings a request.
pub fn lossy_transfer(s: &Sender) -> Vec<Frame> {
    let mut frames = vec![s.announcement()];
    let arrived = (1..=s.segments()).filter(|n| !LOST.iter().any(|run| run.contains(n)));
    frames.extend(arrived.map(|n| s.segment(n)));
    for run in LOST {
        frames.push(s.status());
        frames.extend(run.map(|n| s.segment(n)));
    }
    frames.push(s.status());
    frames
}

/// A transfer whose segments come from the last to the first.
pub fn reversed_transfer(s: &Sender) -> Vec<Frame> {
    let mut frames = vec![s.announcement()];
    frames.extend((1..=s.segments()).rev().map(|n| s.segment(n)));
    frames.push(s.status());
    frames
}

/// The start of some transfers: the announcements, and of each sender more segments than of the one before it.
pub fn begun(senders: &[Sender]) -> Vec<Frame> {
    let mut frames: Vec<Frame> = senders.iter().map(Sender::announcement).collect();
    for (i, s) in senders.iter().enumerate() {
        frames.extend((1..=8 * i as u32).map(|n| s.segment(n)));
    }
    frames
}

/// A transfer of our own, and the control frames that come for it.
#[derive(Clone, Copy)]
pub struct Sending {
    pub da: u8,
    pub number: u8,
    pub pgn: u32,
    pub total: u32,
}

impl Sending {
    /// The largest message to the n-th of four destinations.
    pub fn nth(n: u8) -> Self {
        Sending {
            da: 0x90 + n,
            number: 15 - n,
            pgn: 0xef00 + 0x100 * u32::from(n),
            total: TOTAL,
        }
    }

    pub fn message(&self) -> Vec<u8> {
        let mut dice = Dice(u64::from(self.da));
        (0..self.total).map(|_| dice.roll(256) as u8).collect()
    }

    pub fn segments(&self) -> u32 {
        self.total.div_ceil(60)
    }

    fn reply(&self, control: u8, first: u32, second: u32, byte8: u8, byte9: u8) -> Frame {
        let mut bytes = [0; 12];
        bytes[0] = self.number << 4 | control;
        bytes[1..4].copy_from_slice(&first.to_le_bytes()[..3]);
        bytes[4..7].copy_from_slice(&second.to_le_bytes()[..3]);
        bytes[7..9].copy_from_slice(&[byte8, byte9]);
        bytes[9..].copy_from_slice(&self.pgn.to_le_bytes()[..3]);
        Frame::new(7 << 26 | 77 << 16 | u32::from(OWN) << 8 | u32::from(self.da), &bytes)
    }

    pub fn cts(&self, next: u32, count: u8, request: u8) -> Frame {
        self.reply(1, 0xff_ffff, next, count, request)
    }

    pub fn eoma(&self) -> Frame {
        self.reply(3, self.total, self.segments(), 0xff, 0xff)
    }

    pub fn abort(&self) -> Frame {
        self.reply(15, 0xff_ffff, 0xff_ffff, 0xfd, 250)
    }

    /// A reply of each kind, the last with a role that no end takes.
    fn nth_reply(&self, n: usize) -> Frame {
        match n {
            0 => self.cts(1, 16, 0),
            1 => self.eoma(),
            2 => self.abort(),
            _ => self.reply(15, 0xff_ffff, 0xff_ffff, 0xfe, 250),
        }
    }

    /// The grants of a receiver, 16 at most: each CTS and how many segments it is for.
    pub fn grants(&self) -> Vec<(Frame, usize)> {
        (1..=self.segments())
            .step_by(16)
            .map(|next| {
                let count = (self.segments() + 1 - next).min(16);
                (self.cts(next, count as u8, 0), count as usize)
            })
            .collect()
    }
}

/// Damages about one frame of fifteen.
pub fn damage(frame: &mut Frame, dice: &mut Dice) {
    const LENGTHS: [usize; 18] = [0, 1, 2, 3, 4, 5, 6, 7, 8, 9, 12, 16, 20, 24, 32, 48, 63, 64];
    match dice.roll(60) {
        0 => frame.id ^= 1 << dice.roll(32),
        1 => frame.length = LENGTHS[dice.roll(LENGTHS.len())],
        2 => frame.bytes[dice.roll(12)] ^= 1 << dice.roll(8),
        3 => frame.bytes[dice.roll(64)] = dice.roll(256) as u8,
        _ => {}
    }
}

/// Frames of all kinds, most of them damaged or out of place, to compare both sides on.
pub fn noise(count: usize, seed: u64) -> Vec<Frame> {
    let mut dice = Dice(seed);
    let senders: Vec<Sender> = (0..10).map(Sender::nth).collect();
    let mut groups = stream();
    groups.extend(
        [(1, 1), (4, 2), (4, 4), (8, 8), (15, 1)]
            .iter()
            .flat_map(|&(n, trailers)| packed(&requests(n, trailers))),
    );
    let mut next = [0; 10];
    (0..count)
        .map(|_| {
            let n = dice.roll(10);
            let s = &senders[n];
            let mut frame = match dice.roll(10) {
                0 => {
                    next[n] = 0;
                    s.announcement()
                }
                1 => s.status(),
                2 => s.abort(),
                3 => groups[dice.roll(groups.len())],
                4 => Sending::nth(dice.roll(4) as u8).nth_reply(dice.roll(4)),
                _ => {
                    next[n] = next[n] % s.segments() + 1;
                    s.segment(next[n])
                }
            };
            damage(&mut frame, &mut dice);
            frame
        })
        .collect()
}
