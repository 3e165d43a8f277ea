//! Messages under way in the network.

use crate::random::Random;
use rules::frame::GLOBAL;
use rules::receiver::segments_of;
use std::ops::Range;

pub const EDGES: [usize; 7] = [1, 59, 60, 61, 960, 961, 4096];

/// A message that was announced, and how far it has come.
pub struct Announced {
    pub destination: u8,
    pub session: u8,
    pub pgn: u32,
    pub message: Vec<u8>,
    /// What the sender was granted and has not sent; in a broadcast all.
    pub due: Range<u32>,
    /// The last segment has been sent.
    pub last_out: bool,
    /// The sender's last reading before the latest frame that it sent or took.
    pub mark: u32,
    pub arrived: bool,
    /// At the sender.
    pub is_open: bool,
    pub ended_well: bool,
    /// At the receiver, by segment from 1 on.
    is_in: Vec<bool>,
    /// The last segment that the receiver has granted or asked for.
    pub granted: u32,
    /// How often the receiver has asked for missing segments.
    pub requests: u32,
    /// Segments of it that were lost, each as often as it was.
    pub lost: u32,
    pub last_lost: u32,
    /// The refusal that ended its session.
    pub ended_by: Option<u8>,
}

impl Announced {
    pub fn new(destination: u8, session: u8, pgn: u32, message: Vec<u8>, mark: u32) -> Announced {
        let segments = segments_of(message.len() as u32);
        Announced {
            destination,
            session,
            pgn,
            message,
            due: if destination == GLOBAL { 1..segments + 1 } else { 0..0 },
            last_out: false,
            mark,
            arrived: false,
            is_open: true,
            ended_well: false,
            is_in: vec![false; segments as usize],
            granted: 0,
            requests: 0,
            lost: 0,
            last_lost: 0,
            ended_by: None,
        }
    }

    pub fn is_broadcast(&self) -> bool {
        self.destination == GLOBAL
    }

    pub fn segments(&self) -> u32 {
        self.is_in.len() as u32
    }

    /// Whether a transfer that loses this segment comes to rest by itself: no CTS waits for it.
    pub fn can_lose(&self, n: u32) -> bool {
        self.is_broadcast() || self.requests > 0 || n != self.granted || n == self.segments()
    }

    /// The receiver has taken this segment.
    pub fn takes(&mut self, n: u32) {
        self.is_in[n as usize - 1] = true;
    }

    pub fn missing(&self) -> usize {
        self.is_in.iter().filter(|is_in| !**is_in).count()
    }

    /// The first run that is missing at the receiver, sixteen segments of it at most: its first one, and how many.
    pub fn first_run(&self) -> (u32, u32) {
        let before = self.is_in.iter().take_while(|is_in| **is_in).count();
        let run = self.is_in[before..].iter().take_while(|is_in| !**is_in).count();
        (before as u32 + 1, run.min(16) as u32)
    }
}

pub fn length(random: &mut Random) -> usize {
    match random.below(4) {
        0 | 1 => random.pick(&EDGES),
        2 => random.between(1, 300),
        _ => random.between(1, 4096),
    }
}
