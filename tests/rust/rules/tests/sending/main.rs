//! 02 E2, rule by rule: what the sender refuses, what goes out in bytes, and what each reply does. Frames stand in hex.

mod announcing;
mod asking;
mod bounds;
mod bytes;
mod clock;
mod replies;

use rules::sending::{Answer, Ending, Event, Frame, Sender, Transfer};
use rules::Refusal;

/// The responder is 33, the sender 128.
const TO: u8 = 33;
const ALL: u8 = 255;
const OWN: u8 = 128;
/// Of the responder's control frames.
const ID: u32 = 0x1C4D_8021;
const PGN: u32 = 65_226;

/// Byte i is i, modulo 256.
fn message(bytes: usize) -> Vec<u8> {
    (0..bytes).map(|i| i as u8).collect()
}

fn hex(text: &str) -> Vec<u8> {
    text.split_whitespace().map(|byte| u8::from_str_radix(byte, 16).expect("hex")).collect()
}

/// Identifier and bytes, or nothing.
fn told(frame: &Option<Frame>) -> String {
    let Some(Frame { id, bytes }) = frame else {
        return "nothing".into();
    };
    let bytes: Vec<String> = bytes.iter().map(|byte| format!("{byte:02X}")).collect();
    format!("{id:08X}: {}", bytes.join(" "))
}

/// A sender; every message lent to it is `message` of some length.
#[derive(Clone, Debug, PartialEq, Eq)]
struct Bench {
    sender: Sender,
}

impl Bench {
    /// Limit 1,250, reading 0.
    fn new() -> Bench {
        Bench::at(0)
    }

    fn at(reading: u32) -> Bench {
        let (sender, verdict) = Sender::open(OWN, 1_250, reading);
        assert_eq!(verdict, Ok(()));
        Bench { sender }
    }

    /// One message of so many bytes announced to the responder, session 3.
    fn rts(bytes: usize) -> Bench {
        let mut bench = Bench::new();
        assert_eq!(bench.announce(TO, 3, PGN, bytes).event, Event::Announced);
        bench
    }

    /// The same, with these replies taken.
    fn after(bytes: usize, replies: &[&str]) -> Bench {
        let mut bench = Bench::rts(bytes);
        for text in replies {
            assert_eq!(bench.reply(text).number(), 0, "{text}");
        }
        bench
    }

    fn bam(bytes: usize) -> Bench {
        let mut bench = Bench::new();
        assert_eq!(bench.announce(ALL, 3, PGN, bytes).event, Event::Announced);
        bench
    }

    fn announce(&mut self, destination: u8, session: u8, pgn: u32, bytes: usize) -> Answer {
        self.sender.announce(destination, session, pgn, &message(bytes))
    }

    fn ask(&mut self, destination: u8, session: u8, bytes: usize) -> Answer {
        self.sender.next_frame(destination, session, &message(bytes))
    }

    /// Asks for frames of the transfer to the responder in session 3 until nothing is due, a hundred times at most.
    fn events(&mut self) -> Vec<Event> {
        let bytes = self.transfer().total_bytes as usize;
        let event = |_| Some(self.ask(TO, 3, bytes).event).filter(|event| *event != Event::NothingDue);
        (0..100).map_while(event).collect()
    }

    /// A control frame from the responder.
    fn reply(&mut self, text: &str) -> Answer {
        self.sender.control_frame(ID, &hex(text))
    }

    /// The first transfer that is open.
    fn transfer(&self) -> Transfer {
        self.sender.transfers.into_iter().flatten().next().expect("a transfer")
    }

    fn open(&self) -> usize {
        self.sender.transfers.iter().flatten().count()
    }

    fn endings(&mut self, reading: u32) -> Vec<Ending> {
        self.sender.reading(reading).expect("in bounds").into_iter().flatten().collect()
    }

    /// The call is refused with this number, sends nothing and changes nothing.
    fn refuses(&mut self, number: u8, call: impl FnOnce(&mut Bench) -> Answer) {
        let before = self.clone();
        let answer = call(self);
        assert_eq!((answer.number(), &answer.frame), (number, &None), "{answer:?}");
        assert!(matches!(answer.event, Event::Refused(_)), "{answer:?}");
        assert_eq!(*self, before);
    }

    fn refuses_reply(&mut self, number: u8, text: &str) {
        self.refuses(number, |bench| bench.reply(text));
    }

    /// The transfer in session 3 ends with 27 and this Abort.
    fn ends_by_27(&mut self, text: &str) {
        let open = self.open();
        let answer = self.reply(text);
        assert_eq!(answer.event, Event::Ended(Refusal::SegmentNotInMessage), "{text}");
        assert_eq!(answer.number(), 27);
        assert_eq!(told(&answer.frame), "1C4D2180: 3F FF FF FF FF FF FF FC 07 CA FE 00");
        assert_eq!(self.open(), open - 1);
        self.refuses_reply(16, text);
    }
}

/// Segments as events, from the first to the last.
fn segments(first: u32, last: u32) -> Vec<Event> {
    (first..=last).map(Event::Segment).collect()
}
