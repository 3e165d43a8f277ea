//! 02 E2: both ends at one address. Which end answers a frame, what it leaves alone at the other, and 23 for either.

use rules::node::{Answer, Node};
use rules::receiver::{self, Limits, Receiver, STORE_BYTES};
use rules::sending::{self, Event, Sender, TRANSFERS};

const OWN: u8 = 33;
/// From 128 to us: control, data, and a control frame to all.
const CONTROL: u32 = 0x1C4D_2180;
const DATA: u32 = 0x1C4E_2180;
const TO_ALL: u32 = 0x1C4D_FF80;
const PGN: u32 = 65_226;
const RTS: &str = "30 3D 00 00 02 00 00 FF 00 CA FE 00";
const CTS: &str = "31 FF FF FF 01 00 00 02 00 CA FE 00";
const EOMS: &str = "32 3D 00 00 02 00 00 00 00 CA FE 00";
const EOMA: &str = "33 3D 00 00 02 00 00 FF FF CA FE 00";
const BAM: &str = "34 3D 00 00 02 00 00 FF 00 CA FE 00";
const BY_RESPONDER: &str = "3F FF FF FF FF FF FF FD FA CA FE 00";
const BY_ORIGINATOR: &str = "3F FF FF FF FF FF FF FC FA CA FE 00";

fn hex(text: &str) -> Vec<u8> {
    text.split_whitespace().map(|byte| u8::from_str_radix(byte, 16).expect("hex")).collect()
}

#[derive(Clone, Debug, PartialEq, Eq)]
struct Bench {
    node: Node,
    store: Vec<u8>,
}

impl Bench {
    fn new() -> Bench {
        let receiver = Receiver::open(OWN, Limits::both(1_250), 0).0;
        let sender = Sender::open(OWN, 1_250, 0).0;
        Bench { node: Node { receiver, sender }, store: vec![0xEE; STORE_BYTES] }
    }

    /// 128 sends us 61 bytes in session 3, and we send it 61 bytes in session 3, both announced.
    fn busy() -> Bench {
        let mut bench = Bench::new();
        assert_eq!(bench.frame(CONTROL, RTS).number(), 0);
        assert_eq!(bench.node.sender.announce(128, 3, PGN, &[7; 61]).number(), 0);
        bench
    }

    /// The same with our EOMS out.
    fn waiting() -> Bench {
        let mut bench = Bench::busy();
        assert_eq!(bench.frame(CONTROL, CTS).number(), 0);
        for _ in 0..3 {
            assert!(bench.node.sender.next_frame(128, 3, &[7; 61]).frame.is_some());
        }
        bench
    }

    fn frame(&mut self, id: u32, text: &str) -> Answer {
        self.node.frame(id, &hex(text), &mut self.store)
    }

    /// What the sender answers; the receiver and the store stay.
    fn sender_says(&mut self, id: u32, text: &str) -> sending::Answer {
        let before = self.clone();
        let answer = self.frame(id, text);
        assert!(self.node.receiver == before.node.receiver && self.store == before.store, "{text}");
        match answer {
            Answer::Sender(answer) => answer,
            Answer::Receiver(answer) => panic!("{text}: the receiver answered {answer:?}"),
        }
    }

    /// What the receiver answers; the sender stays.
    fn receiver_says(&mut self, id: u32, text: &str) -> receiver::Answer {
        let sender = self.node.sender.clone();
        let answer = self.frame(id, text);
        assert_eq!(self.node.sender, sender, "{text}");
        match answer {
            Answer::Receiver(answer) => answer,
            Answer::Sender(answer) => panic!("{text}: the sender answered {answer:?}"),
        }
    }
}

#[test]
fn replies_go_to_the_sender() {
    assert_eq!(Bench::busy().sender_says(CONTROL, CTS).event, Event::Granted { next: 1, count: 2 });
    assert_eq!(Bench::waiting().sender_says(CONTROL, EOMA).event, Event::EndedWell);
    assert_eq!(Bench::waiting().sender_says(CONTROL, BY_RESPONDER).event, Event::Aborted);
    let mut bench = Bench::busy();
    let answer = bench.sender_says(CONTROL, "31 FF FF FF 00 00 00 02 00 CA FE 00");
    assert_eq!((answer.number(), answer.frame.is_some()), (27, true));
    assert_eq!(bench.node.sender.transfers, [None; TRANSFERS]);
}

#[test]
fn without_a_transfer_the_sender_says_16() {
    for text in [CTS, EOMA, BY_RESPONDER] {
        for id in [CONTROL, TO_ALL] {
            let mut bench = Bench::new();
            assert_eq!(bench.sender_says(id, text).number(), 16);
            assert_eq!(bench, Bench::new());
        }
        // To all, from 129, or of another PGN, though a transfer is open.
        let mut bench = Bench::waiting();
        assert_eq!(bench.sender_says(TO_ALL, text).number(), 16);
        assert_eq!(bench.sender_says(0x1C4D_2181, text).number(), 16);
        assert_eq!(bench.sender_says(CONTROL, &format!("{} CB FE 00", &text[..26])).number(), 16);
        assert_eq!(bench, Bench::waiting());
    }
}

#[test]
fn all_else_goes_to_the_receiver() {
    let mut bench = Bench::busy();
    assert!(matches!(bench.receiver_says(CONTROL, RTS), receiver::Answer::Grant { next: 1, count: 2, .. }));
    assert!(matches!(bench.receiver_says(TO_ALL, BAM), receiver::Answer::Opened(_)));
    let first = format!("30 01 00 00{}", " 22".repeat(60));
    assert!(matches!(bench.receiver_says(DATA, &first), receiver::Answer::Taken { segment: 1, .. }));
    assert!(matches!(bench.receiver_says(DATA, "30 02 00 00 22"), receiver::Answer::Taken { segment: 2, .. }));
    assert!(matches!(bench.receiver_says(CONTROL, EOMS), receiver::Answer::HandedOver { total_bytes: 61, .. }));
    assert_eq!(bench.store[..61], [0x22; 61]);
    assert!(matches!(bench.receiver_says(0x1825_2180, "40 EA 00 03 CA FE 00"), receiver::Answer::Groups));
    let mut bench = Bench::busy();
    assert!(matches!(bench.receiver_says(CONTROL, BY_ORIGINATOR), receiver::Answer::Aborted(_)));
    assert_eq!(bench.receiver_says(CONTROL, EOMS).number(), 16);
}

#[test]
fn what_neither_takes_is_10() {
    let mut bench = Bench::waiting();
    for first in ["35", "36", "37", "38", "39", "3A", "3B", "3C", "3D", "3E"] {
        let text = format!("{first} FF FF FF FF FF FF FD FA CA FE 00");
        assert_eq!(bench.receiver_says(CONTROL, &text).number(), 10);
    }
    for role in ["FE", "FF", "02", "03"] {
        let text = format!("3F FF FF FF FF FF FF {role} FA CA FE 00");
        assert_eq!(bench.receiver_says(CONTROL, &text).number(), 10);
    }
    assert_eq!(bench, Bench::waiting());
}

/// Each has the faults of those after it too.
#[test]
fn in_the_order_2_1_3_9() {
    for text in [CTS, EOMA, BY_RESPONDER] {
        let mut bench = Bench::waiting();
        let long = format!("{text} 00 00 00 00");
        assert_eq!(bench.receiver_says(0x3D4D_2180, &format!("{text} 00")).number(), 2);
        assert_eq!(bench.receiver_says(0x1D4D_2180, &format!("{text} 00")).number(), 1);
        for id in [0x1D4D_2180, 0x1C4C_2180, 0x1C4D_2280, 0x1C4D_21FE, 0x1C4D_2121] {
            assert_eq!(bench.receiver_says(id, &long).number(), 3);
        }
        assert_eq!(bench.receiver_says(CONTROL, &long).number(), 9);
        // A whole reply is the sender's to refuse; of another PF it is none.
        assert_eq!(bench.sender_says(0x3D4D_2180, text).number(), 2);
        for id in [0x1D4D_2180, 0x1C4D_2280, 0x1C4D_21FE, 0x1C4D_2121] {
            assert_eq!(bench.sender_says(id, text).number(), 3);
        }
        assert_eq!(bench.receiver_says(0x1C4C_2180, text).number(), 3);
        assert_eq!(bench, Bench::waiting());
    }
}

/// The receiver's record and the store come first, then the sender's record; a frame is judged after both.
#[test]
fn out_of_bounds_is_23() {
    for (id, text) in [(CONTROL, CTS), (CONTROL, RTS), (DATA, "30 01 00 00 22"), (0x3C4D_2180, "00")] {
        for limits in [Limits { first: 0, second: 1_250 }, Limits { first: 1_250, second: 60_001 }] {
            let mut bench = Bench::waiting();
            bench.node.receiver.limits = limits;
            bench.node.sender.limit = 0;
            assert_eq!(bench.receiver_says(id, text).number(), 23);
        }
        let mut bench = Bench::waiting();
        bench.store.pop();
        bench.node.sender.limit = 0;
        assert_eq!(bench.receiver_says(id, text).number(), 23);
        let mut bench = Bench::waiting();
        bench.node.sender.limit = 0;
        let before = bench.clone();
        assert_eq!(bench.sender_says(id, text).number(), 23);
        assert_eq!(bench, before);
    }
}

/// Where the two ends were opened with two addresses, each goes by its own.
#[test]
fn at_two_addresses() {
    let mut bench = Bench::new();
    bench.node.sender = Sender::open(34, 1_250, 0).0;
    assert_eq!(bench.node.sender.announce(128, 3, PGN, &[7; 61]).number(), 0);
    assert_eq!(bench.sender_says(CONTROL, CTS).number(), 3);
    assert_eq!(bench.receiver_says(0x1C4D_2280, RTS).number(), 3);
    assert_eq!(bench.sender_says(0x1C4D_2280, CTS).event, Event::Granted { next: 1, count: 2 });
    assert!(matches!(bench.receiver_says(CONTROL, RTS), receiver::Answer::Grant { next: 1, count: 2, .. }));
}

/// A transfer whose next segment is past last granted + 1 stops both ends.
#[test]
fn a_transfer_out_of_bounds_is_23() {
    let mut bench = Bench::busy();
    let transfer = bench.node.sender.transfers[0].as_mut().expect("announced");
    transfer.next = transfer.granted + 2;
    let before = bench.clone();
    for text in [RTS, CTS, EOMS, EOMA] {
        assert_eq!(bench.sender_says(CONTROL, text).number(), 23);
    }
    assert_eq!(bench, before);
}
