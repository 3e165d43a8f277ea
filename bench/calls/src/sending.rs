//! Cases of the sender, and of a node that has both ends.

use crate::frames::{Frame, Sending, LIMIT, LIMITS, OWN};
use crate::ours::{OurNode, OurSender, STORE_BYTES};
use crate::{Case, Side};
use plain::node::Node;
use plain::sender::{Answer, Sender};
use plain::FRAME_BYTES;
use std::hint::black_box;

/// A whole transfer as its sender sees it: the message, each CTS and how many segments it is for, the EOMA.
#[derive(Clone)]
struct Script {
    sending: Sending,
    message: Vec<u8>,
    grants: Vec<(Frame, usize)>,
    eoma: Frame,
}

impl Script {
    fn new(sending: Sending) -> Self {
        Script {
            sending,
            message: sending.message(),
            grants: sending.grants(),
            eoma: sending.eoma(),
        }
    }

    /// RTS, the segments and their CTS, EOMS and EOMA.
    fn calls(&self) -> usize {
        3 + self.grants.iter().map(|(_, count)| 1 + count).sum::<usize>()
    }
}

fn ours_send(script: Script) -> Side {
    let mut ours = OurSender::open(OWN, LIMIT, 7);
    Box::new(move |rounds| {
        for _ in 0..rounds {
            let Script {
                sending: Sending { da, number, pgn, .. },
                message,
                grants,
                eoma,
            } = black_box(&script);
            black_box(ours.announce(*da, *number, *pgn, message));
            black_box(&ours);
            for (cts, count) in grants {
                black_box(ours.take(cts.id, cts.bytes()));
                black_box(&ours);
                for _ in 0..*count {
                    black_box(ours.next_frame(*da, *number, message));
                    black_box(&ours);
                }
            }
            black_box(ours.next_frame(*da, *number, message));
            black_box(&ours);
            black_box(ours.take(eoma.id, eoma.bytes()));
            black_box(&ours);
        }
    })
}

fn plain_send<const CHECKED: bool>(script: Script) -> Side {
    let mut sender = Sender::<CHECKED>::open(OWN, LIMIT, 7);
    let mut frame = [0; FRAME_BYTES];
    Box::new(move |rounds| {
        for _ in 0..rounds {
            let Script {
                sending: Sending { da, number, pgn, .. },
                message,
                grants,
                eoma,
            } = black_box(&script);
            black_box(&sender.announce(*da, *number, *pgn, message, &mut frame));
            black_box(&frame);
            for (cts, count) in grants {
                black_box(&sender.frame(cts.id, cts.bytes()));
                for _ in 0..*count {
                    black_box(&sender.next_frame(*da, *number, message, &mut frame));
                    black_box(&frame);
                }
            }
            black_box(&sender.next_frame(*da, *number, message, &mut frame));
            black_box(&frame);
            black_box(&sender.frame(eoma.id, eoma.bytes()));
        }
    })
}

/// A transfer sent whole.
pub fn send_case(name: &'static str, sending: Sending) -> Case {
    let script = Script::new(sending);
    Case {
        name,
        calls: script.calls(),
        ours: ours_send(script.clone()),
        checked: plain_send::<true>(script.clone()),
        unchecked: Some(plain_send::<false>(script)),
    }
}

fn ours_node(open: &[Sending], frames: &[Frame]) -> Side {
    let mut ours = OurNode::open(OWN, LIMITS, LIMIT, 7);
    for s in open {
        assert_eq!(ours.sender.announce(s.da, s.number, s.pgn, &s.message()), 0);
    }
    let frames = frames.to_vec();
    Box::new(move |rounds| {
        for _ in 0..rounds {
            for frame in black_box(&frames[..]) {
                black_box(ours.frame(frame.id, frame.bytes()));
                black_box(&ours.receiver.answer);
            }
        }
    })
}

fn plain_node<const CHECKED: bool>(open: &[Sending], frames: &[Frame]) -> Side {
    let mut store = vec![0; STORE_BYTES];
    let mut node = Node::<CHECKED>::open(OWN, LIMITS, LIMIT, 7);
    for s in open {
        let answer = node.sender.announce(s.da, s.number, s.pgn, &s.message(), &mut [0; FRAME_BYTES]);
        assert!(matches!(answer, Answer::Announced(_)));
    }
    let frames = frames.to_vec();
    Box::new(move |rounds| {
        for _ in 0..rounds {
            for frame in black_box(&frames[..]) {
                black_box(&node.frame(frame.id, frame.bytes(), &mut store));
            }
        }
    })
}

/// Frames to the receiver of a node whose sender has transfers open.
pub fn node_case(name: &'static str, open: &[Sending], frames: &[Frame]) -> Case {
    Case {
        name,
        calls: frames.len(),
        ours: ours_node(open, frames),
        checked: plain_node::<true>(open, frames),
        unchecked: Some(plain_node::<false>(open, frames)),
    }
}
