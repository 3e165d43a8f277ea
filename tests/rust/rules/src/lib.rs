//! The scope document's rules (01), as requests E1, E2, E4, E5 and E6 (02) have changed them, once more in plain Rust: written from the
//! papers and sharing nothing with the crates that are proved. The differential run holds the two against each other. Clear before
//! fast: a call is a few searches over eight slots or four transfers.
//!
//! `receiver` is the receiver over a typed state, `sending` the sender, `node` both at one address. `calls` and `sender_calls` are the
//! same through the byte layouts of include/dwaebinam.h. `program` is what 01's program reads and prints.

pub mod calls;
pub mod frame;
pub mod groups;
pub mod node;
pub mod program;
pub mod receiver;
pub mod sender_calls;
pub mod sending;
pub mod sent;

/// 01 "Numbered refusals", and from 25 on those of 02.
#[derive(Clone, Copy, Debug, PartialEq, Eq)]
#[repr(u8)]
pub enum Refusal {
    NotACanLength = 1,
    IdentifierTooLarge = 2,
    NotTakenHere = 3,
    GroupHeaderCut = 4,
    GroupDataCut = 5,
    ServiceType = 6,
    TrailerFormat = 7,
    WrongPgn = 8,
    TransferFrameLength = 9,
    ControlNotTaken = 10,
    AnnouncementNumbers = 11,
    MessageTooLarge = 12,
    AssuranceAnnounced = 13,
    KeyAlreadyOpen = 14,
    EightSessionsOpen = 15,
    KeyNotOpen = 16,
    FormatIndicator = 17,
    SegmentAlreadyTaken = 18,
    SegmentOutOfSequence = 19,
    SegmentTooShort = 20,
    EndNotAsAnnounced = 21,
    Silence = 22,
    OutOfBounds = 23,
    Packer = 24,
    NoFreeTransfer = 25,
    LentMessageLength = 26,
    SegmentNotInMessage = 27,
}

impl Refusal {
    pub fn number(self) -> u8 {
        self as u8
    }
}
