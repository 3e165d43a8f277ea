//! CAN FD lengths, the identifier, the PGN rule, numbers in bytes.

use crate::Refusal;

pub const DATA_LENGTHS: [usize; 16] = [0, 1, 2, 3, 4, 5, 6, 7, 8, 12, 16, 20, 24, 32, 48, 64];
pub const GLOBAL: u8 = 255;

/// The least data length with room for `need` bytes.
pub fn least_length(need: usize) -> Option<usize> {
    DATA_LENGTHS.into_iter().find(|&length| length >= need)
}

/// At most 18 bits, and with PF below 240 a low byte of 0.
pub fn is_pgn(pgn: u32) -> bool {
    let pf = pgn >> 8 & 0xFF;
    pgn < 1 << 18 && (pf >= 240 || pgn & 0xFF == 0)
}

/// Three bytes, the low one first.
pub fn number24(bytes: &[u8]) -> u32 {
    u32::from(bytes[0]) | u32::from(bytes[1]) << 8 | u32::from(bytes[2]) << 16
}

/// Whether a control frame, of 12 bytes, is one that goes to a sender: CTS, EOMA, or an Abort in the responder's role.
pub fn is_reply(bytes: &[u8]) -> bool {
    let (control, role) = (bytes[0] & 0xF, bytes[7] & 0b11);
    control == 1 || control == 3 || (control == 15 && role == 1)
}

/// What a frame that this layer takes may carry.
#[derive(Clone, Copy, Debug, PartialEq, Eq)]
pub enum Carried {
    Groups,
    Control,
    Segment,
}

/// Sender and destination of a frame.
#[derive(Clone, Copy, Debug, PartialEq, Eq)]
pub struct Route {
    pub sa: u8,
    pub da: u8,
}

/// SA and DA as 01 "Identifier" takes them.
pub fn is_taken(route: Route, own: u8) -> bool {
    let da_ok = route.da == own || route.da == GLOBAL;
    let sa_ok = route.sa != 254 && route.sa != 255 && route.sa != own;
    da_ok && sa_ok
}

/// Identifier and length of a frame to the receiver at `own`: refusals 2, 1, 3 and 9, in this order.
pub fn judge(id: u32, length: usize, own: u8) -> Result<(Carried, Route), Refusal> {
    if id >= 1 << 29 {
        return Err(Refusal::IdentifierTooLarge);
    }
    if !DATA_LENGTHS.contains(&length) {
        return Err(Refusal::NotACanLength);
    }
    let pages = id >> 24 & 0b11;
    let carried = match id >> 16 & 0xFF {
        37 => Carried::Groups,
        77 => Carried::Control,
        78 => Carried::Segment,
        _ => return Err(Refusal::NotTakenHere),
    };
    let route = Route { sa: id as u8, da: (id >> 8) as u8 };
    if pages != 0 || !is_taken(route, own) {
        return Err(Refusal::NotTakenHere);
    }
    match carried {
        Carried::Control if length != 12 => Err(Refusal::TransferFrameLength),
        Carried::Segment if length < 5 => Err(Refusal::TransferFrameLength),
        _ => Ok((carried, route)),
    }
}
