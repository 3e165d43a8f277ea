//! The lines of 01, "Program".

use plain::receiver::Answer;
use plain::transport::{Key, Sent};
use std::io::Write;

fn decimal(out: &mut Vec<u8>, value: u64) {
    let mut digits = [0u8; 20];
    let mut at = digits.len();
    let mut rest = value;
    loop {
        at -= 1;
        digits[at] = b'0' + (rest % 10) as u8;
        rest /= 10;
        if rest == 0 {
            break;
        }
    }
    out.extend_from_slice(&digits[at..]);
}

fn line(out: &mut Vec<u8>, word: &str, numbers: &[u32]) {
    out.extend_from_slice(word.as_bytes());
    for &n in numbers {
        out.push(b' ');
        decimal(out, u64::from(n));
    }
    out.push(b'\n');
}

/// The source address and the session number.
fn names(key: Key) -> (u32, u32) {
    (key.sa().into(), key.number().into())
}

pub fn answer(out: &mut Vec<u8>, id: u32, answer: &Answer) {
    let Answer::Groups(groups) = answer else {
        return session(out, answer);
    };
    for group in groups.clone() {
        let length = group.data.len() as u32;
        line(out, "pg", &[id & 255, id >> 8 & 255, group.pgn, length]);
    }
}

/// The line of an answer that is not a frame's groups.
pub fn session(out: &mut Vec<u8>, answer: &Answer) {
    match answer {
        Answer::Groups(_) => {}
        Answer::Opened(key) => {
            let (sa, number) = names(*key);
            line(out, "open", &[sa, number]);
        }
        Answer::Taken { key, segment } => {
            let (sa, number) = names(*key);
            line(out, "took", &[sa, number, *segment]);
        }
        Answer::Grant {
            key, next, count, ..
        } => {
            let (sa, number) = names(*key);
            line(out, "send cts", &[sa, number, *next, (*count).into()]);
        }
        Answer::HandedOver {
            key,
            pgn,
            message,
            sent,
            ..
        } => {
            let (sa, number) = names(*key);
            if sent.is_some() {
                line(out, "send eoma", &[sa, number]);
            }
            let length = message.len() as u32;
            line(out, "msg", &[sa, key.da().into(), number, *pgn, length]);
            out.pop();
            for &byte in *message {
                out.push(b' ');
                decimal(out, byte.into());
            }
            out.push(b'\n');
        }
        Answer::Aborted(key) => {
            let (sa, number) = names(*key);
            line(out, "ended", &[sa, number, 0]);
        }
        Answer::Ended {
            refusal,
            key,
            sent: None,
            ..
        } => {
            let (sa, number) = names(*key);
            line(out, "ended", &[sa, number, (*refusal).into()]);
        }
        Answer::Ended { refusal, key, .. } | Answer::RefusedRts { refusal, key, .. } => {
            let (sa, number) = names(*key);
            line(out, "send abort", &[sa, number, (*refusal).into()]);
        }
        Answer::Refused(refusal) => line(out, "refused", &[(*refusal).into()]),
    }
}

pub fn end(out: &mut Vec<u8>, records: u64) {
    out.extend_from_slice(b"end ");
    decimal(out, records);
    out.push(b'\n');
}

pub fn bad(out: &mut Vec<u8>, offset: u64) {
    out.extend_from_slice(b"bad record at ");
    decimal(out, offset);
    out.push(b'\n');
}

pub fn sent(out: &mut Vec<u8>, record: u64, sent: Option<&Sent>) {
    let Some(sent) = sent else { return };
    let _ = write!(out, "{record} {:08X}", sent.id);
    out.push(b' ');
    for byte in sent.bytes {
        let _ = write!(out, "{byte:02x}");
    }
    out.push(b'\n');
}
