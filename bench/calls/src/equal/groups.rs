//! Groups unpacked and packed: plain's as include/dwaebinam.h lays them out, of good and of damaged frames and requests.

use super::returned;
use crate::frames::{multi_pg, request, Dice, Frame, Request, PLAIN, WITH_TRAILER};
use crate::ours::{self, GROUPS_WORDS, GROUP_WORDS};
use plain::{Group, Refusal, FRAME_BYTES, MOST_GROUPS};

/// The numbers of a group. Its trailer has to be right behind its data.
fn words(frame: &[u8], group: &Group) -> [u32; GROUP_WORDS] {
    let start = group.data.as_ptr() as usize - frame.as_ptr() as usize;
    let end = start + group.data.len();
    assert_eq!(group.trailer, &frame[end..end + group.trailer.len()]);
    [
        group.pgn,
        group.service.into(),
        group.format.into(),
        start as u32,
        group.data.len() as u32,
        group.trailer.len() as u32,
    ]
}

fn compare_frame(name: &str, i: usize, frame: &[u8]) -> Refusal {
    let (mut groups, mut as_read) = ([Group::default(); MOST_GROUPS], [Group::default(); MOST_GROUPS]);
    let result = plain::unpack(frame, &mut groups);
    assert_eq!(result, plain::unpack_as_read(frame, &mut as_read), "as read, frame {i} of {name}");
    let count = result.unwrap_or(0);
    assert!(groups[..count] == as_read[..count], "groups as read, frame {i} of {name}");
    assert!(
        groups[count..].iter().all(|group| *group == Group::default()),
        "frame {i} of {name}"
    );
    let mut expected = [0xdead; GROUPS_WORDS];
    for (to, group) in expected.chunks_mut(GROUP_WORDS).zip(&groups[..count]) {
        to.copy_from_slice(&words(frame, group));
    }
    let mut found = [0xdead; GROUPS_WORDS];
    assert_eq!(boundary::groups(frame, &mut found), returned(result), "number, frame {i} of {name}");
    assert_eq!(found, expected, "groups, frame {i} of {name}");
    result.err().unwrap_or(0)
}

/// Unpacks the frames on both sides. How often each number was the answer.
pub fn compare_frames(name: &str, frames: &[Frame]) -> [usize; 256] {
    let mut seen = [0; 256];
    for (i, frame) in frames.iter().enumerate() {
        seen[usize::from(compare_frame(name, i, frame.bytes()))] += 1;
    }
    seen
}

/// Every first byte and every length byte at the start of a frame, with a good PGN and a bad one.
pub fn compare_heads() -> [usize; 256] {
    let mut seen = [0; 256];
    for i in 0..1 << 17 {
        let [first, length, low, _] = u32::to_le_bytes(i);
        let mut frame = [0; FRAME_BYTES];
        frame[..4].copy_from_slice(&[first, 0xea, low, length]);
        for end in [1, 3, 4, 7, 8, 12, 16, 64] {
            seen[usize::from(compare_frame("heads", i as usize, &frame[..end]))] += 1;
        }
    }
    seen
}

/// The request that a frame's groups are packed by.
fn request_of(groups: &[Group]) -> Request {
    Request {
        services: groups.iter().map(|group| group.service).collect(),
        formats: groups.iter().map(|group| group.format).collect(),
        pgns: groups.iter().map(|group| group.pgn).collect(),
        lengths: groups.iter().map(|group| group.data.len() as u8).collect(),
        trailer_lengths: groups.iter().map(|group| group.trailer.len() as u8).collect(),
        data: groups.iter().flat_map(|group| group.data).copied().collect(),
        trailers: groups.iter().flat_map(|group| group.trailer).copied().collect(),
    }
}

/// Packs on both sides into so many bytes. What was packed has to unpack to the same.
fn compare_request(name: &str, i: usize, r: &Request, bytes: usize) -> Refusal {
    let (mut out, mut expected) = ([0x55; 80], [0x55; 80]);
    let result = r.pack(&mut expected[..bytes]);
    assert_eq!(ours::pack(r, &mut out[..bytes]), returned(result), "number, request {i} of {name}");
    assert_eq!(out, expected, "output, request {i} of {name}");
    let length = result.unwrap_or(0);
    assert!(
        out[length..].iter().all(|&byte| byte == 0x55),
        "behind the frame, request {i} of {name}"
    );
    if let Err(refusal) = result {
        return refusal;
    }
    let mut groups = [Group::default(); MOST_GROUPS];
    let count = plain::unpack(&out[..length], &mut groups).expect("a good frame");
    assert_eq!(request_of(&groups[..count]), *r, "unpacked, request {i} of {name}");
    0
}

/// Packs the requests on both sides. How often each number was the answer.
pub fn compare_requests(name: &str, requests: &[Request]) -> [usize; 256] {
    let mut seen = [0; 256];
    for (i, r) in requests.iter().enumerate() {
        seen[usize::from(compare_request(name, i, r, FRAME_BYTES))] += 1;
    }
    seen
}

/// Every service type with every trailer format, and trailers of some lengths.
pub fn compare_kinds() -> [usize; 256] {
    let mut seen = [0; 256];
    for i in 0..1 << 16 {
        let [service, format, ..] = u32::to_le_bytes(i);
        for trailer in [0, 3, 4, 5, 8, 9, 255] {
            let r = Request {
                services: vec![service],
                formats: vec![format],
                pgns: vec![0xea00],
                lengths: vec![3],
                trailer_lengths: vec![trailer],
                data: vec![1, 2, 3],
                trailers: vec![4; usize::from(trailer)],
            };
            seen[usize::from(compare_request("kinds", i as usize, &r, FRAME_BYTES))] += 1;
        }
    }
    seen
}

/// Groups that fit, of either service type; of half of the requests few have a trailer.
fn any_request(dice: &mut Dice) -> Request {
    let mut room = FRAME_BYTES;
    let mut services = Vec::new();
    let most = 1 + dice.roll(MOST_GROUPS);
    let sides = [2, 16][dice.roll(2)];
    while services.len() < most && room >= 4 {
        let has_trailer = room >= 8 && dice.roll(sides) == 0;
        services.push(if has_trailer { WITH_TRAILER } else { PLAIN });
        room -= if has_trailer { 8 } else { 4 };
    }
    request(services, dice.roll(2) == 0, dice)
}

/// Damages one header.
fn damage_head(head: &mut [u8], dice: &mut Dice) {
    match dice.roll(6) {
        0 => head[0] = dice.roll(256) as u8,
        1 => head[0] ^= 4 << dice.roll(6),
        2 => head[0] = WITH_TRAILER << 5 | (dice.roll(8) as u8) << 2,
        3 => head[2] = dice.roll(256) as u8,
        4 => head[3] = dice.roll(10) as u8,
        _ => head[3] = dice.roll(70) as u8,
    }
}

/// Frames of any groups, most of them damaged.
pub fn any_frames(count: usize, seed: u64) -> Vec<Frame> {
    let mut dice = Dice(seed);
    let one = |_| {
        let r = any_request(&mut dice);
        let mut bytes = [0; FRAME_BYTES];
        let mut length = r.pack(&mut bytes).expect("a good request");
        // the place of each header
        let mut heads = vec![0];
        for (data, trailer) in r.lengths.iter().zip(&r.trailer_lengths) {
            heads.push(heads[heads.len() - 1] + 4 + usize::from(data + trailer));
        }
        heads.pop();
        for _ in 0..dice.roll(4) {
            damage_head(&mut bytes[heads[dice.roll(heads.len())]..], &mut dice);
        }
        if dice.roll(8) == 0 {
            length = dice.roll(FRAME_BYTES + 1);
        }
        multi_pg(&bytes[..length])
    };
    (0..count).map(one).collect()
}

/// Puts a value somewhere in a list.
fn put<T>(list: &mut [T], value: T, dice: &mut Dice) {
    if !list.is_empty() {
        list[dice.roll(list.len())] = value;
    }
}

/// Makes a list one longer or one shorter.
fn resize<T: Copy>(list: &mut Vec<T>, dice: &mut Dice) {
    let last = list.pop();
    if dice.roll(2) == 0 {
        list.extend(last.into_iter().chain(last));
    }
}

/// One more plain group, which may not fit.
fn add_group(r: &mut Request, dice: &mut Dice) {
    let length = dice.roll(40);
    r.services.push(PLAIN);
    r.formats.push(0);
    r.pgns.push(0xea00);
    r.lengths.push(length as u8);
    r.trailer_lengths.push(0);
    r.data.resize(r.data.len() + length, 0);
}

fn damage_request(r: &mut Request, dice: &mut Dice) {
    match dice.roll(14) {
        0 => put(&mut r.services, [0, 1, 2, 3, 9, 255][dice.roll(6)], dice),
        1 => put(&mut r.formats, dice.roll(10) as u8, dice),
        2 => put(&mut r.pgns, [0xea01, 0xefff, 0x4_0000, u32::MAX, 0x3_ffff][dice.roll(5)], dice),
        3 => put(&mut r.lengths, dice.roll(70) as u8, dice),
        4 => put(&mut r.trailer_lengths, [0, 3, 4, 8, 255][dice.roll(5)], dice),
        5 => {
            // with trailers of the length said
            put(&mut r.trailer_lengths, [0, 4, 8][dice.roll(3)], dice);
            let bytes = r.trailer_lengths.iter().map(|&length| usize::from(length)).sum();
            r.trailers.resize(bytes, 0);
        }
        6 => add_group(r, dice),
        7 => resize(&mut r.services, dice),
        8 => resize(&mut r.formats, dice),
        9 => resize(&mut r.pgns, dice),
        10 => resize(&mut r.lengths, dice),
        11 => resize(&mut r.trailer_lengths, dice),
        12 => resize(&mut r.data, dice),
        _ => resize(&mut r.trailers, dice),
    }
}

/// Packs any groups, most of the requests damaged. How often each number was the answer.
pub fn compare_any_requests(count: usize, seed: u64) -> [usize; 256] {
    let mut dice = Dice(seed);
    let mut seen = [0; 256];
    for i in 0..count {
        let mut r = any_request(&mut dice);
        for _ in 0..dice.roll(4) {
            damage_request(&mut r, &mut dice);
        }
        let bytes = if dice.roll(16) == 0 {
            [0, 63, 65, 80][dice.roll(4)]
        } else {
            FRAME_BYTES
        };
        seen[usize::from(compare_request("any", i, &r, bytes))] += 1;
    }
    seen
}
