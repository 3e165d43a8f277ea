//! Requests to pack groups, with and without trailers (02 E5), good and spoiled.

use crate::groups::{self, trailer_of, Lists, Meant};
use crate::pair::{expect, Pair, Verdict, RIGHT};
use crate::random::Random;
use crate::sender::{any_pgn, good_pgn};
use crate::trailers;

/// No service type of a group; some are in their low bits.
const BAD_SERVICES: [u8; 16] = [0, 3, 4, 5, 6, 7, 8, 9, 10, 33, 34, 65, 66, 129, 130, 255];
/// Good for one service type or for none.
const ANY_FORMATS: [u8; 16] = [0, 1, 2, 3, 4, 5, 6, 7, 8, 9, 13, 16, 32, 129, 254, 255];
const ANY_TRAILERS: [u8; 11] = [0, 1, 3, 4, 5, 7, 8, 9, 12, 16, 255];

pub fn packing(pair: &mut Pair, random: &mut Random, calls: u64) -> Verdict<()> {
    every_sort(pair, random)?;
    while pair.tally.calls < calls {
        if random.once_in(2) {
            good(pair, random)?;
        } else {
            spoiled(pair, random)?;
        }
    }
    trailers::all_met(&pair.tally.trailers, trailers::due_of_requests())
}

/// One group of every service type, trailer format and trailer length.
fn every_sort(pair: &mut Pair, random: &mut Random) -> Verdict<()> {
    for service in [1, 2].into_iter().chain(BAD_SERVICES) {
        for format in ANY_FORMATS {
            for trailer in ANY_TRAILERS {
                let data = random.bytes(3);
                let trailer = random.bytes(trailer.into());
                let due = match (service, trailer_of(service, format)) {
                    (1 | 2, Some(length)) if length == trailer.len() => 0,
                    (1 | 2, Some(_)) => 24,
                    (1 | 2, None) => 7,
                    _ => 6,
                };
                let lists = Lists::of(&[Meant { service, format, pgn: good_pgn(random), data, trailer }]);
                let number = pair.pack(&lists)? >> 8;
                expect(number == due, || format!("{lists:?} brought {number}, not {due}"))?;
            }
        }
    }
    Ok(())
}

/// What is packed is read back.
fn good(pair: &mut Pair, random: &mut Random) -> Verdict<()> {
    let meant = if random.once_in(3) { groups::filling(random, 64) } else { groups::within(random, 64) };
    let length = pair.pack(&Lists::of(&meant))?;
    expect(length <= 64, || format!("groups that fit were refused by {}: {meant:?}", length / 256))?;
    let frame = pair.out(length).to_vec();
    let is_front = frame.starts_with(&groups::bytes(&meant));
    expect(is_front, || format!("{frame:02X?} is not the frame of {meant:?}"))?;
    groups::are_read(pair, &frame, &meant)
}

/// One or several things wrong with the request.
fn spoiled(pair: &mut Pair, random: &mut Random) -> Verdict<()> {
    let mut lists = Lists::of(&groups::within(random, 64));
    for _ in 0..random.pick(&[1, 1, 2, 3]) {
        match random.below(13) {
            0..=3 => spoil_number(random, &mut lists),
            4 | 5 => lengthen(random, &mut lists),
            6 | 7 => shorten(random, &mut lists),
            8 | 9 => spoil_bytes(random, &mut lists),
            10 => pair.sizes.out = random.pick(&[0, 1, 8, 12, 63, 65, 128]),
            _ => add_groups(random, &mut lists),
        }
    }
    pair.pack(&lists)?;
    pair.sizes = RIGHT;
    Ok(())
}

/// A place in a list, if there is any.
fn any_of<'a, T>(random: &mut Random, list: &'a mut [T]) -> Option<&'a mut T> {
    let at = random.below(list.len().max(1));
    list.get_mut(at)
}

/// Another service type, format, PGN or trailer length, mostly a wrong one.
fn spoil_number(random: &mut Random, lists: &mut Lists) {
    match random.below(5) {
        0 => any_of(random, &mut lists.services).into_iter().for_each(|place| *place = random.pick(&BAD_SERVICES)),
        1 => any_of(random, &mut lists.formats).into_iter().for_each(|place| *place = random.pick(&ANY_FORMATS)),
        2 => {
            let pgn = if random.once_in(2) { any_pgn(random) } else { random.u32() };
            any_of(random, &mut lists.pgns).into_iter().for_each(|place| *place = pgn);
        }
        3 => {
            let length = random.pick(&ANY_TRAILERS);
            any_of(random, &mut lists.trailer_lengths).into_iter().for_each(|place| *place = length);
            // Mostly with as many bytes lent as the lengths then say.
            if !random.once_in(3) {
                let joined = lists.trailer_lengths.iter().map(|&length| usize::from(length)).sum();
                lists.trailers.resize(joined, random.byte());
            }
        }
        _ => {
            let (i, j) = (random.below(16), random.below(16));
            if i.max(j) < lists.trailer_lengths.len() {
                lists.trailer_lengths.swap(i, j);
            }
        }
    }
}

/// One list gets a number more, good or not.
fn lengthen(random: &mut Random, lists: &mut Lists) {
    match random.below(5) {
        0 => lists.services.push(random.pick(&[0, 1, 2, 3])),
        1 => lists.formats.push(random.pick(&ANY_FORMATS)),
        2 => lists.pgns.push(any_pgn(random)),
        3 => lists.lengths.push(random.pick(&[0, 0, 1, 255])),
        _ => lists.trailer_lengths.push(random.pick(&[0, 0, 4, 8])),
    }
}

/// One list loses its last number; of a length often with the bytes that it counted.
fn shorten(random: &mut Random, lists: &mut Lists) {
    let with_bytes = !random.once_in(3);
    match random.below(5) {
        0 => drop(lists.services.pop()),
        1 => drop(lists.formats.pop()),
        2 => drop(lists.pgns.pop()),
        3 => {
            let length = usize::from(lists.lengths.pop().filter(|_| with_bytes).unwrap_or(0));
            lists.data.truncate(lists.data.len().saturating_sub(length));
        }
        _ => {
            let length = usize::from(lists.trailer_lengths.pop().filter(|_| with_bytes).unwrap_or(0));
            lists.trailers.truncate(lists.trailers.len().saturating_sub(length));
        }
    }
}

/// A byte too many or too few, or one that has gone from the data to the trailers or back.
fn spoil_bytes(random: &mut Random, lists: &mut Lists) {
    match random.below(6) {
        0 => lists.data.push(random.byte()),
        1 => drop(lists.data.pop()),
        2 => lists.trailers.push(random.byte()),
        3 => drop(lists.trailers.pop()),
        4 => lists.trailers.extend(lists.data.pop()),
        _ => lists.data.extend(lists.trailers.pop()),
    }
}

/// More than fits, or just as much: by one group's data, or by many without.
fn add_groups(random: &mut Random, lists: &mut Lists) {
    let (service, format, trailer) = random.pick(&groups::PAIRS);
    let mut group = Meant { service, format, pgn: good_pgn(random), data: vec![], trailer: random.bytes(trailer) };
    if random.once_in(3) {
        (0..random.between(1, 40)).for_each(|_| lists.push(&group));
    } else {
        let need = 4 * lists.pgns.len() + lists.data.len() + lists.trailers.len();
        let length = random.pick(&[64, 65, 66, 68, 128, 300_usize]).saturating_sub(need + group.need()).min(255);
        group.data = random.bytes(length);
        lists.push(&group);
    }
}
