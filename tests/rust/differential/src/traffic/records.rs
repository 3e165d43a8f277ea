//! Records that no receiver of ours wrote, and buffers that are not of their length.

use crate::limits;
use crate::pair::{expect, Pair, Sizes, Verdict, RIGHT};
use crate::random::Random;
use crate::requests::{self, Form};
use crate::sender::{any_pgn, good_max, good_pgn, good_total};
use crate::traffic::clock::next_reading;
use crate::traffic::hostile::any_frame;
use crate::traffic::small::any_limit;
use rules::calls::{write_record, RECORD_BYTES};
use rules::receiver::{Key, Kind, Limits, Receiver, Session, Taken, Wait, REQUESTS, SLOTS};

/// Where slot `i` starts in a record, and how long it is.
fn slot_at(i: usize) -> std::ops::Range<usize> {
    13 + 45 * i..58 + 45 * i
}

/// Where slot `i` has its wait.
pub fn wait_at(i: usize) -> usize {
    slot_at(i).start + 30
}

/// Any byte in which slot `i` keeps its next segment or last granted, which segments are in, how many are not, and the requests.
pub fn segments_at(random: &mut Random, i: usize) -> usize {
    let in_slot = if random.once_in(3) { random.between(18, 25) } else { random.between(31, 44) };
    slot_at(i).start + in_slot
}

/// A few calls on the record that is there, whatever it is.
fn calls_on(pair: &mut Pair, random: &mut Random) -> Verdict<()> {
    let own = pair.record()[0];
    for _ in 0..random.between(1, 6) {
        let state = pair.state().unwrap_or_else(|| Receiver::open(own, Limits::both(1_250), 0).0);
        match random.below(8) {
            0 => drop(pair.reading(next_reading(random, &state))?),
            1 => drop(pair.missing(any_key(random, &state))?),
            _ => {
                let frame = any_frame(random, &state);
                pair.frame(frame.id, &frame.bytes)?;
            }
        }
    }
    Ok(())
}

/// Mostly one that is open, or nearly so.
fn any_key(random: &mut Random, state: &Receiver) -> Key {
    let open: Vec<Key> = state.slots.iter().flatten().map(|session| session.key).collect();
    let any = Key { sa: random.byte(), da: random.pick(&[state.own, 255]), session: random.below(20) as u8 };
    let mut key = if open.is_empty() || random.once_in(6) { any } else { random.pick(&open) };
    match random.below(12) {
        0 => key.sa ^= 1 << random.below(8),
        1 => key.da = if key.da == 255 { state.own } else { 255 },
        2 => key.session ^= 1 << random.below(8),
        _ => {}
    }
    key
}

/// The bytes before slot 0, after a good opening.
fn good_head(random: &mut Random) -> Vec<u8> {
    let limits = limits::two(random, |random| random.between_u32(1, 60_000));
    let opening = Receiver::open(random.below(254) as u8, limits, random.u32()).0;
    write_record(&opening)[..slot_at(0).start].to_vec()
}

pub fn any_bytes(pair: &mut Pair, random: &mut Random, calls: u64) -> Verdict<()> {
    while pair.tally.calls < calls {
        let mut record = [0; RECORD_BYTES];
        random.fill(&mut record);
        // A good opening, with codes that are nearly right: kind and wait of a free slot have no meaning.
        if random.once_in(2) {
            record[..slot_at(0).start].copy_from_slice(&good_head(random));
            for i in 0..SLOTS {
                record[slot_at(i).start] = if random.once_in(16) { random.pick(&[1, 2, 128, 255]) } else { 0 };
                record[slot_at(i).start + 1] = random.pick(&[0, 1, 2, 3, 255]);
                record[wait_at(i)] = random.pick(&[0, 1, 2, 3, 255]);
            }
        }
        pair.set_record(&record);
        calls_on(pair, random)?;
    }
    Ok(())
}

pub fn any_fields(pair: &mut Pair, random: &mut Random, calls: u64) -> Verdict<()> {
    while pair.tally.calls < calls {
        let mut record = [0; RECORD_BYTES];
        random.fill(&mut record);
        record[..slot_at(0).start].copy_from_slice(&good_head(random));
        for i in 0..SLOTS {
            record[slot_at(i).start] = u8::from(random.once_in(8));
            record[slot_at(i).start + 1] = random.pick(&[1, 2]);
            record[wait_at(i)] = random.pick(&[1, 2]);
        }
        pair.set_record(&record);
        calls_on(pair, random)?;
    }
    Ok(())
}

/// Records made up field by field at the edges of their bounds, half of them with one field moved over an edge.
pub fn edges(pair: &mut Pair, random: &mut Random, calls: u64) -> Verdict<()> {
    while pair.tally.calls < calls {
        let mut state = in_bounds(random);
        if random.once_in(2) {
            break_one_field(random, &mut state);
        }
        set_state(pair, random, &state);
        calls_on(pair, random)?;
    }
    Ok(())
}

/// The state as bytes, with anything in the free slots.
fn set_state(pair: &mut Pair, random: &mut Random, state: &Receiver) {
    let mut record = write_record(state);
    for (i, slot) in state.slots.iter().enumerate() {
        if slot.is_none() {
            random.fill(&mut record[slot_at(i)]);
            record[slot_at(i).start] = 0;
        }
    }
    pair.set_record(&record);
}

fn in_bounds(random: &mut Random) -> Receiver {
    let own = if random.once_in(2) { random.below(254) as u8 } else { random.pick(&[0, 1, 33, 252, 253]) };
    let limits = limits::two(random, |random| random.pick(&[1, 2, 750, 1_250, 59_999, 60_000]));
    let mut state = Receiver::open(own, limits, random.u32()).0;
    let open = random.pick(&[1, 2, 4, 7, 8, 8]);
    for i in 0..open {
        let slot = if open == 8 { i } else { random.below(SLOTS) };
        let session = session_in_bounds(random, &state);
        if state.slots.iter().flatten().all(|other| other.key != session.key) {
            state.slots[slot] = Some(session);
        }
    }
    state
}

fn session_in_bounds(random: &mut Random, state: &Receiver) -> Session {
    let own = state.own;
    let kind = random.pick(&[Kind::Rts, Kind::Bam]);
    let sas: Vec<u8> = [0, 1, 2, 128, 251, 252, 253].into_iter().filter(|&sa| sa != own).collect();
    let da = if kind == Kind::Rts { own } else { 255 };
    let total_bytes = good_total(random);
    let segments = total_bytes.div_ceil(60);
    // Of an RTS each wait goes with any segments taken.
    let wait = if kind == Kind::Rts { random.pick(&[Wait::First, Wait::Second]) } else { Wait::Second };
    let marks = [0, u32::MAX, random.u32(), state.last_reading];
    let silent = random.below(state.limits.in_force(wait) as usize) as u32;
    let mark = if random.once_in(6) { random.pick(&marks) } else { state.last_reading.wrapping_sub(silent) };
    let session = Session {
        kind,
        key: Key { sa: random.pick(&sas), da, session: random.pick(&[0, 1, 14, 15]) },
        total_bytes,
        segments,
        max_segments: if kind == Kind::Rts { good_max(random) } else { random.byte() },
        pgn: good_pgn(random),
        next: any_number(random),
        granted: any_number(random),
        mark,
        wait,
        taken: any_taken(random),
        missing: any_number(random),
        requests: random.byte(),
    };
    match kind {
        Kind::Bam => {
            let any_next = random.between_u32(1, segments + 1);
            let next = random.pick(&[1, 2.min(segments), segments, segments + 1, any_next]);
            Session { next, ..session }
        }
        Kind::Rts => {
            let taken = taken_of(random, segments);
            let any_granted = random.between_u32(1, segments);
            let granted = random.pick(&[1, segments, any_granted, any_granted]);
            let requests = random.between(0, REQUESTS.into()) as u8;
            Session { taken, missing: segments - taken.count(), granted, requests, ..session }
        }
    }
}

/// Small as often as large.
fn any_number(random: &mut Random) -> u32 {
    random.u32() >> random.below(32)
}

/// Any 72 bits.
fn any_taken(random: &mut Random) -> Taken {
    Taken(u128::from(random.word()) << 8 | u128::from(random.byte()))
}

/// None, all, all but one or a few, those up to some segment, or any, of so many segments.
fn taken_of(random: &mut Random, segments: u32) -> Taken {
    let all = (1 << segments) - 1;
    let sparse = any_taken(random).0 & any_taken(random).0 & any_taken(random).0;
    let taken = match random.below(8) {
        0 => 0,
        1 => all,
        2 => !(1 << random.below(segments as usize)),
        3 => (1 << random.below(segments as usize)) - 1,
        4 => !sparse,
        5 => sparse,
        _ => any_taken(random).0,
    };
    Taken(taken & all)
}

fn break_one_field(random: &mut Random, state: &mut Receiver) {
    let own = state.own;
    let open: Vec<usize> = (0..SLOTS).filter(|&i| state.slots[i].is_some()).collect();
    let at = random.pick(&open);
    let doubled = state.slots[random.pick(&open)];
    if let Some(session) = &mut state.slots[at] {
        let is_rts = session.kind == Kind::Rts;
        match random.below(21) {
            0 => session.total_bytes = random.pick(&[0, 4097, 4140, u32::MAX, session.total_bytes + 60]),
            1 => session.segments = random.pick(&[0, session.segments + 1, session.segments - 1, u32::MAX]),
            2 => session.total_bytes = random.pick(&[60 * session.segments, 60 * session.segments - 59]),
            3 => session.max_segments = 0,
            4 => session.pgn = any_pgn(random),
            5 => session.pgn = random.u32(),
            6 => session.key.sa = random.pick(&[254, 255, own]),
            7 => session.key.da = random.pick(&[254, if is_rts { 255 } else { own }]),
            8 => session.key.session = random.pick(&[16, 17, 128, 255]),
            9 => session.next = random.pick(&[0, session.segments + 1, session.segments + 2, u32::MAX]),
            10 => session.granted = random.pick(&[0, 1, 256, u32::MAX]),
            11 => session.granted = random.pick(&[session.segments, session.segments + 1]),
            12 => session.kind = if is_rts { Kind::Bam } else { Kind::Rts },
            13 => state.limits.first = random.pick(&[0, 60_001, u32::MAX, 65_536]),
            14 => state.limits.second = random.pick(&[0, 60_001, u32::MAX, 65_536]),
            // Out of bounds in a broadcast.
            15 => session.wait = if session.wait == Wait::First { Wait::Second } else { Wait::First },
            16 => state.own = random.pick(&[254, 255, own.wrapping_add(1)]),
            17 => session.taken.0 ^= 1 << random.below(72),
            18 => session.missing = random.pick(&[0, session.missing ^ 1, session.segments, u32::MAX]),
            19 => session.requests = random.pick(&[0, 5, 6, 7, 255]),
            _ => {
                let other = random.below(SLOTS);
                if other != at {
                    state.slots[other] = doubled;
                }
            }
        }
    }
}

/// Records in bounds, then with any byte as the wait of one slot: what is 23, and by which limit the session ends.
pub fn waits(pair: &mut Pair, random: &mut Random, calls: u64) -> Verdict<()> {
    while pair.tally.calls < calls {
        let state = in_bounds(random);
        let byte = if random.once_in(3) { random.byte() } else { random.pick(&[0, 1, 1, 2, 2, 3]) };
        let slot = random.below(SLOTS);
        let (reading, number, ends) = wait_of(random, &state, slot, byte);
        set_state(pair, random, &state);
        let mut record: [u8; RECORD_BYTES] = pair.record().try_into().expect("of that length");
        record[wait_at(slot)] = byte;
        pair.set_record(&record);
        let (given, endings) = pair.reading(reading)?;
        let has_ended = endings[slot].number() == 22;
        let told =
            || format!("wait {byte} in slot {slot} of {state:?}, reading {reading}: {given}, ended: {has_ended}");
        expect(given == number && has_ended == ends, told)?;
        calls_on(pair, random)?;
    }
    Ok(())
}

/// With this byte as the wait of this slot: a reading at the edge of either limit, what number it has to bring, and whether it has to end
/// the session there.
fn wait_of(random: &mut Random, state: &Receiver, slot: usize, byte: u8) -> (u32, u8, bool) {
    let Some(session) = state.slots[slot] else {
        return (random.u32(), 0, false);
    };
    let Limits { first, second } = state.limits;
    let passed = random.pick(&[first - 1, first, second - 1, second]);
    let reading = session.mark.wrapping_add(passed);
    match (session.kind, byte) {
        (Kind::Rts, 1) => (reading, 0, passed >= first),
        (_, 2) => (reading, 0, passed >= second),
        _ => (reading, 23, false),
    }
}

/// Records in bounds, then with one thing of those that 02 E6 brought changed in one slot: what is 23, and how many are missing by it.
pub fn requests(pair: &mut Pair, random: &mut Random, calls: u64) -> Verdict<()> {
    while pair.tally.calls < calls {
        let mut state = in_bounds(random);
        let open: Vec<usize> = (0..SLOTS).filter(|&i| state.slots[i].is_some()).collect();
        let slot = random.pick(&open);
        let Some((session, form, is_good)) = state.slots[slot].and_then(|session| changed(random, session)) else {
            continue;
        };
        state.slots[slot] = Some(session);
        set_state(pair, random, &state);
        pair.count_requests(vec![form]);
        let due = match session.kind {
            _ if !is_good => 256 * 23,
            Kind::Rts => session.segments - session.taken.count(),
            Kind::Bam => session.segments + 1 - session.next,
        };
        let missing = pair.missing(session.key)?;
        expect(missing == due as usize, || format!("{form:?} in slot {slot} of {state:?}: {missing} missing"))?;
        calls_on(pair, random)?;
        turn_bits(pair, random, slot);
        calls_on(pair, random)?;
    }
    requests::met_by_records(&pair.tally.requests)
}

/// The session changed, and whether it is in bounds; none where it has nothing of the kind that was drawn.
fn changed(random: &mut Random, mut session: Session) -> Option<(Session, Form, bool)> {
    let Session { segments, missing, granted, .. } = session;
    if session.kind == Kind::Bam {
        let (taken, missing, requests) = (any_taken(random), any_number(random), random.byte());
        let session = Session { granted: any_number(random), taken, missing, requests, ..session };
        return Some((session, Form::AnyOfBroadcast, true));
    }
    let past = 1 << random.between(segments as usize, 71);
    let within = 1 << random.below(segments as usize);
    let recounted = if session.taken.0 & within == 0 { missing.wrapping_sub(1) } else { missing + 1 };
    let behind = (1..=segments).rev().find(|&n| session.taken.has(n));
    let (form, is_good) = random.pick(&[
        (Form::BitPast, false),
        (Form::BitPastCounted, false),
        (Form::BitTurned, false),
        (Form::BitTurnedCounted, true),
        (Form::OneMoreMissing, false),
        (Form::OneLessMissing, false),
        (Form::OtherMissing, false),
        (Form::FiveRequests, true),
        (Form::SixRequests, false),
        (Form::OtherRequests, false),
        (Form::GrantedNone, false),
        (Form::GrantedFirst, true),
        (Form::GrantedAll, true),
        (Form::GrantedPast, false),
        (Form::GrantedBehind, true),
        (Form::AnyNext, true),
    ]);
    match form {
        Form::BitPast => session.taken.0 |= past,
        Form::BitPastCounted => (session.taken.0, session.missing) = (session.taken.0 | past, missing.checked_sub(1)?),
        Form::BitTurned => session.taken.0 ^= within,
        Form::BitTurnedCounted => (session.taken.0, session.missing) = (session.taken.0 ^ within, recounted),
        Form::OneMoreMissing => session.missing = missing + 1,
        Form::OneLessMissing => session.missing = missing.wrapping_sub(1),
        Form::OtherMissing => session.missing = missing ^ 1 << random.below(32),
        Form::FiveRequests => session.requests = 5,
        Form::SixRequests => session.requests = 6,
        Form::OtherRequests => session.requests = random.between(7, 255) as u8,
        Form::GrantedNone => session.granted = 0,
        Form::GrantedFirst => session.granted = 1,
        Form::GrantedAll => session.granted = segments,
        Form::GrantedPast => session.granted = random.pick(&[segments + 1, segments + 256, granted | 1 << 31]),
        Form::GrantedBehind => session.granted = behind?,
        _ => session.next = any_number(random),
    }
    Some((session, form, is_good))
}

/// One bit or two, of what a slot keeps of its segments.
fn turn_bits(pair: &mut Pair, random: &mut Random, slot: usize) {
    let mut record: [u8; RECORD_BYTES] = pair.record().try_into().expect("of that length");
    for _ in 0..random.between(1, 2) {
        record[segments_at(random, slot)] ^= 1 << random.below(8);
    }
    pair.set_record(&record);
}

/// Any of the lent buffers too short or too long, on records that are good otherwise.
pub fn other_lengths(pair: &mut Pair, random: &mut Random, calls: u64) -> Verdict<()> {
    while pair.tally.calls < calls {
        let state = in_bounds(random);
        set_state(pair, random, &state);
        for _ in 0..3 {
            pair.sizes = other_sizes(random);
            let frame = any_frame(random, &state);
            pair.frame_raw(frame.id, &frame.bytes)?;
            pair.reading(next_reading(random, &state))?;
            pair.groups(&frame.bytes)?;
            pair.missing(any_key(random, &state))?;
            pair.open(random.byte(), limits::two(random, any_limit), random.u32())?;
            pair.sizes = RIGHT;
            set_state(pair, random, &state);
        }
        calls_on(pair, random)?;
    }
    Ok(())
}

/// One of the sizes is another, now and then all.
fn other_sizes(random: &mut Random) -> Sizes {
    let mut sizes = RIGHT;
    let which = random.below(6);
    if which == 0 || which == 5 {
        sizes.record = random.pick(&[0, 1, 13, 58, 261, 328, 372, 374, 418, 420]);
    }
    if which == 1 || which == 5 {
        sizes.store = random.pick(&[0, 1, 4096, 28_672, 32_767, 32_769, 36_864]);
    }
    if which == 2 || which == 5 {
        sizes.answer = random.pick(&[0, 1, 19, 35, 37, 72]);
    }
    if which == 3 || which == 5 {
        sizes.answers = random.pick(&[0, 1, 36, 252, 287, 289, 324]);
    }
    if which == 4 || which == 5 {
        sizes.groups = random.pick(&[0, 1, 6, 48, 90, 95, 97, 102]);
    }
    sizes
}
