//! What came of groups with trailers (02 E5): told by a frame, or by what a packer was lent, and by the number of the answer.

use crate::groups::{trailer_of, Lists, PAIRS};
use crate::pair::{expect, Verdict};
use rules::frame::is_pgn;
use rules::groups::{walk, Group};
use std::collections::BTreeMap;
use std::fmt::{self, Display, Formatter};

#[derive(Clone, Copy, Debug, PartialEq, Eq, PartialOrd, Ord)]
pub enum Form {
    /// A group of this service type and trailer format in a good frame.
    Read(u8, u8),
    /// Its trailer, of so many bytes, ends with the frame.
    ToTheEnd(usize),
    /// There is no data before its trailer.
    Alone(usize),
    /// The fault with this number, right behind a good group with a trailer.
    Behind(u8),
    /// 5 for a trailer longer than the length byte says.
    TooLong(usize, Room),
    /// 5 for a length byte that counts a trailer of so many bytes and passes the frame's end by one.
    PastEnd(usize),
    /// A place with both faults is refused with the first.
    ReadOrder(u8, u8),
    /// A group of this service type and trailer format in a good request.
    Packed(u8, u8),
    /// A request with this fault and no other.
    Only(u8),
    /// A request with both faults is refused with the first.
    PackOrder(u8, u8),
    /// The same, with the second at an earlier group.
    Earlier(u8, u8),
    /// 24 with this cause and no other.
    By(Cause),
    /// What stands past the shortest of the lists decides; for 24 a format with no service type, which does not.
    PastShortest(u8),
}

#[derive(Clone, Copy, Debug, PartialEq, Eq, PartialOrd, Ord)]
pub enum Room {
    ForTheTrailer,
    /// The frame ends where the length byte says.
    ForNoMore,
}

/// The seven parts that are lent stand by their number in `PARTS`.
#[derive(Clone, Copy, Debug, PartialEq, Eq, PartialOrd, Ord)]
pub enum Cause {
    TrailerLength,
    Longer(usize),
    Shorter(usize),
    SeveralLists,
    TooMuch,
    /// Without the trailers it would fit.
    TooMuchByTrailers,
    Output,
}

const PARTS: [&str; 7] = ["service types", "formats", "PGNs", "lengths", "trailer lengths", "data", "trailers"];
const READ_ORDERS: [(u8, u8); 8] = [(4, 6), (4, 7), (4, 8), (6, 8), (6, 5), (7, 8), (7, 5), (8, 5)];
const PACK_ORDERS: [(u8, u8); 6] = [(6, 7), (6, 8), (6, 24), (7, 8), (7, 24), (8, 24)];

pub type Counts = BTreeMap<Form, u64>;

/// All that frames have to bring.
pub fn due_of_frames() -> Vec<Form> {
    let mut due: Vec<Form> = PAIRS.map(|(service, format, _)| Form::Read(service, format)).into();
    for trailer in [4, 8] {
        due.extend([Form::ToTheEnd(trailer), Form::Alone(trailer), Form::PastEnd(trailer)]);
        due.extend([Room::ForTheTrailer, Room::ForNoMore].map(|room| Form::TooLong(trailer, room)));
    }
    due.extend([4, 5, 6, 7, 8].map(Form::Behind));
    due.extend(READ_ORDERS.map(|(first, then)| Form::ReadOrder(first, then)));
    due
}

/// All that requests have to bring.
pub fn due_of_requests() -> Vec<Form> {
    let mut due: Vec<Form> = PAIRS.map(|(service, format, _)| Form::Packed(service, format)).into();
    due.extend([6, 7, 8, 24].map(Form::Only));
    due.extend(PACK_ORDERS.map(|(first, then)| Form::PackOrder(first, then)));
    due.extend(PACK_ORDERS.map(|(first, then)| Form::Earlier(first, then)));
    due.extend((0..PARTS.len()).flat_map(|part| [Cause::Longer(part), Cause::Shorter(part)]).map(Form::By));
    due.extend([Cause::TrailerLength, Cause::TooMuch, Cause::TooMuchByTrailers, Cause::Output].map(Form::By));
    due.extend([6, 8, 24].map(Form::PastShortest));
    due
}

pub fn all_met(counts: &Counts, due: Vec<Form>) -> Verdict<()> {
    let missing = due.iter().filter(|form| !counts.contains_key(form));
    let missing: Vec<String> = missing.map(Form::to_string).collect();
    expect(missing.is_empty(), || format!("never came up: {}", missing.join(", ")))
}

pub fn line(counts: &Counts) -> String {
    let forms: Vec<String> = counts.iter().map(|(form, count)| format!("{form} {count}")).collect();
    format!("trailers: {}", forms.join(", "))
}

/// A frame's, where the number is 0 or 4 to 8.
pub fn of_frame(frame: &[u8], number: u8) -> Vec<Form> {
    let (groups, _) = walk(frame);
    match number {
        0 => groups.iter().flat_map(|group| of_good(frame, group)).collect(),
        4..=8 => of_fault(frame, groups.last(), number),
        _ => vec![],
    }
}

fn of_good(frame: &[u8], group: &Group) -> Vec<Form> {
    let mut forms = vec![Form::Read(group.service, group.format)];
    if group.trailer > 0 && group.end() == frame.len() {
        forms.push(Form::ToTheEnd(group.trailer));
    }
    if group.trailer > 0 && group.length == 0 {
        forms.push(Form::Alone(group.trailer));
    }
    forms
}

fn of_fault(frame: &[u8], last: Option<&Group>, number: u8) -> Vec<Form> {
    let place = &frame[last.map_or(0, Group::end)..];
    let mut forms = Vec::new();
    if last.is_some_and(|group| group.trailer > 0) {
        forms.push(Form::Behind(number));
    }
    let others = faults(place).into_iter().filter(|&fault| fault != number);
    forms.extend(others.map(|fault| Form::ReadOrder(number, fault)));
    if number == 5 {
        forms.extend(of_length(place));
    }
    forms
}

/// The faults of a place, each judged by itself.
fn faults(place: &[u8]) -> Vec<u8> {
    let (service, format) = (place[0] >> 5, place[0] >> 2 & 0b111);
    let trailer = trailer_of(service, format);
    let is_service = service == 1 || service == 2;
    let pgn = place.get(..3).map(|bytes| u32::from_be_bytes([0, bytes[0] & 0b11, bytes[1], bytes[2]]));
    let is_cut = |&counted: &u8| {
        let counted = usize::from(counted);
        4 + counted > place.len() || trailer.is_some_and(|trailer| trailer > counted)
    };
    let faults = [
        (4, place.len() < 4),
        (6, !is_service),
        (7, is_service && trailer.is_none()),
        (8, pgn.is_some_and(|pgn| !is_pgn(pgn))),
        (5, place.get(3).is_some_and(is_cut)),
    ];
    faults.into_iter().filter(|(_, holds)| *holds).map(|(number, _)| number).collect()
}

/// Of a place that is refused with 5.
fn of_length(place: &[u8]) -> Option<Form> {
    let (counted, room) = (usize::from(place[3]), place.len() - 4);
    let trailer = trailer_of(place[0] >> 5, place[0] >> 2 & 0b111)?;
    match trailer {
        0 => None,
        _ if counted < trailer && room >= trailer => Some(Form::TooLong(trailer, Room::ForTheTrailer)),
        _ if counted < trailer && room == counted => Some(Form::TooLong(trailer, Room::ForNoMore)),
        _ if counted >= trailer && counted == room + 1 => Some(Form::PastEnd(trailer)),
        _ => None,
    }
}

/// A request's, with so many bytes of output.
pub fn of_request(lists: &Lists, room: usize, number: u8) -> Vec<Form> {
    if number == 0 {
        let pairs = lists.services.iter().zip(&lists.formats);
        return pairs.map(|(&service, &format)| Form::Packed(service, format)).collect();
    }
    let (places, causes) = (places(lists), causes(lists, room));
    let has = |fault: u8| match fault {
        24 => !causes.is_empty(),
        _ => !places[&fault].is_empty(),
    };
    let others: Vec<u8> = [6, 7, 8, 24].into_iter().filter(|&fault| fault != number && has(fault)).collect();
    let mut forms: Vec<Form> = others.iter().map(|&fault| Form::PackOrder(number, fault)).collect();
    let first = |fault: u8| places[&fault].first().copied();
    let earlier = others.iter().filter(|&&fault| first(fault).is_some_and(|at| Some(at) < first(number)));
    forms.extend(earlier.map(|&fault| Form::Earlier(number, fault)));
    if others.is_empty() {
        forms.push(Form::Only(number));
        forms.extend(causes.first().filter(|_| causes.len() == 1).map(|&cause| Form::By(cause)));
    }
    let shortest = list_lengths(lists).into_iter().min();
    let is_past = match number {
        6 | 8 => first(number) >= shortest,
        24 => lists.formats.iter().skip(lists.services.len()).any(|&format| format == 4 || format >= 7),
        _ => false,
    };
    forms.extend(is_past.then_some(Form::PastShortest(number)));
    forms
}

fn list_lengths(lists: &Lists) -> [usize; 5] {
    [lists.services.len(), lists.formats.len(), lists.pgns.len(), lists.lengths.len(), lists.trailer_lengths.len()]
}

/// At which groups there is a fault, by its number; with 24 a trailer of the wrong length.
fn places(lists: &Lists) -> BTreeMap<u8, Vec<usize>> {
    let mut places = BTreeMap::from([6, 7, 8, 24].map(|number| (number, vec![])));
    let mut add = |number: u8, at: usize| places.entry(number).or_default().push(at);
    for (at, &service) in lists.services.iter().enumerate() {
        let trailer = lists.formats.get(at).map(|&format| trailer_of(service, format));
        let given = lists.trailer_lengths.get(at).map(|&length| usize::from(length));
        match (service, trailer) {
            (1 | 2, Some(None)) => add(7, at),
            (1 | 2, Some(due)) if given.is_some() && given != due => add(24, at),
            (1 | 2, _) => {}
            _ => add(6, at),
        }
    }
    for (at, _) in lists.pgns.iter().enumerate().filter(|(_, &pgn)| !is_pgn(pgn)) {
        add(8, at);
    }
    places
}

fn sum(lengths: &[u8]) -> usize {
    lengths.iter().map(|&length| usize::from(length)).sum()
}

/// All that is 24 in this request.
fn causes(lists: &Lists, room: usize) -> Vec<Cause> {
    let mut causes = Vec::from_iter(cause_in_lists(lists));
    let triples = lists.services.iter().zip(&lists.formats).zip(&lists.trailer_lengths);
    let is_wrong = |((&service, &format), &length): ((&u8, &u8), &u8)| {
        trailer_of(service, format).is_some_and(|trailer| trailer != usize::from(length))
    };
    let need = 4 * lists.pgns.len() + lists.data.len();
    let others = [
        (Cause::TrailerLength, triples.into_iter().any(is_wrong)),
        (Cause::Longer(5), lists.data.len() > sum(&lists.lengths)),
        (Cause::Shorter(5), lists.data.len() < sum(&lists.lengths)),
        (Cause::Longer(6), lists.trailers.len() > sum(&lists.trailer_lengths)),
        (Cause::Shorter(6), lists.trailers.len() < sum(&lists.trailer_lengths)),
        (Cause::TooMuch, need > 64),
        (Cause::TooMuchByTrailers, need <= 64 && need + lists.trailers.len() > 64),
        (Cause::Output, room != 64),
    ];
    causes.extend(others.into_iter().filter(|(_, holds)| *holds).map(|(cause, _)| cause));
    causes
}

/// Which of the five lists is longer or shorter than the four others.
fn cause_in_lists(lists: &Lists) -> Option<Cause> {
    let lengths = list_lengths(lists);
    if lengths == [lengths[0]; 5] {
        return None;
    }
    for (part, &length) in lengths.iter().enumerate() {
        let other = lengths[(part + 1) % 5];
        let is_alone = (0..5).all(|i| i == part || lengths[i] == other);
        if is_alone {
            return Some(if length > other { Cause::Longer(part) } else { Cause::Shorter(part) });
        }
    }
    Some(Cause::SeveralLists)
}

impl Display for Form {
    fn fmt(&self, f: &mut Formatter) -> fmt::Result {
        match *self {
            Form::Read(service, format) => write!(f, "{service}/{format} read"),
            Form::ToTheEnd(trailer) => write!(f, "trailer of {trailer} up to the frame's end"),
            Form::Alone(trailer) => write!(f, "trailer of {trailer} without data"),
            Form::Behind(number) => write!(f, "{number} behind a trailer"),
            Form::TooLong(trailer, Room::ForTheTrailer) => write!(f, "5 by a trailer of {trailer} with room for it"),
            Form::TooLong(trailer, Room::ForNoMore) => write!(f, "5 by a trailer of {trailer} at the frame's end"),
            Form::PastEnd(trailer) => write!(f, "5 by one byte with a trailer of {trailer}"),
            Form::ReadOrder(first, then) => write!(f, "{first} before {then}"),
            Form::Packed(service, format) => write!(f, "{service}/{format} packed"),
            Form::Only(number) => write!(f, "packer's {number} alone"),
            Form::PackOrder(first, then) => write!(f, "packer's {first} before {then}"),
            Form::Earlier(first, then) => write!(f, "packer's {first} before {then} at an earlier group"),
            Form::By(cause) => write!(f, "24 by {cause}"),
            Form::PastShortest(24) => write!(f, "24 with a bad format past the service types"),
            Form::PastShortest(number) => write!(f, "packer's {number} past the shortest list"),
        }
    }
}

impl Display for Cause {
    fn fmt(&self, f: &mut Formatter) -> fmt::Result {
        match *self {
            Cause::TrailerLength => write!(f, "a trailer length"),
            Cause::Longer(part) => write!(f, "more {}", PARTS[part]),
            Cause::Shorter(part) => write!(f, "fewer {}", PARTS[part]),
            Cause::SeveralLists => write!(f, "several lists"),
            Cause::TooMuch => write!(f, "the need"),
            Cause::TooMuchByTrailers => write!(f, "the trailers' need"),
            Cause::Output => write!(f, "the output"),
        }
    }
}
