//! The packer.

use super::{read_whole, whole, Lists, Whole, PAIRS, PGN, TABLE_9};
use rules::frame::least_length;

/// A good group of this pair, its bytes told apart by `seed`.
fn good(service: u8, format: u8, trailer: u8, data: u8, seed: u8) -> Whole {
    let bytes = |from: u8, length: u8| (0..length).map(|i| from.wrapping_add(i)).collect();
    (service, format, PGN, bytes(seed, data), bytes(seed.wrapping_add(0x80), trailer))
}

/// Three good groups: one with a trailer of 8, a plain one, one with a trailer of 4. 37 bytes.
fn three() -> Lists {
    Lists::of(&[
        whole(1, 5, PGN, "D1 D2 D3", "A1 A2 A3 A4 A5 A6 A7 A8"),
        whole(2, 0, 59_904, "D4 D5 D6", ""),
        whole(1, 1, 65_200, "D7 D8 D9 DA DB DC DD", "A9 AA AB AC"),
    ])
}

/// The three groups, changed so, are refused with this number.
fn refuses(number: u8, told: &str, change: impl Fn(&mut Lists)) {
    let mut lists = three();
    change(&mut lists);
    assert_eq!(lists.pack(), Err(number), "{told}: {lists:?}");
}

#[test]
fn the_three_groups_are_good() {
    let frame = three().pack().unwrap();
    assert_eq!(frame.len(), 48);
    let groups = read_whole(&frame).unwrap();
    assert_eq!(groups[0], whole(1, 5, PGN, "D1 D2 D3", "A1 A2 A3 A4 A5 A6 A7 A8"));
    assert_eq!(groups[1], whole(2, 0, 59_904, "D4 D5 D6", ""));
    assert_eq!(groups[2], whole(1, 1, 65_200, "D7 D8 D9 DA DB DC DD", "A9 AA AB AC"));
}

/// Any byte as service type, any as trailer format, with every trailer that could be meant.
#[test]
fn every_service_type_and_format() {
    for service in 0..=255_u8 {
        for format in 0..=255_u8 {
            let due = match (service, format) {
                (1 | 2, 0..=7) => TABLE_9[usize::from(service) - 1][usize::from(format)],
                (1 | 2, _) => Err(7),
                _ => Err(6),
            };
            for trailer in [0, 1, 3, 4, 5, 7, 8, 9, 12, 16] {
                let lists = Lists::of(&[good(service, format, trailer, 2, 1)]);
                let number = match due {
                    Err(number) => number,
                    Ok(length) if length != usize::from(trailer) => 24,
                    Ok(_) => 0,
                };
                assert_eq!(lists.pack().err().unwrap_or(0), number, "{service} {format} {trailer}");
            }
        }
    }
}

/// Data of every length, up to the most that fits with the trailer and beyond.
#[test]
fn every_data_length() {
    for (service, format, trailer) in PAIRS {
        for data in 0..=255 - trailer {
            let group = good(service, format, trailer, data, 7);
            let need = 4 + usize::from(data) + usize::from(trailer);
            let packed = Lists::of(std::slice::from_ref(&group)).pack();
            let Some(length) = least_length(need) else {
                assert_eq!(packed, Err(24), "{group:?}");
                continue;
            };
            let frame = packed.unwrap();
            assert_eq!((frame.len(), frame[3]), (length, data + trailer), "{group:?}");
            assert_eq!(
                (&frame[4..4 + group.3.len()], &frame[need - group.4.len()..need]),
                (&group.3[..], &group.4[..])
            );
            assert_eq!(read_whole(&frame), Ok(vec![group]));
        }
    }
}

/// A length byte cannot hold these: 24, and no number runs over.
#[test]
fn data_and_trailer_above_255() {
    for (service, format, trailer) in PAIRS {
        for data in 248..=255 {
            assert_eq!(Lists::of(&[good(service, format, trailer, data, 7)]).pack(), Err(24));
        }
    }
}

#[test]
fn any_three_are_read_back() {
    for (i, first) in PAIRS.into_iter().enumerate() {
        for (j, second) in PAIRS.into_iter().enumerate() {
            for (k, third) in PAIRS.into_iter().enumerate() {
                let [first, second, third] = [(first, i, 0x10), (second, j + k, 0x30), (third, k, 0x50)]
                    .map(|((service, format, trailer), data, seed)| good(service, format, trailer, data as u8, seed));
                let groups = vec![first, second, third];
                let frame = Lists::of(&groups).pack().unwrap();
                assert_eq!(read_whole(&frame), Ok(groups));
            }
        }
    }
}

/// 64 bytes fit and 65 do not, also where it is a trailer that passes the end.
#[test]
fn up_to_64_bytes() {
    for (service, format, trailer) in PAIRS {
        let last = good(service, format, trailer, 3, 0x10);
        let room = 64 - 7 - trailer;
        let fits = Lists::of(&[good(2, 0, 0, room - 4, 0x50), last.clone()]).pack().unwrap();
        assert_eq!((fits.len(), fits[63]), (64, *last.4.last().unwrap_or(&0x12)));
        assert_eq!(Lists::of(&[good(2, 0, 0, room - 3, 0x50), last]).pack(), Err(24));
    }
    let empty = good(1, 3, 8, 0, 1);
    assert_eq!(Lists::of(&vec![empty.clone(); 5]).pack().map(|frame| frame.len()), Ok(64));
    assert_eq!(Lists::of(&vec![empty; 6]).pack(), Err(24));
    assert_eq!(Lists::of(&vec![good(2, 0, 0, 0, 1); 16]).pack().map(|frame| frame.len()), Ok(64));
    assert_eq!(Lists::of(&vec![good(2, 0, 0, 0, 1); 17]).pack(), Err(24));
}

#[test]
fn no_groups() {
    assert_eq!(Lists::of(&[]).pack(), Ok(vec![]));
    assert_eq!(Lists { room: 63, ..Lists::of(&[]) }.pack(), Err(24));
    assert_eq!(Lists { trailers: vec![1], ..Lists::of(&[]) }.pack(), Err(24));
}

#[test]
fn service_types_that_are_6() {
    for service in [0, 3, 4, 5, 6, 7, 8, 9, 10, 17, 33, 34, 64, 66, 129, 130, 254, 255] {
        for place in 0..3 {
            refuses(6, "a service type", |lists| lists.services[place] = service);
        }
    }
}

#[test]
fn formats_that_are_7() {
    for format in [0, 4, 7, 8, 9, 13, 16, 32, 128, 129, 255] {
        for place in [0, 2] {
            refuses(7, "a format of service type 1", |lists| lists.formats[place] = format);
        }
    }
    for format in [1, 2, 3, 4, 5, 6, 7, 8, 9, 16, 32, 128, 255] {
        refuses(7, "a format of service type 2", |lists| lists.formats[1] = format);
    }
    refuses(7, "a plain group's format", |lists| lists.services[0] = 2);
    refuses(7, "a format for a plain group only", |lists| lists.services[1] = 1);
}

#[test]
fn pgns_that_are_8() {
    for pgn in [0xEF01, 0xEA21, 0x3_EFFF, 1, 0x4_0000, 0x4_FECA, 0xFF_FECA, 0x100_FECA, u32::MAX] {
        for place in 0..3 {
            refuses(8, "a PGN", |lists| lists.pgns[place] = pgn);
        }
    }
}

/// The joined trailers are as long as the lengths say, so that nothing else is wrong.
#[test]
fn trailers_of_the_wrong_length() {
    for (place, right) in [(0, 8), (1, 0), (2, 4)] {
        for length in (0..=16).filter(|&length| length != right) {
            refuses(24, "a trailer", |lists| {
                lists.trailer_lengths[place] = length;
                let joined: u8 = lists.trailer_lengths.iter().sum();
                lists.trailers.resize(joined.into(), 0xA5);
            });
        }
    }
    refuses(24, "two trailers exchanged", |lists| lists.trailer_lengths.swap(0, 2));
    refuses(24, "another's format", |lists| lists.formats[0] = 1);
    refuses(24, "the other's format", |lists| lists.formats[2] = 3);
    refuses(24, "a trailer called data", |lists| {
        (lists.lengths[2], lists.trailer_lengths[2]) = (11, 0);
        lists.data.extend(lists.trailers.split_off(8));
    });
}

#[test]
fn lists_of_different_lengths() {
    refuses(24, "a service type more", |lists| lists.services.push(2));
    refuses(24, "a format more", |lists| lists.formats.push(0));
    refuses(24, "a PGN more", |lists| lists.pgns.push(PGN));
    refuses(24, "a length more", |lists| lists.lengths.push(0));
    refuses(24, "a trailer length more", |lists| lists.trailer_lengths.push(0));
    refuses(24, "a service type less", |lists| lists.services.truncate(2));
    refuses(24, "a format less", |lists| lists.formats.truncate(2));
    refuses(24, "a PGN less", |lists| lists.pgns.truncate(2));
    refuses(24, "a length less", |lists| {
        lists.lengths.truncate(2);
        lists.data.truncate(6);
    });
    refuses(24, "a trailer length less", |lists| {
        lists.trailer_lengths.truncate(2);
        lists.trailers.truncate(8);
    });
    refuses(24, "no service types", |lists| lists.services.clear());
    refuses(24, "no formats", |lists| lists.formats.clear());
    refuses(24, "no PGNs", |lists| lists.pgns.clear());
    refuses(24, "no lengths", |lists| {
        lists.lengths.clear();
        lists.data.clear();
    });
    refuses(24, "no trailer lengths", |lists| {
        lists.trailer_lengths.clear();
        lists.trailers.clear();
    });
}

/// Service types and PGNs are judged to the end of their lists, formats only where there is a service type.
#[test]
fn what_stands_past_the_shorter_list() {
    refuses(6, "a service type past the others", |lists| lists.services.push(3));
    refuses(8, "a PGN past the others", |lists| lists.pgns.push(0xEF01));
    refuses(24, "a format past the others", |lists| lists.formats.push(9));
    refuses(24, "a format past the service types", |lists| {
        lists.services.truncate(2);
        lists.formats[2] = 9;
    });
    refuses(24, "a format with no service types", |lists| {
        lists.services.clear();
        lists.formats.fill(255);
    });
    refuses(7, "a format before the shorter list's end", |lists| {
        lists.services.truncate(1);
        lists.formats[0] = 4;
    });
    refuses(7, "a format, with no other list", |lists| {
        lists.formats[2] = 0;
        lists.pgns.clear();
        lists.lengths.clear();
        lists.trailer_lengths.clear();
    });
}

#[test]
fn joined_bytes() {
    refuses(24, "data one too long", |lists| lists.data.push(1));
    refuses(24, "data one too short", |lists| lists.data.truncate(12));
    refuses(24, "no data", |lists| lists.data.clear());
    refuses(24, "trailers one too long", |lists| lists.trailers.push(1));
    refuses(24, "trailers one too short", |lists| lists.trailers.truncate(11));
    refuses(24, "no trailers", |lists| lists.trailers.clear());
    refuses(24, "a byte of the data among the trailers", |lists| {
        lists.trailers.insert(0, 0xDD);
        lists.data.truncate(12);
    });
    refuses(24, "a byte of the trailers behind the data", |lists| {
        lists.data.push(0xA1);
        lists.trailers.truncate(11);
    });
}

#[test]
fn outputs_of_other_lengths() {
    for room in [0, 1, 37, 48, 63, 65, 96, 128] {
        refuses(24, "an output", |lists| lists.room = room);
    }
}

/// One fault for each check, at a place.
fn spoil(lists: &mut Lists, number: u8, place: usize) {
    match number {
        6 => lists.services[place] = 3,
        7 => lists.formats[place] = 7,
        8 => lists.pgns[place] = 0xEF01,
        _ => {
            lists.trailer_lengths[place] += 1;
            lists.trailers.push(0);
        }
    }
}

/// One check after the other, each over the whole request: at which groups the faults stand does not matter.
#[test]
fn orders() {
    let checks = [6, 7, 8, 24];
    for (i, first) in checks.into_iter().enumerate() {
        for then in &checks[i..] {
            for (place, other) in (0..9).map(|n| (n / 3, n % 3)) {
                refuses(first, &format!("{first} at {place}, {then} at {other}"), |lists| {
                    spoil(lists, first, place);
                    spoil(lists, *then, other);
                });
            }
        }
    }
}

/// All that is 24 comes behind 6, 7 and 8.
#[test]
fn each_24_comes_last() {
    let causes: [fn(&mut Lists); 10] = [
        |lists| lists.lengths.push(0),
        |lists| lists.trailer_lengths.push(0),
        |lists| lists.pgns.push(PGN),
        |lists| lists.formats.push(0),
        |lists| lists.services.push(1),
        |lists| lists.data.push(0),
        |lists| lists.trailers.push(0),
        |lists| lists.room = 65,
        |lists| lists.lengths.fill(255),
        |lists| lists.trailer_lengths.clear(),
    ];
    for cause in causes {
        refuses(24, "the cause by itself", cause);
        for number in [6, 7, 8] {
            for place in 0..3 {
                refuses(number, "with a cause of 24", |lists| {
                    cause(lists);
                    spoil(lists, number, place);
                });
            }
        }
    }
}
