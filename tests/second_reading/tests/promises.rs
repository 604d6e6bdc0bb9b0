//! What the mission promises, tried on the generated cases: a refusal changes
//! nothing, writing reads back, reading and writing again gives the same octets,
//! what the packer writes passes the check, and from a filled index the cursor gives
//! what reading gives.

use second_reading::again::{as_read, cleaned, parts_of};
use second_reading::cases::*;
use second_reading::cursor::{count, Taken, GROUP};
use second_reading::*;

const SEEDS: [(u64, Size); 4] = [
    (1, Size::Short),
    (2, Size::Short),
    (3, Size::Whole),
    (4, Size::Whole),
];
const COUNT: usize = 1_500;

fn written(parts: &Parts) -> Vec<u8> {
    let mut out = vec![0; 300_000];
    let (reply, length) = write(parts, &mut out);
    assert_eq!(reply, 0);
    out.truncate(length as usize);
    out
}

#[test]
fn reading() {
    let mut same = 0;
    for (seed, size) in SEEDS {
        for k in 0..COUNT {
            let case = read_case(seed, k, size);
            let (mut values, mut marks) = (case.values.clone(), case.marks.clone());
            let Lent { number, octets } = &case.lent;
            let header = read(&case.message, *number, octets, &mut values, &mut marks);
            if header.reply != 0 {
                assert_eq!((values, marks), (case.values, case.marks));
                let mut zero = Header {
                    reply: header.reply,
                    ..Header::default()
                };
                // "They alone return two fields that may not be zero."
                if (20..=23).contains(&header.reply) {
                    assert!((1..=5).contains(&header.section) && header.place >= 9);
                    (zero.section, zero.place) = (header.section, header.place);
                }
                assert_eq!(header, zero);
                // A refused message has no parts, no bitmap and no points.
                if header.reply != 14 {
                    for k in 0..7 {
                        assert_eq!(section(&case.message, &case.lent, k), Part::default());
                    }
                    let force = bitmap_in_force(&case.message, &case.lent);
                    assert_eq!(force, (false, Part::default()));
                    let number = data_number(&case.message, &case.lent, 0);
                    assert_eq!(number, DataNumber::Outside);
                    let shown = display(&case.message, &case.lent);
                    assert_eq!(shown, (header.told(), 0, 0));
                }
                continue;
            }
            let n = header.points as usize;
            assert_eq!(values[n..], case.values[n..]);
            assert_eq!(marks[n..], case.marks[n..]);
            let ones = marks[..n].iter().filter(|&&mark| mark == 1).count();
            assert_eq!(header.present as usize, ones);
            // The sections tile the message.
            let mut place = 0;
            for k in 0..6 {
                let part = section(&case.message, &case.lent, k);
                if part.len > 0 {
                    assert_eq!(part.start, place);
                    place += part.len;
                }
            }
            assert_eq!(place as usize, case.message.len());
            // Written again, only padding, reserved octets and minus zeros may
            // differ, and a second round changes nothing.
            let parts = parts_of(&case.message, &case.lent);
            let again = written(&parts);
            assert_eq!(again, cleaned(&case.message, &case.lent));
            assert_eq!(parts_of(&again, &case.lent), parts);
            assert_eq!(written(&parts_of(&again, &case.lent)), again);
            if again == case.message {
                same += 1;
            }
        }
    }
    assert!(same > 100, "{same}");
}

#[test]
fn writing() {
    for (seed, size) in SEEDS {
        for k in 0..COUNT {
            let case = write_case(seed, k, size);
            let mut out = case.out.clone();
            let (reply, length) = write(&case.parts, &mut out);
            let length = length as usize;
            if reply != 0 {
                assert_eq!((length, out), (0, case.out));
                continue;
            }
            assert_eq!(out[length..], case.out[length..]);
            let back = parts_of(&out[..length], &case.parts.lent);
            assert_eq!(back, as_read(&case.parts));
        }
    }
}

#[test]
fn packing() {
    for (seed, size) in SEEDS {
        for k in 0..COUNT {
            let case = pack_case(seed, k, size);
            let mut out = case.out.clone();
            let (reply, length) = pack(&case.pds, &case.form, &case.lent, &case.source, &mut out);
            let length = length as usize;
            if reply != 0 {
                assert_eq!((length, out), (0, case.out));
                continue;
            }
            assert_eq!(out[length..], case.out[length..]);
            let Source { numbers, marks, d } = &case.source;
            let checked = check(&out[..length], &case.lent, numbers, marks, *d);
            assert_eq!(checked, Reply::of(0));
        }
    }
}

#[test]
fn checking_agrees_with_reading() {
    for (seed, size) in SEEDS {
        for k in 0..COUNT {
            let case = check_case(seed, k, size);
            let Source { numbers, marks, d } = &case.source;
            let reply = check(&case.message, &case.lent, numbers, marks, *d);
            let read_reply = header(&case.message, &case.lent).told();
            // "1 to 12" includes 20 to 23.
            let of_the_message = matches!(reply.number, 1..=12 | 20..=23);
            assert_eq!(of_the_message, read_reply.number != 0);
            if of_the_message {
                assert_eq!(reply, read_reply);
            } else {
                assert_eq!(reply, Reply::of(reply.number));
            }
        }
    }
}

/// "The answer must equal what a full read gives there, for any accepted message and
/// an index filled from it": at every place of the chart; and 24 around it.
fn cursor_equals_reading(message: &[u8], lent: &Lent, room: &[u32]) {
    let mut index = room.to_vec();
    let filled = fill(message, lent, &mut index);
    let h = header(message, lent);
    if h.reply != 0 {
        assert_eq!((filled.reply, filled.entries), (h.told(), 0));
        assert_eq!(index, room);
        assert_eq!(under(message, lent, room, 0, 0).reply(), h.told());
        return;
    }
    let n = h.points as usize;
    let groups = n.div_ceil(GROUP);
    if room.len() < groups {
        assert_eq!((filled.reply, filled.entries), (Reply::of(14), 0));
        assert_eq!(index, room);
        return;
    }
    assert_eq!(
        (filled.reply, filled.entries as usize),
        (Reply::of(0), groups)
    );
    assert_eq!(index[groups..], room[groups..]);
    let (mut values, mut marks) = (vec![9; n], vec![9; n]);
    read(message, lent.number, &lent.octets, &mut values, &mut marks);
    let taken = Taken::of(message, lent).expect("an accepted message");
    for point in 0..n {
        let (row, column) = place_of(&h.grid, point as u32).expect("one of its points");
        let there = match marks[point] {
            1 => UnderCursor::Value(values[point]),
            _ => UnderCursor::Absent,
        };
        assert_eq!(taken.under(&index, row, column), there);
        if point % 61 == 0 {
            assert_eq!(taken.under(&index[..groups], row, column), there);
            let short = taken.under(&index[..groups - 1], row, column);
            assert_eq!(short.reply(), Reply::of(25));
        }
    }
    let rows = h.grid.nj as u32;
    let past = (0..rows).map(|row| (row, points_in_row(&h.grid, row)));
    for (row, column) in past.chain([(rows, 0), (u32::MAX, 0), (0, u32::MAX)]) {
        let off = UnderCursor::Refused(Reply::of(24));
        assert_eq!(under(message, lent, &index, row, column), off);
        assert_eq!(under(message, lent, &[], row, column), off);
    }
}

#[test]
fn the_cursor_equals_reading() {
    for (seed, size) in SEEDS {
        for k in 0..COUNT / 2 {
            let case = cursor_case(seed, k, size);
            cursor_equals_reading(&case.message, &case.lent, &case.asking.room);
        }
        for k in 0..COUNT / 5 {
            let case = read_case(seed, k, size);
            cursor_equals_reading(&case.message, &case.lent, &[7; 300]);
        }
    }
}

/// What an index can be at a place, as a case can meet it.
const INDEXES: [&str; 9] = [
    "the filled one",
    "other entries elsewhere",
    "another entry and the next",
    "too short",
    "too low or too high",
    "the next entry wrong",
    "above m, the next entry agreeing",
    "a sum of 32 bits agreeing",
    "in the last group",
];

/// Which of these an index is at a place; the last only where it is refused.
fn index_met(taken: &Taken, index: &[u32], group: usize) -> usize {
    let own = taken.entries();
    if index.len() < own.len() {
        return 3;
    }
    if index[..own.len()] == own {
        return 0;
    }
    let ones = count(taken.group(group)) as u32;
    let sum = index[group] as u64 + ones as u64;
    if group + 1 == own.len() {
        return if index[group] == own[group] { 1 } else { 8 };
    }
    match (sum == index[group + 1] as u64, index[group] == own[group]) {
        (true, _) if sum > taken.present() as u64 => 6,
        (true, true) => 1,
        (true, false) => 2,
        (false, true) => 5,
        (false, false) if sum as u32 == index[group + 1] => 7,
        (false, false) => 4,
    }
}

/// 25, and what is told from an index that is not refused, at each place that a case
/// asks for.
#[test]
fn every_index_is_met() {
    let mut met = [[0; 3]; INDEXES.len()];
    for (seed, size) in SEEDS {
        for k in 0..COUNT {
            let CursorCase {
                message,
                lent,
                asking,
            } = cursor_case(seed, k, size);
            let Ok(taken) = Taken::of(&message, &lent) else {
                continue;
            };
            for (row, column) in asking.places {
                let there = under(&message, &lent, &asking.index, row, column);
                let Some(point) = point_at(taken.grid(), row, column) else {
                    assert_eq!(there.reply(), Reply::of(24));
                    continue;
                };
                let what = index_met(&taken, &asking.index, point as usize / GROUP);
                assert_eq!(there.reply(), Reply::of(if what > 2 { 25 } else { 0 }));
                let absent = !taken.group(point as usize / GROUP)[point as usize % GROUP];
                met[what][absent as usize] += 1;
                met[what][2] += (taken.groups() > 3) as usize;
            }
        }
    }
    for (what, [present, absent, octants]) in INDEXES.iter().zip(met) {
        let some = present > 5 && absent > 5 && octants > 0;
        assert!(some, "{what}: {present}, {absent}, {octants}");
    }
}

fn enough(histogram: &Histogram, replies: &[u32], least: usize) {
    let all: usize = histogram.0.iter().sum();
    assert!(histogram.0[0] * 100 >= 40 * all, "{histogram}");
    for &reply in replies {
        assert!(histogram.0[reply as usize] >= least, "{reply}: {histogram}");
    }
    for (reply, &times) in histogram.0.iter().enumerate() {
        assert!(times == 0 || reply == 0 || replies.contains(&(reply as u32)));
    }
}

#[test]
fn every_reply_occurs() {
    for seed in 1..=5 {
        for size in [Size::Small, Size::Short] {
            let mut replies: [Histogram; 5] = Default::default();
            for k in 0..400 {
                let (_, reply) = antt::read_statements(k, &read_case(seed, k, size));
                replies[0].count(reply);
                let (_, reply) = antt::write_statements(k, &write_case(seed, k, size));
                replies[1].count(reply);
                let (_, reply) = antt::check_statements(k, &check_case(seed, k, size));
                replies[2].count(reply);
                let (_, reply) = antt::pack_statements(k, &pack_case(seed, k, size));
                replies[3].count(reply);
                let (_, all) = antt::cursor_statements(k, &cursor_case(seed, k, size));
                all.into_iter().for_each(|reply| replies[4].count(reply));
            }
            enough(&replies[0], &READ_REPLIES, 3);
            enough(&replies[1], &WRITE_REPLIES, 3);
            enough(&replies[2], &CHECK_REPLIES, 3);
            enough(&replies[3], &PACK_REPLIES, 3);
            enough(&replies[4], &CURSOR_REPLIES, 3);
        }
    }
}

/// 5 of document 01, for a message that 1 to 4 do not refuse: "a section length is
/// odd or under its least (PDS 28, GDS 32, BMS 6, BDS 12), PDS over 1,024, a
/// length's octets or its section passes the end section's start, or the sections
/// don't reach it exactly".
fn was_5(message: &[u8]) -> bool {
    let end = message.len() - 4;
    let mut reached = 8;
    let mut announced = [true, false, false, true];
    for (section, least) in [28, 32, 6, 12].into_iter().enumerate() {
        if !announced[section] {
            continue;
        }
        if reached + 3 > end {
            return true;
        }
        let octets = &message[reached..];
        let length = octets[..3].iter().fold(0, |sum, &x| 256 * sum + x as usize);
        let over = section == 0 && length > 1_024;
        if length % 2 == 1 || length < least || over || reached + length > end {
            return true;
        }
        if section == 0 {
            announced[1] = octets[7] >= 128;
            announced[2] = octets[7] % 128 >= 64;
        }
        reached += length;
    }
    reached != end
}

/// R-2 splits 5 and moves nothing else: a message that 1 to 4 do not refuse gets one
/// of 20 to 23 exactly when document 01 gave it 5.
#[test]
fn refused_by_20_to_23_where_it_was_5() {
    let mut split = 0;
    let mut judge = |message: &[u8], lent: &Lent| {
        let reply = header(message, lent).reply;
        assert_ne!(reply, 5);
        if !(1..=4).contains(&reply) {
            assert_eq!((20..=23).contains(&reply), was_5(message));
            split += usize::from(reply >= 20);
        }
    };
    for (seed, size) in SEEDS {
        for k in 0..COUNT {
            let case = read_case(seed, k, size);
            judge(&case.message, &case.lent);
            let case = check_case(seed, k, size);
            judge(&case.message, &case.lent);
        }
    }
    for vector in vectors::read::table().vectors {
        judge(&vector.message, &vector.lent);
    }
    assert!(split > 2_000, "{split}");
}

/// 6 of document 01, before R-3: "century 18 to 99, year of century 0 to 99, month 1
/// to 12, day by the Gregorian calendar, hour 0 to 23, minute 0 to 59".
fn was_6(pds: &[u8]) -> bool {
    let [year, month, day, hour, minute] = [12, 13, 14, 15, 16].map(|k| pds[k]);
    let century = pds[24];
    if !(18..=99).contains(&century) || year > 99 || !(1..=12).contains(&month) {
        return true;
    }
    let full = 100 * (century as u32 - 1) + year as u32;
    let leap = full % 4 == 0 && (full % 100 != 0 || full % 400 == 0);
    let last = match month {
        2 => 28 + u8::from(leap),
        4 | 6 | 9 | 11 => 30,
        _ => 31,
    };
    !(1..=last).contains(&day) || hour > 23 || minute > 59
}

/// A PDS with century, year of century, month, day, hour and minute put anew.
fn at(pds: &[u8], century: u8, time: &[u8]) -> Vec<u8> {
    let mut pds = pds.to_vec();
    pds[12..12 + time.len()].copy_from_slice(time);
    pds[24] = century;
    pds
}

/// Holds one case to R-3. `reply` is what the case gets with a PDS in the place of
/// its own, and `before` are the replies that come before 6.
fn amended(pds: &[u8], before: &[u32], reply: impl Fn(&[u8]) -> u32) {
    // what is left of the table where the time is in its ranges
    let rest = reply(&at(pds, 20, &[98, 3, 10, 6, 0]));
    let by_01 = |pds: &[u8]| match was_6(pds) && !before.contains(&rest) {
        true => 6,
        false => rest,
    };
    let own = (pds[24], pds[12]);
    for (century, year) in [own, (own.0, 0), (own.0, 100), (20, 100), (own.0, 101)] {
        for day in [&pds[13..15], &[2, 29]] {
            let pds = at(pds, century, &[year, day[0], day[1]]);
            let expected = match (century, year) {
                // "0 refused"
                (_, 0) if before.contains(&rest) => rest,
                (_, 0) => 6,
                // "100 is to be taken": the year that document 01 spelled thus
                (18..=98, 100) => by_01(&at(&pds, century + 1, &[0])),
                // 9900 had no spelling; like 9500 it is no leap year
                (99, 100) => by_01(&at(&pds, 96, &[0])),
                _ => by_01(&pds),
            };
            assert_eq!(reply(&pds), expected, "{century} {year} {day:?}");
        }
    }
}

/// R-3 moves the year of century's range and nothing else: what is read, checked,
/// written or packed gets the reply that document 01's table gave it, but that 0 is
/// never taken, and that 100 gets what the next century's 0 got.
#[test]
fn refused_by_6_as_it_was_but_for_0_and_100() {
    let lengths = [1, 2, 3, 4, 20, 21, 22, 23];
    let mut held = [0; 4];
    let put = |message: &[u8], pds: &[u8]| {
        let mut message = message.to_vec();
        message[8..8 + pds.len()].copy_from_slice(pds);
        message
    };
    for (seed, size) in SEEDS {
        for k in 0..COUNT / 3 {
            // a message that is refused before 6 need not have a PDS
            let case = read_case(seed, k, size);
            let reply = |message: &[u8]| {
                let (mut values, mut marks) = (case.values.clone(), case.marks.clone());
                let Lent { number, octets } = &case.lent;
                read(message, *number, octets, &mut values, &mut marks).reply
            };
            if !lengths.contains(&reply(&case.message)) {
                let pds = &case.message[8..36];
                amended(pds, &lengths, |pds| reply(&put(&case.message, pds)));
                held[0] += 1;
            }
            let case = check_case(seed, k, size);
            let reply = |message: &[u8]| {
                let Source { numbers, marks, d } = &case.source;
                check(message, &case.lent, numbers, marks, *d).number
            };
            if !lengths.contains(&reply(&case.message)) {
                let pds = &case.message[8..36];
                amended(pds, &lengths, |pds| reply(&put(&case.message, pds)));
                held[1] += 1;
            }
            let case = write_case(seed, k, size);
            if case.parts.pds.len() >= 28 {
                amended(&case.parts.pds, &[5], |pds| {
                    let mut parts = case.parts.clone();
                    parts.pds = pds.to_vec();
                    write(&parts, &mut case.out.clone()).0
                });
                held[2] += 1;
            }
            let case = pack_case(seed, k, size);
            if case.pds.len() >= 28 {
                amended(&case.pds, &[5, 18, 15, 11, 19], |pds| {
                    pack(
                        pds,
                        &case.form,
                        &case.lent,
                        &case.source,
                        &mut case.out.clone(),
                    )
                    .0
                });
                held[3] += 1;
            }
        }
    }
    assert!(held.iter().all(|&cases| cases > 1_000), "{held:?}");
}

/// The same of the time alone: every century and year of century, with each month and
/// the days at the ends of a month.
#[test]
fn every_time_as_it_was_but_for_0_and_100() {
    for century in 0..=255 {
        for year in 0..=255 {
            for month in 0..=13 {
                for day in [0, 1, 28, 29, 30, 31, 32] {
                    let pds = at(&[0; 28], century, &[year, month, day, 23, 59]);
                    let expected = match (century, year) {
                        (_, 0) => true,
                        (18..=98, 100) => was_6(&at(&pds, century + 1, &[0])),
                        (99, 100) => was_6(&at(&pds, 96, &[0])),
                        _ => was_6(&pds),
                    };
                    let told = time::time_out_of_range(&pds);
                    assert_eq!(told, expected, "{century} {year} {month} {day}");
                }
            }
        }
    }
}

/// Where a length goes wrong in the cases: a reply and the section that it names.
const STOPS: [(u32, u32); 13] = [
    (20, 1),
    (20, 2),
    (20, 3),
    (20, 4),
    (21, 1),
    (21, 2),
    (21, 3),
    (21, 4),
    (22, 1),
    (22, 2),
    (22, 3),
    (22, 4),
    (23, 5),
];

#[test]
fn every_section_is_named() {
    for size in [Size::Small, Size::Short, Size::Whole] {
        let mut named = std::collections::HashMap::new();
        // 22 by a length whose own octets don't fit, in each section
        let mut cut = [0; 5];
        for seed in 1..=6 {
            for k in 0..300 {
                let read = read_case(seed, k, size);
                let check = check_case(seed, k, size);
                for (message, lent) in [(read.message, read.lent), (check.message, check.lent)] {
                    let told = header(&message, &lent).told();
                    *named.entry((told.number, told.section)).or_insert(0) += 1;
                    if told.number == 22 && told.place as usize + 3 > message.len() - 3 {
                        cut[told.section as usize] += 1;
                    }
                }
            }
        }
        for stop in STOPS {
            let times = named.get(&stop).copied().unwrap_or(0);
            assert!(times >= 8, "{stop:?} {times} times");
        }
        assert!(cut[1..].iter().all(|&times| times >= 2), "{cut:?}");
    }
}

/// What R-3 moved is met by every kind of case, and often enough by the number of
/// cases that the definitions are held to.
#[test]
fn every_year_that_moved_is_met() {
    for size in [Size::Small, Size::Short, Size::Whole] {
        let mut met = [[0; YEARS.len()]; 4];
        let mut count = |kind: usize, pds: &[u8], reply: u32| {
            if let Some(year) = year_met(pds, reply) {
                met[kind][year] += 1;
            }
        };
        for seed in 1..=4 {
            for k in 0..1_000 {
                let case = read_case(seed, k, size);
                let reply = header(&case.message, &case.lent).reply;
                count(0, pds_in(&case.message), reply);
                let case = write_case(seed, k, size);
                count(
                    1,
                    &case.parts.pds,
                    write(&case.parts, &mut case.out.clone()).0,
                );
                let case = check_case(seed, k, size);
                let Source { numbers, marks, d } = &case.source;
                let reply = check(&case.message, &case.lent, numbers, marks, *d).number;
                count(2, pds_in(&case.message), reply);
                let PackCase {
                    pds,
                    form,
                    lent,
                    source,
                    mut out,
                } = pack_case(seed, k, size);
                count(3, &pds, pack(&pds, &form, &lent, &source, &mut out).0);
            }
        }
        for (kind, times) in ["read", "write", "check", "pack"].iter().zip(met) {
            assert!(
                times.iter().all(|&times| times >= 8),
                "{kind}: {YEARS:?} {times:?}"
            );
        }
    }
}

/// What R-4 added is met by every kind of case: each of the four kinds taken, refused by
/// 9, and where a message is read refused by 8.
#[test]
fn every_kind_of_grid_is_met() {
    for size in [Size::Small, Size::Short, Size::Whole] {
        let mut met = [[[0; KINDS_MET.len()]; 4]; 4];
        let mut count = |function: usize, kind: Option<u8>, reply: u32| {
            if let Some((which, how)) = kind.and_then(|kind| kind_met(kind, reply)) {
                met[function][which][how] += 1;
            }
        };
        for seed in 1..=8 {
            for k in 0..1_000 {
                let case = read_case(seed, k, size);
                let reply = header(&case.message, &case.lent).reply;
                count(0, kind_in(&case.message), reply);
                let case = write_case(seed, k, size);
                let reply = write(&case.parts, &mut case.out.clone()).0;
                count(1, case.parts.form.grid.map(|grid| grid.kind), reply);
                let case = check_case(seed, k, size);
                let Source { numbers, marks, d } = &case.source;
                let reply = check(&case.message, &case.lent, numbers, marks, *d).number;
                count(2, kind_in(&case.message), reply);
                let mut case = pack_case(seed, k, size);
                let PackCase {
                    pds,
                    form,
                    lent,
                    source,
                    out,
                } = &mut case;
                let reply = pack(pds, form, lent, source, out).0;
                count(3, form.grid.map(|grid| grid.kind), reply);
            }
        }
        for (function, kinds) in ["read", "write", "check", "pack"].iter().zip(met) {
            for times in kinds {
                let [taken, by_8, by_9] = times;
                let reads = ["read", "check"].contains(function);
                assert!(
                    taken >= 100 && by_9 >= 5 && (by_8 >= 5) == reads,
                    "{function}: {KINDS_MET:?} {kinds:?}"
                );
            }
        }
    }
}
