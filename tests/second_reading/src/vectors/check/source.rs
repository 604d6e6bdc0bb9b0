//! Rules 1 to 12, 20 to 23 among them, 18 and 15: the message alone, the source
//! alone, and where they differ.

use super::{field, specimen_field, Table};
use crate::vectors::messages::{flat, hex, plain, row, specimen, stored, Sections};
use crate::vectors::read::with;
use crate::Source;

pub fn add(table: &mut Table) {
    messages(table);
    source_lists(table);
    source_numbers(table);
    decimals(table);
    points(table);
}

/// The specimen with bitmap 5, lent, for its own.
fn with_store() -> Vec<u8> {
    let sections = Sections {
        bms: stored(5),
        ..specimen()
    };
    sections.message()
}

fn messages(table: &mut Table) {
    table.group("check-1-to-12");
    let right = specimen_field;
    table.add(
        0,
        "check-specimen",
        "the specimen and its field",
        specimen().message(),
        right(),
    );
    table.add(1, "check-empty", "1: empty slice", Vec::new(), right());
    table.add(
        1,
        "check-7-octets",
        "1: slice below 8 octets",
        vec![0; 7],
        right(),
    );
    table.add(2, "check-8-octets", "8 octets pass 1", vec![0; 8], right());
    for number in 1..=12 {
        let name = format!("check-message-{number}");
        let rule = "1 to 12 as the reader gives them, 20 to 23 among them";
        let message = with(&[number]);
        match number {
            5 => table.stop((20, 4, 77), &name, rule, message, right()),
            _ => table.add(number, &name, rule, message, right()),
        };
    }
    // 29 February of a year 100, leap and not; 0 and 101
    let at = |century: u8, time: [u8; 5]| {
        let sections = specimen().pds(13, &time).pds(25, &[century]);
        sections.message()
    };
    let leap_day = || at(20, [100, 2, 29, 6, 0]);
    let rule = "R-3: 100 is to be taken, and 2000 is a leap year";
    table.add(0, "check-2000-2-29", rule, leap_day(), right());
    let rule = "15: D of message and source differ, in the year 2000";
    let other_d = Source { d: 2, ..right() };
    table.add(15, "check-2000-2-29-d", rule, leap_day(), other_d);
    let rule = "17: a present point is out by more than half a step, in the year 2000";
    let out = field(1, "2500 2502 - 2508");
    table.add(17, "check-2000-2-29-out", rule, leap_day(), out);
    for (name, rule, century, time) in [
        (
            "check-1900-2-29",
            "6: 1900 is no leap year",
            19,
            [100, 2, 29, 6, 0],
        ),
        ("check-year-0", "6, R-3: 0 refused", 20, [0, 3, 10, 6, 0]),
        (
            "check-year-101",
            "6, R-3: the year of century runs from 1 to 100",
            20,
            [101, 3, 10, 6, 0],
        ),
    ] {
        table.add(6, name, rule, at(century, time), right());
    }
    let rule = "10: no such stored bitmap";
    for (reply, name, number, octets) in [
        (0, "check-stored", 5, "D0"),
        (0, "check-stored-bits-after", 5, "DF"),
        (10, "check-stored-none", 0, ""),
        (10, "check-stored-number", 4, "D0"),
        (10, "check-stored-no-octets", 5, ""),
    ] {
        table
            .add(reply, name, rule, with_store(), right())
            .lend(number, octets);
    }
    table
        .add(
            0,
            "check-carried-beside-a-store",
            "number 0: bits follow, whatever is lent",
            specimen().message(),
            right(),
        )
        .lend(5, "00");
}

/// A field of so many numbers and marks, each number 2,500 and each mark 1.
fn lists(numbers: usize, marks: usize) -> Source {
    Source {
        numbers: vec![2_500; numbers],
        marks: vec![1; marks],
        d: 1,
    }
}

fn source_lists(table: &mut Table) {
    table.group("check-18");
    let rule = "18: source lists unequal, 0 or over 65,536 long";
    for (reply, numbers, marks) in [
        (0, 4, 4),
        (18, 3, 4),
        (18, 4, 3),
        (18, 5, 4),
        (18, 4, 5),
        (18, 0, 0),
        (18, 0, 4),
        (18, 4, 0),
        (18, 0, 1),
        (18, 1, 0),
    ] {
        table.add(
            reply,
            &format!("18-numbers-{numbers}-marks-{marks}"),
            rule,
            flat(2, 2).message(),
            lists(numbers, marks),
        );
    }
    for (reply, numbers, marks) in [
        (15, 65_535, 65_535),
        (0, 65_536, 65_536),
        (18, 65_537, 65_537),
        (18, 65_536, 65_537),
        (18, 65_537, 65_536),
        (18, 65_535, 65_536),
    ] {
        table.add(
            reply,
            &format!("18-numbers-{numbers}-marks-{marks}"),
            rule,
            flat(256, 256).message(),
            lists(numbers, marks),
        );
    }
    let rule = "18: a mark not 0 or 1";
    for mark in [2, 3, 128, 255] {
        for point in 0..4 {
            let mut source = specimen_field();
            source.marks[point] = mark;
            table.add(
                18,
                &format!("18-mark-{mark}-at-{point}"),
                rule,
                specimen().message(),
                source,
            );
        }
    }
    let mut source = lists(65_536, 65_536);
    source.marks[65_535] = 2;
    table.add(
        18,
        "18-mark-2-at-65535",
        rule,
        flat(256, 256).message(),
        source,
    );
}

/// Two points with N = 0 and this R.
fn two(r: &str) -> Vec<u8> {
    flat(2, 1).bds(7, &hex(r)).message()
}

fn source_numbers(table: &mut Table) {
    let rule = "18: a present number outside its bound, -8,388,607 to 8,388,607";
    // R 8,388,607 and -8,388,607
    for (reply, r, number) in [
        (17, "467FFFFF", 8_388_606),
        (0, "467FFFFF", 8_388_607),
        (18, "467FFFFF", 8_388_608),
        (18, "467FFFFF", 8_388_609),
        (18, "467FFFFF", 16_777_215),
        (18, "467FFFFF", 16_777_216),
        (18, "467FFFFF", i32::MAX),
        (17, "C67FFFFF", -8_388_606),
        (0, "C67FFFFF", -8_388_607),
        (18, "C67FFFFF", -8_388_608),
        (18, "C67FFFFF", -8_388_609),
        (18, "C67FFFFF", -16_777_216),
        (18, "C67FFFFF", i32::MIN + 1),
        (18, "C67FFFFF", i32::MIN),
    ] {
        let bound = 8_388_607 * number.signum();
        for (place, numbers) in [("first", [number, bound]), ("last", [bound, number])] {
            let source = Source {
                numbers: numbers.to_vec(),
                marks: vec![1, 1],
                d: 1,
            };
            table.add(reply, &format!("18-{number}-{place}"), rule, two(r), source);
        }
    }
    for number in [8_388_607, 8_388_608, -8_388_608, i32::MAX, i32::MIN] {
        let mut source = specimen_field();
        source.numbers[2] = number;
        table.add(
            0,
            &format!("18-absent-{number}"),
            "absent source numbers are ignored",
            specimen().message(),
            source,
        );
    }
}

fn decimals(table: &mut Table) {
    table.group("check-15");
    let rule = "15: D of message and source differ";
    for (octets, d, others) in [
        ("0001", 1, [0, 2, -1]),
        ("0000", 0, [1, -1, 32_768]),
        // "Minus zero reads as 0"
        ("8000", 0, [1, -1, -32_768]),
        ("8002", -2, [2, -1, -32_766]),
        ("FFFE", -32_766, [-2, 32_766, -32_767]),
        ("7FFF", 32_767, [-32_767, 32_766, 32_768]),
        ("FFFF", -32_767, [32_767, -1, -32_768]),
        ("0100", 256, [1, 0, 65_792]),
        ("0080", 128, [-128, i32::MAX, i32::MIN]),
    ] {
        let message = || specimen().pds(27, &hex(octets)).message();
        let source = |d| Source {
            d,
            ..specimen_field()
        };
        table.add(
            0,
            &format!("15-d-{octets}-and-{d}"),
            rule,
            message(),
            source(d),
        );
        for other in others {
            let name = format!("15-d-{octets}-and-{other}");
            table.add(15, &name, rule, message(), source(other));
        }
    }
}

fn points(table: &mut Table) {
    let rule = "15: point count of message and source differ";
    for (reply, name, text) in [
        (0, "15-count-4", "2500 2502 2505 2507"),
        (15, "15-count-3", "2500 2502 2505"),
        (15, "15-count-5", "2500 2502 2505 2507 2507"),
        (15, "15-count-1", "2500"),
        (15, "15-count-8", "2500 2502 2505 2507 2500 2502 2505 2507"),
    ] {
        table.add(reply, name, rule, plain().message(), field(1, text));
    }
    for (reply, name, text) in [
        (15, "15-count-3-bitmap", "2500 2502 -"),
        (15, "15-count-present", "2500 2502 2507"),
        (15, "15-count-5-bitmap", "2500 2502 - 2507 -"),
    ] {
        table.add(reply, name, rule, specimen().message(), field(1, text));
    }
    for (reply, points) in [(15, 65_535), (0, 65_536)] {
        table.add(
            reply,
            &format!("15-count-{points}-of-65536"),
            rule,
            flat(256, 256).message(),
            lists(points, points),
        );
    }
    let rule = "15: marks of message and source differ";
    for (reply, name, text) in [
        (0, "15-marks-1101", "2500 2502 - 2507"),
        (15, "15-marks-0101", "- 2502 - 2507"),
        (15, "15-marks-1001", "2500 - - 2507"),
        (15, "15-marks-1111", "2500 2502 2500 2507"),
        (15, "15-marks-1100", "2500 2502 - -"),
        (15, "15-marks-1011", "2500 - 2502 2507"),
        (15, "15-marks-0000", "- - - -"),
    ] {
        table.add(reply, name, rule, specimen().message(), field(1, text));
        table
            .add(
                reply,
                &format!("{name}-stored"),
                rule,
                with_store(),
                field(1, text),
            )
            .lend(5, "D0");
    }
    table
        .add(15, "15-another-store", rule, with_store(), specimen_field())
        .lend(5, "B0");
    let rule = "15: without a bitmap every mark of the message is 1";
    for (name, text) in [
        ("15-without-0111", "- 2502 2505 2507"),
        ("15-without-1110", "2500 2502 2505 -"),
        ("15-without-0000", "- - - -"),
    ] {
        table.add(15, name, rule, plain().message(), field(1, text));
    }
    // whole octets of the bitmap, then a part of one
    let marks = "11111111 00000000 0110";
    let message = || row(20, marks, 4, &"0000".repeat(10)).message();
    let all = || Source {
        numbers: vec![2_500; 20],
        marks: crate::vectors::given::marks(marks),
        d: 1,
    };
    let rule = "15: marks of message and source, whole octets and a part";
    table.add(0, "15-octets", rule, message(), all());
    for point in [0, 7, 8, 15, 16, 17, 18, 19] {
        let mut source = all();
        source.marks[point] = 1 - source.marks[point];
        table.add(15, &format!("15-octets-{point}"), rule, message(), source);
    }
}
