//! 5, 18, 15, 11, 19, then the writer's 6, 7, 9, 10, 13 and 14.

use super::{base, changed, line, packing, Given, Table};
use crate::vectors::check::{field, specimen_field};
use crate::vectors::edges::{times, COUNTS, NOT_LISTED, SPECIMEN_OF_2000, YEAR_100};
use crate::vectors::given::{
    flat, grid, lend, listed, marks, pds_of, plain, row, specimen, stored, LISTED,
};
use crate::vectors::messages::{hex, set};
use crate::{BitmapKind, Grid, Parts, Source};

pub fn add(table: &mut Table) {
    pds(table);
    source_lists(table);
    source_numbers(table);
    decimals(table);
    choices(table);
    spread(table);
    time(table);
    grids(table);
    bitmaps(table);
    lists(table);
    room(table);
}

fn pds(table: &mut Table) {
    table.group("pack-5");
    let rule = "5: the PDS length, even, 28 to 1,024, and its octets 1-3";
    for (reply, length) in [
        (5, 0),
        (5, 2),
        (5, 3),
        (5, 26),
        (5, 27),
        (0, 28),
        (5, 29),
        (0, 30),
        (0, 1_022),
        (5, 1_023),
        (0, 1_024),
        (5, 1_025),
        (5, 1_026),
    ] {
        let given = changed(|given| given.pds = pds_of(length));
        table.add(reply, &format!("pack-5-pds-{length}"), rule, given);
    }
    for (length, octets) in [
        (28, "00001B"),
        (28, "00001D"),
        (28, "00001E"),
        (28, "00011C"),
        (28, "01001C"),
        (30, "00001C"),
    ] {
        let given = changed(|given| {
            given.pds = pds_of(length);
            set(&mut given.pds, 1, &hex(octets));
        });
        table.add(5, &format!("pack-5-says-{octets}-of-{length}"), rule, given);
    }
}

/// So many numbers and marks, each number 2,500 and each mark 1.
fn lists_of(numbers: usize, marks: usize) -> Source {
    Source {
        numbers: vec![2_500; numbers],
        marks: vec![1; marks],
        d: 1,
    }
}

fn source_lists(table: &mut Table) {
    table.group("pack-18");
    let rule = "18: source lists unequal, 0 or over 65,536 long";
    for (reply, numbers, marks) in [
        (0, 4, 4),
        (18, 3, 4),
        (18, 4, 3),
        (18, 5, 4),
        (18, 4, 5),
        (18, 0, 0),
        (18, 0, 4),
        (18, 4, 0),
        (18, 1, 0),
        (18, 0, 1),
    ] {
        let name = format!("pack-18-numbers-{numbers}-marks-{marks}");
        table.add(
            reply,
            &name,
            rule,
            packing(plain(), lists_of(numbers, marks)),
        );
    }
    for (reply, numbers, marks) in [
        (13, 65_535, 65_535),
        (0, 65_536, 65_536),
        (18, 65_537, 65_537),
        (18, 65_536, 65_537),
        (18, 65_537, 65_536),
        (18, 65_536, 65_535),
    ] {
        let name = format!("pack-18-numbers-{numbers}-marks-{marks}");
        let given = packing(flat(grid(256, 256)), lists_of(numbers, marks));
        table.add(reply, &name, rule, given);
    }
    let rule = "18: a mark not 0 or 1";
    for mark in [2, 3, 128, 255] {
        for point in 0..4 {
            for (kind, parts) in [("carried", specimen()), ("stored", stored())] {
                let mut given = packing(parts, specimen_field());
                given.source.marks[point] = mark;
                let name = format!("pack-18-mark-{mark}-at-{point}-{kind}");
                table.add(18, &name, rule, given);
            }
        }
    }
    let mut given = packing(flat(grid(256, 256)), lists_of(65_536, 65_536));
    given.source.marks[65_535] = 2;
    table.add(18, "pack-18-mark-2-at-65535", rule, given);
}

fn source_numbers(table: &mut Table) {
    let rule = "18: a present number outside its bound, -8,388,607 to 8,388,607";
    for (reply, number) in [
        (0, 8_388_606),
        (0, 8_388_607),
        (18, 8_388_608),
        (18, 16_777_216),
        (18, i32::MAX),
        (0, -8_388_606),
        (0, -8_388_607),
        (18, -8_388_608),
        (18, -16_777_216),
        (18, i32::MIN + 1),
        (18, i32::MIN),
    ] {
        for (place, text) in [
            ("first", format!("{number} 0")),
            ("last", format!("0 {number}")),
        ] {
            let name = format!("pack-18-{number}-{place}");
            table.add(reply, &name, rule, line(24, &text));
        }
    }
    for number in [
        8_388_607,
        8_388_608,
        -8_388_607,
        -8_388_608,
        i32::MAX,
        i32::MIN,
    ] {
        let given = changed(|given| given.source.numbers[2] = number);
        table
            .add(
                0,
                &format!("pack-18-absent-{number}"),
                "absent source numbers are ignored, and X there is 0",
                given,
            )
            .scale(0, "439C4000")
            .values(&[0, 2, 0, 7]);
    }
}

fn decimals(table: &mut Table) {
    table.group("pack-15");
    let rule = "15 (D of PDS and source only)";
    for (octets, d, others) in [
        ("0001", 1, [0, 2, -1]),
        ("0000", 0, [1, -1, 32_768]),
        // "Minus zero reads as 0"
        ("8000", 0, [1, -1, -32_768]),
        ("8002", -2, [2, -1, -32_766]),
        ("FFFE", -32_766, [-2, 32_766, -32_767]),
        ("7FFF", 32_767, [-32_767, 32_766, 32_768]),
        ("FFFF", -32_767, [32_767, -1, -32_768]),
        ("0100", 256, [1, 0, 65_792]),
        ("0080", 128, [-128, i32::MAX, i32::MIN]),
    ] {
        let given = |d| {
            changed(|given| {
                set(&mut given.pds, 27, &hex(octets));
                given.source.d = d;
            })
        };
        table.add(0, &format!("pack-15-d-{octets}-and-{d}"), rule, given(d));
        for other in others {
            let name = format!("pack-15-d-{octets}-and-{other}");
            table.add(15, &name, rule, given(other));
        }
    }
}

fn choices(table: &mut Table) {
    table.group("pack-11-and-19");
    let rule = "11: BDS flag bits 1, 2 and 4 are 0; bit 3 is carried";
    for (reply, flags) in [
        (0, 0),
        (11, 1),
        (0, 2),
        (11, 3),
        (11, 4),
        (11, 6),
        (11, 8),
        (11, 10),
        (11, 15),
        (11, 16),
        (11, 18),
        (11, 255),
    ] {
        let given = changed(|given| given.form.flags = flags);
        table.add(reply, &format!("pack-11-flags-{flags}"), rule, given);
    }
    for (reply, bits) in [(0, 23), (0, 24), (11, 25), (11, 32), (11, 64), (11, 255)] {
        let given = changed(|given| given.form.bits = bits);
        table.add(reply, &format!("pack-11-n-{bits}"), "11: N over 24", given);
    }
}

fn spread(table: &mut Table) {
    let rule = "19: for N = 0 exactly when the spread is 8,388,608 or more";
    for (name, text, r) in [
        ("8388606", "0 8388606", "00000000"),
        ("8388607", "0 8388607", "00000000"),
        ("8388607-turned", "8388607 0", "00000000"),
        ("8388607-below", "-8388607 0", "C67FFFFF"),
        ("8388607-about", "-4194303 4194304", "C63FFFFF"),
    ] {
        table
            .add(0, &format!("pack-19-spread-{name}"), rule, line(0, text))
            .scale(24, r);
    }
    for (name, text) in [
        ("8388608", "-1 8388607"),
        ("8388608-turned", "8388607 -1"),
        ("8388608-about", "-4194304 4194304"),
        ("8388609", "-2 8388607"),
        ("16777213", "-8388606 8388607"),
        ("16777214", "-8388607 8388607"),
        ("last", "0 0 0 0 -1 8388607"),
        ("bitmap", "- -1 - 8388607"),
    ] {
        let name = format!("pack-19-spread-{name}");
        table.add(19, &name, rule, line(0, text));
    }
    let absent = "absent source numbers are ignored";
    for (name, number) in [("above", 8_388_607), ("below", -8_388_607)] {
        let mut given = line(0, "0 - 1");
        given.source.numbers[1] = number;
        table
            .add(0, &format!("pack-19-absent-{name}"), absent, given)
            .scale(2, "00000000");
    }
    for bits in [1, 2, 8, 23, 24] {
        table.add(
            0,
            &format!("pack-19-n-{bits}"),
            "some E from 0 to 24 fits where N is not 0",
            line(bits, "-8388607 8388607"),
        );
    }
}

fn time(table: &mut Table) {
    table.group("pack-6-to-9");
    for time in times() {
        let given = changed(|given| {
            set(&mut given.pds, 25, &[time.century]);
            set(&mut given.pds, 13, &time.octets);
        });
        table.add(time.reply, &format!("pack-{}", time.name), time.rule, given);
    }
    let leap_day = changed(|given| set(&mut given.pds, 13, &[100, 2, 29, 6, 0]));
    table
        .add(0, "pack-6-2000-2-29-octets", YEAR_100, leap_day)
        .message(SPECIMEN_OF_2000);
}

fn grids(table: &mut Table) {
    for (number, points) in LISTED {
        table
            .add(
                0,
                &format!("pack-7-grid-{number}"),
                "without a grid, PDS octet 7 picks from the catalogue, and n is that grid's",
                packing(listed(number, 0), lists_of(points, points)),
            )
            .scale(0, "439C4000");
    }
    for number in NOT_LISTED {
        table.add(
            7,
            &format!("pack-7-grid-{number}"),
            "7: no grid given, octet 7 not in the catalogue",
            packing(listed(number, 4), lists_of(4, 4)),
        );
    }
    for (reply, ni, nj) in COUNTS {
        let points = ni as usize * nj as usize;
        let points = if reply == 0 { points } else { 4 };
        table.add(
            reply,
            &format!("pack-9-{ni}-by-{nj}"),
            "9: Ni and Nj 1 to 65,534, points n = Ni x Nj 1 to 65,536",
            packing(flat(grid(ni, nj)), lists_of(points, points)),
        );
    }
    let rule = "9: latitude at most 90,000, longitude 360,000, in magnitude";
    for (reply, name, la1, lo1, la2, lo2) in [
        (0, "most", -90_000, -360_000, 90_000, 360_000),
        (9, "la1", -90_001, 0, 90_000, 0),
        (9, "la2", -90_000, 0, 90_001, 0),
        (9, "lo1", -90_000, 360_001, 90_000, 0),
        (9, "lo2", -90_000, 0, 90_000, -360_001),
        (9, "la1-least", i32::MIN, 0, 0, 0),
        (9, "lo2-least", 0, 0, 1, i32::MIN),
    ] {
        let grid = Grid {
            la1,
            lo1,
            la2,
            lo2,
            ..grid(2, 2)
        };
        let given = packing(flat(grid), lists_of(4, 4));
        table.add(reply, &format!("pack-9-{name}"), rule, given);
    }
    let rule = "9: the scan test";
    for (reply, name, la2, scan, rows) in [
        (9, "north-equal", 50_000, 64, 2),
        (0, "north-above", 50_001, 64, 2),
        (0, "south-below", 49_999, 0, 2),
        (9, "south-equal", 50_000, 0, 2),
        (0, "one-row", 50_000, 64, 1),
    ] {
        let grid = Grid {
            la2,
            scan,
            ..grid(2, rows)
        };
        let points = 2 * rows as usize;
        let given = packing(flat(grid), lists_of(points, points));
        table.add(reply, &format!("pack-9-{name}"), rule, given);
    }
}

/// Absent points with a stored bitmap of this number.
fn absent(points: usize, number: u16) -> Parts {
    row(BitmapKind::Stored(number), 3, &vec![None; points])
}

fn bitmaps(table: &mut Table) {
    table.group("pack-10-to-14");
    let rule = "10: its number must be this one and its octets hold at least n bits";
    for (reply, name, points, number, lent) in [
        (0, "pack-10-stored", 4, 5, lend(5, "00")),
        (10, "pack-10-number-4", 4, 5, lend(4, "00")),
        (10, "pack-10-number-6", 4, 5, lend(6, "00")),
        (10, "pack-10-none-lent", 4, 5, lend(0, "")),
        (10, "pack-10-number-0", 4, 0, lend(0, "00")),
        (0, "pack-10-number-65535", 4, 65_535, lend(65_535, "00")),
        (10, "pack-10-no-octets", 1, 5, lend(5, "")),
        (0, "pack-10-8-in-8", 8, 5, lend(5, "00")),
        (10, "pack-10-9-in-8", 9, 5, lend(5, "00")),
        (0, "pack-10-9-in-16", 9, 5, lend(5, "0000")),
    ] {
        let mut given = packing(absent(points, number), lists_of(points, points));
        given.source.marks.fill(0);
        given.lent = lent;
        table.add(reply, name, rule, given);
    }
    let rule = "10: one of its first n bits isn't the same number as the mark";
    for (reply, name, octets, text) in [
        (0, "pack-10-marks-1101", "D0", "1101"),
        (10, "pack-10-marks-0101", "D0", "0101"),
        (10, "pack-10-marks-1001", "D0", "1001"),
        (10, "pack-10-marks-1111", "D0", "1111"),
        (10, "pack-10-marks-1100", "D0", "1100"),
        (0, "pack-10-bits-after", "DF", "1101"),
        (10, "pack-10-point-7", "00", "00000001"),
        (10, "pack-10-point-8", "0000", "000000001"),
        (0, "pack-10-point-8-there", "0080", "000000001"),
    ] {
        let marks = marks(text);
        let mut given = packing(absent(marks.len(), 5), lists_of(marks.len(), 0));
        given.source.marks = marks;
        given.lent = lend(5, octets);
        table.add(reply, name, rule, given);
    }
}

fn lists(table: &mut Table) {
    let rule = "13: source lists not n long";
    for (reply, points) in [(13, 1), (13, 3), (0, 4), (13, 5), (13, 8)] {
        for (kind, parts) in [("without", plain()), ("carried", specimen())] {
            let name = format!("pack-13-lists-{points}-{kind}");
            table.add(reply, &name, rule, packing(parts, lists_of(points, points)));
        }
        // bitmap 5 has 1101, and lists that are not n long are not compared
        let mut given = packing(stored(), lists_of(points, points));
        given.lent = lend(5, "FF");
        table.add(
            reply,
            &format!("pack-13-lists-{points}-stored"),
            rule,
            given,
        );
    }
    for (reply, points) in [(13, 5_364), (0, 5_365), (13, 5_366)] {
        let name = format!("pack-13-lists-{points}-of-5365");
        table.add(
            reply,
            &name,
            rule,
            packing(listed(29, 0), lists_of(points, points)),
        );
    }
    let rule = "13: an absent point without a bitmap";
    for (reply, name, text) in [
        (0, "pack-13-without-1111", "2500 2502 2505 2507"),
        (13, "pack-13-without-0111", "- 2502 2505 2507"),
        (13, "pack-13-without-1110", "2500 2502 2505 -"),
        (13, "pack-13-without-0000", "- - - -"),
    ] {
        table.add(reply, name, rule, packing(plain(), field(1, text)));
    }
    let rule = "13: PDS octet 8 bits 1 and 2 matching the grid and the bitmap given";
    for (octet, alike) in [
        (0x00, 0x00),
        (0x40, 0x40),
        (0x80, 0x80),
        (0xC0, 0xC0),
        (0x3F, 0x00),
        (0x7F, 0x40),
        (0xBF, 0x80),
        (0xFF, 0xC0),
    ] {
        let grid_29 = || packing(listed(29, 0), lists_of(5_365, 5_365));
        let grid_29_carried = || {
            let mut given = grid_29();
            given.form.bitmap = BitmapKind::Carried;
            given
        };
        for (kind, given, right) in [
            ("grid-carried", base(), 0xC0),
            ("grid-stored", packing(stored(), specimen_field()), 0xC0),
            ("grid-without", packing(plain(), lists_of(4, 4)), 0x80),
            ("listed-without", grid_29(), 0x00),
            ("listed-carried", grid_29_carried(), 0x40),
        ] {
            let mut given: Given = given;
            given.pds[7] = octet;
            let reply = if alike == right { 0 } else { 13 };
            let name = format!("pack-13-octet-8-{octet:02X}-{kind}");
            table.add(reply, &name, rule, given);
        }
    }
}

fn room(table: &mut Table) {
    let rule = "14: lent output too short; later octets stay";
    for (name, given, length) in [
        ("specimen", base(), 94),
        ("stored", packing(stored(), specimen_field()), 92),
        ("plain", packing(plain(), lists_of(4, 4)), 86),
        (
            "grid-29",
            packing(listed(29, 0), lists_of(5_365, 5_365)),
            52,
        ),
    ] {
        for (reply, room) in [
            (14, 0),
            (14, 1),
            (14, length - 1),
            (0, length),
            (0, length + 1),
            (0, length + 300),
        ] {
            let name = format!("pack-14-{name}-{room}");
            table.add(reply, &name, rule, given.clone()).room(room);
        }
    }
}
