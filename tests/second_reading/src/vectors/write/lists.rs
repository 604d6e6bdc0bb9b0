//! Rules 10, 11, 13 and 14: stored bitmap, packing, lists, room.

use super::Table;
use crate::vectors::given::{
    flat, given, grid, lend, listed, marks, pds, pds_of, plain, row, specimen, stored,
};
use crate::vectors::kinds::{Kind, LAMBERT, MERCATOR};
use crate::{BitmapKind, Lent, Parts};

pub fn add(table: &mut Table) {
    stored_bitmaps(table);
    bits_and_marks(table);
    packing(table);
    list_lengths(table);
    points(table);
    octet_8(table);
    room(table);
}

/// A row of absent points with a stored bitmap of this number.
fn absent(points: usize, number: u16, lent: Lent) -> Parts {
    let mut parts = row(BitmapKind::Stored(number), 0, &vec![None; points]);
    parts.lent = lent;
    parts
}

fn stored_bitmaps(table: &mut Table) {
    table.group("10-bitmap");
    let rule = "10: its number must be this one and its octets hold at least n bits";
    for (reply, name, points, number, lent) in [
        (0, "10-stored", 4, 5, lend(5, "00")),
        (10, "10-number-4", 4, 5, lend(4, "00")),
        (10, "10-number-6", 4, 5, lend(6, "00")),
        (10, "10-number-turned", 4, 0x0100, lend(0x0001, "00")),
        (0, "10-number-1", 4, 1, lend(1, "00")),
        (0, "10-number-256", 4, 256, lend(256, "00")),
        (0, "10-number-65535", 4, 65_535, lend(65_535, "00")),
        (10, "10-number-65534", 4, 65_535, lend(65_534, "00")),
        (10, "10-none-lent", 4, 5, lend(0, "")),
        (10, "10-number-0-lent", 4, 5, lend(0, "00")),
        (10, "10-number-0", 4, 0, lend(0, "00")),
        (10, "10-number-0-none-lent", 4, 0, lend(0, "")),
        (10, "10-number-0-of-5", 4, 0, lend(5, "00")),
        (10, "10-no-octets", 4, 5, lend(5, "")),
        (10, "10-no-octets-of-1", 1, 5, lend(5, "")),
        (0, "10-1-in-8", 1, 5, lend(5, "00")),
        (0, "10-7-in-8", 7, 5, lend(5, "00")),
        (0, "10-8-in-8", 8, 5, lend(5, "00")),
        (10, "10-9-in-8", 9, 5, lend(5, "00")),
        (0, "10-9-in-16", 9, 5, lend(5, "0000")),
        (0, "10-15-in-16", 15, 5, lend(5, "0000")),
        (0, "10-16-in-16", 16, 5, lend(5, "0000")),
        (10, "10-17-in-16", 17, 5, lend(5, "0000")),
        (0, "10-17-in-24", 17, 5, lend(5, "000000")),
        (0, "10-more", 4, 5, lend(5, "00FFFFFFFF")),
    ] {
        let vector = table.add(reply, name, rule, absent(points, number, lent));
        if reply == 0 {
            // 8, 28, 32, 6, 12 and 4
            vector.length(90);
        }
    }
    for (reply, octets) in [(10, 8_191), (0, 8_192), (0, 8_193)] {
        let mut parts = flat(grid(256, 256));
        parts.pds = pds(0xC0);
        parts.form.bitmap = BitmapKind::Stored(5);
        parts.lent = Lent {
            number: 5,
            octets: vec![0xFF; octets],
        };
        table.add(reply, &format!("10-65536-in-{octets}-octets"), rule, parts);
    }
    for (number, octets, name) in [(0, 671, "grid-29"), (5, 670, "grid-29-short")] {
        // 5,365 points need 671 octets
        let mut parts = listed(29, 5_365);
        parts.pds = pds(0x40);
        parts.pds[6] = 29;
        parts.form.bitmap = BitmapKind::Stored(5);
        parts.lent = Lent {
            number,
            octets: vec![0xFF; octets],
        };
        table.add(10, &format!("10-{name}"), rule, parts);
    }
    let whatever = "10: whatever the lists are";
    for (name, values, marks) in [
        ("10-lists-3", 3, 3),
        ("10-lists-5", 5, 5),
        ("10-no-lists", 0, 0),
        ("10-marks-3", 4, 3),
    ] {
        let mut parts = stored();
        parts.lent.number = 4;
        parts.values.resize(values, 0);
        parts.marks.resize(marks, 0);
        table.add(10, name, whatever, parts);
    }
    table.add(
        0,
        "10-carried-beside-a-store",
        "a carried bitmap goes by the marks, whatever is lent",
        given(|parts| parts.lent = lend(7, "FF")),
    );
    table.add(
        0,
        "10-without-beside-a-store",
        "no bitmap: nothing lent is looked at",
        {
            let mut parts = plain();
            parts.lent = lend(7, "00");
            parts
        },
    );
}

/// The specimen with bitmap 5, lent, and these marks; values 0.
fn marked(octets: &str, marks: &[u8]) -> Parts {
    let mut parts = row(BitmapKind::Stored(5), 3, &vec![None; marks.len()]);
    parts.lent = lend(5, octets);
    parts.marks = marks.to_vec();
    parts
}

fn bits_and_marks(table: &mut Table) {
    let rule = "10: one of its first n bits isn't the same number as the mark";
    for (reply, name, octets, text) in [
        (0, "10-marks-1101", "D0", "1101"),
        (10, "10-marks-0101", "D0", "0101"),
        (10, "10-marks-1001", "D0", "1001"),
        (10, "10-marks-1111", "D0", "1111"),
        (10, "10-marks-1100", "D0", "1100"),
        (10, "10-marks-0010", "D0", "0010"),
        (10, "10-marks-turned", "D0", "1011"),
        (0, "10-bits-after", "DF", "1101"),
        (0, "10-octets-after", "D0FF", "1101"),
        (0, "10-point-7", "01", "00000001"),
        (10, "10-point-7-other", "00", "00000001"),
        (0, "10-point-8", "0080", "000000001"),
        (10, "10-point-8-other", "0000", "000000001"),
        (10, "10-point-8-late", "0040", "000000001"),
        (0, "10-point-15", "0001", "0000000000000001"),
        (10, "10-point-15-other", "0000", "0000000000000001"),
        (0, "10-point-16", "000080", "00000000000000001"),
        (10, "10-point-16-other", "000000", "00000000000000001"),
        (10, "10-point-16-absent", "000080", "00000000000000000"),
    ] {
        table.add(reply, name, rule, marked(octets, &marks(text)));
    }
    for (name, list) in [
        ("10-mark-2-for-1", [2, 1, 0, 1]),
        ("10-mark-2-for-0", [1, 1, 2, 1]),
        ("10-mark-3-for-1", [1, 3, 0, 1]),
        ("10-mark-128-for-1", [128, 1, 0, 1]),
        ("10-mark-255-last", [1, 1, 0, 255]),
    ] {
        table.add(
            10,
            name,
            "10: a mark that is neither 0 nor 1 is not the same number as any bit",
            marked("D0", &list),
        );
    }
    let unequal = "13: the comparison is made of lists n long; these are not";
    for (name, values, text) in [
        ("10-marks-3-unlike", 4, "000"),
        ("10-marks-5-unlike", 4, "00000"),
        ("10-values-3-unlike", 3, "0000"),
        ("10-values-5-unlike", 5, "0000"),
        ("10-both-3-unlike", 3, "000"),
        ("10-no-lists-unlike", 0, ""),
    ] {
        let mut parts = stored();
        parts.values = vec![0; values];
        parts.marks = marks(text);
        table.add(13, name, unequal, parts);
    }
    for (reply, name, last) in [(0, "10-point-65535", 0), (10, "10-point-65535-other", 1)] {
        let mut parts = flat(grid(256, 256));
        parts.pds = pds(0xC0);
        parts.form.bitmap = BitmapKind::Stored(5);
        parts.lent.number = 5;
        parts.lent.octets = vec![0xFF; 8_192];
        parts.lent.octets[8_191] = 0xFE;
        parts.marks[65_535] = last;
        table.add(reply, name, rule, parts);
    }
}

fn packing(table: &mut Table) {
    table.group("11-packing");
    let rule = "11: BDS flag bits 1, 2 and 4 are 0; bit 3 is carried";
    for (reply, flags) in [
        (0, 0),
        (11, 1),
        (0, 2),
        (11, 3),
        (11, 4),
        (11, 5),
        (11, 6),
        (11, 7),
        (11, 8),
        (11, 9),
        (11, 10),
        (11, 11),
        (11, 12),
        (11, 13),
        (11, 14),
        (11, 15),
    ] {
        let parts = given(|parts| parts.form.flags = flags);
        table.add(reply, &format!("11-flags-{flags}"), rule, parts);
    }
    for flags in [16, 18, 32, 34, 130, 255] {
        let parts = given(|parts| parts.form.flags = flags);
        table.add(
            11,
            &format!("11-flags-{flags}"),
            "11: the flags are four bits, and of these only bit 3 may be set",
            parts,
        );
    }
    for (reply, bits) in [
        (0, 3),
        (0, 23),
        (0, 24),
        (11, 25),
        (11, 26),
        (11, 31),
        (11, 32),
        (11, 33),
        (11, 64),
        (11, 128),
        (11, 255),
    ] {
        let parts = given(|parts| parts.form.bits = bits);
        table.add(reply, &format!("11-n-{bits}"), "11: N over 24", parts);
    }
    let rule = "11: (writing) E outside -32,767 to 32,767";
    for (reply, e) in [
        (0, 0),
        (0, 1),
        (0, -1),
        (0, 24),
        (0, 255),
        (0, -256),
        (0, 32_766),
        (0, 32_767),
        (11, 32_768),
        (11, 32_769),
        (0, -32_766),
        (0, -32_767),
        (11, -32_768),
        (11, -32_769),
        (11, 65_535),
        (11, 65_536),
        (11, -65_536),
        (11, i32::MAX),
        (11, i32::MIN),
    ] {
        let parts = given(|parts| parts.e = e);
        table.add(reply, &format!("11-e-{e}"), rule, parts);
    }
    table.add(
        11,
        "11-all-absent",
        "11: N over 24 with no point present",
        row(BitmapKind::Carried, 25, &[None; 4]),
    );
}

fn list_lengths(table: &mut Table) {
    table.group("13-lists");
    let rule = "13: lists not n long";
    for (reply, values, marks) in [
        (0, 4, 4),
        (13, 3, 4),
        (13, 4, 3),
        (13, 5, 4),
        (13, 4, 5),
        (13, 3, 3),
        (13, 5, 5),
        (13, 3, 5),
        (13, 0, 0),
        (13, 0, 4),
        (13, 4, 0),
        (13, 8, 8),
        (13, 260, 260),
    ] {
        for (kind, base) in [
            ("", plain()),
            ("-carried", specimen()),
            ("-stored", stored()),
        ] {
            let mut parts = base;
            parts.values.resize(values, 0);
            parts.marks.resize(marks, 1);
            let name = format!("13-values-{values}-marks-{marks}{kind}");
            table.add(reply, &name, rule, parts);
        }
    }
    for (reply, points) in [(13, 0), (0, 1), (13, 2)] {
        let mut parts = flat(grid(1, 1));
        parts.values = vec![0; points];
        parts.marks = vec![1; points];
        table.add(reply, &format!("13-{points}-of-1"), rule, parts);
    }
    for (reply, points) in [(13, 5_364), (0, 5_365), (13, 5_366)] {
        let name = format!("13-{points}-of-5365");
        table.add(reply, &name, rule, listed(29, points));
    }
    for (reply, points) in [(13, 65_535), (0, 65_536), (13, 65_537)] {
        let mut parts = flat(grid(256, 256));
        parts.values = vec![0; points];
        parts.marks = vec![1; points];
        table.add(reply, &format!("13-{points}-of-65536"), rule, parts);
    }
}

fn points(table: &mut Table) {
    let rule = "13: a mark not 0 or 1";
    for mark in [2, 3, 128, 255] {
        for point in 0..4 {
            for (kind, base) in [("without", plain()), ("carried", specimen())] {
                let mut parts = base;
                parts.values = vec![0; 4];
                parts.marks[point] = mark;
                let name = format!("13-mark-{mark}-at-{point}-{kind}");
                table.add(13, &name, rule, parts);
            }
        }
    }
    let rule = "13: an absent point without a bitmap";
    for (reply, text) in [
        (0, "1111"),
        (13, "0111"),
        (13, "1011"),
        (13, "1101"),
        (13, "1110"),
        (13, "0000"),
    ] {
        let mut parts = plain();
        parts.values = vec![0; 4];
        parts.marks = marks(text);
        table.add(reply, &format!("13-without-{text}"), rule, parts);
    }
    let rule = "13: an absent point with value not 0";
    for (reply, value) in [
        (0, 0),
        (13, 1),
        (13, 7),
        (13, 8),
        (13, 1 << 24),
        (13, u32::MAX),
    ] {
        for (kind, base) in [("carried", specimen()), ("stored", stored())] {
            let mut parts = base;
            parts.values[2] = value;
            let name = format!("13-absent-{value}-{kind}");
            table.add(reply, &name, rule, parts);
        }
    }
    for point in [0, 3] {
        let mut points = [Some(5); 4];
        points[point] = None;
        let mut parts = row(BitmapKind::Carried, 3, &points);
        parts.values[point] = 5;
        table.add(13, &format!("13-absent-5-at-{point}"), rule, parts);
    }
    let rule = "13: a value of 2^N or more";
    for bits in 0..=24u8 {
        let limit = 1u32 << bits;
        for (reply, value) in [(0, limit - 1), (13, limit), (13, limit + 1)] {
            let mut first = plain();
            first.form.bits = bits;
            first.values = vec![value, 0, 0, 0];
            let name = format!("13-n-{bits}-value-{value}");
            table.add(reply, &name, rule, first);
            let mut last = specimen();
            last.form.bits = bits;
            last.values = vec![0, 0, 0, value];
            let name = format!("13-n-{bits}-value-{value}-last");
            table.add(reply, &name, rule, last);
        }
    }
    for (bits, value) in [
        (0, u32::MAX),
        (24, u32::MAX),
        (24, 1 << 31),
        (8, 256 + (1 << 24)),
    ] {
        let mut parts = plain();
        parts.form.bits = bits;
        parts.values = vec![0, value, 0, 0];
        let name = format!("13-n-{bits}-value-{value}-second");
        table.add(13, &name, rule, parts);
    }
}

fn octet_8(table: &mut Table) {
    let rule = "13: PDS octet 8 bits 1 and 2 matching the grid and the bitmap given";
    // a grid and a bitmap, a grid alone, a bitmap alone, neither
    for (kind, grid_given, bitmap, right) in [
        ("grid-carried", true, BitmapKind::Carried, 0xC0),
        ("grid-stored", true, BitmapKind::Stored(5), 0xC0),
        ("grid-without", true, BitmapKind::Without, 0x80),
        ("listed-carried", false, BitmapKind::Carried, 0x40),
        ("listed-stored", false, BitmapKind::Stored(5), 0x40),
        ("listed-without", false, BitmapKind::Without, 0x00),
    ] {
        for (octet, alike) in [
            (0x00, 0x00),
            (0x40, 0x40),
            (0x80, 0x80),
            (0xC0, 0xC0),
            (0x3F, 0x00),
            (0x7F, 0x40),
            (0xBF, 0x80),
            (0xFF, 0xC0),
        ] {
            let mut parts = if grid_given {
                flat(grid(2, 2))
            } else {
                listed(29, 5_365)
            };
            parts.pds[7] = octet;
            parts.form.bitmap = bitmap;
            if bitmap == BitmapKind::Stored(5) {
                parts.lent.number = 5;
                parts.lent.octets = vec![0xFF; 671];
            }
            let reply = if alike == right { 0 } else { 13 };
            let name = format!("13-octet-8-{octet:02X}-{kind}");
            table.add(reply, &name, rule, parts);
        }
    }
}

fn room(table: &mut Table) {
    table.group("14-room");
    let rule = "14: lent output too short; writing fills the message's octets, later ones stay";
    let longest = || {
        let mut parts = flat(grid(256, 256));
        parts.pds = pds_of(1_024);
        parts.form.bitmap = BitmapKind::Carried;
        parts.form.bits = 24;
        parts.values = vec![0xFF_FFFF; 65_536];
        parts
    };
    let longest_of = |kind: Kind| {
        let mut parts = longest();
        parts.form.grid = Some(kind.sized(256, 256));
        parts
    };
    let long_pds = || given(|parts| parts.pds = pds_of(1_024));
    let no_points = || row(BitmapKind::Carried, 3, &[None; 4]);
    for (name, parts, length) in [
        // 8, 28, 32, 8, 14 and 4
        ("specimen", specimen(), 94),
        // 8, 28, 32, 14 and 4
        ("plain", plain(), 86),
        // 8, 28, 32, 6, 14 and 4
        ("stored", stored(), 92),
        // 8, 28, 32, 8, 12 and 4
        ("no-points", no_points(), 92),
        // 8, 28, 32, 12 and 4
        ("no-bits", flat(grid(2, 2)), 84),
        // 8, 28, 12 and 4
        ("grid-29", listed(29, 5_365), 52),
        // 8, 1,024, 32, 8, 14 and 4
        ("long-pds", long_pds(), 1_090),
        // 8, 1,024, 32, 6 + 8,192, 11 + 196,608 + 1 and 4
        ("longest", longest(), 205_886),
        // 8, 1,024, 42, 6 + 8,192, 11 + 196,608 + 1 and 4
        ("longest-lambert", longest_of(LAMBERT), 205_896),
        ("longest-mercator", longest_of(MERCATOR), 205_896),
    ] {
        for (reply, room) in [
            (14, 0),
            (14, 1),
            (14, length - 2),
            (14, length - 1),
            (0, length),
            (0, length + 1),
            (0, length + 300),
        ] {
            table
                .add(reply, &format!("14-{name}-{room}"), rule, parts.clone())
                .room(room)
                .length(if reply == 0 { length as u32 } else { 0 });
        }
    }
}
