//! Fields that must be packed: R, E and X by hand.

use super::{base, line, packing, Table};
use crate::vectors::check::{field, specimen_field};
use crate::vectors::given::{flat, grid, listed, pds, row, stored};
use crate::{BitmapKind, Lent, Source};

pub fn add(table: &mut Table) {
    table.group("pack-taken");
    by_hand(table);
    references(table);
    least(table);
    rounding(table);
    absent(table);
    large(table);
    table.group("pack-steps");
    steps(table);
    widths(table);
}

fn by_hand(table: &mut Table) {
    table
        .add(0, "pack-specimen", "the specimen", base())
        .scale(0, "439C4000")
        .values(&[0, 2, 0, 7])
        .message(
            "47524942 00005E 01
             00001C 03 07 00 FF C0 0B 64 01F4 62030A0600 01 00 00 00 0000 00 14 00 0001
             000020 00 FF 00 0002 0002 00C350 8007D0 80 00C738 8003E8 03E8 03E8 40 00000000
             000008 0C 0000 D000
             00000E 0F 0000 439C4000 03 0B8000
             37373737",
        );
    table
        .add(
            0,
            "pack-stored",
            "the specimen with a stored bitmap",
            packing(stored(), specimen_field()),
        )
        .scale(0, "439C4000")
        .values(&[0, 2, 0, 7])
        .message(
            "47524942 00005C 01
             00001C 03 07 00 FF C0 0B 64 01F4 62030A0600 01 00 00 00 0000 00 14 00 0001
             000020 00 FF 00 0002 0002 00C350 8007D0 80 00C738 8003E8 03E8 03E8 40 00000000
             000006 00 0005
             00000E 0F 0000 439C4000 03 0B8000
             37373737",
        );
    // R -1; r 0, 101 and 6: E = 6 makes X 0, 2 and 0, E = 5 makes 0, 3 and 0; 2 bits
    table
        .add(
            0,
            "pack-three",
            "E is the least for which all X are below 2^N",
            line(2, "-1 100 5"),
        )
        .scale(5, "C1100000")
        .values(&[0, 3, 0])
        .message(
            "47524942 000054 01
             00001C 03 07 00 FF 80 0B 64 01F4 62030A0600 01 00 00 00 0000 00 14 00 0001
             000020 00 FF 00 0003 0001 00C350 8007D0 80 00C738 8003E8 03E8 03E8 40 00000000
             00000C 02 0005 C1100000 02 30
             37373737",
        );
    let mut given = base();
    given.form.flags = 2;
    table
        .add(
            0,
            "pack-flag-3",
            "flag bit 3 is the caller's choice, carried",
            given,
        )
        .scale(0, "439C4000");
}

fn references(table: &mut Table) {
    let rule = "R with leading hex digit not zero, and zero as 32 zero bits";
    for (number, r) in [
        (0, "00000000"),
        (1, "41100000"),
        (-1, "C1100000"),
        (2, "41200000"),
        (15, "41F00000"),
        (-15, "C1F00000"),
        (16, "42100000"),
        (-16, "C2100000"),
        (100, "42640000"),
        (255, "42FF0000"),
        (256, "43100000"),
        (2_500, "439C4000"),
        (4_095, "43FFF000"),
        (4_096, "44100000"),
        (65_535, "44FFFF00"),
        (65_536, "45100000"),
        (101_325, "4518BCD0"),
        (-101_325, "C518BCD0"),
        (1_048_575, "45FFFFF0"),
        (-1_048_575, "C5FFFFF0"),
        (1_048_576, "46100000"),
        (-1_048_576, "C6100000"),
        (8_388_606, "467FFFFE"),
        (8_388_607, "467FFFFF"),
        (-8_388_607, "C67FFFFF"),
    ] {
        for (name, width) in [("no-bits", 0), ("8-bits", 8)] {
            table
                .add(
                    0,
                    &format!("pack-r-{number}-{name}"),
                    rule,
                    line(width, &format!("{number} {number} {number}")),
                )
                .scale(0, r)
                .values(&[0, 0, 0]);
        }
        table
            .add(
                0,
                &format!("pack-r-{number}-one-point"),
                rule,
                line(3, &number.to_string()),
            )
            .scale(0, r)
            .values(&[0]);
    }
}

fn least(table: &mut Table) {
    let rule = "R is the least present V";
    for (name, text, r, values) in [
        ("first", "-3 0 4 1", "C1300000", [0, 3, 7, 4]),
        ("second", "0 -3 4 1", "C1300000", [3, 0, 7, 4]),
        ("last", "4 1 0 -3", "C1300000", [7, 4, 3, 0]),
        ("positive", "7 5 9 6", "41500000", [2, 0, 4, 1]),
        ("negative", "-7 -5 -9 -6", "C1900000", [2, 4, 0, 3]),
        ("zero", "0 7 0 7", "00000000", [0, 7, 0, 7]),
        ("to-zero", "-7 0 -7 0", "C1700000", [0, 7, 0, 7]),
    ] {
        table
            .add(0, &format!("pack-least-{name}"), rule, line(3, text))
            .scale(0, r)
            .values(&values);
    }
    for number in [-5, 8_388_607, -8_388_607, i32::MIN] {
        let mut given = line(3, "3 - 1 4");
        given.source.numbers[1] = number;
        table
            .add(
                0,
                &format!("pack-least-beside-{number}"),
                "R is the least present V; the absent one is ignored",
                given,
            )
            .scale(0, "41100000")
            .values(&[2, 0, 0, 3]);
    }
    for (name, text, values) in [
        ("first-absent", "- 3 1 4", [0, 2, 0, 3]),
        ("last-absent", "3 1 4 -", [2, 0, 3, 0]),
        ("only-last", "- - - 1", [0, 0, 0, 0]),
    ] {
        table
            .add(0, &format!("pack-least-{name}"), rule, line(3, text))
            .scale(0, "41100000")
            .values(&values);
    }
}

fn rounding(table: &mut Table) {
    let rule = "X is the whole part of (r + 2^(E - 1)) / 2^E";
    // the cases marked P: r = 7, 3 and 4 with E = 3, which a spread of 11 asks for
    // with N = 1
    table
        .add(0, "pack-p-cases", rule, line(1, "0 3 4 7 11"))
        .scale(3, "00000000")
        .values(&[0, 0, 1, 1, 1]);
    table
        .add(
            0,
            "pack-p-cases-below",
            rule,
            line(1, "-100 -97 -96 -93 -89"),
        )
        .scale(3, "C2640000")
        .values(&[0, 0, 1, 1, 1]);
    table
        .add(
            0,
            "pack-p-cases-bitmap",
            rule,
            line(1, "- 0 - 3 4 - 7 11 -"),
        )
        .scale(3, "00000000")
        .values(&[0, 0, 0, 0, 1, 0, 1, 1, 0]);
    // E = 1: halves go up; 2 bits and a spread of 6
    table
        .add(0, "pack-halves-e-1", rule, line(2, "0 1 2 3 4 5 6"))
        .scale(1, "00000000")
        .values(&[0, 1, 1, 2, 2, 3, 3]);
    // E = 2 with 2 bits and a spread of 13
    table
        .add(0, "pack-halves-e-2", rule, line(2, "0 1 2 3 5 6 7 9 10 13"))
        .scale(2, "00000000")
        .values(&[0, 0, 1, 1, 1, 2, 2, 2, 3, 3]);
    // rounding up is why a spread of 7 needs E = 2 with 2 bits: E = 1 would make 4
    table
        .add(0, "pack-rounded-over", rule, line(2, "0 7"))
        .scale(2, "00000000")
        .values(&[0, 2]);
    // E = 4 with 4 bits and a spread of 240: the tie 8, 24, .. goes up
    table
        .add(
            0,
            "pack-halves-e-4",
            rule,
            line(4, "0 7 8 23 24 231 232 240"),
        )
        .scale(4, "00000000")
        .values(&[0, 0, 1, 1, 2, 14, 15, 15]);
    table
        .add(0, "pack-halves-e-24", rule, line(1, "-8388607 0 1 8388607"))
        .scale(24, "C67FFFFF")
        .values(&[0, 0, 1, 1]);
}

fn absent(table: &mut Table) {
    let rule = "no present point: R = 0, E = 0";
    for width in [0, 1, 24] {
        let mut given = line(width, "- - - -");
        given.source.numbers = vec![5, -8_388_608, i32::MAX, 9];
        table
            .add(0, &format!("pack-all-absent-n-{width}"), rule, given)
            .scale(0, "00000000")
            .values(&[0; 4]);
    }
    table
        .add(0, "pack-one-absent", rule, line(3, "-"))
        .scale(0, "00000000")
        .values(&[0]);
    let parts = row(BitmapKind::Stored(7), 3, &[None; 4]);
    table
        .add(
            0,
            "pack-all-absent-stored",
            rule,
            packing(parts, field(1, "- - - -")),
        )
        .scale(0, "00000000")
        .values(&[0; 4]);
}

fn large(table: &mut Table) {
    // the last of 65,536 points alone is higher, or lower, or present
    let flat_field = || Source {
        numbers: vec![100; 65_536],
        marks: vec![1; 65_536],
        d: 1,
    };
    for (name, number, e, r) in [
        // r is 255 at the last point, and 0 elsewhere
        ("higher", 355, 0, "42640000"),
        // R -156 (9C), and r is 256 elsewhere: E = 1 makes 128
        ("lower", -156, 1, "C29C0000"),
    ] {
        let mut parts = flat(grid(256, 256));
        parts.form.bits = 8;
        let mut source = flat_field();
        source.numbers[65_535] = number;
        table
            .add(
                0,
                &format!("pack-65536-last-{name}"),
                "65,536 points",
                packing(parts, source),
            )
            .scale(e, r)
            .room(70_000);
    }
    let mut parts = flat(grid(256, 256));
    parts.pds = pds(0xC0);
    parts.form.bitmap = BitmapKind::Stored(6);
    parts.form.bits = 24;
    let mut octets = vec![0; 8_192];
    octets[8_191] = 1;
    parts.lent = Lent { number: 6, octets };
    let mut source = flat_field();
    source.marks = vec![0; 65_536];
    source.marks[65_535] = 1;
    source.numbers[65_535] = 101_325;
    table
        .add(
            0,
            "pack-65536-last-present",
            "65,536 points, the last one present",
            packing(parts, source),
        )
        .scale(0, "4518BCD0");
    // a grid of the catalogue, its first point lower
    let mut parts = listed(29, 0);
    parts.form.bits = 4;
    let mut source = flat_field();
    source.numbers.truncate(5_365);
    source.marks.truncate(5_365);
    source.numbers[0] = 0;
    // r is 100: E = 3 makes (100 + 4) / 8 = 13, E = 2 makes 25
    table
        .add(
            0,
            "pack-grid-29",
            "a grid of the catalogue",
            packing(parts, source),
        )
        .scale(3, "00000000")
        .room(4_000);
}

fn steps(table: &mut Table) {
    let rule = "E is the least of 0 to 24 for which all X are below 2^N";
    // N = 1: each E with the least and the most spread that it is least for, since
    // (r + 2^(E - 1)) / 2^E is below 2 while r is below 3 x 2^(E - 1)
    for (e, least, most) in [
        (0, 0, 1),
        (1, 2, 2),
        (2, 3, 5),
        (3, 6, 11),
        (4, 12, 23),
        (5, 24, 47),
        (6, 48, 95),
        (7, 96, 191),
        (8, 192, 383),
        (9, 384, 767),
        (10, 768, 1_535),
        (11, 1_536, 3_071),
        (12, 3_072, 6_143),
        (13, 6_144, 12_287),
        (14, 12_288, 24_575),
        (15, 24_576, 49_151),
        (16, 49_152, 98_303),
        (17, 98_304, 196_607),
        (18, 196_608, 393_215),
        (19, 393_216, 786_431),
        (20, 786_432, 1_572_863),
        (21, 1_572_864, 3_145_727),
        (22, 3_145_728, 6_291_455),
        (23, 6_291_456, 12_582_911),
        (24, 12_582_912, 16_777_214),
    ] {
        for spread in [least, most] {
            let highest = -8_388_607 + spread;
            let name = format!("pack-n-1-spread-{spread}");
            let given = line(1, &format!("-8388607 {highest}"));
            let x = (spread > 0) as u32;
            table
                .add(0, &name, rule, given)
                .scale(e, "C67FFFFF")
                .values(&[0, x]);
            if least == most {
                break;
            }
        }
    }
    // N = 0: X is 0 while r is below 2^(E - 1); E = 1 is never least
    for (e, least, most) in [
        (0, 0, 0),
        (2, 1, 1),
        (3, 2, 3),
        (4, 4, 7),
        (5, 8, 15),
        (6, 16, 31),
        (7, 32, 63),
        (8, 64, 127),
        (9, 128, 255),
        (10, 256, 511),
        (11, 512, 1_023),
        (12, 1_024, 2_047),
        (13, 2_048, 4_095),
        (14, 4_096, 8_191),
        (15, 8_192, 16_383),
        (16, 16_384, 32_767),
        (17, 32_768, 65_535),
        (18, 65_536, 131_071),
        (19, 131_072, 262_143),
        (20, 262_144, 524_287),
        (21, 524_288, 1_048_575),
        (22, 1_048_576, 2_097_151),
        (23, 2_097_152, 4_194_303),
        (24, 4_194_304, 8_388_607),
    ] {
        for spread in [least, most] {
            table
                .add(
                    0,
                    &format!("pack-n-0-spread-{spread}"),
                    rule,
                    line(0, &format!("{spread} 0")),
                )
                .scale(e, "00000000")
                .values(&[0, 0]);
            if least == most {
                break;
            }
        }
    }
    // N = 8: X is below 256 while r is below 511 x 2^(E - 1)
    for (e, spread, x) in [
        (0, 255, 255),
        (1, 256, 128),
        (1, 510, 255),
        (2, 511, 128),
        (2, 1_021, 255),
        (3, 1_022, 128),
        (3, 2_043, 255),
        (4, 2_044, 128),
    ] {
        table
            .add(
                0,
                &format!("pack-n-8-spread-{spread}"),
                rule,
                line(8, &format!("0 {spread}")),
            )
            .scale(e, "00000000")
            .values(&[0, x]);
    }
}

fn widths(table: &mut Table) {
    let rule = "E = 0 while the spread is below 2^N; one more needs E = 1, and 2 where N = 0";
    for width in 0..=23u8 {
        let limit = 1i64 << width;
        for (e, spread) in [(0, limit - 1), (if width == 0 { 2 } else { 1 }, limit)] {
            let x = match e {
                0 => spread,
                1 => (spread + 1) / 2,
                _ => 0,
            };
            let kind = if e == 0 { "less-1" } else { "itself" };
            table
                .add(
                    0,
                    &format!("pack-n-{width}-of-2-to-n-{kind}"),
                    rule,
                    line(width, &format!("-1 {}", spread - 1)),
                )
                .scale(e, "C1100000")
                .values(&[0, x as u32]);
        }
    }
    table
        .add(
            0,
            "pack-n-24-most",
            "N = 24 takes every spread with E = 0",
            line(24, "-8388607 8388607"),
        )
        .scale(0, "C67FFFFF")
        .values(&[0, 16_777_214]);
}
