//! Rules 16 and 17: R and E, half a step.

use super::{field, specimen_field, Table};
use crate::vectors::messages::{flat, hex, packed, row, specimen, stored, Sections};
use crate::Source;

pub fn add(table: &mut Table) {
    exponents(table);
    references(table);
    halves(table);
    values(table);
}

fn exponents(table: &mut Table) {
    table.group("check-16");
    let rule = "16: checker: E outside 0 to 24";
    for (reply, octets, what) in [
        (16, "FFFF", "-32,767"),
        (16, "8018", "-24"),
        (16, "8002", "-2"),
        (16, "8001", "-1"),
        (0, "8000", "minus zero, which reads as 0"),
        (0, "0000", "0"),
        (0, "0001", "1"),
        (0, "0017", "23"),
        (0, "0018", "24"),
        (16, "0019", "25"),
        (16, "001A", "26"),
        (16, "0040", "64"),
        (16, "0100", "256"),
        (16, "7FFF", "32,767"),
    ] {
        let rule = format!("{rule}: {what}");
        let flat = flat(2, 1).bds(5, &hex(octets));
        table.add(
            reply,
            &format!("16-e-{octets}"),
            &rule,
            flat.message(),
            field(1, "2500 2500"),
        );
        let absent = row(4, "0000", 3, "").bds(5, &hex(octets));
        let rule = format!("{rule}, judged also with no present point");
        table.add(
            reply,
            &format!("16-e-{octets}-all-absent"),
            &rule,
            absent.message(),
            field(1, "- - - -"),
        );
    }
}

fn references(table: &mut Table) {
    let rule = "16: R not whole or over 8,388,607 in magnitude";
    // R's octets, and the number that they are where they are one
    for (octets, number) in [
        ("00000000", Some(0)),
        ("80000000", Some(0)),
        ("7F000000", Some(0)),
        ("FF000000", Some(0)),
        ("40000000", Some(0)),
        ("41100000", Some(1)),
        ("C1100000", Some(-1)),
        ("42010000", Some(1)),
        ("46000001", Some(1)),
        ("C6000001", Some(-1)),
        ("42640000", Some(100)),
        ("439C4000", Some(2_500)),
        ("4518BCD0", Some(101_325)),
        ("C518BCD0", Some(-101_325)),
        ("47000001", Some(16)),
        ("4B000001", Some(1_048_576)),
        ("4B000007", Some(7_340_032)),
        ("46100000", Some(1_048_576)),
        ("467FFFFE", Some(8_388_606)),
        ("467FFFFF", Some(8_388_607)),
        ("C67FFFFF", Some(-8_388_607)),
        ("4707FFFF", Some(8_388_592)),
        // over the bound
        ("477FFFF0", None),
        ("46800000", None),
        ("C6800000", None),
        ("46FFFFFF", None),
        ("47080000", None),
        ("4B000008", None),
        ("4B0000FF", None),
        ("4C000001", None),
        ("7FFFFFFF", None),
        ("FFFFFFFF", None),
        ("7F000001", None),
        // not whole: a half, 1 1/2, 1/16, the last digit behind the point
        ("40800000", None),
        ("C0800000", None),
        ("41180000", None),
        ("C1180000", None),
        ("40100000", None),
        ("40FFFFFF", None),
        ("45000001", None),
        ("45FFFFFF", None),
        ("44FFFF01", None),
        ("41100001", None),
        ("00000001", None),
        ("3F100000", None),
    ] {
        let message = || flat(2, 1).bds(7, &hex(octets)).message();
        let source = |number: i32| Source {
            numbers: vec![number; 2],
            marks: vec![1; 2],
            d: 1,
        };
        let reply = if number.is_some() { 0 } else { 16 };
        let number = number.unwrap_or(0);
        table.add(
            reply,
            &format!("16-r-{octets}"),
            rule,
            message(),
            source(number),
        );
        if reply == 0 {
            // E = 0: it is that number and no other
            let next = if number > 0 { number - 1 } else { number + 1 };
            let rule = "17: a whole R, and a point that is out by 1";
            table.add(17, &format!("17-r-{octets}"), rule, message(), source(next));
        }
        let absent = row(4, "0000", 3, "").bds(7, &hex(octets));
        table.add(
            reply,
            &format!("16-r-{octets}-all-absent"),
            "16 is judged also with no present point",
            absent.message(),
            field(1, "- - - -"),
        );
    }
}

/// Three points with N = 0, R = 0 and this E: X = 0 at each.
fn stepped(e: u8) -> Vec<u8> {
    flat(3, 1).bds(5, &[0, e]).bds(7, &[0; 4]).message()
}

fn halves(table: &mut Table) {
    table.group("check-17");
    let rule = "17: V within half a step of R + X x 2^E at each present point";
    // E, and the most that a point may be out by: half of 2^E
    for (e, half) in [
        (0, 0),
        (1, 1),
        (2, 2),
        (3, 4),
        (4, 8),
        (5, 16),
        (6, 32),
        (7, 64),
        (8, 128),
        (9, 256),
        (10, 512),
        (11, 1_024),
        (12, 2_048),
        (13, 4_096),
        (14, 8_192),
        (15, 16_384),
        (16, 32_768),
        (17, 65_536),
        (18, 131_072),
        (19, 262_144),
        (20, 524_288),
        (21, 1_048_576),
        (22, 2_097_152),
        (23, 4_194_304),
    ] {
        for (reply, out) in [(0, half), (17, half + 1)] {
            for (place, numbers) in [
                ("first", [out, 0, 0]),
                ("middle", [0, out, 0]),
                ("last", [0, 0, out]),
                ("first-below", [-out, 0, 0]),
                ("last-below", [0, 0, -out]),
            ] {
                let source = Source {
                    numbers: numbers.to_vec(),
                    marks: vec![1; 3],
                    d: 1,
                };
                let name = format!("17-e-{e}-out-{out}-{place}");
                table.add(reply, &name, rule, stepped(e), source);
            }
        }
    }
    // E = 24: half a step is 8,388,608. R -8,388,607 (C67FFFFF), X 0 and 1, so
    // points stand for -8,388,607 and 8,388,609
    let far = |values: &str| {
        let sections = Sections {
            bds: packed(1, values),
            ..flat(2, 1)
        };
        sections
            .bds(5, &hex("0018"))
            .bds(7, &hex("C67FFFFF"))
            .message()
    };
    for (reply, name, values, text) in [
        (0, "17-e-24-half-above", "00", "-8388607 1"),
        (17, "17-e-24-more-above", "00", "-8388607 2"),
        (0, "17-e-24-half-below", "01", "-8388607 1"),
        (17, "17-e-24-more-below", "01", "-8388607 0"),
        (0, "17-e-24-most", "01", "-8388607 8388607"),
        (17, "17-e-24-most-of-0", "00", "-8388607 8388607"),
        (17, "17-e-24-least-of-1", "11", "-8388607 8388607"),
        (0, "17-e-24-either", "10", "1 1"),
    ] {
        table.add(reply, name, rule, far(values), field(1, text));
    }
}

fn values(table: &mut Table) {
    let rule = "17: a present point is out by more than half a step";
    for (reply, name, text) in [
        (0, "17-specimen", "2500 2502 - 2507"),
        (17, "17-first-above", "2501 2502 - 2507"),
        (17, "17-first-below", "2499 2502 - 2507"),
        (17, "17-second-above", "2500 2503 - 2507"),
        (17, "17-second-below", "2500 2501 - 2507"),
        (17, "17-last-above", "2500 2502 - 2508"),
        (17, "17-last-below", "2500 2502 - 2506"),
        (17, "17-turned", "2500 2507 - 2502"),
        (17, "17-first-repeated", "2500 2500 - 2500"),
        (17, "17-sign-lost", "-2500 -2502 - -2507"),
        (17, "17-no-reference", "0 2 - 7"),
    ] {
        table.add(reply, name, rule, specimen().message(), field(1, text));
        let held = Sections {
            bms: stored(5),
            ..specimen()
        };
        table
            .add(
                reply,
                &format!("{name}-stored"),
                rule,
                held.message(),
                field(1, text),
            )
            .lend(5, "D0");
    }
    for number in [0, 2_505, -2_500, 8_388_607] {
        let mut source = specimen_field();
        source.numbers[2] = number;
        table.add(
            0,
            &format!("17-absent-{number}"),
            "absent source numbers are ignored",
            specimen().message(),
            source,
        );
    }
    // ten points, the last two present: X 10 and 5, E = 2, half a step 2
    let late = || {
        row(10, "0000000011", 4, "1010 0101")
            .bds(5, &hex("0002"))
            .message()
    };
    for (reply, name, eighth, last) in [
        (0, "17-late", "2540", "2520"),
        (0, "17-late-half", "2542", "2518"),
        (17, "17-late-first-above", "2543", "2520"),
        (17, "17-late-first-below", "2537", "2520"),
        (17, "17-late-last-above", "2540", "2523"),
        (17, "17-late-last-below", "2540", "2517"),
        (17, "17-late-by-grid-number", "2500", "2500"),
    ] {
        let text = format!("- - - - - - - - {eighth} {last}");
        table.add(reply, name, rule, late(), field(1, &text));
    }
    // N = 24, R -8,388,607: X 16,777,214 stands for 8,388,607
    let wide = |values: &str, e: u8| {
        let sections = Sections {
            bds: packed(24, values),
            ..flat(1, 1)
        };
        sections.bds(5, &[0, e]).bds(7, &hex("C67FFFFF")).message()
    };
    let ones = "1".repeat(24);
    let one_less = format!("{}0", "1".repeat(23));
    for (reply, name, values, e, text) in [
        (0, "17-n-24-most", &one_less, 0, "8388607"),
        (17, "17-n-24-one-more", &ones, 0, "8388607"),
        (17, "17-n-24-e-1", &ones, 1, "8388607"),
        (17, "17-n-24-far", &ones, 24, "8388607"),
        (17, "17-n-24-far-least", &ones, 24, "-8388607"),
        (17, "17-n-24-far-23", &ones, 23, "0"),
    ] {
        table.add(reply, name, rule, wide(values, e), field(1, text));
    }
    table.add(
        0,
        "17-all-absent",
        "no present point is out",
        row(4, "0000", 3, "").message(),
        field(1, "- - - -"),
    );
    // D changes nothing: V stands for Y x 10^D
    for (octets, d) in [("0000", 0), ("8005", -5), ("7FFF", 32_767)] {
        let source = Source {
            d,
            ..specimen_field()
        };
        table.add(
            0,
            &format!("17-d-{octets}"),
            "V stands for Y x 10^D, and so does R + X x 2^E",
            specimen().pds(27, &hex(octets)).message(),
            source,
        );
    }
    for (reply, point) in [(17, 0), (17, 32_768), (17, 65_535)] {
        let mut source = Source {
            numbers: vec![2_500; 65_536],
            marks: vec![1; 65_536],
            d: 1,
        };
        source.numbers[point] = 2_501;
        table.add(
            reply,
            &format!("17-65536-points-{point}"),
            rule,
            flat(256, 256).message(),
            source,
        );
    }
}
