//! Rules 5, 6, 7 and 9: PDS, time, catalogue, grid.

use super::Table;
use crate::vectors::edges::{
    times, COUNTS, LATITUDES, LONGITUDES, NOT_LISTED, SPECIMEN_OF_2000, YEAR_100,
};
use crate::vectors::given::{flat, given, grid, listed, pds_of, plain, with_pds, LISTED};
use crate::vectors::messages::{hex, set};
use crate::{Grid, Parts};

pub fn add(table: &mut Table) {
    pds(table);
    time(table);
    catalogue(table);
    counts(table);
    corners(table);
    scan(table);
}

fn pds(table: &mut Table) {
    table.group("5-pds");
    for (reply, length, rule) in [
        (5, 0, "5: no PDS"),
        (5, 1, "5: not even a length"),
        (5, 2, "5: not even a length"),
        (5, 3, "5: PDS length odd"),
        (5, 4, "5: PDS length under 28"),
        (5, 26, "5: PDS length under 28"),
        (5, 27, "5: PDS length odd"),
        (0, 28, "the least PDS"),
        (5, 29, "5: PDS length odd"),
        (0, 30, "an even PDS length"),
        (5, 31, "5: PDS length odd"),
        (0, 100, "an even PDS length"),
        (0, 254, "an even PDS length"),
        (5, 255, "5: PDS length odd"),
        (0, 256, "a PDS length in two octets"),
        (0, 1_022, "an even PDS length"),
        (5, 1_023, "5: PDS length odd"),
        (0, 1_024, "the longest PDS"),
        (5, 1_025, "5: PDS length odd, over 1,024"),
        (5, 1_026, "5: PDS over 1,024"),
        (5, 2_048, "5: PDS over 1,024"),
        (5, 65_564, "5: PDS over 1,024, though 28 more than 65,536"),
    ] {
        let parts = given(|parts| parts.pds = pds_of(length));
        table.add(reply, &format!("5-pds-{length}"), rule, parts);
    }
    let rule = "5: the PDS's octets 1-3 say its length";
    for (reply, length, octets) in [
        (0, 28, "00001C"),
        (5, 28, "00001A"),
        (5, 28, "00001B"),
        (5, 28, "00001D"),
        (5, 28, "00001E"),
        (5, 28, "000000"),
        (5, 28, "00011C"),
        (5, 28, "01001C"),
        (5, 28, "80001C"),
        (5, 28, "1C0000"),
        (5, 28, "FFFFFF"),
        (5, 26, "00001C"),
        (5, 27, "00001C"),
        (5, 29, "00001C"),
        (5, 30, "00001C"),
        (5, 30, "000020"),
        (5, 256, "000000"),
        (5, 256, "000001"),
        (5, 256, "010000"),
        (5, 1_024, "000300"),
        (5, 1_024, "000402"),
        (5, 1_026, "000400"),
    ] {
        let parts = given(|parts| {
            parts.pds = pds_of(length);
            set(&mut parts.pds, 1, &hex(octets));
        });
        table.add(reply, &format!("5-says-{octets}-of-{length}"), rule, parts);
    }
}

fn time(table: &mut Table) {
    table.group("6-time");
    for time in times() {
        let parts = given(|parts| {
            set(&mut parts.pds, 25, &[time.century]);
            set(&mut parts.pds, 13, &time.octets);
        });
        table.add(time.reply, &time.name, time.rule, parts);
    }
    let leap_day = given(|parts| set(&mut parts.pds, 13, &[100, 2, 29, 6, 0]));
    table
        .add(0, "6-2000-2-29-octets", YEAR_100, leap_day)
        .message(SPECIMEN_OF_2000);
}

fn catalogue(table: &mut Table) {
    table.group("7-catalogue");
    let rule = "without a grid, PDS octet 7 picks from the catalogue, and n is that grid's";
    for (number, points) in LISTED {
        let parts = listed(number, points);
        table
            .add(0, &format!("7-grid-{number}"), rule, parts)
            .length(52);
        let fewer = listed(number, points - 1);
        table.add(
            13,
            &format!("7-grid-{number}-one-point-fewer"),
            "13: lists not n long",
            fewer,
        );
    }
    for number in NOT_LISTED {
        table.add(
            7,
            &format!("7-grid-{number}"),
            "7: no grid given, octet 7 not in the catalogue",
            listed(number, 4),
        );
    }
    for number in [0, 2, 3, 45, 255] {
        table.add(
            0,
            &format!("7-with-a-grid-{number}"),
            "a given grid is judged by 9, and octet 7 is not compared",
            with_pds(7, &[number]),
        );
    }
}

fn counts(table: &mut Table) {
    table.group("9-grid");
    let rule = "9: Ni and Nj 1 to 65,534, points n = Ni x Nj 1 to 65,536";
    for (reply, ni, nj) in COUNTS {
        let parts = flat(grid(ni, nj));
        table.add(reply, &format!("9-{ni}-by-{nj}"), rule, parts);
    }
}

/// A row of two points on this grid.
fn two(change: impl Fn(&mut Grid)) -> Parts {
    let mut grid = grid(2, 1);
    change(&mut grid);
    flat(grid)
}

fn corners(table: &mut Table) {
    let rule = "9: latitude magnitude is at most 90,000";
    for (reply, value) in LATITUDES {
        let first = two(|grid| grid.la1 = value);
        table.add(reply, &format!("9-la1-{value}"), rule, first);
        let last = two(|grid| grid.la2 = value);
        table.add(reply, &format!("9-la2-{value}"), rule, last);
    }
    let rule = "9: longitude magnitude is at most 360,000";
    for (reply, value) in LONGITUDES {
        let first = two(|grid| grid.lo1 = value);
        table.add(reply, &format!("9-lo1-{value}"), rule, first);
        let last = two(|grid| grid.lo2 = value);
        table.add(reply, &format!("9-lo2-{value}"), rule, last);
    }
    table.add(
        0,
        "9-whole-globe",
        "both poles and both longitudes at their most, two rows",
        flat(Grid {
            la1: -90_000,
            lo1: -360_000,
            la2: 90_000,
            lo2: 360_000,
            ..grid(2, 2)
        }),
    );
    for step in [0, 1, 65_534, 65_535] {
        table.add(
            0,
            &format!("9-steps-{step}"),
            "Di and Dj are carried, missing or not",
            two(|grid| (grid.di, grid.dj) = (step, 65_535 - step)),
        );
    }
    for flags in [0, 1, 127, 255] {
        table.add(
            0,
            &format!("9-resolution-{flags}"),
            "octet 17 is carried whole",
            two(|grid| grid.flags = flags),
        );
    }
}

fn scan(table: &mut Table) {
    let north = "9: rows running north need La2 above La1";
    let south = "9: else La2 below La1";
    for (reply, name, la1, la2, scan, rule) in [
        (9, "9-north-below", 50_000, 49_999, 64, north),
        (9, "9-north-equal", 50_000, 50_000, 64, north),
        (0, "9-north-above", 50_000, 50_001, 64, north),
        (0, "9-south-below", 50_000, 49_999, 0, south),
        (9, "9-south-equal", 50_000, 50_000, 0, south),
        (9, "9-south-above", 50_000, 50_001, 0, south),
        (9, "9-south-other-bits", 50_000, 50_001, 0xBF, south),
        (0, "9-south-other-bits-below", 50_000, 49_999, 0xBF, south),
        (0, "9-north-other-bits", 50_000, 50_001, 0xFF, north),
        (9, "9-north-other-bits-below", 50_000, 49_999, 0xFF, north),
        (0, "9-north-minus-2-to-minus-1", -2, -1, 64, north),
        (9, "9-north-minus-1-to-minus-2", -1, -2, 64, north),
        (0, "9-south-minus-1-to-minus-2", -1, -2, 0, south),
        (9, "9-south-minus-2-to-minus-1", -2, -1, 0, south),
        (0, "9-north-minus-1-to-0", -1, 0, 64, north),
        (9, "9-north-0-to-0", 0, 0, 64, north),
        (9, "9-south-0-to-0", 0, 0, 0, south),
        (0, "9-north-minus-1-to-1", -1, 1, 64, north),
        (9, "9-north-1-to-minus-1", 1, -1, 64, north),
        (0, "9-south-1-to-minus-1", 1, -1, 0, south),
    ] {
        for (columns, by) in [(2, ""), (1, "-one-column")] {
            let grid = Grid {
                la1,
                la2,
                scan,
                ..grid(columns, 2)
            };
            table.add(reply, &format!("{name}{by}"), rule, flat(grid));
        }
        let one = two(|grid| (grid.la1, grid.la2, grid.scan) = (la1, la2, scan));
        table.add(
            0,
            &format!("{name}-one-row"),
            "with Nj = 1 this is not tested",
            one,
        );
    }
    // 3 columns and 2 rows
    for scan in [0x00, 0x20, 0x40, 0x60, 0x80, 0xA0, 0xC0, 0xE0] {
        let mut six = flat(grid(3, 2));
        six.form.bits = 3;
        six.values = vec![1, 2, 3, 4, 5, 6];
        let grid = six.form.grid.as_mut().expect("given");
        grid.scan = scan;
        if scan & 0x40 == 0 {
            (grid.la1, grid.la2) = (51_000, 50_000);
        }
        table.add(
            0,
            &format!("9-scan-{scan:02X}"),
            "octet 28 is carried whole; values are written in message order whatever it says",
            six,
        );
    }
    table.add(0, "9-plain", "the specimen without its bitmap", plain());
}
