//! "8 names the accepted types and lengths"; and lengths of a GDS of 42 octets that went
//! wrong.

use crate::vectors::kinds::{
    Kind, FIVE, FOUR, GAUSSIAN, LAMBERT, LATLON, MERCATOR, NO_KINDS, POLAR,
};
use crate::vectors::messages::{set_length, Sections};
use crate::vectors::read::Table;
use crate::Grid;

pub fn add(table: &mut Table) {
    lengths(table);
    octets_4_and_5(table);
    octet_6(table);
    read_as_another(table);
    wrong(table);
}

const PAIR: &str =
    "8, R-4: kind and length go together: 0, 4 and 5 with 32 octets, 1 and 3 with 42";

fn lengths(table: &mut Table) {
    for kind in FIVE {
        for length in [32, 34, 36, 40, 42, 44, 46, 64, 178, 180] {
            // those of latitude/longitude grids stand with theirs
            let theirs = kind.number == 0 && [34, 36, 178].contains(&length);
            if length == kind.length || theirs {
                continue;
            }
            let name = format!("8-{}-length-{length}", kind.name);
            table.add(8, &name, PAIR, kind.long(length).message());
        }
    }
    let rule = "8, R-1: length 178 and octet 5 = 33 are those of latitude/longitude grids alone";
    for kind in FOUR {
        let thinned = kind.long(178).gds(5, &[33]);
        let name = format!("8-{}-length-178-octet-5-33", kind.name);
        table.add(8, &name, rule, thinned.message());
    }
}

fn octets_4_and_5(table: &mut Table) {
    for kind in FOUR {
        for value in [1, 128, 255] {
            let name = format!("8-{}-octet-4-{value}", kind.name);
            let message = kind.plain().gds(4, &[value]).message();
            table.add(8, &name, "8: octet 4 is 0", message);
        }
        for value in [0, 1, 32, 33, 42, 43, 127, 254] {
            let name = format!("8-{}-octet-5-{value}", kind.name);
            let message = kind.plain().gds(5, &[value]).message();
            table.add(8, &name, "8: octet 5 is 255", message);
        }
    }
}

fn octet_6(table: &mut Table) {
    let rule = "8, R-4: octet 6 is none of 0, 1, 3, 4 and 5";
    for kind in [GAUSSIAN, LAMBERT] {
        for number in NO_KINDS {
            let name = format!("8-octet-6-{number}-of-{}", kind.length);
            let message = kind.plain().gds(6, &[number]).message();
            table.add(8, &name, rule, message);
        }
    }
    for kind in FIVE {
        for other in FIVE.iter().filter(|other| other.length != kind.length) {
            let name = format!("8-{}-octet-6-{}", kind.name, other.number);
            let message = kind.plain().gds(6, &[other.number]).message();
            table.add(8, &name, PAIR, message);
        }
    }
}

/// The octets of one kind with octet 6 of another of the same length, on one row.
fn as_another(kind: &Kind, other: &Kind) -> Vec<u8> {
    kind.flat(2, 1).gds(6, &[other.number]).message()
}

fn read_as_another(table: &mut Table) {
    let rule = "R-4: octet 6 alone says by which layout the others are read";
    let corner = |kind: u8, flags: u8| Grid {
        kind,
        ni: 2,
        nj: 1,
        la1: 50_000,
        lo1: -2_000,
        flags,
        scan: 64,
        ..Grid::default()
    };
    // La2 00C738, Lo2 8003E8, Latin 0055F0, 00, Di 003A98, Dj 007530 and zeros
    let lambert = Grid {
        lov: 51_000,
        dx: 8_389_608,
        dy: 22_000,
        centre: 0,
        latin1: 15_000,
        latin2: 30_000,
        ..corner(3, 128)
    };
    // La2 00C738, Lo2 8003E8, Di 03E8, Dj 03E8; of a Gaussian one Di 0AFD, N 0020
    let edges = |kind: u8| Grid {
        la2: 51_000,
        lo2: -1_000,
        ..corner(kind, 128)
    };
    let polar = |dy: u32, centre: u8| Grid {
        lov: 51_000,
        dx: 8_389_608,
        dy,
        centre,
        ..corner(5, 128)
    };
    for (kind, other, grid) in [
        (MERCATOR, LAMBERT, lambert),
        (
            GAUSSIAN,
            LATLON,
            Grid {
                di: 2_813,
                dj: 32,
                ..edges(0)
            },
        ),
        (
            LATLON,
            GAUSSIAN,
            Grid {
                di: 1_000,
                circles: 1_000,
                ..edges(4)
            },
        ),
        // 03E803 and E8; 0AFD00 and 20
        (LATLON, POLAR, polar(256_003, 232)),
        (GAUSSIAN, POLAR, polar(720_128, 32)),
    ] {
        let name = format!("{}-read-as-{}", kind.name, other.name);
        table
            .add(0, &name, rule, as_another(&kind, &other))
            .grid(grid);
    }
    for (kind, other, why) in [
        (LAMBERT, MERCATOR, "9: LoV of -95,000 is no latitude"),
        (POLAR, LATLON, "9: Dx of 381,000 is no longitude"),
        (POLAR, GAUSSIAN, "9: Dx of 381,000 is no longitude"),
    ] {
        let name = format!("9-{}-read-as-{}", kind.name, other.name);
        table.add(9, &name, why, as_another(&kind, &other));
    }
}

/// Lengths with which the walk does not land. The GDS starts at 37; after 42 octets the
/// BMS at 79, and the end at 101.
fn wrong(table: &mut Table) {
    let says = |kind: &Kind, length: usize| {
        let mut sections = kind.sections();
        set_length(&mut sections.gds, length);
        sections
    };
    let mut stop = |stop: (u32, u32, u32), name: &str, rule: &str, sections: Sections| {
        table.stop(stop, name, rule, sections.message());
    };
    for kind in [MERCATOR, LAMBERT] {
        for (reply, length, rule) in [
            (21, 0, "21: under its least (GDS 32)"),
            (21, 30, "21: under its least (GDS 32), not of its kind (42)"),
            (20, 31, "20 before 21: odd, and under its least"),
            (20, 33, "20: odd length, before 8"),
            (20, 41, "20: odd length, before 8"),
            (20, 43, "20: odd length, before 8"),
            (22, 66, "22: its section passes the end section's start"),
            (
                22,
                16_777_214,
                "22: its section passes the end section's start",
            ),
        ] {
            let name = format!("{reply}-{}-gds-says-{length}-of-42", kind.name);
            stop((reply, 2, 37), &name, rule, says(&kind, length));
        }
        for (reply, length, rule) in [
            (21, 30, "21: under its least (GDS 32)"),
            (20, 31, "20 before 21: odd, and under its least"),
            (20, 41, "20: odd length, before 8"),
            (20, 43, "20: odd length, before 8"),
        ] {
            let name = format!("{reply}-{}-gds-{length}-long", kind.name);
            stop((reply, 2, 37), &name, rule, kind.long(length));
        }
        // up to the end section, and the next length's octets don't fit
        let name = format!("22-{}-gds-to-the-end", kind.name);
        let rule = "22: a length whose own octets don't fit";
        stop((22, 3, 101), &name, rule, says(&kind, 64));
        // 40 octets that say 42: the BMS is looked for at its third octet, 080C00
        let mut cut = kind.sections();
        cut.gds.truncate(40);
        let name = format!("22-{}-gds-of-40-says-42", kind.name);
        stop(
            (22, 3, 79),
            &name,
            "22 before 8: the walk does not land",
            cut,
        );
        // 080C00 again, then the last two octets of the GDS and the BMS's first
        let name = format!("22-{}-gds-says-44", kind.name);
        let rule = "22 before 8: a GDS length with which the walk does not land";
        stop((22, 3, 81), &name, rule, says(&kind, 44));
        let name = format!("21-{}-gds-says-40", kind.name);
        let rule = "21 before 8: a GDS length with which the walk does not land";
        stop((21, 3, 77), &name, rule, says(&kind, 40));
    }
    // octets 33-35: 753000 of Mercator's Dj, AFC881 of Lambert's Latin 2 and pole
    let rule = "22 before 8: a GDS of 32 octets, and then a BMS of 753000 octets (hex)";
    stop(
        (22, 3, 69),
        "22-mercator-gds-says-32",
        rule,
        says(&MERCATOR, 32),
    );
    let rule = "20 before 8: a GDS of 32 octets, and then a BMS of AFC881 octets (hex)";
    stop(
        (20, 3, 69),
        "20-lambert-gds-says-32",
        rule,
        says(&LAMBERT, 32),
    );
    // 32 octets that say 42: the BMS is looked for where the BDS has octets 3 and on
    for kind in [GAUSSIAN, POLAR] {
        let name = format!("22-{}-gds-says-42", kind.name);
        let rule = "22 before 8: a GDS of 42 octets, and then a BMS of 0E0F00 octets (hex)";
        stop((22, 3, 79), &name, rule, says(&kind, 42));
    }
}
