//! fields on Mercator, Lambert, Gaussian and polar stereographic grids.

use super::{field, specimen_field, Table};
use crate::vectors::kinds::{Kind, FIVE, FOUR, GAUSSIAN, MERCATOR, PLACES, POLAR};
use crate::vectors::messages::hex;
use crate::Source;

pub fn add(table: &mut Table) {
    table.group("check-kinds");
    taken(table);
    grid_section(table);
    grid(table);
    lengths(table);
    source(table);
}

/// The field of a message: the specimen's, or of the plain one all four points.
fn own(by: &str) -> Source {
    match by {
        "-plain" => field(1, "2500 2502 2505 2507"),
        _ => specimen_field(),
    }
}

fn taken(table: &mut Table) {
    for kind in FOUR {
        for (by, sections, lent) in kind.messages() {
            let name = format!("check-{}{by}", kind.name);
            let rule = "R-4: a field on this grid, in message order";
            table.add(0, &name, rule, sections.message(), own(by)).lent = lent;
        }
        for (scan, ..) in PLACES {
            let mut sections = kind.plain();
            sections.gds = kind.spelled(&kind.turned(2, 2, scan));
            table.add(
                0,
                &format!("check-{}-scan-{scan:02X}", kind.name),
                "points are numbered in message order, whatever the flags say",
                sections.message(),
                own("-plain"),
            );
        }
    }
}

fn grid_section(table: &mut Table) {
    for kind in FOUR {
        for (name, sections) in [
            ("octet-4-1", kind.plain().gds(4, &[1])),
            ("octet-5-33", kind.plain().gds(5, &[33])),
            ("octet-6-2", kind.plain().gds(6, &[2])),
            ("length-178", kind.long(178).gds(5, &[33])),
            ("length-74", kind.long(74)),
            // 32 in the place of 42, and 42 in the place of 32
            ("length-of-others", kind.long(74 - kind.length)),
        ] {
            table.add(
                8,
                &format!("check-{}-{name}", kind.name),
                "8, R-4: the accepted types and lengths",
                sections.message(),
                own("-plain"),
            );
        }
    }
    for kind in FIVE {
        for other in FIVE.iter().filter(|other| other.length != kind.length) {
            table.add(
                8,
                &format!("check-{}-octet-6-{}", kind.name, other.number),
                "8, R-4: kind and length go together",
                kind.plain().gds(6, &[other.number]).message(),
                own("-plain"),
            );
        }
    }
}

fn grid(table: &mut Table) {
    let mut add = |reply: u32, kind: &Kind, name: &str, rule: &str, first: usize, octets: &str| {
        table.add(
            reply,
            &format!("check-{}-{name}", kind.name),
            rule,
            kind.plain().gds(first, &hex(octets)).message(),
            own("-plain"),
        );
    };
    for kind in FOUR {
        let (first, octets, figure, _) = kind.broken();
        let name = format!("{}-{octets}", figure.name());
        add(
            9,
            &kind,
            &name,
            "9, R-4: 01's bounds and a missing N",
            first,
            octets,
        );
        add(9, &kind, "ni-0", "9: Ni from 1 on", 7, "0000");
        add(9, &kind, "nj-65535", "9: Nj to 65,534", 9, "FFFF");
        add(
            9,
            &kind,
            "la1-015F91",
            "9: latitude at most 90,000",
            11,
            "015F91",
        );
        add(
            9,
            &kind,
            "lo1-857E41",
            "9: longitude at most 360,000",
            14,
            "857E41",
        );
        // La1 is 50,000 and rows run north
        let (reply, rule) = match kind.tested {
            true => (9, "9: rows running north need La2 above La1"),
            false => (0, "R-4: the scan test holds for Mercator and Gaussian only"),
        };
        add(reply, &kind, "18-00C34F", rule, 18, "00C34F");
        for &octet in kind.reserved {
            let name = format!("reserved-{octet}");
            add(0, &kind, &name, "reserved, ignored on reading", octet, "FF");
        }
    }
}

/// The GDS starts at 37.
fn lengths(table: &mut Table) {
    for kind in FOUR {
        for (reply, length, rule) in [
            (21, 30, "21: under its least (GDS 32)"),
            (20, kind.length - 1, "20: odd length"),
            (20, kind.length + 1, "20: odd length"),
        ] {
            let name = format!("check-{}-gds-{length}", kind.name);
            let message = kind.long(length).message();
            table.stop((reply, 2, 37), &name, rule, message, own("-plain"));
        }
    }
}

fn source(table: &mut Table) {
    for kind in [MERCATOR, GAUSSIAN, POLAR] {
        for (reply, name, rule, source) in [
            (18, "marks-2", "18: a mark not 0 or 1", {
                let mut source = own("-plain");
                source.marks[3] = 2;
                source
            }),
            (
                15,
                "three-points",
                "15: point count of message and source differ",
                field(1, "2500 2502 2505"),
            ),
            (
                15,
                "absent",
                "15: marks of message and source differ",
                field(1, "2500 2502 - 2507"),
            ),
            (
                15,
                "d-2",
                "15: D of message and source differ",
                field(2, "2500 2502 2505 2507"),
            ),
            (
                17,
                "out-by-1",
                "17: a present point is out by more than half a step",
                field(1, "2500 2502 2505 2508"),
            ),
            (
                17,
                "upside-down",
                "17: points are numbered in message order",
                field(1, "2505 2507 2500 2502"),
            ),
        ] {
            let name = format!("check-{}-{name}", kind.name);
            table.add(reply, &name, rule, kind.plain().message(), source);
        }
    }
}
