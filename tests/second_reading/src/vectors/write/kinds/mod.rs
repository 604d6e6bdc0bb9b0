//! Mercator, Lambert, Gaussian and polar stereographic grids. What must be
//! written, octet for octet.
//!
//! * `fields`   each field of each kind at its edges, and the scan test;
//! * `strays`   numbers that a kind does not have, and numbers that stand for no grid;
//! * `pairs`    two faults and more at once.

mod fields;
mod pairs;
mod strays;

use super::Table;
use crate::vectors::given::flat;
use crate::vectors::kinds::{Kind, FOUR, GAUSSIAN, LAMBERT, MERCATOR, PLACES, POLAR};
use crate::{Grid, Parts};

pub fn add(table: &mut Table) {
    table.group("kinds");
    by_hand(table);
    signs(table);
    taken(table);
    scanned(table);
    octet_7(table);
    room(table);
    octet_8(table);
    fields::add(table);
    strays::add(table);
    pairs::add(table);
}

const LAYOUT: &str = "R-4: read and written with the layouts in document 003";

/// The specimen on each kind of grid.
fn by_hand(table: &mut Table) {
    for (kind, message) in [
        (
            MERCATOR,
            "47524942 000068 01
             00001C 03 07 00 FF C0 0B 64 01F4 62030A0600 01 00 00 00 0000 00 14 00 0001
             00002A 00 FF 01 0002 0002 00C350 8007D0 80 00C738 8003E8 0055F0 00 40
             003A98 007530 0000000000000000
             000008 0C 0000 D000
             00000E 0F 0000 439C4000 03 0B8000
             37373737",
        ),
        (
            LAMBERT,
            "47524942 000068 01
             00001C 03 07 00 FF C0 0B 64 01F4 62030A0600 01 00 00 00 0000 00 14 00 0001
             00002A 00 FF 03 0002 0002 00C350 8007D0 88 817318 013D77 013D78 C0 40
             0080E8 00AFC8 815F90 0003E8 0000
             000008 0C 0000 D000
             00000E 0F 0000 439C4000 03 0B8000
             37373737",
        ),
        (
            GAUSSIAN,
            "47524942 00005E 01
             00001C 03 07 00 FF C0 0B 64 01F4 62030A0600 01 00 00 00 0000 00 14 00 0001
             000020 00 FF 04 0002 0002 00C350 8007D0 80 00C738 8003E8 0AFD 0020 40 00000000
             000008 0C 0000 D000
             00000E 0F 0000 439C4000 03 0B8000
             37373737",
        ),
        (
            POLAR,
            "47524942 00005E 01
             00001C 03 07 00 FF C0 0B 64 01F4 62030A0600 01 00 00 00 0000 00 14 00 0001
             000020 00 FF 05 0002 0002 00C350 8007D0 88 813880 05D048 05D049 80 40 00000000
             000008 0C 0000 D000
             00000E 0F 0000 439C4000 03 0B8000
             37373737",
        ),
    ] {
        let name = format!("{}-octets", kind.name);
        table.add(0, &name, LAYOUT, kind.parts()).message(message);
    }
}

/// Other numbers in each field: signs, zeros, every octet another one.
fn signs(table: &mut Table) {
    let corner = |kind: u8| Grid {
        kind,
        ni: 1,
        nj: 2,
        la1: -90_000,
        lo1: 0,
        flags: 255,
        scan: 0x5F,
        ..Grid::default()
    };
    for (name, grid, message) in [
        (
            "mercator",
            Grid {
                la2: 0,
                lo2: -360_000,
                latin1: -1,
                dx: 0x010203,
                dy: 0xFFFFFE,
                ..corner(1)
            },
            "47524942 00005E 01
             00001C 03 07 00 FF 80 0B 64 01F4 62030A0600 01 00 00 00 0000 00 14 00 0001
             00002A 00 FF 01 0001 0002 815F90 000000 FF 000000 857E40 800001 00 5F
             010203 FFFFFE 0000000000000000
             00000C 08 0000 439C4000 00 00
             37373737",
        ),
        (
            "lambert",
            Grid {
                lov: -360_000,
                dx: 0x800000,
                dy: 0x040506,
                centre: 0x3F,
                latin1: 0,
                latin2: -1,
                pole_la: 90_000,
                pole_lo: -65_536,
                ..corner(3)
            },
            "47524942 00005E 01
             00001C 03 07 00 FF 80 0B 64 01F4 62030A0600 01 00 00 00 0000 00 14 00 0001
             00002A 00 FF 03 0001 0002 815F90 000000 FF 857E40 800000 040506 3F 5F
             000000 800001 015F90 810000 0000
             00000C 08 0000 439C4000 00 00
             37373737",
        ),
        (
            "gaussian",
            Grid {
                la2: 0,
                lo2: -360_000,
                di: 0xFFFF,
                circles: 0x0102,
                ..corner(4)
            },
            "47524942 000054 01
             00001C 03 07 00 FF 80 0B 64 01F4 62030A0600 01 00 00 00 0000 00 14 00 0001
             000020 00 FF 04 0001 0002 815F90 000000 FF 000000 857E40 FFFF 0102 5F 00000000
             00000C 08 0000 439C4000 00 00
             37373737",
        ),
        (
            "polar",
            Grid {
                lov: 0,
                dx: 0xFFFFFF,
                dy: 0x010203,
                centre: 0x7F,
                ..corner(5)
            },
            "47524942 000054 01
             00001C 03 07 00 FF 80 0B 64 01F4 62030A0600 01 00 00 00 0000 00 14 00 0001
             000020 00 FF 05 0001 0002 815F90 000000 FF 000000 FFFFFF 010203 7F 5F 00000000
             00000C 08 0000 439C4000 00 00
             37373737",
        ),
    ] {
        table
            .add(
                0,
                &format!("{name}-signs"),
                "R-4: signed fields as before; zero is written as plus zero, reserved octets zero",
                flat(grid),
            )
            .message(message);
    }
}

fn taken(table: &mut Table) {
    for kind in FOUR {
        // the messages that the reader's vectors of these names have
        for ((by, sections, _), parts) in kind.messages().into_iter().zip(kind.all_parts()) {
            let name = format!("{}{by}", kind.name);
            let vector = table.add(0, &name, LAYOUT, parts);
            vector.message = Some(sections.message());
        }
    }
}

/// Six points on this grid.
fn six(kind: &Kind, scan: u8) -> Parts {
    let mut parts = flat(kind.turned(3, 2, scan));
    parts.form.bits = 3;
    parts.values = vec![1, 2, 3, 4, 5, 6];
    parts
}

fn scanned(table: &mut Table) {
    for kind in FOUR {
        for (scan, ..) in PLACES {
            for low in [0x00, 0x1F] {
                table
                    .add(
                        0,
                        &format!("{}-scan-{:02X}", kind.name, scan | low),
                        "octet 28 is carried whole; values are written in message order whatever it says",
                        six(&kind, scan | low),
                    )
                    // 8, 28, the GDS, 14 and 4
                    .length(54 + kind.length as u32);
            }
        }
    }
}

fn octet_7(table: &mut Table) {
    for kind in FOUR {
        for number in [0, 2, 37, 45] {
            let mut parts = kind.plain_parts();
            parts.pds[6] = number;
            table.add(
                0,
                &format!("7-{}-named-{number}", kind.name),
                "a given grid is judged by 9, and octet 7 is not compared",
                parts,
            );
        }
    }
}

fn room(table: &mut Table) {
    for kind in FOUR {
        // 8, 28, the GDS, 8, 14 and 4
        let length = 62 + kind.length;
        for (reply, room) in [
            (14, 0),
            (14, 62 + 32 - 1),
            (14, length - 1),
            (0, length),
            (0, length + 1),
        ] {
            let name = format!("14-{}-{room}", kind.name);
            // 93 octets are one too few for a GDS of 32, and stand there already
            if room == length - 1 && kind.length == 32 {
                continue;
            }
            table
                .add(
                    reply,
                    &name,
                    "14: lent output too short; later octets stay",
                    kind.parts(),
                )
                .room(room)
                .length(if reply == 0 { length as u32 } else { 0 });
        }
    }
}

fn octet_8(table: &mut Table) {
    for kind in FOUR {
        for (reply, octet) in [(13, 0x00), (13, 0x40), (0, 0x80), (13, 0xC0), (0, 0xBF)] {
            let mut parts = kind.plain_parts();
            parts.pds[7] = octet;
            table.add(
                reply,
                &format!("13-{}-octet-8-{octet:02X}", kind.name),
                "13: PDS octet 8 bits 1 and 2 matching the grid and the bitmap given",
                parts,
            );
        }
        for (reply, points) in [(13, 0), (13, 3), (0, 4), (13, 5)] {
            let mut parts = kind.plain_parts();
            parts.values.resize(points, 0);
            parts.marks.resize(points, 1);
            let name = format!("13-{}-points-{points}", kind.name);
            table.add(reply, &name, "13: lists not n long", parts);
        }
    }
}
