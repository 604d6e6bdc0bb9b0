//! fields packed onto Mercator, Lambert, Gaussian and polar stereographic grids.

use super::{packing, Given, Table};
use crate::vectors::check::{field, specimen_field};
use crate::vectors::given;
use crate::vectors::kinds::{
    Kind, FIVE, FOUR, GAUSSIAN, LAMBERT, MERCATOR, NO_KINDS, PLACES, POLAR, THINNED,
};
use crate::vectors::messages::set;
use crate::{Figure, Grid};

pub fn add(table: &mut Table) {
    table.group("pack-kinds");
    by_hand(table);
    taken(table);
    refused(table);
    no_kind(table);
    strays(table);
    pairs(table);
}

fn plain(kind: &Kind) -> Given {
    packing(kind.plain_parts(), field(1, "2500 2502 2505 2507"))
}

/// The plain field on another grid of 2 x 2 points.
fn on(kind: &Kind, grid: Grid) -> Given {
    let mut given = plain(kind);
    given.form.grid = Some(grid);
    given
}

/// R 2,500, E 0, X 0, 2, 5, 7 of three bits.
fn by_hand(table: &mut Table) {
    for (kind, message) in [
        (
            MERCATOR,
            "47524942 000060 01
             00001C 03 07 00 FF 80 0B 64 01F4 62030A0600 01 00 00 00 0000 00 14 00 0001
             00002A 00 FF 01 0002 0002 00C350 8007D0 80 00C738 8003E8 0055F0 00 40
             003A98 007530 0000000000000000
             00000E 0C 0000 439C4000 03 0AF000
             37373737",
        ),
        (
            LAMBERT,
            "47524942 000060 01
             00001C 03 07 00 FF 80 0B 64 01F4 62030A0600 01 00 00 00 0000 00 14 00 0001
             00002A 00 FF 03 0002 0002 00C350 8007D0 88 817318 013D77 013D78 C0 40
             0080E8 00AFC8 815F90 0003E8 0000
             00000E 0C 0000 439C4000 03 0AF000
             37373737",
        ),
        (
            GAUSSIAN,
            "47524942 000056 01
             00001C 03 07 00 FF 80 0B 64 01F4 62030A0600 01 00 00 00 0000 00 14 00 0001
             000020 00 FF 04 0002 0002 00C350 8007D0 80 00C738 8003E8 0AFD 0020 40 00000000
             00000E 0C 0000 439C4000 03 0AF000
             37373737",
        ),
        (
            POLAR,
            "47524942 000056 01
             00001C 03 07 00 FF 80 0B 64 01F4 62030A0600 01 00 00 00 0000 00 14 00 0001
             000020 00 FF 05 0002 0002 00C350 8007D0 88 813880 05D048 05D049 80 40 00000000
             00000E 0C 0000 439C4000 03 0AF000
             37373737",
        ),
    ] {
        table
            .add(
                0,
                &format!("pack-{}-octets", kind.name),
                "R-4: the four are written, by the packer too",
                plain(&kind),
            )
            .scale(0, "439C4000")
            .values(&[0, 2, 5, 7])
            .message(message);
    }
}

fn taken(table: &mut Table) {
    for kind in FOUR {
        for ((by, sections, lent), parts) in kind.messages().into_iter().zip(kind.all_parts()) {
            let source = match by {
                "-plain" => field(1, "2500 2502 2505 2507"),
                _ => specimen_field(),
            };
            let mut given = packing(parts, source);
            given.lent = lent;
            let name = format!("pack-{}{by}", kind.name);
            let vector = table.add(0, &name, "R-4: a field packed onto this grid", given);
            vector.scale(0, "439C4000").message = Some(sections.message());
        }
        for (scan, ..) in PLACES {
            table
                .add(
                    0,
                    &format!("pack-{}-scan-{scan:02X}", kind.name),
                    "points are numbered in message order, whatever the flags say",
                    on(&kind, kind.turned(2, 2, scan)),
                )
                .scale(0, "439C4000")
                .values(&[0, 2, 5, 7]);
        }
        // a spread of 7 with 2 bits: E = 2 makes (7 + 2) / 4 = 2, E = 1 makes 4
        let mut given = plain(&kind);
        given.form.bits = 2;
        table
            .add(
                0,
                &format!("pack-{}-n-2", kind.name),
                "E is the least for which all X are below 2^N",
                given,
            )
            .scale(2, "439C4000")
            .values(&[0, 1, 1, 2]);
    }
}

fn refused(table: &mut Table) {
    for kind in FOUR {
        let (.., figure, number) = kind.broken();
        let mut wrong = vec![
            (figure, number),
            (Figure::Ni, 0),
            (Figure::Nj, 65_535),
            (Figure::La1, 90_001),
            (Figure::Lo1, -360_001),
        ];
        for figure in [Figure::Dx, Figure::Dy] {
            if !kind.strays().contains(&figure) {
                wrong.extend([(figure, 16_777_216), (figure, 4_294_967_295)]);
            }
        }
        for (figure, number) in wrong {
            let grid = figure.put(kind.grid(), number);
            table.add(
                9,
                &format!("pack-9-{}-{}-{number}", kind.name, figure.name()),
                "9, R-4: 01's bounds, a missing Gaussian N, a step that three octets do not hold",
                on(&kind, grid),
            );
        }
        // rows run south, and La2 is above La1
        let (reply, rule) = match kind.tested {
            true => (9, "9: else La2 below La1"),
            false => (0, "R-4: the scan test holds for Mercator and Gaussian only"),
        };
        let grid = Figure::Scan.put(kind.grid(), 0);
        let name = format!("pack-9-{}-south", kind.name);
        table.add(reply, &name, rule, on(&kind, grid));
        // 8, 28, the GDS, 14 and 4
        let length = 54 + kind.length;
        for (reply, room) in [(14, length - 1), (0, length)] {
            let name = format!("pack-14-{}-{room}", kind.name);
            let rule = "14: lent output too short";
            table.add(reply, &name, rule, plain(&kind)).room(room);
        }
    }
}

const NO_KIND: &str = "9: numbers that stand for a grid of no kind";

fn no_kind(table: &mut Table) {
    for number in NO_KINDS {
        let grid = Grid {
            kind: number,
            ..given::grid(2, 2)
        };
        let name = format!("pack-9-kind-{number}");
        table.add(9, &name, NO_KIND, on(&POLAR, grid));
    }
    for kind in FOUR {
        for (start, rows) in THINNED {
            let grid = Grid {
                rows,
                ..kind.grid()
            };
            let name = format!("pack-9-{}-{start}", kind.name);
            table.add(9, &name, NO_KIND, on(&kind, grid));
        }
    }
}

fn strays(table: &mut Table) {
    for kind in FIVE {
        for (name, most) in [("least", false), ("most", true)] {
            let strays = kind.strays().into_iter();
            let grid = strays.fold(kind.grid(), |grid, figure| {
                let (least, largest) = figure.range();
                figure.put(grid, if most { largest } else { least })
            });
            let vector = table.add(
                0,
                &format!("pack-{}-stray-all-{name}", kind.name),
                "R-4: a number that this kind of grid does not have is not looked at",
                on(&kind, grid),
            );
            vector.message = Some(kind.plain().message());
        }
    }
}

/// The specimen on this grid with bitmap 5 and these faults, each of which alone gets
/// the reply that is its number.
fn with(kind: &Kind, faults: &[u32]) -> Given {
    let mut given = packing(kind.stored_parts(), specimen_field());
    for fault in faults {
        match fault {
            // octets 1-3 say 29
            5 => set(&mut given.pds, 3, &[29]),
            18 => given.source.marks[0] = 2,
            15 => given.source.d = 2,
            // flag bit 1
            11 => given.form.flags = 8,
            // month 13
            6 => set(&mut given.pds, 14, &[13]),
            9 => {
                let (.., figure, number) = kind.broken();
                given.form.grid = Some(figure.put(kind.grid(), number));
            }
            10 => given.lent.number = 6,
            // octet 8 denies the bitmap
            13 => given.pds[7] = 0x80,
            _ => panic!("no fault {fault}"),
        }
    }
    given
}

fn pairs(table: &mut Table) {
    for kind in FOUR {
        for (reply, others) in [
            (5, &[18, 15, 11, 6, 9, 10, 13][..]),
            (18, &[9]),
            (15, &[9]),
            (11, &[9]),
            (6, &[9]),
            (9, &[10, 13]),
        ] {
            let rule = "the fault that the pairs have, alone";
            let name = format!("pack-{}-alone-{reply}", kind.name);
            table.add(reply, &name, rule, with(&kind, &[reply]));
            for &other in others {
                let rule = format!("the first that applies: {reply} before {other}");
                let name = format!("pack-{}-pair-{reply}-and-{other}", kind.name);
                table.add(reply, &name, &rule, with(&kind, &[reply, other]));
            }
        }
    }
}
