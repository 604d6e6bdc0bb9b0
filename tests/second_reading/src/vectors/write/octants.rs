//! thinned octants, given and from the catalogue.

use super::Table;
use crate::vectors::messages::set;
use crate::vectors::octants::{Octant, Present, NORTH, OCTANTS, POINTS, PRESENT, SOUTH};
use crate::{BitmapKind, Grid, Parts, Rows};

pub fn add(table: &mut Table) {
    by_hand(table);
    taken(table);
    octet_7(table);
    fields(table);
    rows(table);
    bitmaps(table);
    lists(table);
    room(table);
    pairs(table);
}

/// The octant given, every point present and N = 0.
fn flat(octant: &Octant) -> Parts {
    let mut parts = octant.parts(true, Present::All, 0);
    parts.values.fill(0);
    parts
}

/// The same without the grid: PDS octet 7 names it.
fn listed(octant: &Octant) -> Parts {
    let mut parts = octant.parts(false, Present::All, 0);
    parts.values.fill(0);
    parts
}

fn by_hand(table: &mut Table) {
    table.group("octants");
    let rule = "R-1: 178 octets, octet 5 is 33, octets 33-178 list the row counts";
    table
        .add(0, "octant-37-octets", rule, flat(&OCTANTS[0]))
        .message(
            "47524942 0000E6 01
             00001C 03 07 00 FF 80 0B 64 01F4 62030A0600 01 00 00 00 0000 00 14 00 0001
             0000B2 00 21 00 FFFF 0049 000000 050910 80 015F90 00EA60 FFFF 04E2 40 00000000
             0049 0049 0049 0049 0049 0049 0049 0049 0048 0048 0048 0047 0047 0047 0046 0046
             0045 0045 0044 0043 0043 0042 0041 0041 0040 003F 003E 003D 003C 003C 003B 003A
             0039 0038 0037 0036 0034 0033 0032 0031 0030 002F 002D 002C 002B 002A 0028 0027
             0026 0024 0023 0021 0020 001E 001D 001C 001A 0019 0017 0016 0014 0013 0011 0010
             000E 000C 000B 0009 0008 0006 0005 0003 0002
             00000C 08 0000 439C4000 00 00
             37373737",
        );
    table
        .add(0, "octant-41-octets", rule, flat(&OCTANTS[4]))
        .message(
            "47524942 0000E6 01
             00001C 03 07 00 FF 80 0B 64 01F4 62030A0600 01 00 00 00 0000 00 14 00 0001
             0000B2 00 21 00 FFFF 0049 815F90 050910 80 000000 00EA60 FFFF 04E2 40 00000000
             0002 0003 0005 0006 0008 0009 000B 000C 000E 0010 0011 0013 0014 0016 0017 0019
             001A 001C 001D 001E 0020 0021 0023 0024 0026 0027 0028 002A 002B 002C 002D 002F
             0030 0031 0032 0033 0034 0036 0037 0038 0039 003A 003B 003C 003C 003D 003E 003F
             0040 0041 0041 0042 0043 0043 0044 0045 0045 0046 0046 0047 0047 0047 0048 0048
             0048 0049 0049 0049 0049 0049 0049 0049 0049
             00000C 08 0000 439C4000 00 00
             37373737",
        );
}

fn taken(table: &mut Table) {
    for octant in OCTANTS {
        for (by, with_grid, rule) in [
            ("", true, "R-1: a given octant is written with its counts"),
            ("-no-grid", false, "R-1: take them with or without the GDS"),
        ] {
            for (kind, present) in PRESENT {
                // 8, 28, the GDS, the BMS, the BDS and 4; 3,447 values of 7 bits are
                // 3,017 octets, and 73 are 64, with one more for an even length
                let gds = if with_grid { 178 } else { 0 };
                let (bms, bds) = match present {
                    Present::All => (0, 3_028),
                    Present::Firsts => (438, 76),
                    Present::Lasts => (6, 76),
                };
                table
                    .add(
                        0,
                        &format!("octant-{}{by}{kind}", octant.number),
                        rule,
                        octant.parts(with_grid, present, 7),
                    )
                    .length(40 + gds + bms + bds)
                    .room(3_300);
            }
        }
        // the message that the reader's vector of this name has
        let vector = table.add(
            0,
            &format!("octant-{}-carried-octets", octant.number),
            "R-1: the octets, put together by hand",
            octant.parts(true, Present::Firsts, 7),
        );
        vector.message = Some(octant.rowed(true, Present::Firsts, 7).message());
    }
}

fn octet_7(table: &mut Table) {
    for octant in OCTANTS {
        for number in [0, 2, 36, octant.number, octant.next().number] {
            let mut parts = flat(&octant);
            set(&mut parts.pds, 7, &[number]);
            table
                .add(
                    0,
                    &format!("7-octant-{}-named-{number}", octant.number),
                    "a given grid is judged by 9, and octet 7 is not compared",
                    parts,
                )
                .length(230);
        }
    }
}

const NONE_OF_THE_EIGHT: &str = "9: a thinned grid that isn't by value one of the eight";

fn with_grid(octant: &Octant, grid: Grid) -> Parts {
    let mut parts = flat(octant);
    parts.form.grid = Some(grid);
    parts
}

fn fields(table: &mut Table) {
    table.group("9-octants");
    for octant in OCTANTS {
        for (name, grid) in [octant.wrong(), octant.more_wrong()].concat() {
            table.add(
                9,
                &format!("9-octant-{}-{name}", octant.number),
                NONE_OF_THE_EIGHT,
                with_grid(&octant, grid),
            );
        }
        for (name, value) in [("most", i32::MAX), ("least", i32::MIN)] {
            let own = octant.grid();
            for (field, grid) in [
                ("la1", Grid { la1: value, ..own }),
                ("lo1", Grid { lo1: value, ..own }),
                ("la2", Grid { la2: value, ..own }),
                ("lo2", Grid { lo2: value, ..own }),
            ] {
                table.add(
                    9,
                    &format!("9-octant-{}-{field}-{name}", octant.number),
                    NONE_OF_THE_EIGHT,
                    with_grid(&octant, grid),
                );
            }
        }
        let next = octant.next();
        table
            .add(
                0,
                &format!("9-octant-{}-all-of-{}", octant.number, next.number),
                "by value another one of the eight",
                with_grid(&octant, next.grid()),
            )
            .length(230);
    }
}

fn rows(table: &mut Table) {
    for octant in OCTANTS {
        let own = octant.grid();
        let other = octant.other_half().grid();
        let start = if octant.north { "pole" } else { "equator" };
        for (name, rule, grid) in [
            (
                format!("from-the-{start}"),
                "9: the other half's counts",
                Grid {
                    rows: other.rows,
                    ..own
                },
            ),
            (
                "other-half".into(),
                "9: the other half's corners",
                Grid {
                    rows: own.rows,
                    ..other
                },
            ),
            (
                "neither".into(),
                "9: counts that no octant has",
                Grid {
                    rows: Rows::Neither,
                    ..own
                },
            ),
            (
                "even".into(),
                "9: a rectangle, whose Ni may not be missing",
                Grid {
                    rows: Rows::Even,
                    ..own
                },
            ),
            (
                "even-73".into(),
                "13: a rectangle of 73 x 73 points has 5,329",
                Grid {
                    ni: 73,
                    rows: Rows::Even,
                    ..own
                },
            ),
        ] {
            let reply = if name == "even-73" { 13 } else { 9 };
            table.add(
                reply,
                &format!("9-octant-{}-{name}", octant.number),
                rule,
                with_grid(&octant, grid),
            );
        }
    }
    // a rectangle's own fields said to be thinned
    for (name, rows) in [
        ("equator", Rows::FromEquator),
        ("pole", Rows::FromPole),
        ("neither", Rows::Neither),
    ] {
        for (points, by) in [(4, "4"), (POINTS, "3447"), (0, "0")] {
            let mut parts = crate::vectors::given::plain();
            parts.form.grid.as_mut().expect("given").rows = rows;
            parts.values.resize(points, 0);
            parts.marks.resize(points, 1);
            table.add(
                9,
                &format!("9-rectangle-{name}-{by}"),
                NONE_OF_THE_EIGHT,
                parts,
            );
        }
    }
}

fn bitmaps(table: &mut Table) {
    table.group("octants-10-to-14");
    let rule = "10: its number must be this one and its octets hold at least n bits";
    for octant in [NORTH, SOUTH] {
        for (by, with_grid) in [("", true), ("-no-grid", false)] {
            // 431 octets hold 3,447 bits
            for (reply, number, held) in [
                (10, 700, 430),
                (0, 700, 431),
                (0, 700, 432),
                (10, 699, 431),
                (10, 0, 0),
            ] {
                let mut parts = octant.parts(with_grid, Present::Lasts, 7);
                parts.lent.number = number;
                parts.lent.octets.resize(held, 0xFF);
                let name = format!("10-octant-{}{by}-{number}-of-{held}", octant.number);
                table.add(reply, &name, rule, parts);
            }
            // the last point of the first row, of the last, and one beside it
            for point in [octant.counts()[0] as usize - 1, 3_446, 3_445] {
                let mut parts = octant.parts(with_grid, Present::Lasts, 7);
                parts.marks[point] ^= 1;
                let name = format!("10-octant-{}{by}-mark-{point}", octant.number);
                let rule = "10: one of its first n bits isn't the same number as the mark";
                table.add(10, &name, rule, parts);
            }
        }
    }
}

fn lists(table: &mut Table) {
    let rule = "13: lists not n long, and n is the sum of the counts";
    for octant in [NORTH, SOUTH] {
        for (by, base) in [("", flat(&octant)), ("-no-grid", listed(&octant))] {
            for (reply, values, marks) in [
                (13, 3_446, 3_446),
                (0, 3_447, 3_447),
                (13, 3_448, 3_448),
                (13, 3_446, 3_447),
                (13, 3_447, 3_446),
                (13, 3_448, 3_447),
                (13, 3_447, 3_448),
                (13, 0, 0),
                (13, 5_329, 5_329),
            ] {
                let mut parts = base.clone();
                parts.values.resize(values, 0);
                parts.marks.resize(marks, 1);
                let name = format!(
                    "13-octant-{}{by}-values-{values}-marks-{marks}",
                    octant.number
                );
                table.add(reply, &name, rule, parts);
            }
        }
        for point in [0, 72, 73, 3_445, 3_446] {
            let mut parts = flat(&octant);
            parts.values[point] = 1;
            let name = format!("13-octant-{}-value-{point}", octant.number);
            table.add(13, &name, "13: a value of 2^N or more", parts);
            let mut parts = flat(&octant);
            parts.marks[point] = 0;
            let name = format!("13-octant-{}-mark-{point}", octant.number);
            table.add(13, &name, "13: an absent point without a bitmap", parts);
        }
        for (octet, alike) in [(0x00, false), (0x40, false), (0x80, true), (0xC0, false)] {
            let mut parts = flat(&octant);
            parts.pds[7] = octet;
            let name = format!("13-octant-{}-octet-8-{octet:02X}", octant.number);
            let rule = "13: PDS octet 8 bits 1 and 2 matching the grid and the bitmap given";
            table.add(if alike { 0 } else { 13 }, &name, rule, parts);
        }
    }
}

fn room(table: &mut Table) {
    for octant in [NORTH, SOUTH] {
        let rowed = octant.parts(true, Present::Firsts, 7);
        for (by, parts, length, short) in [
            // 8, 28, 178, 12 and 4; with a GDS of 32 octets 84
            ("", flat(&octant), 230, 84),
            // 8, 28, 12 and 4
            ("-no-grid", listed(&octant), 52, 50),
            // 8, 28, 178, 438, 76 and 4; with a GDS of 32 octets 586
            ("-carried", rowed, 732, 586),
        ] {
            for (reply, room) in [
                (14, 0),
                (14, short),
                (14, length - 1),
                (0, length),
                (0, length + 1),
            ] {
                table
                    .add(
                        reply,
                        &format!("14-octant-{}{by}-{room}", octant.number),
                        "14: lent output too short; later octets stay",
                        parts.clone(),
                    )
                    .room(room)
                    .length(if reply == 0 { length as u32 } else { 0 });
            }
        }
    }
}

/// Grid 42 with a stored bitmap and these faults, each of which alone gets the
/// reply that is its number. 7 is only possible without a grid, 9 only with one.
fn with(faults: &[u32]) -> Parts {
    let mut parts = SOUTH.parts(!faults.contains(&7), Present::Lasts, 7);
    for fault in faults {
        match fault {
            // octets 1-3 say 29
            5 => set(&mut parts.pds, 3, &[29]),
            // month 13
            6 => set(&mut parts.pds, 14, &[13]),
            // the number before the octants'
            7 => set(&mut parts.pds, 7, &[36]),
            // the north's counts
            9 => parts.form.grid.as_mut().expect("not with 7").rows = Rows::FromEquator,
            10 => parts.lent.octets.truncate(430),
            // flag bit 1
            11 => parts.form.flags = 8,
            // 128 is 2^7, at the last point of the first row
            13 => parts.values[1] = 128,
            14 => {}
            _ => panic!("no fault {fault}"),
        }
    }
    parts
}

fn pairs(table: &mut Table) {
    let mut add = |reply: u32, name: String, rule: String, faults: &[u32]| {
        // 8, 28, 178, 6, 76 and 4
        let room = if faults.contains(&14) { 299 } else { 300 };
        table.add(reply, &name, &rule, with(faults)).room(room);
    };
    add(0, "octant-alone-0".into(), "no fault".into(), &[]);
    for fault in [5, 6, 7, 9, 10, 11, 13, 14] {
        let rule = "the fault that the pairs have, alone".into();
        add(fault, format!("octant-alone-{fault}"), rule, &[fault]);
    }
    // the reply is the lower number
    for (reply, others) in [
        (5, &[6, 7, 9, 10, 11, 13, 14][..]),
        (6, &[7, 9, 10, 11, 13, 14]),
        (7, &[10, 11, 13, 14]),
        (9, &[10, 11, 13, 14]),
        (10, &[11, 13, 14]),
        (11, &[13, 14]),
        (13, &[14]),
    ] {
        for &other in others {
            let name = format!("octant-pair-{reply}-and-{other}");
            let rule = format!("the first that applies: {reply} before {other}");
            add(reply, name, rule, &[reply, other]);
        }
    }
    for (reply, faults) in [
        (9, &[9, 10, 11, 13, 14][..]),
        (7, &[7, 10, 11, 13, 14]),
        (10, &[10, 11, 13, 14]),
    ] {
        let name = format!("octant-all-from-{reply}");
        let rule = format!("the first that applies: {reply} before all after it");
        add(reply, name, rule, faults);
    }
    // a bitmap of an octant's points, and no grid that the catalogue has
    for number in [36, 46] {
        let mut parts = NORTH.parts(false, Present::Firsts, 7);
        set(&mut parts.pds, 7, &[number]);
        assert_eq!(parts.form.bitmap, BitmapKind::Carried);
        table.add(
            7,
            &format!("7-grid-{number}-bitmap"),
            "7: no grid given, octet 7 not in the catalogue",
            parts,
        );
    }
}
