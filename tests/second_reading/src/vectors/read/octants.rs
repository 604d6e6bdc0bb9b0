//! thinned octants, with their GDS and without it.

use super::Table;
use crate::vectors::messages::{hex, listed, plain, set, set_length, Sections};
use crate::vectors::octants::{Octant, Present, NORTH, OCTANTS, POINTS, PRESENT, SOUTH};

pub fn add(table: &mut Table) {
    taken(table);
    octet_7(table);
    ignored(table);
    grid_section(table);
    fields(table);
    counts(table);
    bitmap_and_data(table);
    room(table);
    pairs(table);
}

/// Room for every point.
const ROOM: usize = POINTS;

fn taken(table: &mut Table) {
    for octant in OCTANTS {
        let grid = octant.grid();
        for (by, with_gds, rule) in [
            (
                "",
                true,
                "R-1: 178 octets, octet 5 is 33, octets 33-178 list the row counts",
            ),
            ("-no-gds", false, "R-1: take them with or without the GDS"),
        ] {
            for (kind, present) in PRESENT {
                let message = octant.rowed(with_gds, present, 7).message();
                let lent = octant.lent(present);
                let points = octant.rows(present);
                table
                    .add(
                        0,
                        &format!("octant-{}{by}{kind}", octant.number),
                        rule,
                        message,
                    )
                    .lend(lent.number, &lent.octets)
                    .room(ROOM, ROOM)
                    .says("points", 3_447)
                    .says("present", points.iter().flatten().count() as i64)
                    .says("Ni", 65_535)
                    .says("Nj", 73)
                    .says("La1", grid.la1 as i64)
                    .says("Lo1", grid.lo1 as i64)
                    .says("resolution flags", 128)
                    .says("La2", grid.la2 as i64)
                    .says("Lo2", grid.lo2 as i64)
                    .says("Di", 65_535)
                    .says("Dj", 1_250)
                    .says("scan", 64)
                    .says("rows", if octant.north { 1 } else { 2 })
                    // rows run north: the first is the chart's last
                    .says("row of point 0", 72)
                    .says("column of point 0", 0)
                    .points(&points);
            }
        }
        table
            .add(
                0,
                &format!("7-grid-{}", octant.number),
                "without a GDS, PDS octet 7 picks from the catalogue; R-1: n is the sum of the counts",
                octant.listed().message(),
            )
            .room(ROOM, ROOM)
            .says("points", 3_447)
            .says("rows", if octant.north { 1 } else { 2 })
            .points(&[Some(0); POINTS]);
    }
}

fn octet_7(table: &mut Table) {
    let rule = "with a GDS it decides, and octet 7 is not compared";
    for octant in OCTANTS {
        for number in [
            0,
            2,
            36,
            octant.number,
            octant.next().number,
            octant.other_half().number,
        ] {
            table
                .add(
                    0,
                    &format!("7-octant-{}-named-{number}", octant.number),
                    rule,
                    octant.flat().pds(7, &[number]).message(),
                )
                .room(ROOM, ROOM)
                .says("La1", octant.grid().la1 as i64)
                .says("Lo1", octant.grid().lo1 as i64);
        }
        table
            .add(
                0,
                &format!("7-with-a-gds-{}", octant.number),
                rule,
                plain().pds(7, &[octant.number]).message(),
            )
            .says("rows", 0)
            .says("points", 4);
    }
}

fn ignored(table: &mut Table) {
    for octant in OCTANTS {
        let number = octant.number;
        let mut add = |name: &str, rule: &str, sections: Sections| {
            table
                .add(
                    0,
                    &format!("octant-{number}-{name}"),
                    rule,
                    sections.message(),
                )
                .room(ROOM, ROOM)
                .says("La1", octant.grid().la1 as i64)
                .says("La2", octant.grid().la2 as i64);
        };
        let reserved = "R-1: by value one of the eight, reserved octets aside";
        add(
            "reserved",
            reserved,
            octant.flat().gds(29, &hex("FFFFFFFF")),
        );
        // 0 is the north's La1 and the south's La2
        let zero = if octant.north { 11 } else { 18 };
        let minus = "R-1: by value one of the eight; minus zero reads as 0";
        add("minus-zero", minus, octant.flat().gds(zero, &[0x80]));
        if [NORTH.number, SOUTH.number].contains(&number) {
            add(
                "minus-zero-reserved",
                minus,
                octant.flat().gds(zero, &[0x80]).gds(29, &hex("00000001")),
            );
            for octet in 29..=32 {
                let name = format!("reserved-{octet}");
                add(&name, reserved, octant.flat().gds(octet, &[1]));
            }
        }
    }
    for octant in [NORTH, SOUTH] {
        let mut sections = octant.rowed(true, Present::Firsts, 7);
        // ones in the bitmap's last nine bits, and in the data's last nine
        for section in [&mut sections.bms, &mut sections.bds] {
            let length = section.len();
            section[length - 2] |= 0x01;
            section[length - 1] = 0xFF;
        }
        table
            .add(
                0,
                &format!("octant-{}-padding", octant.number),
                "padding bits are ignored on reading",
                sections.message(),
            )
            .room(ROOM, ROOM)
            .says("present", 73)
            .points(&octant.rows(Present::Firsts));
    }
}

fn grid_section(table: &mut Table) {
    for octant in [NORTH, SOUTH] {
        let mut add = |reply: u32, name: &str, rule: &str, sections: Sections| {
            let name = format!("{reply}-octant-{}-{name}", octant.number);
            table
                .add(reply, &name, rule, sections.message())
                .room(ROOM, ROOM);
        };
        let pair = "8: length 178 goes with octet 5 = 33, and the others with 255";
        for value in [0, 32, 34, 254, 255] {
            let name = format!("octet-5-{value}");
            add(8, &name, pair, octant.flat().gds(5, &[value]));
        }
        add(8, "length-32", pair, octant.long(32));
        let rule = "8: octet 4 is 0";
        for value in [1, 128, 255] {
            let name = format!("octet-4-{value}");
            add(8, &name, rule, octant.flat().gds(4, &[value]));
        }
        let rule = "8: length 178 goes with octet 6 = 0";
        for value in [1, 3, 4, 5, 10, 255] {
            let name = format!("octet-6-{value}");
            add(8, &name, rule, octant.flat().gds(6, &[value]));
        }
        for length in [34, 174, 176, 180, 256, 434] {
            let name = format!("length-{length}");
            let rule =
                "8: a length of no latitude/longitude grid, neither 32 nor 178, and the walk lands";
            add(8, &name, rule, octant.long(length));
            let name = format!("length-{length}-255");
            add(8, &name, rule, octant.long(length).gds(5, &[255]));
        }
        add(
            9,
            "length-32-octet-5-255",
            "9: a GDS of 32 octets is a rectangle's, and its Ni may not be missing",
            octant.long(32).gds(5, &[255]),
        );
        // the GDS starts at 37, so the data section 178 octets after, at 215
        let mut stop = |stop: (u32, u32, u32), name: &str, rule: &str, sections: Sections| {
            let name = format!("5-octant-{}-{name}", octant.number);
            table
                .stop(stop, &name, rule, sections.message())
                .room(ROOM, ROOM);
        };
        for length in [177, 179] {
            let name = format!("length-{length}");
            let rule = "20: odd length, before 8";
            stop((20, 2, 37), &name, rule, octant.long(length));
        }
        // what is then read as the data section's length is even and far too long: two
        // counts, a count and the section's own first octet, its third octet on
        for (length, place) in [(32, 69), (176, 213), (180, 217)] {
            let mut sections = octant.flat();
            set_length(&mut sections.gds, length);
            let name = format!("says-{length}");
            let rule = "22 before 8: a GDS length with which the walk does not land";
            stop((22, 4, place), &name, rule, sections);
        }
        let mut cut = octant.flat();
        cut.gds.truncate(176);
        let rule = "22: a GDS of 176 octets that says 178, and the BDS is looked for 2 too late";
        stop((22, 4, 215), "cut", rule, cut);
    }
    // a rectangle's fields in 178 octets
    let long = |octet_5: u8| {
        let mut sections = plain().gds(5, &[octet_5]);
        sections.gds.resize(178, 0);
        set_length(&mut sections.gds, 178);
        sections
    };
    let pair = "8: length 178 goes with octet 5 = 33, and the others with 255";
    table.add(8, "8-length-178", pair, long(255).message());
    table.add(
        9,
        "9-length-178-octet-5-33",
        "9: a thinned GDS that isn't by value one of the eight",
        long(33).message(),
    );
    table.add(
        9,
        "9-length-178-counts",
        "9: a rectangle's fields with an octant's counts",
        long(33).gds(33, &NORTH.gds()[32..]).message(),
    );
    table.stop(
        (22, 2, 37),
        "5-gds-says-178",
        "22: a GDS of 32 octets that says 178",
        plain().gds(3, &[178]).message(),
    );
}

const NONE_OF_THE_EIGHT: &str = "9: a thinned GDS that isn't by value one of the eight";

fn fields(table: &mut Table) {
    for octant in OCTANTS {
        let mut wrong = octant.wrong();
        if [NORTH.number, SOUTH.number].contains(&octant.number) {
            wrong.extend(octant.more_wrong());
        }
        for (name, grid) in wrong {
            table
                .add(
                    9,
                    &format!("9-octant-{}-{name}", octant.number),
                    NONE_OF_THE_EIGHT,
                    octant.with_fields(&grid).message(),
                )
                .room(ROOM, ROOM);
        }
        // all fields of another octant: the other half's rows are counted the other way
        let other = octant.other_half();
        table
            .add(
                9,
                &format!("9-octant-{}-all-of-{}", octant.number, other.number),
                NONE_OF_THE_EIGHT,
                octant.with_fields(&other.grid()).message(),
            )
            .room(ROOM, ROOM);
        let next = octant.next();
        table
            .add(
                0,
                &format!("9-octant-{}-all-of-{}", octant.number, next.number),
                "by value another one of the eight",
                octant.with_fields(&next.grid()).message(),
            )
            .room(ROOM, ROOM)
            .says("Lo1", next.grid().lo1 as i64);
    }
}

fn counts(table: &mut Table) {
    let mut add = |octant: &Octant, name: &str, rule: &str, counts: &[u16]| {
        table
            .add(
                9,
                &format!("9-octant-{}-{name}", octant.number),
                rule,
                octant.with_counts(counts).message(),
            )
            .room(ROOM + 73, ROOM + 73);
    };
    for octant in OCTANTS {
        let other = octant.other_half().counts();
        add(&octant, "other-half", NONE_OF_THE_EIGHT, &other);
        add(
            &octant,
            "formula",
            "9: the counts are document 003's table; its formula would have 74 at the equator",
            &octant.by_the_formula(),
        );
    }
    // each of the 73 counts, one too many and one too few
    for octant in [OCTANTS[0], OCTANTS[4]] {
        for row in 0..73 {
            let own = octant.counts();
            for count in [own[row] + 1, own[row] - 1] {
                let mut counts = own.clone();
                counts[row] = count;
                let name = format!("row-{}-of-{count}", row + 1);
                add(&octant, &name, NONE_OF_THE_EIGHT, &counts);
            }
        }
    }
    for octant in [NORTH, SOUTH] {
        let own = octant.counts();
        let changed = |change: fn(&mut Vec<u16>)| {
            let mut counts = own.clone();
            change(&mut counts);
            counts
        };
        let same_sum = "9: counts that are not the octant's, though their sum is 3,447";
        add(
            &octant,
            "moved",
            same_sum,
            &changed(|counts| {
                counts[0] += 1;
                counts[72] -= 1;
            }),
        );
        add(
            &octant,
            "swapped",
            same_sum,
            &changed(|counts| counts.swap(20, 50)),
        );
        add(
            &octant,
            "turned-by-one",
            same_sum,
            &changed(|counts| counts.rotate_left(1)),
        );
        add(
            &octant,
            "all-in-one",
            same_sum,
            &changed(|counts| {
                counts.fill(0);
                counts[36] = 3_447;
            }),
        );
        add(
            &octant,
            "low-octet-first",
            NONE_OF_THE_EIGHT,
            &changed(|counts| counts.iter_mut().for_each(|c| *c = c.swap_bytes())),
        );
        add(
            &octant,
            "high-octet",
            NONE_OF_THE_EIGHT,
            &changed(|counts| counts[36] += 256),
        );
        add(
            &octant,
            "last-high-octet",
            NONE_OF_THE_EIGHT,
            &changed(|counts| counts[72] += 0x8000),
        );
        for value in [0, 73, 65_535] {
            let name = format!("all-{value}");
            add(&octant, &name, NONE_OF_THE_EIGHT, &[value; 73]);
        }
    }
}

fn bitmap_and_data(table: &mut Table) {
    let rule = "10: 8 x (L - 6) - unused = n, and n is the sum of the counts";
    for octant in [NORTH, SOUTH] {
        for (by, with_gds) in [("", true), ("-no-gds", false)] {
            // 438 octets have 3,456 bits
            for (reply, unused) in [(10, 8), (0, 9), (10, 10), (10, 0), (10, 25)] {
                let sections = octant.rowed(with_gds, Present::Firsts, 7);
                table
                    .add(
                        reply,
                        &format!("10-octant-{}{by}-unused-{unused}", octant.number),
                        rule,
                        sections.bms(4, &[unused]).message(),
                    )
                    .room(ROOM, ROOM);
            }
            // 431 octets hold 3,447 bits
            for (reply, number, held) in [
                (10, 700, 430),
                (0, 700, 431),
                (0, 700, 432),
                (10, 699, 431),
                (10, 0, 0),
            ] {
                let sections = octant.rowed(with_gds, Present::Lasts, 7);
                let mut store = octant.lent(Present::Lasts).octets;
                store.resize(held, 0xFF);
                table
                    .add(
                        reply,
                        &format!("10-octant-{}{by}-{number}-of-{held}", octant.number),
                        "10: its number must be this one and its octets hold at least n bits",
                        sections.message(),
                    )
                    .lend(number, &store)
                    .room(ROOM, ROOM);
            }
            // N = 1: 442 octets have 3,448 bits of data
            let data = |unused: u8| {
                let mut bds = vec![0; 442];
                set_length(&mut bds, 442);
                set(&mut bds, 4, &[unused]);
                set(&mut bds, 11, &[1]);
                bds
            };
            for (reply, unused) in [(12, 0), (0, 1), (12, 2)] {
                let sections = if with_gds {
                    octant.flat()
                } else {
                    octant.listed()
                };
                let sections = Sections {
                    bds: data(unused),
                    ..sections
                };
                table
                    .add(
                        reply,
                        &format!("12-octant-{}{by}-unused-{unused}", octant.number),
                        "12: 8 x (L - 11) - unused = m x N, with n the sum of the counts",
                        sections.message(),
                    )
                    .room(ROOM, ROOM);
            }
        }
    }
}

fn room(table: &mut Table) {
    for octant in [NORTH, SOUTH] {
        for (by, message) in [
            ("", octant.flat().message()),
            ("-no-gds", octant.listed().message()),
        ] {
            for (reply, values, marks) in [
                (14, 3_446, 3_447),
                (14, 3_447, 3_446),
                (14, 3_446, 3_446),
                (0, 3_447, 3_447),
                (0, 3_448, 3_450),
                (14, 0, 0),
            ] {
                table
                    .add(
                        reply,
                        &format!(
                            "14-octant-{}{by}-values-{values}-marks-{marks}",
                            octant.number
                        ),
                        "14: lent output too short; elements after n stay",
                        message.clone(),
                    )
                    .room(values, marks);
            }
        }
    }
}

/// Grid 37 with a carried bitmap and these faults, each of which alone gets the
/// reply that is its number, but for 5, which stands for a length that went wrong:
/// 20. 7 is only possible without a GDS, 8 and 9 only with one.
fn with(faults: &[u32]) -> Vec<u8> {
    let has = |number| faults.contains(&number);
    let mut sections = NORTH.rowed(!has(7), Present::Firsts, 7);
    for fault in faults {
        match fault {
            // an odd data length; it is 76
            5 => set(&mut sections.bds, 3, &[77]),
            // month 13
            6 => set(&mut sections.pds, 14, &[13]),
            // the number before the octants'
            7 => set(&mut sections.pds, 7, &[36]),
            8 => set(&mut sections.gds, 5, &[255]),
            // a row of 72 points in the place of one of 73
            9 => set(&mut sections.gds, 34, &[72]),
            // 3,446 points
            10 => set(&mut sections.bms, 4, &[10]),
            // flag bit 1; nine bits are unused
            11 => set(&mut sections.bds, 4, &[0x89]),
            // N = 6
            12 => set(&mut sections.bds, 11, &[6]),
            14 => {}
            _ => panic!("no fault {fault}"),
        }
    }
    sections.message()
}

fn pairs(table: &mut Table) {
    let mut add = |reply: u32, name: String, rule: String, faults: &[u32]| {
        let room = if faults.contains(&14) { 3_446 } else { ROOM };
        // the BMS has 438 octets from 215 on, or without a GDS from 37 on
        let place = if faults.contains(&7) { 475 } else { 653 };
        let vector = match reply {
            5 => table.stop((20, 4, place), &name, &rule, with(faults)),
            _ => table.add(reply, &name, &rule, with(faults)),
        };
        vector.room(room, room);
    };
    add(0, "octant-alone-0".into(), "no fault".into(), &[]);
    for fault in [5, 6, 7, 8, 9, 10, 11, 12, 14] {
        let rule = "the fault that the pairs have, alone".into();
        add(fault, format!("octant-alone-{fault}"), rule, &[fault]);
    }
    // the reply is the lower number, and 5 stands for 20
    for (reply, others) in [
        (5, &[6, 7, 8, 9, 10, 11, 12, 14][..]),
        (6, &[7, 8, 9, 10, 11, 12, 14]),
        (7, &[10, 11, 12, 14]),
        (8, &[9, 10, 11, 12, 14]),
        (9, &[10, 11, 12, 14]),
        (10, &[11, 12, 14]),
        (11, &[12, 14]),
        (12, &[14]),
    ] {
        for &other in others {
            let name = format!("octant-pair-{reply}-and-{other}");
            let first = if reply == 5 { 20 } else { reply };
            let rule = format!("the first that applies: {first} before {other}");
            add(reply, name, rule, &[reply, other]);
        }
    }
    for (reply, faults) in [
        (8, &[8, 9, 10, 11, 12, 14][..]),
        (9, &[9, 10, 11, 12, 14]),
        (7, &[7, 10, 11, 12, 14]),
    ] {
        let name = format!("octant-all-from-{reply}");
        let rule = format!("the first that applies: {reply} before all after it");
        add(reply, name, rule, faults);
    }
    for number in [36, 46] {
        table.add(
            7,
            &format!("7-grid-{number}-bitmap"),
            "7: octet 7 not in the catalogue, and a bitmap of an octant's points",
            {
                let mut sections = NORTH.rowed(false, Present::Firsts, 7);
                set(&mut sections.pds, 7, &[number]);
                sections.message()
            },
        );
        // an octant's data and no bitmap
        table.add(
            7,
            &format!("7-grid-{number}-values"),
            "7: octet 7 not in the catalogue, and data of an octant's points",
            {
                let sections = Sections {
                    bds: NORTH.rowed(false, Present::All, 1).bds,
                    ..listed(number)
                };
                sections.message()
            },
        );
    }
}
