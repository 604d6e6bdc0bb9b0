//! Places that take two octets and three, up to the last that a message has.

use crate::vectors::lengths::{CUT, LEFT_OVER, ODD, ODD_PASSES, PASSES, UNDER};
use crate::vectors::messages::{plain, set, set_length, specimen};
use crate::vectors::read::Table;

pub fn add(table: &mut Table) {
    // a GDS of so many octets after a PDS of 28; a data section of 14 after it
    let long = |gds: usize| {
        let mut sections = plain();
        sections.gds.resize(gds, 0);
        set_length(&mut sections.gds, gds);
        sections
    };
    for (gds, place) in [
        (220, 257),
        (65_498, 65_535),
        (65_500, 65_537),
        (131_072, 131_109),
    ] {
        for (length, (reply, rule)) in [(15, ODD_PASSES), (10, UNDER), (16, PASSES)] {
            let mut sections = long(gds);
            set_length(&mut sections.bds, length);
            table.stop(
                (reply, 4, place),
                &format!("{reply}-far-{place}"),
                rule,
                sections.message(),
            );
        }
        let mut sections = long(gds);
        sections.bds.extend([0, 0]);
        let name = format!("23-far-{}", place + 14);
        table.stop((23, 5, place + 14), &name, LEFT_OVER, sections.message());
        let name = format!("20-to-23-far-{place}");
        let rule = "8: no kind has this length, and the walk lands";
        table.add(8, &name, rule, long(gds).message());
    }
    // a bitmap section of so many octets, and a data section behind it
    let mut sections = specimen();
    sections.bms.resize(200_000, 0);
    set_length(&mut sections.bms, 200_000);
    table.add(
        10,
        "20-to-23-far-bms",
        "10: a bitmap of more points, and the walk lands",
        sections.message(),
    );
    set(&mut sections.bds, 3, &[13]);
    table.stop((20, 4, 200_069), "20-far-bms", ODD.1, sections.message());
    // the longest message has 262,144 octets, and its end section starts at 262,141
    let sized = |said: usize, had: usize| {
        let mut sections = plain();
        sections.bds.resize(had, 0);
        set_length(&mut sections.bds, said);
        sections.message()
    };
    table.stop(
        (23, 5, 83),
        "23-many-left-over",
        LEFT_OVER,
        sized(14, 262_072),
    );
    table.stop(
        (23, 5, 262_139),
        "23-far-262139",
        LEFT_OVER,
        sized(262_070, 262_072),
    );
    table.stop(
        (23, 5, 262_139),
        "23-far-262139-one",
        LEFT_OVER,
        sized(262_070, 262_071),
    );
    table.stop(
        (22, 4, 69),
        "22-long-passes",
        PASSES.1,
        sized(262_074, 262_072),
    );
    table.stop((20, 4, 69), "20-long-odd", ODD.1, sized(262_071, 262_072));
    table.stop(
        (20, 4, 69),
        "20-long-odd-passes",
        ODD_PASSES.1,
        sized(262_073, 262_072),
    );
    // and the last place that a section can have, with nothing left
    let mut sections = long(262_104);
    sections.bds = Vec::new();
    table.stop((22, 4, 262_141), "22-far-262141", CUT.1, sections.message());
    let mut sections = long(262_102);
    sections.bds = vec![0; 2];
    table.stop((22, 4, 262_139), "22-far-262139", CUT.1, sections.message());
}
