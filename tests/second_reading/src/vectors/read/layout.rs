//! Rules 1 to 4, and R-2's 20 to 23 in the place of 5: what the slice is, and the
//! walk over the sections.

use super::Table;
use crate::vectors::messages::{
    carried, flat, hex, listed, plain, row, set, set_length, specimen, stored, Sections,
};

/// The specimen's octets with some put anew, counted from 1.
fn with(first: usize, put: &[u8]) -> Vec<u8> {
    let mut message = specimen().message();
    set(&mut message, first, put);
    message
}

/// A message of so many octets with no bitmap, filled by its data section, that
/// gives its own length and ends in '7777'.
fn sized(octets: usize) -> Vec<u8> {
    let mut sections = plain();
    let length = octets - (8 + 28 + 32 + 4);
    sections.bds.resize(length, 0);
    set_length(&mut sections.bds, length);
    sections.message()
}

/// A section made so many octets long, with its length saying so.
fn resized(section: &[u8], length: usize) -> Vec<u8> {
    let mut section = section.to_vec();
    section.resize(length, 0);
    set_length(&mut section, length);
    section
}

pub fn add(table: &mut Table) {
    sizes(table);
    indicator(table);
    lengths(table);
    ends(table);
}

fn sizes(table: &mut Table) {
    let rule = "1: slice below 8 or above 262,144 octets";
    table.add(1, "1-octets-0", "1: empty slice", Vec::new());
    table.add(1, "1-octets-1", rule, b"G".to_vec());
    table.add(1, "1-octets-7", rule, b"GRIB\0\0\x07".to_vec());
    let after =
        "8 octets or more pass 1; the last four, with the edition among them, are not '7777'";
    table.add(4, "1-octets-8", after, b"GRIB\0\0\x08\x01".to_vec());
    table.add(4, "1-octets-9", after, b"GRIB\0\0\x09\x017".to_vec());
    table.add(4, "1-octets-11", after, b"GRIB\0\0\x0B\x01777".to_vec());
    table.stop(
        (22, 1, 9),
        "1-octets-12",
        "12 octets pass 1 and 4: no room for a section length",
        b"GRIB\0\0\x0C\x017777".to_vec(),
    );
    table.stop(
        (20, 4, 69),
        "1-octets-262143",
        "20: an odd total needs an odd section length",
        sized(262_143),
    );
    table.add(
        12,
        "1-octets-262144",
        "262,144 octets pass 1, and their data are too long",
        sized(262_144),
    );
    table.add(1, "1-octets-262145", rule, sized(262_145));
    table.add(
        2,
        "1-zeros-262144",
        "262,144 zero octets pass 1",
        vec![0; 262_144],
    );
    table.add(1, "1-zeros-262145", rule, vec![0; 262_145]);
}

fn indicator(table: &mut Table) {
    let rule = "2: first four octets not 'GRIB'";
    for (name, text) in [
        ("2-frib", b"FRIB"),
        ("2-hrib", b"HRIB"),
        ("2-gqib", b"GQIB"),
        ("2-gsib", b"GSIB"),
        ("2-grhb", b"GRHB"),
        ("2-grjb", b"GRJB"),
        ("2-gria", b"GRIA"),
        ("2-gric", b"GRIC"),
        ("2-small-letters", b"grib"),
        ("2-zeros", b"\0\0\0\0"),
    ] {
        table.add(2, name, rule, with(1, text));
    }
    table.add(2, "2-shifted", "2: 'GRIB' one octet late", {
        let mut message = vec![0];
        message.extend(specimen().message());
        message
    });

    let rule = "3: edition not 1";
    table.add(3, "3-edition-0", rule, with(8, &[0]));
    table.add(0, "3-edition-1", "edition 1", with(8, &[1]));
    table.add(3, "3-edition-2", rule, with(8, &[2]));
    table.add(3, "3-edition-255", rule, with(8, &[255]));

    let rule = "4: total length is not the slice's";
    table.add(
        0,
        "4-total-94",
        "total length 94 of 94 octets",
        with(5, &[0, 0, 94]),
    );
    table.add(4, "4-total-93", rule, with(5, &[0, 0, 93]));
    table.add(4, "4-total-95", rule, with(5, &[0, 0, 95]));
    table.add(4, "4-total-0", rule, with(5, &[0, 0, 0]));
    table.add(4, "4-total-350", rule, with(5, &[0, 1, 94]));
    table.add(4, "4-total-65630", rule, with(5, &[1, 0, 94]));
    table.add(4, "4-total-low-octet-first", rule, with(5, &[94, 0, 0]));
    for (name, more) in [("4-one-octet-after", 1), ("4-two-octets-after", 2)] {
        let mut message = specimen().message();
        message.resize(94 + more, b'7');
        table.add(4, name, "4: octets after the message", message);
    }
    for (name, fewer) in [("4-one-octet-short", 1), ("4-two-octets-short", 2)] {
        let mut message = specimen().message();
        message.truncate(94 - fewer);
        table.add(4, name, "4: the end cut off", message);
    }
    let rule = "4: last four octets not '7777'";
    for (name, octet, put) in [
        ("4-end-6777", 91, b'6'),
        ("4-end-8777", 91, b'8'),
        ("4-end-7677", 92, b'6'),
        ("4-end-7877", 92, b'8'),
        ("4-end-7767", 93, b'6'),
        ("4-end-7787", 93, b'8'),
        ("4-end-7776", 94, b'6'),
        ("4-end-7778", 94, b'8'),
    ] {
        table.add(4, name, rule, with(octet, &[put]));
    }
}

fn lengths(table: &mut Table) {
    // Every section length below is that of the section as it stands, so that
    // the walk lands and only the named bound is touched.
    for (length, reply, rule) in [
        (26, 21, "21: under its least (PDS 28)"),
        (27, 20, "20 before 21: odd, and under its least"),
        (29, 20, "20: odd length"),
        (1_023, 20, "20: odd length"),
        (1_025, 20, "20 before 21: odd, and PDS over 1,024"),
        (1_026, 21, "21: PDS over 1,024"),
    ] {
        let mut sections = plain();
        sections.pds = resized(&sections.pds, length);
        let name = format!("5-pds-{length}");
        table.stop((reply, 1, 9), &name, rule, sections.message());
    }
    for (length, rule) in [
        (28, "the least PDS"),
        (30, "an even PDS length"),
        (256, "a PDS length in two octets"),
        (1_022, "an even PDS length"),
        (1_024, "the longest PDS"),
    ] {
        let mut sections = plain();
        sections.pds = resized(&sections.pds, length);
        table.add(0, &format!("5-pds-{length}"), rule, sections.message());
    }
    for (length, reply, rule) in [
        (30, 21, "21: under its least (GDS 32)"),
        (31, 20, "20 before 21: odd, and under its least"),
        (33, 20, "20: odd length, before 8"),
    ] {
        let mut sections = plain();
        sections.gds = resized(&sections.gds, length);
        let name = format!("5-gds-{length}");
        table.stop((reply, 2, 37), &name, rule, sections.message());
    }
    for (reply, length, rule) in [
        (0, 32, "the GDS length"),
        (
            8,
            34,
            "8: no kind has a GDS of 34 octets, and the walk lands",
        ),
    ] {
        let mut sections = plain();
        sections.gds = resized(&sections.gds, length);
        table.add(reply, &format!("5-gds-{length}"), rule, sections.message());
    }
    for (length, reply, rule) in [
        (4, 21, "21: under its least (BMS 6)"),
        (5, 20, "20 before 21: odd, and under its least"),
    ] {
        let mut sections = specimen();
        sections.bms = resized(&sections.bms, length);
        let name = format!("5-bms-{length}");
        table.stop((reply, 3, 69), &name, rule, sections.message());
    }
    let rule = "the least BMS is long enough; number 0 with no bits is 10";
    let mut sections = specimen();
    sections.bms = resized(&sections.bms, 6);
    table.add(10, "5-bms-6", rule, sections.message());
    table
        .add(0, "5-bms-6-stored", "the least BMS, of a stored bitmap", {
            let mut sections = specimen();
            sections.bms = stored(9);
            sections.message()
        })
        .lend(9, &[0xD0]);
    let rule = "20: odd, though 8 x (7 - 6) - 4 = 4 points";
    table.stop((20, 3, 69), "5-bms-7", rule, {
        let mut sections = specimen();
        sections.bms = hex("000007 04 0000 D0");
        sections.message()
    });
    table.add(0, "5-bms-8", "an even BMS length", specimen().message());
    let of = |bds: &str| {
        let sections = Sections {
            bds: hex(bds),
            ..plain()
        };
        sections.message()
    };
    for (reply, name, bds, rule) in [
        (
            21,
            "5-bds-10",
            "00000A 08 0000 439C4000",
            "21: under its least (BDS 12)",
        ),
        (
            20,
            "5-bds-11",
            "00000B 00 0000 439C4000 00",
            "20 before 21: odd and under its least, though 8 x (11 - 11) - 0 = 0 bits",
        ),
        (
            20,
            "5-bds-13",
            "00000D 04 0000 439C4000 03 0AF0",
            "20: odd, though 8 x (13 - 11) - 4 = 12 bits",
        ),
    ] {
        table.stop((reply, 4, 69), name, rule, of(bds));
    }
    for (name, bds, rule) in [
        ("5-bds-12", "00000C 08 0000 439C4000 00 00", "the least BDS"),
        (
            "5-bds-14",
            "00000E 0C 0000 439C4000 03 0AF000",
            "an even BDS length",
        ),
    ] {
        table.add(0, name, rule, of(bds));
    }
    for (name, section, place) in [
        ("5-pds-0", 1, 9),
        ("5-gds-0", 2, 37),
        ("5-bms-0", 3, 69),
        ("5-bds-0", 4, 77),
    ] {
        let mut sections = specimen();
        set_length(sections.section(section), 0);
        let rule = "21: a section length of 0";
        table.stop((21, section, place), name, rule, sections.message());
    }
}

fn ends(table: &mut Table) {
    // In the specimen the PDS starts at octet 9, the GDS at 37, the BMS at 69,
    // the BDS at 77, and the end section at 91.
    let passes = "22: its section passes the end section's start";
    for (name, length) in [("5-pds-passes", 84), ("5-pds-passes-far", 1_024)] {
        let mut sections = specimen();
        set_length(&mut sections.pds, length);
        table.stop((22, 1, 9), name, passes, sections.message());
    }
    for (name, first, put) in [
        ("5-gds-passes", 3, &[56][..]),
        ("5-gds-passes-far", 1, &[1]),
    ] {
        let message = specimen().gds(first, put).message();
        table.stop((22, 2, 37), name, passes, message);
    }
    for (name, first, put) in [
        ("5-bms-passes", 3, &[24][..]),
        ("5-bms-passes-far", 1, &[255, 255, 254]),
    ] {
        let message = specimen().bms(first, put).message();
        table.stop((22, 3, 69), name, passes, message);
    }
    for (name, first, put) in [
        ("5-bds-passes", 3, &[16][..]),
        ("5-bds-passes-far", 1, &[255, 255, 254]),
    ] {
        let message = specimen().bds(first, put).message();
        table.stop((22, 4, 77), name, passes, message);
    }
    table.stop(
        (22, 4, 77),
        "5-bds-to-the-end",
        "22: the data section takes the end section in",
        specimen().bds(3, &[18]).message(),
    );

    let short = "23: octets left over";
    let message = specimen().bds(3, &[12]).message();
    table.stop((23, 5, 89), "5-bds-short", short, message);
    for (name, more) in [
        ("5-one-left-over", 1),
        ("5-two-left-over", 2),
        ("5-four-left-over", 4),
    ] {
        let mut sections = plain();
        sections.bds.resize(14 + more, 0);
        table.stop((23, 5, 83), name, short, sections.message());
    }

    let octets_pass = "22: a length whose own octets don't fit";
    for (name, left) in [
        ("5-pds-none-left", 0),
        ("5-pds-one-left", 1),
        ("5-pds-two-left", 2),
    ] {
        let sections = Sections {
            pds: vec![0; left],
            gds: Vec::new(),
            bms: Vec::new(),
            bds: Vec::new(),
        };
        table.stop((22, 1, 9), name, octets_pass, sections.message());
    }
    // what follows a PDS of 28 octets starts at 37, whichever section it is
    for (name, section, flags, left) in [
        ("5-gds-none-left", 2, 0x80, 0),
        ("5-gds-two-left", 2, 0x80, 2),
        ("5-bms-none-left", 3, 0x40, 0),
        ("5-bms-two-left", 3, 0x40, 2),
        ("5-bds-none-left", 4, 0x00, 0),
        ("5-bds-one-left", 4, 0x00, 1),
        ("5-bds-two-left", 4, 0x00, 2),
    ] {
        let mut sections = listed(29).pds(8, &[flags]);
        sections.bds = vec![0; left];
        table.stop((22, section, 37), name, octets_pass, sections.message());
    }
    // the end section starts at 91, and the next section announced with it
    for (name, section, next, length) in [
        ("5-gds-to-the-end", 2, 3, 54),
        ("5-pds-to-the-end", 1, 2, 82),
    ] {
        let mut sections = specimen();
        set_length(sections.section(section), length);
        table.stop((22, next, 91), name, octets_pass, sections.message());
    }

    for (stop, name, rule, sections) in [
        (
            (23, 5, 69),
            "5-gds-unannounced",
            "23: without a GDS announced, its 32 octets are the data section",
            plain().pds(8, &[0x00]),
        ),
        (
            (21, 4, 69),
            "5-bms-unannounced",
            "21: without a BMS announced, its 8 octets are the data section",
            specimen().pds(8, &[0x80]),
        ),
        (
            (21, 2, 37),
            "5-gds-missing",
            "21: with a GDS announced, the data section's 12 octets are it",
            listed(29).pds(8, &[0x80]),
        ),
        (
            (22, 4, 83),
            "5-bms-missing",
            "22: with a BMS announced, the data section is it, and nothing is left",
            plain().pds(8, &[0xC0]),
        ),
    ] {
        table.stop(stop, name, rule, sections.message());
    }
    table.stop(
        (21, 2, 37),
        "5-sections-swapped",
        "21: the GDS stands before the BMS, whose 8 octets are too few",
        {
            let mut sections = specimen();
            std::mem::swap(&mut sections.gds, &mut sections.bms);
            sections.message()
        },
    );

    // 20 to 23 before 8, 10 and 12, where one length breaks two rules
    table.stop(
        (22, 3, 71),
        "5-before-8",
        "22 before 8: a GDS of 34, and then a BMS of 080C00 octets (hex)",
        specimen().gds(3, &[34]).message(),
    );
    table.stop(
        (22, 4, 75),
        "5-before-10",
        "22 before 10: a BMS of 6, and then a BDS of D00000 octets (hex)",
        specimen().bms(3, &[6]).message(),
    );
    table.stop(
        (20, 4, 69),
        "5-before-12",
        "20 before 12: a BDS of 13, too short for its data",
        {
            let mut sections = row(5, "", 8, "00000001 00000010 00000011 00000100 00000101");
            sections.bds = resized(&sections.bds, 13);
            sections.message()
        },
    );
    table.add(
        8,
        "5-lands-8",
        "8: a GDS of 34 with which the walk lands",
        {
            let mut sections = specimen();
            sections.gds = resized(&sections.gds, 34);
            sections.message()
        },
    );
    table.add(
        10,
        "5-lands-10",
        "10: a BMS of 10 with which the walk lands",
        {
            let mut sections = specimen();
            sections.bms = resized(&carried("1101"), 10);
            sections.message()
        },
    );
    table.add(
        12,
        "5-lands-12",
        "12: a BDS of 14 with which the walk lands",
        {
            let mut sections = flat(2, 2);
            sections.bds = resized(&sections.bds, 14);
            sections.message()
        },
    );
}
