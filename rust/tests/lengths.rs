// Section lengths that went wrong: each of 20 to 23 in each section that it can name, with the section, its place and
// the sentence that is read out. Other refusals tell no place.
use grib1::{length, pack, write, Bitmap, Form, Message, Parts, Refusal, Section, Source, Stop, Stored};
use std::fs;
use std::path::Path;

// Where the sections of the specimen start, its first octet being 1.
const PDS: usize = 9;
const GDS: usize = 37;
const BMS: usize = 69;
const BDS: usize = 77;

fn specimen() -> Vec<u8> {
    fs::read(Path::new(env!("CARGO_MANIFEST_DIR")).join("../crates/list/stdin")).unwrap()
}

fn refused(octets: &[u8]) -> Refusal {
    Message::new(octets, Stored::NONE).unwrap_err()
}

// The specimen with the length of the section that starts at a place.
fn said(place: usize, length: u32) -> Vec<u8> {
    let mut octets = specimen();
    octets[place - 1..place + 2].copy_from_slice(&length.to_be_bytes()[1..]);
    octets
}

// A message of so many octets: an indicator, zeros and an end.
fn hollow(octets: u8) -> Vec<u8> {
    let mut message = vec![0; octets.into()];
    message[..4].copy_from_slice(b"GRIB");
    message[6..8].copy_from_slice(&[octets, 1]);
    message[octets as usize - 4..].copy_from_slice(b"7777");
    message
}

// The specimen with octets before its end section.
fn longer(more: &[u8]) -> Vec<u8> {
    let mut octets = specimen();
    octets.splice(90..90, more.iter().copied());
    octets[6] = octets.len() as u8;
    octets
}

fn tells(octets: &[u8], reply: u32, section: Section, place: u32) {
    let refusal = refused(octets);
    assert_eq!((refusal.reply, refusal.stop), (reply, Some(Stop { section, place })));
}

#[test]
fn odd() {
    for (start, section, lengths) in [
        (PDS, Section::Pds, &[1, 27, 29, 1023, 1025, 1027, 0xFFFFFF][..]),
        (GDS, Section::Gds, &[1, 31, 33, 177, 0xFFFFFF]),
        (BMS, Section::Bms, &[1, 5, 7, 9, 0xFFFFFF]),
        (BDS, Section::Bds, &[1, 11, 13, 15, 0xFFFFFF]),
    ] {
        for length in lengths {
            tells(&said(start, *length), 20, section, start as u32);
        }
    }
}

#[test]
fn out_of_bounds() {
    for (start, section, lengths) in [
        (PDS, Section::Pds, &[0, 26, 1026, 0xFFFFFE][..]),
        (GDS, Section::Gds, &[0, 30]),
        (BMS, Section::Bms, &[0, 4]),
        (BDS, Section::Bds, &[0, 10]),
    ] {
        for length in lengths {
            tells(&said(start, *length), 21, section, start as u32);
        }
    }
}

#[test]
fn past_the_end() {
    for (start, section, lengths) in [
        (PDS, Section::Pds, &[84, 1024][..]),
        (GDS, Section::Gds, &[56, 178, 0xFFFFFE]),
        (BMS, Section::Bms, &[24, 0xFFFFFE]),
        (BDS, Section::Bds, &[16, 0xFFFFFE]),
    ] {
        for length in lengths {
            tells(&said(start, *length), 22, section, start as u32);
        }
    }
    // The section before leaves two octets or none for the length of the next.
    for (start, most, next) in [(PDS, 82, Section::Gds), (GDS, 54, Section::Bms), (BMS, 22, Section::Bds)] {
        tells(&said(start, most), 22, next, 91);
        tells(&said(start, most - 2), 22, next, 89);
    }
    for octets in [12, 13, 14] {
        tells(&hollow(octets), 22, Section::Pds, 9);
    }
    tells(&hollow(15), 21, Section::Pds, 9);
}

#[test]
fn left_over() {
    tells(&said(BDS, 12), 23, Section::End, 89);
    tells(&longer(&[0]), 23, Section::End, 91);
    tells(&longer(&[0; 100]), 23, Section::End, 91);
}

// The section nearest the front tells, after 4 and before 6; one that is not announced tells nothing.
#[test]
fn first() {
    let mut octets = said(BDS, 13);
    tells(&octets, 20, Section::Bds, 77);
    octets[BMS + 1] = 4;
    tells(&octets, 21, Section::Bms, 69);
    octets[GDS - 1] = 1;
    tells(&octets, 22, Section::Gds, 37);
    octets[PDS + 12] = 13; // month
    tells(&octets, 22, Section::Gds, 37);
    octets[6] = 95; // total length
    assert_eq!(refused(&octets).reply, 4);

    let mut octets = specimen();
    octets[PDS + 6] = 64; // a BMS and no GDS: the one that is there is taken for it
    tells(&octets, 21, Section::Bds, 69);
    octets[PDS + 6] = 0;
    octets[BDS + 1] = 15;
    tells(&octets, 23, Section::End, 69);
}

#[test]
fn read_out() {
    for (octets, text) in [
        (
            said(PDS, 29),
            "refused 20: the length of section 1, the Product Definition Section, is odd; \
             the section starts at octet 9 of the message",
        ),
        (
            said(BMS, 7),
            "refused 20: the length of section 3, the Bit Map Section, is odd; \
             the section starts at octet 69 of the message",
        ),
        (
            said(PDS, 1026),
            "refused 21: the length of section 1, the Product Definition Section, is below 28 or above 1,024 octets; \
             the section starts at octet 9 of the message",
        ),
        (
            said(GDS, 30),
            "refused 21: the length of section 2, the Grid Description Section, is below 32 octets; \
             the section starts at octet 37 of the message",
        ),
        (
            said(BMS, 4),
            "refused 21: the length of section 3, the Bit Map Section, is below 6 octets; \
             the section starts at octet 69 of the message",
        ),
        (
            said(BDS, 10),
            "refused 21: the length of section 4, the Binary Data Section, is below 12 octets; \
             the section starts at octet 77 of the message",
        ),
        (
            said(BDS, 16),
            "refused 22: section 4, the Binary Data Section, runs past the start of section 5, the End Section; \
             the section starts at octet 77 of the message",
        ),
        (
            said(BDS, 12),
            "refused 23: octets are left over between section 4, the Binary Data Section, and section 5, the End \
             Section; the first is octet 89 of the message",
        ),
    ] {
        assert_eq!(refused(&octets).to_string(), text);
    }
    for (octets, words) in [
        (said(GDS, 33), "a section's length is odd"),
        (said(GDS, 30), "a section's length is under its least, or the PDS's over 1,024 octets"),
        (said(GDS, 56), "a section passes the end section's start"),
        (said(BDS, 12), "octets are left over between the data section and the end section"),
    ] {
        assert_eq!(refused(&octets).words(), words);
    }
}

// Other refusals of a message, and every refusal of the writer and the packer: 5 is theirs alone.
#[test]
fn no_place() {
    let mut octets = specimen();
    let others = [(1, 0, 2), (8, 2, 3), (7, 95, 4), (22, 13, 6), (41, 0, 8), (43, 255, 9), (72, 0, 10), (80, 0x8F, 11)];
    for (place, octet, reply) in others {
        let kept = std::mem::replace(&mut octets[place - 1], octet);
        assert_eq!((refused(&octets).reply, refused(&octets).stop), (reply, None));
        octets[place - 1] = kept;
    }
    assert_eq!((refused(&[]).reply, refused(&[]).stop), (1, None));

    let message = Message::new(&octets, Stored::NONE).unwrap();
    let (marks, numbers) = ([1, 1, 0, 1], [2500, 2502, 77, 2507]);
    let (mut values, mut read_marks) = ([0; 3], [0; 4]);
    let short = message.read(&mut values, &mut read_marks).unwrap_err();
    assert_eq!((short.reply, short.stop), (14, None));
    let differs = message.check(&Source { numbers: &numbers, marks: &marks, d: 2 }).unwrap_err();
    assert_eq!((differs.reply, differs.stop), (15, None));

    let (stored, mut out) = (Stored::NONE, [0; 94]);
    let form = Form { bitmap: Bitmap::Carried, ..message.form() };
    for pds in [&octets[8..35], &octets[8..34], &octets[8..38], &[0; 1026][..]] {
        let parts = Parts { pds, form, e: 0, r: 0, stored, values: &[0, 2, 0, 7], marks: &marks };
        let source = Source { numbers: &numbers, marks: &marks, d: 1 };
        for refusal in [
            length(pds, &form, stored, &marks).unwrap_err(),
            write(&parts, &mut out).unwrap_err(),
            pack(pds, &form, stored, &source, &mut out).unwrap_err(),
        ] {
            assert_eq!((refusal.reply, refusal.stop), (5, None));
            let text = "refused 5: the length of the PDS given is odd, below 28 or above 1,024 octets, \
                        or not what its octets 1 to 3 say";
            assert_eq!(refusal.to_string(), text);
        }
    }
}
