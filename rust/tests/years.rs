// The year of century, 1 to 100, on document 01's specimen at other dates: taken and told, or refused by 6, by whoever
// judges a time.
use grib1::{length, pack, write, Form, Message, Moment, Parts, Refusal, Section, Source, Stored};
use std::fs;
use std::path::Path;

const SOURCE: Source = Source { numbers: &[2500, 2502, 77, 2507], marks: &[1, 1, 0, 1], d: 1 };

fn specimen() -> Vec<u8> {
    fs::read(Path::new(env!("CARGO_MANIFEST_DIR")).join("../crates/list/stdin")).unwrap()
}

// The specimen with century and year of century, month and day.
fn date(century: u8, year: u8, month: u8, day: u8) -> Vec<u8> {
    let mut octets = specimen();
    octets[32] = century;
    octets[20..23].copy_from_slice(&[year, month, day]);
    octets
}

// What reading, the length told beforehand, writing and packing say of a message's PDS and the specimen's other parts.
fn replies(octets: &[u8], form: Form) -> [Result<Vec<u8>, Refusal>; 4] {
    let (pds, stored) = (&octets[8..36], Stored::NONE);
    let parts = Parts { pds, form, e: 0, r: 0x439C4000, stored, values: &[0, 2, 0, 7], marks: SOURCE.marks };
    let (mut written, mut packed) = ([0xAA; 94], [0xAA; 94]);
    let all = [
        Message::new(octets, stored).map(|message| message.section(Section::Pds).unwrap().to_vec()),
        length(pds, &form, stored, SOURCE.marks).map(|len| vec![len as u8]),
        write(&parts, &mut written).map(|message| message.to_vec()),
        pack(pds, &form, stored, &SOURCE, &mut packed).map(|message| message.to_vec()),
    ];
    for (reply, out) in [(&all[2], written), (&all[3], packed)] {
        assert!(reply.is_ok() || out == [0xAA; 94]);
    }
    all
}

// A day of a year, in the one spelling that it has.
fn taken(year: u16, month: u8, day: u8) -> Vec<u8> {
    let octets = date(((year - 1) / 100 + 1) as u8, ((year - 1) % 100 + 1) as u8, month, day);
    let message = Message::new(&octets, Stored::NONE).unwrap();
    assert_eq!(message.header().time, Moment { year, month, day, hour: 6, minute: 0 });
    assert_eq!(message.check(&SOURCE), Ok(()));
    let all = replies(&octets, message.form());
    assert_eq!(all, [Ok(octets[8..36].to_vec()), Ok(vec![94]), Ok(octets.clone()), Ok(octets.clone())]);
    octets
}

// By these octets, each with century and year of century, month and day.
fn refused(dates: &[[u8; 4]]) {
    let own = specimen();
    let form = Message::new(&own, Stored::NONE).unwrap().form();
    for [century, year, month, day] in dates {
        for reply in replies(&date(*century, *year, *month, *day), form) {
            let refusal = reply.unwrap_err();
            assert_eq!((refusal.reply, refusal.stop), (6, None));
        }
    }
}

#[test]
fn turns_of_centuries() {
    assert_eq!(taken(2000, 12, 31), date(20, 100, 12, 31));
    assert_eq!(taken(2001, 1, 1), date(21, 1, 1, 1));
    assert_eq!(taken(1900, 12, 31), date(19, 100, 12, 31));
    assert_eq!(taken(1701, 1, 1), date(18, 1, 1, 1));
    assert_eq!(taken(9900, 12, 31), date(99, 100, 12, 31));
}

#[test]
fn leap_years() {
    taken(1996, 2, 29);
    taken(2000, 2, 29);
    taken(2400, 2, 29);
    refused(&[[18, 100, 2, 29], [19, 100, 2, 29], [21, 100, 2, 29], [99, 100, 2, 29], [20, 100, 2, 30]]);
}

#[test]
fn out_of_range() {
    refused(&[[18, 0, 3, 10], [20, 0, 3, 10], [99, 0, 3, 10], [21, 0, 2, 29]]);
    refused(&[[18, 101, 3, 10], [20, 101, 3, 10], [99, 101, 3, 10], [20, 255, 3, 10]]);
    refused(&[[17, 100, 3, 10], [100, 100, 3, 10]]);
}

#[test]
fn read_out() {
    let refusal = Message::new(&date(21, 0, 1, 1), Stored::NONE).unwrap_err();
    assert_eq!(
        refusal.to_string(),
        "refused 6: time out of its ranges: century 18 to 99, year of century 1 to 100, month 1 to 12, a day of \
         that month, hour 0 to 23, minute 0 to 59"
    );
}
