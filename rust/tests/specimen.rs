// Every function on document 01's specimen.
use grib1::{length, limits, pack, scan, write, Bitmap, Data, Display, Form, Grid, Header, Message, Moment, Parts};
use grib1::{Place, Projection, Section, Source, Stored};

const SPECIMEN: &str = "4752494200005E01\
    00001C030700FFC00B6401F462030A06000100000000000014000001\
    00002000FF000002000200C3508007D08000C7388003E803E803E84000000000\
    0000080C0000D000\
    00000E0F0000439C4000030B8000\
    37373737";

const GRID: Grid = Grid {
    ni: 2,
    nj: 2,
    la1: 50000,
    lo1: -2000,
    resolution: 128,
    scan: scan::NORTH,
    projection: Projection::LatLon { la2: 51000, lo2: -1000, di: 1000, dj: 1000 },
};

const HEADER: Header = Header {
    points: 4,
    present: 3,
    grid: GRID,
    bitmap: Bitmap::Carried,
    time: Moment { year: 1998, month: 3, day: 10, hour: 6, minute: 0 },
    d: 1,
    e: 0,
    r: 0x439C4000,
    packing_flags: 0,
    bits: 3,
};

const NUMBERS: Source = Source { numbers: &[2500, 2502, 77, 2507], marks: &[1, 1, 0, 1], d: 1 };

fn specimen() -> Vec<u8> {
    (0..SPECIMEN.len() / 2).map(|i| u8::from_str_radix(&SPECIMEN[2 * i..2 * i + 2], 16).unwrap()).collect()
}

#[test]
fn read() {
    let octets = specimen();
    let message = Message::new(&octets, Stored::NONE).unwrap();
    assert_eq!(*message.header(), HEADER);
    let (mut values, mut marks) = ([9; 5], [9; 5]);
    assert_eq!(message.read(&mut values[..3], &mut marks).unwrap_err().reply, 14);
    assert_eq!((values, marks), ([9; 5], [9; 5]));
    let field = message.read(&mut values, &mut marks).unwrap();
    assert_eq!(*field.header(), HEADER);
    assert_eq!((field.values(), field.marks()), (&[0, 2, 0, 7][..], &[1, 1, 0, 1][..]));
    assert_eq!(field.rows().len(), 2);
    let chart: Vec<Vec<Option<u32>>> = field.rows().map(|row| row.collect()).collect();
    assert_eq!(chart, [[None, Some(7)], [Some(0), Some(2)]]);
    assert_eq!((values[4], marks[4]), (9, 9));
}

#[test]
fn refused() {
    let octets = specimen();
    let refusal = Message::new(&octets[..93], Stored::NONE).unwrap_err();
    assert_eq!(refusal.reply, 4);
    assert_eq!(refusal.to_string(), "refused 4: total length is not the slice's, or last four octets not '7777'");
    assert_eq!(Message::new(&[], Stored::NONE).unwrap_err().reply, 1);
}

#[test]
fn parts() {
    let octets = specimen();
    let message = Message::new(&octets, Stored::NONE).unwrap();
    let all = [Section::Indicator, Section::Pds, Section::Gds, Section::Bms, Section::Bds, Section::End];
    let tiled: Vec<u8> = all.iter().flat_map(|s| message.section(*s).unwrap().to_vec()).collect();
    assert_eq!(tiled, octets);
    assert!(std::ptr::eq(message.section(Section::Pds).unwrap(), &octets[8..36]));
    assert!(std::ptr::eq(message.bitmap().unwrap(), &octets[74..75]));
    assert_eq!(message.display(), Ok(Display { reference: 2500.0, step: 1.0 }));
}

#[test]
fn points() {
    let octets = specimen();
    let message = Message::new(&octets, Stored::NONE).unwrap();
    let told: Vec<Data> = (0..5).map(|k| message.data_number(k)).collect();
    assert_eq!(told, [Data::Present(0), Data::Present(1), Data::Absent, Data::Present(2), Data::Outside]);
    for (point, row, column) in [(0, 1, 0), (1, 1, 1), (2, 0, 0), (3, 0, 1)] {
        assert_eq!(GRID.place(point), Some(Place { row, column }));
        assert_eq!(GRID.point(Place { row, column }), Some(point));
    }
    assert_eq!(GRID.place(4), None);
    assert_eq!(GRID.point(Place { row: 2, column: 0 }), None);
    assert_eq!([0, 1, 2, u32::MAX].map(|row| GRID.row_len(row)), [2, 2, 0, 0]);
}

#[test]
fn written() {
    let octets = specimen();
    let message = Message::new(&octets, Stored::NONE).unwrap();
    let pds = message.section(Section::Pds).unwrap();
    let parts = Parts { pds, form: message.form(), e: 0, r: HEADER.r, stored: Stored::NONE, values: &[0, 2, 0, 7], marks: &[1, 1, 0, 1] };
    assert_eq!(length(pds, &parts.form, parts.stored, parts.marks), Ok(94));
    assert_eq!(length(pds, &parts.form, parts.stored, &[1, 1, 0]).unwrap_err().reply, 13);
    assert!(94 <= limits::WRITTEN_MOST);
    let mut out = [0xAA; 96];
    assert_eq!(write(&parts, &mut out[..93]).unwrap_err().reply, 14);
    assert_eq!(out, [0xAA; 96]);
    assert_eq!(write(&parts, &mut out).unwrap(), &octets[..]);
    assert_eq!(out[94..], [0xAA, 0xAA]);
    assert_eq!(write(&Parts { e: 40000, ..parts }, &mut out).unwrap_err().reply, 11);
    let without = Form { grid: None, ..parts.form };
    assert_eq!(write(&Parts { form: without, ..parts }, &mut out).unwrap_err().reply, 7);
}

#[test]
fn packed_and_checked() {
    let octets = specimen();
    let message = Message::new(&octets, Stored::NONE).unwrap();
    let pds = message.section(Section::Pds).unwrap();
    let mut out = [0; 94];
    assert_eq!(pack(pds, &message.form(), Stored::NONE, &NUMBERS, &mut out).unwrap(), &octets[..]);
    assert_eq!(message.check(&NUMBERS), Ok(()));
    assert_eq!(message.check(&Source { numbers: &[2500, 2502, 77, 2508], ..NUMBERS }).unwrap_err().reply, 17);
    assert_eq!(message.check(&Source { d: -1, ..NUMBERS }).unwrap_err().reply, 15);
    assert_eq!(pack(pds, &message.form(), Stored::NONE, &Source { d: 2, ..NUMBERS }, &mut out).unwrap_err().reply, 15);
}

#[test]
fn stored() {
    let octets = specimen();
    let message = Message::new(&octets, Stored::NONE).unwrap();
    let pds = message.section(Section::Pds).unwrap();
    let store = [0xDF];
    let lent = Stored { number: 5, octets: &store };
    let form = Form { bitmap: Bitmap::Stored(5), ..message.form() };
    let mut out = vec![0; length(pds, &form, lent, NUMBERS.marks).unwrap()];
    let made = pack(pds, &form, lent, &NUMBERS, &mut out).unwrap();
    assert_eq!(made.len(), 92);
    let again = Message::new(made, lent).unwrap();
    assert_eq!(again.header().bitmap, Bitmap::Stored(5));
    assert!(std::ptr::eq(again.bitmap().unwrap(), &store[..]));
    assert_eq!(again.data_number(3), Data::Present(2));
    assert_eq!(again.form(), form);
    assert_eq!(Message::new(made, Stored::NONE).unwrap_err().reply, 10);
}
