//! Every example that document 01 gives, and the cases at each edge; and what R-1
//! of document 02 says of thinned octants, R-2 of where the lengths went wrong, R-3 of
//! the year 100, and R-4 of the other projections.

use second_reading::*;

const SPECIMEN: &str = "47524942 00005E 01
    00001C 03 07 00 FF C0 0B 64 01F4 62030A0600 01 00 00 00 0000 00 14 00 0001
    000020 00 FF 00 0002 0002 00C350 8007D0 80 00C738 8003E8 03E8 03E8 40 00000000
    000008 0C 0000 D000
    00000E 0F 0000 439C4000 03 0B8000
    37373737";

fn from_hex(text: &str) -> Vec<u8> {
    let digits: Vec<u8> = text
        .chars()
        .filter_map(|c| c.to_digit(16))
        .map(|d| d as u8)
        .collect();
    digits.chunks(2).map(|two| 16 * two[0] + two[1]).collect()
}

fn specimen() -> Vec<u8> {
    from_hex(SPECIMEN)
}

fn none() -> Lent {
    Lent::default()
}

fn specimen_grid() -> Grid {
    Grid {
        ni: 2,
        nj: 2,
        la1: 50_000,
        lo1: -2_000,
        flags: 128,
        la2: 51_000,
        lo2: -1_000,
        di: 1_000,
        dj: 1_000,
        scan: 64,
        ..Grid::default()
    }
}

fn specimen_header() -> Header {
    Header {
        reply: 0,
        section: 0,
        place: 0,
        places: Places {
            pds: Part { start: 8, len: 28 },
            gds: Part { start: 36, len: 32 },
            bms: Part { start: 68, len: 8 },
            bds: Part { start: 76, len: 14 },
        },
        time: Time {
            year: 1998,
            month: 3,
            day: 10,
            hour: 6,
            minute: 0,
        },
        d: 1,
        grid: specimen_grid(),
        points: 4,
        bitmap: BitmapKind::Carried,
        present: 3,
        flags: 0,
        bits: 3,
        e: 0,
        r: 0x439C4000,
    }
}

fn specimen_form() -> Form {
    Form {
        grid: Some(specimen_grid()),
        bitmap: BitmapKind::Carried,
        flags: 0,
        bits: 3,
    }
}

fn specimen_parts() -> Parts {
    Parts {
        pds: specimen()[8..36].to_vec(),
        form: specimen_form(),
        e: 0,
        r: 0x439C4000,
        lent: none(),
        values: vec![0, 2, 0, 7],
        marks: vec![1, 1, 0, 1],
    }
}

fn specimen_source() -> Source {
    Source {
        numbers: vec![2_500, 2_502, -77, 2_507],
        marks: vec![1, 1, 0, 1],
        d: 1,
    }
}

/// A message of `ni` by `nj` points with no bitmap and constant data.
fn constant(ni: u16, nj: u16) -> Vec<u8> {
    let mut message = specimen()[..68].to_vec();
    message[8 + 7] = 0x80;
    message[36 + 6..36 + 8].copy_from_slice(&ni.to_be_bytes());
    message[36 + 8..36 + 10].copy_from_slice(&nj.to_be_bytes());
    message.extend(from_hex("00000C 08 0000 00000000 00 00 37373737"));
    message[6] = message.len() as u8;
    message
}

#[test]
fn the_specimen_is_read() {
    assert_eq!(specimen().len(), 94);
    assert_eq!(header(&specimen(), &none()), specimen_header());
    let mut values = [9; 6];
    let mut marks = [9; 5];
    let header = read(&specimen(), 0, &[], &mut values, &mut marks);
    assert_eq!(header, specimen_header());
    assert_eq!(values, [0, 2, 0, 7, 9, 9]);
    assert_eq!(marks, [1, 1, 0, 1, 9]);
}

#[test]
fn short_lists_are_14_and_stay() {
    for (v, m) in [(3, 4), (4, 3), (0, 0)] {
        let mut values = vec![9; v];
        let mut marks = vec![9; m];
        let header = read(&specimen(), 0, &[], &mut values, &mut marks);
        assert_eq!(
            header,
            Header {
                reply: 14,
                ..Header::default()
            }
        );
        assert!(values.iter().all(|&x| x == 9) && marks.iter().all(|&x| x == 9));
    }
}

#[test]
fn the_parts_of_the_specimen() {
    let parts: Vec<(u32, u32)> = (0..8)
        .map(|k| section(&specimen(), &none(), k))
        .map(|part| (part.start, part.len))
        .collect();
    assert_eq!(
        parts,
        [
            (0, 8),
            (8, 28),
            (36, 32),
            (68, 8),
            (76, 14),
            (90, 4),
            (0, 0),
            (0, 0)
        ]
    );
    assert_eq!(
        bitmap_in_force(&specimen(), &none()),
        (false, Part { start: 74, len: 1 })
    );
    let mut broken = specimen();
    broken[93] = b'8';
    for k in 0..7 {
        assert_eq!(section(&broken, &none(), k), Part::default());
    }
    assert_eq!(bitmap_in_force(&broken, &none()), (false, Part::default()));
    // An absent section is the empty part at the message's start.
    let message = constant(2, 2);
    assert_eq!(section(&message, &none(), 3), Part::default());
    assert_eq!(section(&message, &none(), 4), Part { start: 68, len: 12 });
    assert_eq!(
        header(&message, &none()).places.bms,
        Part { start: 68, len: 0 }
    );
    assert_eq!(bitmap_in_force(&message, &none()), (false, Part::default()));
}

#[test]
fn data_numbers_of_the_specimen() {
    let numbers: Vec<DataNumber> = (0..5)
        .map(|point| data_number(&specimen(), &none(), point))
        .collect();
    assert_eq!(
        numbers,
        [
            DataNumber::Present(0),
            DataNumber::Present(1),
            DataNumber::Absent,
            DataNumber::Present(2),
            DataNumber::Outside
        ]
    );
    assert_eq!(
        data_number(&constant(2, 2), &none(), 3),
        DataNumber::Present(3)
    );
    assert_eq!(data_number(&[], &none(), 0), DataNumber::Outside);
}

#[test]
fn the_specimen_is_displayed() {
    let (reply, reference, step) = display(&specimen(), &none());
    assert_eq!(reply, Reply::of(0));
    assert_eq!(f64::from_bits(reference), 2_500.0);
    assert_eq!(f64::from_bits(step), 1.0);
    for (octets, reply, step) in [
        ([0x83, 0xFE], 0, 2f64.powi(-1_022)),
        ([0x83, 0xFF], 16, 0.0),
        ([0x03, 0xFF], 0, 2f64.powi(1_023)),
        ([0x04, 0x00], 16, 0.0),
        ([0x80, 0x00], 0, 1.0),
    ] {
        let mut message = specimen();
        message[80..82].copy_from_slice(&octets);
        let shown = display(&message, &none());
        assert_eq!(shown.0, Reply::of(reply));
        assert_eq!(shown.1, if reply == 0 { 2_500f64.to_bits() } else { 0 });
        assert_eq!(shown.2, step.to_bits());
    }
    assert_eq!(display(&[], &none()), (Reply::of(1), 0, 0));
}

#[test]
fn the_specimen_is_listed() {
    assert_eq!(listing(&specimen()), "4 3 2 2 1 0 439c4000 3\n- 7\n0 2\n");
    assert_eq!(listing(&[]), "refused 1\n");
    assert_eq!(listing(&vec![0; 32_768]), "refused 2\n");
    assert_eq!(listing(&vec![0; 32_769]), "refused 1\n");
    assert_eq!(listing(&constant(64, 65)), "refused 14\n");
    assert!(listing(&constant(64, 64)).starts_with("4096 4096 64 64 1 0 00000000 0\n0 0 "));
}

#[test]
fn the_specimen_is_written() {
    let mut out = [0xAA; 96];
    assert_eq!(write(&specimen_parts(), &mut out), (0, 94));
    assert_eq!(out[..94], specimen()[..]);
    assert_eq!(out[94..], [0xAA, 0xAA]);
    let mut out = [0xAA; 93];
    assert_eq!(write(&specimen_parts(), &mut out), (14, 0));
    assert_eq!(out, [0xAA; 93]);
}

#[test]
fn the_specimen_is_packed_and_checked() {
    let mut out = [0xAA; 96];
    let pds = &specimen()[8..36];
    let source = specimen_source();
    let packed = pack(pds, &specimen_form(), &none(), &source, &mut out);
    assert_eq!(packed, (0, 94));
    assert_eq!(out[..94], specimen()[..]);
    let judge = |source: &Source| {
        check(
            &specimen(),
            &none(),
            &source.numbers,
            &source.marks,
            source.d,
        )
    };
    assert_eq!(judge(&source), Reply::of(0));
    let mut other = source.clone();
    other.d = 2;
    assert_eq!(judge(&other), Reply::of(15));
    other = source.clone();
    other.numbers[1] += 1;
    assert_eq!(judge(&other), Reply::of(17));
    other = source.clone();
    other.marks[2] = 1;
    assert_eq!(judge(&other), Reply::of(15));
    other = source.clone();
    other.marks[2] = 2;
    assert_eq!(judge(&other), Reply::of(18));
    other = source.clone();
    other.numbers[0] = 8_388_608;
    assert_eq!(judge(&other), Reply::of(18));
    other = source.clone();
    other.numbers[2] = i32::MIN;
    assert_eq!(judge(&other), Reply::of(0));
}

#[test]
fn the_slice_and_the_end() {
    assert_eq!(header(&[], &none()).reply, 1);
    assert_eq!(header(b"GRIB\0\0\x07", &none()).reply, 1);
    assert_eq!(header(b"GRIB\0\0\x08\x01", &none()).reply, 4);
    assert_eq!(header(&vec![0; 262_145], &none()).reply, 1);
    assert_eq!(header(&vec![0; 262_144], &none()).reply, 2);
    // Twelve octets are an indicator and an end with nothing between: no PDS at 9.
    let told = header(b"GRIB\0\0\x0C\x017777", &none()).told();
    assert_eq!(told, stop(22, 1, 9));
    let mut message = specimen();
    message[7] = 2;
    assert_eq!(header(&message, &none()).reply, 3);
    message[0] = b'g';
    assert_eq!(header(&message, &none()).reply, 2);
}

fn stop(number: u32, section: u32, place: u32) -> Reply {
    Reply {
        number,
        section,
        place,
    }
}

#[test]
fn the_order_of_5_and_8() {
    // Where 5 stood, reading gives 20 to 23.
    let mut message = specimen();
    message.splice(68..68, [0, 0]);
    message[6] = 96;
    // A BMS of 0 octets stands after the GDS.
    assert_eq!(header(&message, &none()).told(), stop(21, 3, 69));
    message[38] = 34;
    assert_eq!(header(&message, &none()).told(), Reply::of(8));
    message[38] = 33;
    assert_eq!(header(&message, &none()).told(), stop(20, 2, 37));
}

/// "odd length, under or over its bounds, running past the end section, and octets
/// left over, each with the section's number and its first octet's place in the
/// message": the PDS at 9, the GDS at 37, the BMS at 69, the BDS at 77, the end
/// section at 91.
#[test]
fn where_the_lengths_went_wrong() {
    for (place, length, told) in [
        (9, 29, stop(20, 1, 9)),
        (9, 27, stop(20, 1, 9)),
        (9, 26, stop(21, 1, 9)),
        (9, 84, stop(22, 1, 9)),
        (9, 1_024, stop(22, 1, 9)),
        (9, 1_025, stop(20, 1, 9)),
        (9, 1_026, stop(21, 1, 9)),
        (9, 1_027, stop(20, 1, 9)),
        (37, 33, stop(20, 2, 37)),
        (37, 31, stop(20, 2, 37)),
        (37, 30, stop(21, 2, 37)),
        (37, 56, stop(22, 2, 37)),
        (37, 55, stop(20, 2, 37)),
        (69, 9, stop(20, 3, 69)),
        (69, 5, stop(20, 3, 69)),
        (69, 4, stop(21, 3, 69)),
        (69, 24, stop(22, 3, 69)),
        (77, 13, stop(20, 4, 77)),
        (77, 11, stop(20, 4, 77)),
        (77, 10, stop(21, 4, 77)),
        (77, 16, stop(22, 4, 77)),
        // what the next section would start with is the end section, or what is
        // left over
        (9, 82, stop(22, 2, 91)),
        (37, 54, stop(22, 3, 91)),
        (69, 22, stop(22, 4, 91)),
        (77, 12, stop(23, 5, 89)),
        (77, 14, Reply::of(0)),
    ] {
        let mut message = specimen();
        message[place - 1..place + 2].copy_from_slice(&(length as u32).to_be_bytes()[1..]);
        let (mut values, mut marks) = ([9; 4], [9; 4]);
        let header = read(&message, 0, &[], &mut values, &mut marks);
        assert_eq!(header.told(), told, "{length} at {place}");
        assert_eq!(display(&message, &none()).0, told);
        let Source { numbers, marks, d } = &specimen_source();
        assert_eq!(check(&message, &none(), numbers, marks, *d), told);
        // Before 18, and the listing has the number alone.
        let unequal = check(&message, &none(), numbers, &marks[1..], *d);
        if told.number == 0 {
            assert_eq!(unequal, Reply::of(18));
            continue;
        }
        assert_eq!(unequal, told);
        assert_eq!(listing(&message), format!("refused {}\n", told.number));
        // "They alone return two fields that may not be zero."
        let zero = Header {
            reply: told.number,
            section: told.section,
            place: told.place,
            ..Header::default()
        };
        assert_eq!(header, zero);
        assert_eq!(values, [9; 4]);
        for k in 0..7 {
            assert_eq!(section(&message, &none(), k), Part::default());
        }
        assert_eq!(bitmap_in_force(&message, &none()), (false, Part::default()));
        assert_eq!(data_number(&message, &none(), 0), DataNumber::Outside);
    }
}

/// "The writer keeps 5".
#[test]
fn the_writer_and_the_packer_keep_5() {
    for length in [26, 27, 29, 1_025, 1_026] {
        let mut parts = specimen_parts();
        parts.pds.resize(length, 0);
        parts.pds[1..3].copy_from_slice(&(length as u16).to_be_bytes());
        let mut out = vec![0xAA; 2_000];
        assert_eq!(write(&parts, &mut out), (5, 0), "{length}");
        let packed = pack(
            &parts.pds,
            &specimen_form(),
            &none(),
            &specimen_source(),
            &mut out,
        );
        assert_eq!(packed, (5, 0), "{length}");
        assert_eq!(out, vec![0xAA; 2_000]);
    }
}

/// R-3: "Fields for the year 2000 come with century 20 and year of century 100, and we
/// refuse them." Every function that judges the time, on the specimen with its time
/// put anew.
#[test]
fn the_year_2000_comes_with_century_20() {
    for (reply, century, time) in [
        (0, 20, [100, 2, 29, 6, 0]),
        (6, 19, [100, 2, 29, 6, 0]),
        (6, 20, [0, 3, 10, 6, 0]),
        (6, 20, [101, 3, 10, 6, 0]),
    ] {
        let mut message = specimen();
        message[20..25].copy_from_slice(&time);
        message[32] = century;
        let pds = message[8..36].to_vec();
        let Source { numbers, marks, d } = specimen_source();
        let lent = none();

        let told = header(&message, &lent);
        assert_eq!(told.told(), Reply::of(reply));
        let checked = check(&message, &lent, &numbers, &marks, d);
        assert_eq!(checked, Reply::of(reply));
        assert_eq!(display(&message, &lent).0, Reply::of(reply));
        let parts = Parts {
            pds: pds.clone(),
            ..specimen_parts()
        };
        let (mut written, mut packed) = (vec![0; 94], vec![0; 94]);
        let (by_write, length) = write(&parts, &mut written);
        let source = specimen_source();
        let by_pack = pack(&pds, &specimen_form(), &lent, &source, &mut packed);
        assert_eq!((by_write, by_pack), (reply, (reply, length)));
        if reply == 0 {
            let Time {
                year, month, day, ..
            } = told.time;
            assert_eq!((year, month, day), (2000, 2, 29));
            assert_eq!(section(&message, &lent, 1).len, 28);
            assert_eq!((&written, &packed), (&message, &message));
            assert_eq!(listing(&message), listing(&specimen()));
        } else {
            assert_eq!(told.time, Time::default());
            assert_eq!(section(&message, &lent, 1), Part::default());
            assert_eq!((written, packed), (vec![0; 94], vec![0; 94]));
            assert_eq!(listing(&message), "refused 6\n");
        }
    }
}

#[test]
fn points_at_the_edge() {
    let header = |ni, nj| header(&constant(ni, nj), &none());
    assert_eq!(header(256, 256).reply, 0);
    assert_eq!(header(256, 256).points, 65_536);
    assert_eq!(header(257, 256).reply, 9);
    assert_eq!(header(65_534, 1).reply, 0);
    assert_eq!(header(65_535, 1).reply, 9);
    assert_eq!(header(0, 1).reply, 9);
}

#[test]
fn no_data_bits() {
    // "m x N = 0: L = 12, unused 8."
    let good = constant(2, 2);
    assert_eq!(header(&good, &none()).reply, 0);
    let mut other = good.clone();
    other[68 + 3] = 7;
    assert_eq!(header(&other, &none()).reply, 12);
    other[68 + 3] = 0x28;
    assert_eq!(header(&other, &none()).flags, 2);
    let mut parts = specimen_parts();
    parts.values = vec![0; 4];
    parts.marks = vec![0; 4];
    let mut out = [0; 100];
    assert_eq!(write(&parts, &mut out), (0, 92));
    assert_eq!(out[76..88], from_hex("00000C 08 0000 439C4000 03 00")[..]);
}

#[test]
fn spread_at_the_edge() {
    // "Spread 8,388,607 with N = 0: E = 24; one more: 19."
    let mut form = specimen_form();
    form.bits = 0;
    let mut source = specimen_source();
    source.numbers = vec![-1, 8_388_606, i32::MAX, 5];
    let mut out = [0; 100];
    let pds = &specimen()[8..36];
    assert_eq!(pack(pds, &form, &none(), &source, &mut out), (0, 92));
    let read_back = header(&out[..92], &none());
    assert_eq!((read_back.e, read_back.r), (24, 0xC1100000));
    let Source { numbers, marks, d } = &source;
    let checked = check(&out[..92], &none(), numbers, marks, *d);
    assert_eq!(checked, Reply::of(0));
    source.numbers[1] += 1;
    assert_eq!(pack(pds, &form, &none(), &source, &mut out), (19, 0));
}

#[test]
fn no_present_point() {
    let source = Source {
        numbers: vec![7, 8, 9, i32::MIN],
        marks: vec![0; 4],
        d: 1,
    };
    let mut out = [0; 92];
    let pds = &specimen()[8..36];
    let packed = pack(pds, &specimen_form(), &none(), &source, &mut out);
    assert_eq!(packed, (0, 92));
    let read_back = header(&out, &none());
    assert_eq!((read_back.e, read_back.r, read_back.present), (0, 0, 0));
}

#[test]
fn stored_bitmaps() {
    let lent = Lent {
        number: 7,
        octets: vec![0xDF],
    };
    let mut parts = specimen_parts();
    parts.form.bitmap = BitmapKind::Stored(7);
    parts.lent = lent.clone();
    let mut out = [0; 92];
    assert_eq!(write(&parts, &mut out), (0, 92));
    assert_eq!(out[68..74], [0, 0, 6, 0, 0, 7]);
    let read_back = header(&out, &lent);
    assert_eq!(read_back.bitmap, BitmapKind::Stored(7));
    assert_eq!(read_back.present, 3);
    assert_eq!(
        bitmap_in_force(&out, &lent),
        (true, Part { start: 0, len: 1 })
    );
    assert_eq!(header(&out, &none()).reply, 10);
    // Number 0, a wrong number, too few octets: 10 whatever the lists are.
    let reply = |parts: &Parts| write(parts, &mut [0; 92]).0;
    let mut other = parts.clone();
    other.form.bitmap = BitmapKind::Stored(0);
    other.lent.number = 0;
    assert_eq!(reply(&other), 10);
    other = parts.clone();
    other.lent.number = 8;
    assert_eq!(reply(&other), 10);
    other = parts.clone();
    other.lent.octets.clear();
    other.values.clear();
    assert_eq!(reply(&other), 10);
    // Bits are compared with marks only where both lists are n long.
    other = parts.clone();
    other.marks[0] = 0;
    assert_eq!(reply(&other), 10);
    other.marks[0] = 2;
    assert_eq!(reply(&other), 10);
    other.values.push(0);
    assert_eq!(reply(&other), 13);
}

#[test]
fn pds_longer_than_28() {
    let mut parts = specimen_parts();
    parts.pds.extend([1, 2, 3, 4]);
    parts.pds[2] = 32;
    let mut out = [0; 98];
    assert_eq!(write(&parts, &mut out), (0, 98));
    let read_back = header(&out, &none());
    assert_eq!(read_back.places.pds, Part { start: 8, len: 32 });
    assert_eq!(read_back.grid, specimen_grid());
}

#[test]
fn a_catalogue_grid() {
    let mut message = specimen()[..36].to_vec();
    message[8 + 6] = 30;
    message[8 + 7] = 0;
    message.extend(from_hex("00000C 08 0000 00000000 00 00 37373737"));
    message[6] = message.len() as u8;
    let taken = header(&message, &none());
    assert_eq!(
        (taken.reply, taken.points, taken.present),
        (0, 5_365, 5_365)
    );
    assert_eq!(taken.places.gds, Part { start: 36, len: 0 });
    assert_eq!(taken.grid.la1, -90_000);
    message[8 + 6] = 31;
    assert_eq!(header(&message, &none()).reply, 7);
}

/// A message of an octant by hand, with N = 0: 230 octets, the GDS from 36 on, the
/// data section from 214.
fn octant_37() -> Vec<u8> {
    let mut message = specimen()[..36].to_vec();
    message[8 + 7] = 0x80;
    message.extend(from_hex(
        "0000B2 00 21 00 FFFF 0049 000000 050910 80 015F90 00EA60 FFFF 04E2 40 00000000
         0049 0049 0049 0049 0049 0049 0049 0049 0048 0048 0048 0047 0047 0047 0046 0046
         0045 0045 0044 0043 0043 0042 0041 0041 0040 003F 003E 003D 003C 003C 003B 003A
         0039 0038 0037 0036 0034 0033 0032 0031 0030 002F 002D 002C 002B 002A 0028 0027
         0026 0024 0023 0021 0020 001E 001D 001C 001A 0019 0017 0016 0014 0013 0011 0010
         000E 000C 000B 0009 0008 0006 0005 0003 0002",
    ));
    message.extend(from_hex("00000C 08 0000 00000000 00 00 37373737"));
    message[6] = message.len() as u8;
    message
}

#[test]
fn an_octant_is_read_and_written() {
    let message = octant_37();
    assert_eq!(message.len(), 230);
    let taken = header(&message, &none());
    assert_eq!(
        (taken.reply, taken.points, taken.present),
        (0, 3_447, 3_447)
    );
    assert_eq!(
        taken.places.gds,
        Part {
            start: 36,
            len: 178
        }
    );
    let grid = Grid {
        ni: 65_535,
        nj: 73,
        la1: 0,
        lo1: 330_000,
        flags: 128,
        la2: 90_000,
        lo2: 60_000,
        di: 65_535,
        dj: 1_250,
        scan: 64,
        rows: Rows::FromEquator,
        ..Grid::default()
    };
    assert_eq!(taken.grid, grid);
    let mut out = [0xAA; 232];
    let mut parts = again::parts_of(&message, &none());
    assert_eq!(write(&parts, &mut out), (0, 230));
    assert_eq!(out[..230], message[..]);
    assert_eq!(out[230..], [0xAA, 0xAA]);
    // Without the GDS: PDS octet 7.
    parts.form.grid = None;
    parts.pds[6] = 37;
    parts.pds[7] = 0;
    assert_eq!(write(&parts, &mut out), (0, 52));
    assert_eq!(header(&out[..52], &none()).grid, grid);
    // Lists of another length, and too little room.
    parts.values.pop();
    assert_eq!(write(&parts, &mut out).0, 13);
    let mut lists = (vec![5; 3_446], vec![5; 3_447]);
    let reply = read(&message, 0, &[], &mut lists.0, &mut lists.1).reply;
    assert_eq!(reply, 14);
}

#[test]
fn an_octant_is_refused_by_8_and_9() {
    let reply = |octet: usize, value: u8| {
        let mut message = octant_37();
        message[36 + octet - 1] = value;
        header(&message, &none()).reply
    };
    assert_eq!(reply(4, 255), 8);
    assert_eq!(reply(5, 255), 8);
    assert_eq!(reply(6, 1), 8);
    for octet in (7..=28).filter(|&octet| octet != 11) {
        assert_eq!(reply(octet, 0x55), 9, "octet {octet}");
    }
    // Minus zero is 0, and 29-32 are reserved.
    assert_eq!(reply(11, 0x80), 0);
    for octet in 29..=32 {
        assert_eq!(reply(octet, 0x55), 0, "octet {octet}");
    }
    for octet in 33..=178 {
        assert_eq!(reply(octet, 0x55), 9, "octet {octet}");
    }
    // 74 points at the equator, as document 003's formula would have it.
    assert_eq!(reply(34, 74), 9);
}

#[test]
fn an_octant_is_listed() {
    // Each row's own number from north, in 7 bits: the last row comes first.
    let counts: Vec<usize> = octant_37()[68..214]
        .chunks(2)
        .map(|two| two[1] as usize)
        .collect();
    let mut parts = again::parts_of(&octant_37(), &none());
    parts.form.bits = 7;
    parts.values.clear();
    for (row, &count) in counts.iter().enumerate() {
        parts.values.extend(vec![72 - row as u32; count]);
    }
    let mut out = vec![0; 4_000];
    let (_, length) = write(&parts, &mut out);
    let text = listing(&out[..length as usize]);
    let lines: Vec<&str> = text.lines().collect();
    // "The listing's columns are then 0."
    assert_eq!(lines[0], "3447 3447 0 73 1 0 00000000 7");
    assert_eq!(lines[1..4], ["0 0", "1 1 1", "2 2 2 2 2"]);
    assert_eq!(lines.len(), 74);
    for (row, line) in lines[1..].iter().enumerate() {
        let own = vec![row.to_string(); counts[72 - row]];
        assert_eq!(*line, own.join(" "));
    }
}

#[test]
fn what_the_writer_refuses_by_13() {
    let reply = |change: &dyn Fn(&mut Parts)| {
        let mut parts = specimen_parts();
        change(&mut parts);
        let mut out = [0xAA; 100];
        let (reply, length) = write(&parts, &mut out);
        assert!(reply == 0 || (length == 0 && out == [0xAA; 100]));
        reply
    };
    assert_eq!(reply(&|_| ()), 0);
    assert_eq!(reply(&|p| p.values.push(0)), 13);
    assert_eq!(reply(&|p| p.marks.push(0)), 13);
    assert_eq!(reply(&|p| p.marks[0] = 2), 13);
    assert_eq!(reply(&|p| p.values[0] = 8), 13);
    assert_eq!(reply(&|p| p.values[2] = 1), 13);
    assert_eq!(reply(&|p| p.pds[7] = 0x40), 13);
    assert_eq!(reply(&|p| p.pds[7] = 0x80), 13);
    assert_eq!(reply(&|p| p.pds[7] = 0xFF), 0);
    assert_eq!(reply(&|p| p.form.bitmap = BitmapKind::Without), 13);
    assert_eq!(reply(&|p| p.form.grid = None), 7);
    assert_eq!(reply(&|p| p.form.flags = 2), 0);
    assert_eq!(reply(&|p| p.form.flags = 1), 11);
    assert_eq!(reply(&|p| p.form.flags = 16), 11);
    assert_eq!(reply(&|p| p.form.bits = 25), 11);
    assert_eq!(reply(&|p| p.e = 32_768), 11);
    assert_eq!(reply(&|p| p.e = -32_768), 11);
    assert_eq!(reply(&|p| p.e = -32_767), 0);
}

/// a message of each kind, 2 x 1 points, no bitmap and constant data.
const PROJECTIONS: [(&str, usize); 4] = [
    (
        "00002A 00 FF 01 0002 0001 80BBDA 000000 80 00BBDA 056AB8 0057E4 00 40
         07D685 07D686 0000000000000000",
        42,
    ),
    (
        "00002A 00 FF 03 0002 0001 002F9E 820953 80 817318 013D77 013D78 00 40
         0061A8 0061A9 000000 000000 0000",
        42,
    ),
    (
        "000020 00 FF 04 0002 0001 815738 000000 80 015738 057344 0AFD 0020 40 00000000",
        32,
    ),
    (
        "000020 00 FF 05 0002 0001 00515A 8249F0 80 813880 05D048 05D049 00 40 00000000",
        32,
    ),
];

fn projected(gds: &str) -> Vec<u8> {
    let mut message = specimen()[..36].to_vec();
    message[8 + 7] = 0x80;
    message.extend(from_hex(gds));
    message.extend(from_hex("00000C 08 0000 00000000 00 00 37373737"));
    message[6] = message.len() as u8;
    message
}

#[test]
fn each_projection_is_read_and_written() {
    let grids = [
        Grid {
            kind: 1,
            ni: 2,
            nj: 1,
            la1: -48_090,
            lo1: 0,
            flags: 128,
            la2: 48_090,
            lo2: 355_000,
            latin1: 22_500,
            scan: 64,
            dx: 513_669,
            dy: 513_670,
            ..Grid::default()
        },
        Grid {
            kind: 3,
            ni: 2,
            nj: 1,
            la1: 12_190,
            lo1: -133_459,
            flags: 128,
            lov: -95_000,
            dx: 81_271,
            dy: 81_272,
            scan: 64,
            latin1: 25_000,
            latin2: 25_001,
            ..Grid::default()
        },
        Grid {
            kind: 4,
            ni: 2,
            nj: 1,
            la1: -87_864,
            lo1: 0,
            flags: 128,
            la2: 87_864,
            lo2: 357_188,
            di: 2_813,
            circles: 32,
            scan: 64,
            ..Grid::default()
        },
        Grid {
            kind: 5,
            ni: 2,
            nj: 1,
            la1: 20_826,
            lo1: -150_000,
            flags: 128,
            lov: -80_000,
            dx: 381_000,
            dy: 381_001,
            scan: 64,
            ..Grid::default()
        },
    ];
    for ((gds, length), grid) in PROJECTIONS.iter().zip(grids) {
        let message = projected(gds);
        assert_eq!(message.len(), 52 + length);
        let taken = header(&message, &none());
        assert_eq!((taken.reply, taken.points), (0, 2));
        assert_eq!(taken.grid, grid);
        let mut out = vec![0xAA; message.len()];
        let parts = again::parts_of(&message, &none());
        assert_eq!(write(&parts, &mut out), (0, message.len() as u32));
        assert_eq!(out, message);
    }
}

#[test]
fn a_projection_is_refused_by_8_and_9() {
    let reply = |gds: &str, octet: usize, value: &[u8]| {
        let mut message = projected(gds);
        message[36 + octet - 1..][..value.len()].copy_from_slice(value);
        header(&message, &none()).reply
    };
    // "8 names the accepted types and lengths"
    for (gds, length) in PROJECTIONS {
        assert_eq!(reply(gds, 4, &[1]), 8);
        for octet_5 in [0, 33, 254] {
            assert_eq!(reply(gds, 5, &[octet_5]), 8);
        }
        let types: &[u8] = if length == 42 { &[1, 3] } else { &[0, 4, 5] };
        for octet_6 in 0..=255 {
            assert_eq!(reply(gds, 6, &[octet_6]) != 8, types.contains(&octet_6));
        }
    }
    // "9 covers 01's bounds and a missing Gaussian N; other fields are carried"
    let [mercator, lambert, gaussian, polar] = PROJECTIONS.map(|line| line.0);
    for (gds, latitudes, longitudes, carried) in [
        (mercator, &[11, 18, 24][..], &[14, 21][..], &[29, 32][..]),
        (lambert, &[11, 29, 32, 35], &[14, 18, 38], &[21, 24]),
        (gaussian, &[11, 18], &[14, 21], &[]),
        (polar, &[11], &[14, 18], &[21, 24]),
    ] {
        for sign in [0x00, 0x80] {
            for &first in latitudes {
                assert_eq!(reply(gds, first, &[sign | 1, 0x5F, 0x90]), 0);
                assert_eq!(reply(gds, first, &[sign | 1, 0x5F, 0x91]), 9);
            }
            for &first in longitudes {
                assert_eq!(reply(gds, first, &[sign | 5, 0x7E, 0x40]), 0);
                assert_eq!(reply(gds, first, &[sign | 5, 0x7E, 0x41]), 9);
            }
        }
        for &first in carried {
            assert_eq!(reply(gds, first, &[0xFF; 3]), 0);
        }
        assert_eq!(reply(gds, 7, &[0, 0]), 9);
        assert_eq!(reply(gds, 9, &[0xFF, 0xFF]), 9);
        // "The scan test against latitudes holds for Mercator and Gaussian only"
        let two_rows = [0x00, 0x02];
        assert_eq!(reply(gds, 9, &two_rows), 0);
        let mut message = projected(gds);
        message[36 + 9] = 2;
        message[36 + 27] = 0;
        let tested = [mercator, gaussian].contains(&gds);
        let told = header(&message, &none()).reply;
        assert_eq!(told, if tested { 9 } else { 0 });
    }
    assert_eq!(reply(gaussian, 26, &[0xFF, 0xFF]), 9);
    assert_eq!(reply(gaussian, 26, &[0xFF, 0xFE]), 0);
    assert_eq!(reply(gaussian, 24, &[0xFF, 0xFF]), 0);
}
