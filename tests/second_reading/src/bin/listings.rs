//! `listings DIR` makes what the program crate `list_cases` is run on: DIR/data
//! with a message in each file, DIR/args with the files' names, and DIR/stdout
//! with what must be written: each name and the listing that `list` works out.
//!
//! The messages are chosen, not drawn at random, except for the values of the
//! largest one, which come from a fixed seed. A name that begins `refused_N` says
//! that the listing is a refusal by N, and any other name that it is none.

use second_reading::cases::Rng;
use second_reading::grid::{
    from_catalogue, own_figures, GAUSSIAN, LAMBERT, LAT_LON, MERCATOR, POLAR,
};
use second_reading::{listing, place_of, write, BitmapKind, Form, Grid, Parts};
use std::process::ExitCode;

/// A PDS of so many octets that keeps the rules, with D.
fn pds(length: usize, d: i32, has_grid: bool, has_bitmap: bool) -> Vec<u8> {
    let mut pds = vec![0; length];
    pds[..3].copy_from_slice(&(length as u32).to_be_bytes()[1..]);
    pds[3] = 3;
    pds[4] = 7;
    pds[6] = 255;
    pds[7] = 128 * u8::from(has_grid) + 64 * u8::from(has_bitmap);
    // 1998-03-10 06:00
    pds[12..17].copy_from_slice(&[98, 3, 10, 6, 0]);
    pds[24] = 20;
    pds[26] = 128 * u8::from(d < 0) + (d.unsigned_abs() / 256) as u8;
    pds[27] = d.unsigned_abs() as u8;
    pds
}

/// A grid of columns and rows; the latitudes go the way that the flags say.
fn grid(ni: u16, nj: u16, scan: u8) -> Grid {
    let (south, north) = (-2_000, 51_000);
    let (la1, la2) = if scan & 64 == 0 {
        (north, south)
    } else {
        (south, north)
    };
    Grid {
        ni,
        nj,
        la1,
        lo1: -2_000,
        flags: 128,
        la2,
        lo2: 3_000,
        di: 1_000,
        dj: 65_535,
        scan,
        ..Grid::default()
    }
}

/// The four kinds of R-4, and what a case's name calls them.
const KINDS: [(u8, &str); 4] = [
    (MERCATOR, "mercator"),
    (LAMBERT, "lambert"),
    (GAUSSIAN, "gaussian"),
    (POLAR, "polar"),
];

/// A grid of columns and rows of any kind.
fn grid_of(kind: u8, ni: u16, nj: u16, scan: u8) -> Grid {
    own_figures(&Grid {
        kind,
        dx: 81_271,
        dy: 16_777_215,
        lov: -95_000,
        latin1: 25_000,
        latin2: -25_000,
        pole_la: -90_000,
        pole_lo: 0,
        centre: 192,
        circles: 32,
        ..grid(ni, nj, scan)
    })
}

/// What the writer is given: values, some of them absent.
fn parts(d: i32, grid: Grid, e: i32, r: u32, bits: u8, points: &[Option<u32>]) -> Parts {
    let whole = points.iter().all(|point| point.is_some());
    let bitmap = if whole {
        BitmapKind::Without
    } else {
        BitmapKind::Carried
    };
    Parts {
        pds: pds(28, d, true, !whole),
        form: Form {
            grid: Some(grid),
            bitmap,
            flags: 0,
            bits,
        },
        e,
        r,
        values: points.iter().map(|point| point.unwrap_or(0)).collect(),
        marks: points
            .iter()
            .map(|point| u8::from(point.is_some()))
            .collect(),
        ..Parts::default()
    }
}

fn message(parts: &Parts) -> Vec<u8> {
    let mut out = vec![0; 262_144];
    let (reply, length) = write(parts, &mut out);
    assert_eq!(reply, 0, "made to be written");
    out.truncate(length as usize);
    out
}

/// The chart of the scanning cases, in message order for each setting of the
/// flags: 3 columns and 2 rows, the same picture each time on each kind of grid.
fn scanned(kind: u8, scan: u8) -> Vec<u8> {
    const CHART: [[Option<u32>; 3]; 2] = [[Some(1), None, Some(30)], [Some(400), Some(0), None]];
    let (west, north, by_column) = (scan & 128 != 0, scan & 64 != 0, scan & 32 != 0);
    let columns: Vec<usize> = if west { vec![2, 1, 0] } else { vec![0, 1, 2] };
    let rows: Vec<usize> = if north { vec![1, 0] } else { vec![0, 1] };
    let mut points = Vec::new();
    if by_column {
        for &column in &columns {
            for &row in &rows {
                points.push(CHART[row][column]);
            }
        }
    } else {
        for &row in &rows {
            for &column in &columns {
                points.push(CHART[row][column]);
            }
        }
    }
    message(&parts(
        1,
        grid_of(kind, 3, 2, scan),
        0,
        0x439C_4000,
        9,
        &points,
    ))
}

/// A message of four points that all tests below damage.
fn small() -> Vec<u8> {
    let points = [None, Some(7), Some(0), Some(2)];
    message(&parts(1, grid(2, 2, 0), 0, 0x439C_4000, 3, &points))
}

/// The small message with an octet, counted from 1 as the document counts, set.
fn with(octet: usize, value: u8) -> Vec<u8> {
    let mut octets = small();
    octets[octet - 1] = value;
    octets
}

/// The specimen of document 01.
fn specimen() -> Vec<u8> {
    let points = [Some(0), Some(2), None, Some(7)];
    let corners = Grid {
        la1: 50_000,
        la2: 51_000,
        lo2: -1_000,
        dj: 1_000,
        ..grid(2, 2, 64)
    };
    let mut parts = parts(1, corners, 0, 0x439C_4000, 3, &points);
    parts.pds[8..12].copy_from_slice(&[11, 100, 1, 244]);
    parts.pds[17] = 1;
    message(&parts)
}

/// A message with another century, year of century, month, day, hour and minute in
/// its PDS, which starts at octet `first`.
fn dated(mut octets: Vec<u8>, first: usize, century: u8, time: [u8; 5]) -> Vec<u8> {
    octets[first + 11..first + 16].copy_from_slice(&time);
    octets[first + 23] = century;
    octets
}

/// A message with so many octets before its end section.
fn left_over(mut octets: Vec<u8>, count: usize) -> Vec<u8> {
    let end = octets.len() - 4;
    octets.splice(end..end, vec![0; count]);
    let total = octets.len() as u32;
    octets[4..7].copy_from_slice(&total.to_be_bytes()[1..]);
    octets
}

/// A message whose GDS, at octet 37, has so many octets more before its end, and says
/// so.
fn longer_gds(mut octets: Vec<u8>, count: usize) -> Vec<u8> {
    let end = 36 + octets[38] as usize;
    octets.splice(end..end, vec![0; count]);
    octets[38] += count as u8;
    let total = octets.len() as u32;
    octets[4..7].copy_from_slice(&total.to_be_bytes()[1..]);
    octets
}

/// A message with no GDS, of grid 29 of the catalogue.
fn catalogued() -> Vec<u8> {
    let mut listed = parts(0, grid(145, 37, 64), 0, 0, 0, &[Some(0); 5_365]);
    listed.form.grid = None;
    listed.pds[6] = 29;
    listed.pds[7] = 0;
    message(&listed)
}

/// The octant of this number, 100 times the chart row and the position in it at
/// each point; absent where the position is a multiple of `gap` and 3 more.
fn octant(number: u8, gap: Option<u32>) -> Parts {
    let grid = from_catalogue(number).expect("an octant");
    let points: Vec<Option<u32>> = (0..3_447)
        .map(|point| {
            let (row, position) = place_of(&grid, point).expect("one of its points");
            let absent = gap.is_some_and(|gap| position % gap == 3);
            (!absent).then_some(100 * row + position)
        })
        .collect();
    parts(2, grid, -1, 0x4110_0000, 13, &points)
}

/// A message of so many octets: one octet for each value, more points than the
/// program lends room for.
fn long(octets: usize, ni: u16, nj: u16) -> Vec<u8> {
    let points = vec![Some(0); ni as usize * nj as usize];
    let octets_made = message(&parts(0, grid(ni, nj, 0), 0, 0, 8, &points));
    assert_eq!(octets_made.len(), octets);
    octets_made
}

fn cases() -> Vec<(String, Vec<u8>)> {
    let mut cases: Vec<(String, Vec<u8>)> = Vec::new();
    let mut case = |name: &str, octets: Vec<u8>| cases.push((name.to_string(), octets));

    // where each section of the small message starts, counted from 1
    let (pds, gds, bms, bds) = (9, 37, 69, 77);
    case("taken", small());
    case("refused_1_empty", Vec::new());
    case("refused_1_short", b"GRIB\0\0\x07".to_vec());
    case("refused_2", with(4, b'X'));
    case("refused_3", with(8, 2));
    case("refused_4_total", with(7, 1));
    case("refused_4_end", with(small().len(), b'8'));
    // where the lengths went wrong: the number alone is listed
    case("refused_20_odd", with(pds + 2, 29));
    case("refused_20_gds", with(gds + 2, 31));
    case("refused_20_bms", with(bms + 2, 7));
    case("refused_20_bds", with(bds + 2, 15));
    case("refused_21_pds", with(pds + 2, 26));
    case("refused_21_pds_over", {
        let mut octets = with(pds + 1, 4);
        octets[pds + 1] = 2;
        octets
    });
    case("refused_21_gds", with(gds + 2, 30));
    case("refused_21_bms", with(bms + 2, 4));
    case("refused_21_bds", with(bds + 2, 10));
    case("refused_22_pds", with(pds + 1, 3));
    case("refused_22_past_end", with(gds + 1, 1));
    case("refused_22_bms", with(bms, 1));
    case("refused_22_bds", with(bds + 2, 16));
    case("refused_22_no_sections", b"GRIB\0\0\x0C\x017777".to_vec());
    case("refused_23_one", left_over(small(), 1));
    case("refused_23_two", left_over(small(), 2));
    case("refused_23_many", left_over(small(), 150));
    case("refused_6", with(pds + 13, 13));
    // 100 is taken and 0 refused; 29 February of 2000, and of 1900
    let at = |octets: Vec<u8>, century: u8, time: [u8; 5]| dated(octets, pds, century, time);
    case("year_100", at(specimen(), 20, [100, 2, 29, 6, 0]));
    case("refused_6_year_0", at(specimen(), 20, [0, 3, 10, 6, 0]));
    case("refused_6_year_101", at(specimen(), 20, [101, 3, 10, 6, 0]));
    case("refused_6_february", at(specimen(), 19, [100, 2, 29, 6, 0]));
    case("refused_7", {
        let mut octets = catalogued();
        octets[pds + 5] = 28;
        octets
    });
    case("refused_8", with(gds + 4, 0));
    case("refused_9", with(gds + 27, 64));
    case("refused_10_unused", with(bms + 3, 11));
    case("refused_10_not_stored", {
        let points = [Some(1), Some(2)];
        let mut stored = parts(0, grid(2, 1, 0), 0, 0, 3, &points);
        stored.form.bitmap = BitmapKind::Stored(9);
        stored.pds[7] = 192;
        stored.lent.number = 9;
        stored.lent.octets = vec![192];
        message(&stored)
    });
    case("refused_11", with(bds + 10, 25));
    case("refused_12", with(bds + 10, 4));

    for scan in 0..8u8 {
        case(
            &format!("scan_{:03}", scan * 32),
            scanned(LAT_LON, scan * 32),
        );
    }

    let one = |d, e, r, bits, value| message(&parts(d, grid(1, 1, 0), e, r, bits, &[Some(value)]));
    case("negative", one(-2, -32_767, 0xC110_0000, 24, 16_777_215));
    case("largest", one(32_767, 32_767, 0xFFFF_FFFF, 24, 10_000_000));
    case("minus_zero", {
        let mut octets = one(0, 0, 0x8000_0000, 1, 1);
        octets[pds + 25] = 128;
        // without a bitmap section the data section starts at 69
        octets[69 + 3] = 128;
        octets
    });
    case(
        "no_bits",
        message(&parts(0, grid(3, 1, 0), 0, 0, 0, &[Some(0); 3])),
    );
    case(
        "all_absent",
        message(&parts(3, grid(2, 3, 64), 5, 0, 10, &[None; 6])),
    );
    case(
        "one_column",
        message(&parts(
            0,
            grid(1, 4, 64),
            0,
            0,
            7,
            &[Some(9), Some(10), Some(99), Some(100)],
        )),
    );
    case("long_pds", {
        let mut wide = parts(-1, grid(2, 1, 128), 0, 0, 12, &[Some(999), Some(1_000)]);
        wide.pds = self::pds(1_024, -1, true, false);
        message(&wide)
    });

    let mut rng = Rng::new(1);
    let points: Vec<Option<u32>> = (0..4_096)
        .map(|_| Some((rng.draw() % (1 << 24)) as u32))
        .collect();
    case(
        "points_4096",
        message(&parts(0, grid(64, 64, 0), 0, 0, 24, &points)),
    );
    case(
        "refused_14_points_4097",
        message(&parts(0, grid(17, 241, 0), 0, 0, 0, &[Some(0); 4_097])),
    );
    case("refused_14_catalogue", catalogued());

    // thinned octants: no columns, and each chart row with its own count
    case("octant_37", message(&octant(37, None)));
    case("octant_41", message(&octant(41, None)));
    case("octant_39_bitmap", message(&octant(39, Some(7))));
    for number in [40, 44] {
        case(&format!("octant_{number}_catalogue"), {
            let mut listed = octant(number, None);
            listed.form.grid = None;
            listed.pds[6] = number;
            listed.pds[7] = 0;
            message(&listed)
        });
    }
    case("octant_42_catalogue_bitmap", {
        let mut listed = octant(42, Some(5));
        listed.form.grid = None;
        listed.pds[6] = 42;
        listed.pds[7] = 64;
        message(&listed)
    });
    let of_38 = message(&octant(38, None));
    case(
        "octant_38_year_100",
        at(of_38.clone(), 20, [100, 2, 29, 6, 0]),
    );
    case("refused_6_octant", at(of_38, 20, [0, 2, 28, 6, 0]));
    let with = |octet: usize, value: u8| {
        let mut octets = message(&octant(37, None));
        octets[octet - 1] = value;
        octets
    };
    case("refused_8_octant", with(gds + 4, 255));
    // 74 points at the equator
    case("refused_9_octant", with(gds + 33, 74));
    case("refused_20_octant", with(gds + 2, 177));
    case("refused_21_octant", with(gds + 2, 30));
    case("refused_22_octant", with(gds, 1));
    case(
        "refused_23_octant",
        left_over(message(&octant(37, None)), 2),
    );
    case("refused_12_octant", {
        // without a bitmap section the data section starts 178 octets after
        let mut octets = message(&octant(37, None));
        octets[gds - 1 + 178 + 10] = 12;
        octets
    });

    // the other projections: the same picture under each setting of the flags
    for (kind, name) in KINDS {
        for scan in 0..8u8 {
            let drawn = scanned(kind, scan * 32);
            case(&format!("{name}_scan_{:03}", scan * 32), drawn);
        }
        let points: Vec<Option<u32>> = (0..35).map(|k| (k % 6 != 4).then_some(k * k)).collect();
        let grid = grid_of(kind, 7, 5, 64);
        case(name, message(&parts(-1, grid, 3, 0xC110_0000, 11, &points)));
        // forty points in one row, and in one column
        for (ni, nj, by) in [(40, 1, "row"), (1, 40, "column")] {
            let points: Vec<Option<u32>> = (0..40).map(Some).collect();
            let grid = grid_of(kind, ni, nj, 192);
            let name = format!("{name}_one_{by}");
            case(&name, message(&parts(0, grid, 0, 0, 10, &points)));
        }
    }
    let projected = |kind: u8| {
        let points = [None, Some(7), Some(0), Some(2)];
        let grid = grid_of(kind, 2, 2, 0);
        message(&parts(1, grid, 0, 0x439C_4000, 3, &points))
    };
    let with = |kind: u8, octet: usize, values: &[u8]| {
        let mut octets = projected(kind);
        octets[octet - 1..octet - 1 + values.len()].copy_from_slice(values);
        octets
    };
    // 32 octets where 42 are right and the other way round, and a type that is not taken
    case("refused_8_polar_42", longer_gds(projected(POLAR), 10));
    case("refused_8_gaussian_42", longer_gds(projected(GAUSSIAN), 10));
    case("refused_8_lambert_44", longer_gds(projected(LAMBERT), 2));
    case("refused_8_mercator_32", with(GAUSSIAN, gds + 5, &[1]));
    case("refused_8_lambert_32", with(POLAR, gds + 5, &[3]));
    case("refused_8_latlon_42", with(MERCATOR, gds + 5, &[0]));
    case("refused_8_gnomonic", with(POLAR, gds + 5, &[2]));
    case("refused_8_space_view", with(LAMBERT, gds + 5, &[90]));
    case("refused_8_polar_octet_5", with(POLAR, gds + 4, &[33]));
    // rows that run the other way than the latitudes; no test on the other two
    case("refused_9_mercator_scan", with(MERCATOR, gds + 27, &[64]));
    case("refused_9_gaussian_scan", with(GAUSSIAN, gds + 27, &[64]));
    case(
        "refused_9_gaussian_no_n",
        with(GAUSSIAN, gds + 25, &[255, 255]),
    );
    case(
        "refused_9_mercator_latin",
        with(MERCATOR, gds + 23, &[1, 95, 145]),
    );
    case(
        "refused_9_lambert_latin",
        with(LAMBERT, gds + 31, &[129, 95, 145]),
    );
    case(
        "refused_9_lambert_pole",
        with(LAMBERT, gds + 37, &[5, 126, 65]),
    );
    case(
        "refused_9_polar_lov",
        with(POLAR, gds + 17, &[133, 126, 65]),
    );
    case("refused_9_polar_nx", with(POLAR, gds + 6, &[255, 255]));
    case("refused_20_lambert", with(LAMBERT, gds + 2, &[41]));
    case("refused_21_mercator", with(MERCATOR, gds + 2, &[30]));

    // 32,685 and 32,687 values of one octet; then an octet after a message
    case("refused_14_octets_32768", long(32_768, 15, 2_179));
    case("refused_1_octets_32769", {
        let mut octets = long(32_768, 15, 2_179);
        octets.push(0);
        octets
    });
    case("refused_1_octets_32770", long(32_770, 32_687, 1));
    cases
}

fn run(out: &str) -> std::io::Result<()> {
    let data = format!("{out}/data");
    std::fs::create_dir_all(&data)?;
    let (mut args, mut stdout) = (String::new(), String::new());
    for (name, octets) in cases() {
        std::fs::write(format!("{data}/{name}"), &octets)?;
        let text = listing(&octets);
        match name.strip_prefix("refused_") {
            Some(rest) => {
                let number = rest.split('_').next().unwrap_or(rest);
                assert_eq!(text, format!("refused {number}\n"), "{name}");
            }
            None => assert!(!text.starts_with("refused"), "{name}"),
        }
        args.push_str(&format!("{name}\n"));
        stdout.push_str(&format!("== {name}\n{text}"));
    }
    std::fs::write(format!("{out}/args"), args)?;
    std::fs::write(format!("{out}/stdout"), stdout)
}

fn main() -> ExitCode {
    let words: Vec<String> = std::env::args().skip(1).collect();
    let [out] = words.as_slice() else {
        eprintln!("usage: listings DIR");
        return ExitCode::FAILURE;
    };
    match run(out) {
        Ok(()) => ExitCode::SUCCESS,
        Err(error) => {
            eprintln!("{error}");
            ExitCode::FAILURE
        }
    }
}
