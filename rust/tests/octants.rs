// Thinned octants, grids 37 to 44: their rows and places, and messages of them read, written, packed and checked.
use grib1::{length, limits, pack, scan, write, Bitmap, Data, Form, Grid, Message, Parts, Place, Projection};
use grib1::{RowCounts, Section, Source, Stored};
use std::fs;
use std::path::{Path, PathBuf};

const POINTS: usize = 3447;

// Through the driver a call is a program's run: there fewer places are asked for.
const DRIVEN: bool = cfg!(feature = "driver");

// Document 003's table, from the equator.
const COUNTS: [u32; 73] = [
    73, 73, 73, 73, 73, 73, 73, 73, 72, 72, 72, 71, 71, 71, 70, 70, 69, 69, 68, 67, 67, 66, 65, 65, 64, 63, 62, 61, 60,
    60, 59, 58, 57, 56, 55, 54, 52, 51, 50, 49, 48, 47, 45, 44, 43, 42, 40, 39, 38, 36, 35, 33, 32, 30, 29, 28, 26, 25,
    23, 22, 20, 19, 17, 16, 14, 12, 11, 9, 8, 6, 5, 3, 2,
];

fn octant(number: u8) -> Grid {
    let (la1, la2, rows) =
        if number < 41 { (0, 90000, RowCounts::FromEquator) } else { (-90000, 0, RowCounts::FromPole) };
    let (lo1, lo2) = [(330000, 60000), (60000, 150000), (150000, 240000), (240000, 330000)][(number as usize - 37) % 4];
    let projection = Projection::Thinned { rows, la2, lo2, di: 65535, dj: 1250 };
    Grid { ni: 65535, nj: 73, la1, lo1, resolution: 128, scan: scan::NORTH, projection }
}

// How long the chart's rows are, from north: the pole comes first in the north, and the equator in the south.
fn lengths(number: u8) -> Vec<u32> {
    let mut counts = COUNTS.to_vec();
    if number < 41 {
        counts.reverse();
    }
    counts
}

// The chart of a list in message order: rows run north in both.
fn chart<T: Clone>(number: u8, list: &[T]) -> Vec<Vec<T>> {
    let mut left = list;
    let mut rows: Vec<Vec<T>> = Vec::new();
    for n in lengths(number).iter().rev() {
        let (row, more) = left.split_at(*n as usize);
        rows.push(row.to_vec());
        left = more;
    }
    assert!(left.is_empty());
    rows.reverse();
    rows
}

fn pds(number: u8, sections: u8) -> [u8; 28] {
    let mut pds = [0; 28];
    pds[2] = 28;
    pds[6] = number;
    pds[7] = sections;
    pds[12..17].copy_from_slice(&[98, 3, 10, 6, 0]);
    pds[24] = 20;
    pds
}

#[test]
fn catalogued() {
    for number in 37..=44 {
        assert_eq!(Grid::catalogued(number), Some(octant(number)));
    }
    let even = |ni, nj, la1, la2, lo2, step, scan| Grid {
        ni,
        nj,
        la1,
        lo1: 0,
        resolution: 128,
        scan,
        projection: Projection::LatLon { la2, lo2, di: step, dj: step },
    };
    for (number, grid) in [
        (2, even(144, 73, 90000, -90000, 357500, 2500, 0)),
        (3, even(360, 181, 90000, -90000, 359000, 1000, 0)),
        (29, even(145, 37, 0, 90000, 360000, 2500, scan::NORTH)),
        (30, even(145, 37, -90000, 0, 360000, 2500, scan::NORTH)),
        (33, even(181, 46, 0, 90000, 360000, 2000, scan::NORTH)),
        (34, even(181, 46, -90000, 0, 360000, 2000, scan::NORTH)),
        (45, even(288, 145, 90000, -90000, 358750, 1250, 0)),
    ] {
        assert_eq!(Grid::catalogued(number), Some(grid));
    }
    for number in [0, 1, 36, 46, 255] {
        assert_eq!(Grid::catalogued(number), None);
    }
}

#[test]
fn places() {
    let (octants, rows) = if DRIVEN { (5, 18) } else { (1, 1) };
    for number in (37..=44).step_by(octants) {
        let grid = octant(number);
        let numbers: Vec<u32> = (0..POINTS as u32).collect();
        for (row, points) in (0..).zip(chart(number, &numbers)).step_by(rows) {
            let n = points.len() as u32;
            assert_eq!(grid.row_len(row), n);
            for column in (0..n).step_by(if DRIVEN { n as usize - 1 } else { 1 }) {
                let place = Place { row, column };
                assert_eq!(grid.point(place), Some(points[column as usize]));
                assert_eq!(grid.place(points[column as usize]), Some(place));
            }
            assert_eq!(grid.point(Place { row, column: n }), None);
        }
        assert_eq!([73, u32::MAX].map(|row| grid.row_len(row)), [0, 0]);
        assert_eq!([POINTS as u32, u32::MAX].map(|point| grid.place(point)), [None, None]);
        assert_eq!(grid.point(Place { row: 73, column: 0 }), None);
    }
}

// A message of an outside encoder, and X of each point as the text beside it says.
fn outside(name: &str) -> (Vec<u8>, Vec<u32>) {
    let folder = Path::new(env!("CARGO_MANIFEST_DIR")).join("../tests/second_reading/tests/outside");
    let file = |end| -> PathBuf { folder.join(format!("{name}.{end}")) };
    let text = fs::read_to_string(file("txt")).unwrap();
    let values = text.lines().find_map(|line| line.strip_prefix("X ")).unwrap();
    (fs::read(file("grb")).unwrap(), values.split_whitespace().map(|x| x.parse().unwrap()).collect())
}

#[test]
fn read() {
    for (name, number) in [("octant37", 37), ("octant42", 42)] {
        let (octets, wanted) = outside(name);
        let message = Message::new(&octets, Stored::NONE).unwrap();
        let h = message.header();
        assert_eq!((h.points, h.present, h.grid), (3447, 3447, octant(number)));
        assert_eq!(message.section(Section::Gds).unwrap().len(), 178);
        let (mut values, mut marks) = (vec![0; POINTS], vec![0; POINTS]);
        let field = message.read(&mut values, &mut marks).unwrap();
        assert_eq!((field.values(), field.marks()), (&wanted[..], &[1; POINTS][..]));

        let mut rows = field.rows();
        let mut drawn = Vec::new();
        for left in (0..73).rev() {
            let row = rows.next().unwrap();
            assert_eq!(rows.len(), left);
            assert_eq!(row.len(), lengths(number)[72 - left] as usize);
            drawn.push(row.collect::<Option<Vec<u32>>>().unwrap());
        }
        assert!(rows.next().is_none());
        assert_eq!(drawn, chart(number, &wanted));

        let pds = message.section(Section::Pds).unwrap();
        let (form, stored) = (message.form(), Stored::NONE);
        let parts = Parts { pds, form, e: h.e, r: h.r, stored, values: &values, marks: &marks };
        let mut out = vec![0; octets.len()];
        assert_eq!(write(&parts, &mut out).unwrap(), &octets[..]);
    }
}

// With a GDS and without one, by bits in the message and in a store: what is written and packed comes back.
#[test]
fn written_and_packed() {
    let marks: Vec<u8> = (0..POINTS).map(|k| (k % 3 != 1) as u8).collect();
    let values: Vec<u32> = (0..POINTS).map(|k| if marks[k] == 1 { k as u32 } else { 0 }).collect();
    let numbers: Vec<i32> = values.iter().map(|x| *x as i32 - 50).collect();
    let source = Source { numbers: &numbers, marks: &marks, d: 0 };
    let mut store = [0; POINTS.div_ceil(8)];
    for k in 0..POINTS {
        store[k / 8] |= marks[k] << (7 - k % 8);
    }
    let lent = Stored { number: 9, octets: &store };
    for (number, grid, bitmap, stored, octets) in [
        (40, Some(octant(40)), Bitmap::Carried, Stored::NONE, 8 + 28 + 178 + 438 + 3458 + 4),
        (44, None, Bitmap::Carried, Stored::NONE, 8 + 28 + 438 + 3458 + 4),
        (43, Some(octant(43)), Bitmap::Stored(9), lent, 8 + 28 + 178 + 6 + 3458 + 4),
    ] {
        let form = Form { grid, bitmap, packing_flags: 0, bits: 12 };
        let pds = pds(number, if grid.is_some() { 192 } else { 64 });
        assert_eq!(length(&pds, &form, stored, &marks), Ok(octets));
        assert_eq!(length(&pds, &form, stored, &marks[1..]).unwrap_err().reply, 13);

        let mut out = vec![0; octets];
        let parts = Parts { pds: &pds, form, e: 0, r: 0, stored, values: &values, marks: &marks };
        assert_eq!(write(&parts, &mut out[1..]).unwrap_err().reply, 14);
        let written = write(&parts, &mut out).unwrap();
        let message = Message::new(written, stored).unwrap();
        assert_eq!(message.header().grid, octant(number));
        assert_eq!(message.header().present, 2298);
        assert_eq!(message.form(), form);
        assert_eq!(message.section(Section::Gds).is_some(), grid.is_some());
        assert_eq!(message.bitmap().unwrap(), &store[..]);
        assert_eq!([0, 1, 2].map(|k| message.data_number(k)), [Data::Present(0), Data::Absent, Data::Present(1)]);
        assert_eq!(message.data_number(3447), Data::Outside);
        let (mut read_values, mut read_marks) = (vec![0; POINTS], vec![0; POINTS]);
        assert_eq!(message.read(&mut read_values[1..], &mut read_marks).unwrap_err().reply, 14);
        let field = message.read(&mut read_values, &mut read_marks).unwrap();
        assert_eq!((field.values(), field.marks()), (&values[..], &marks[..]));
        if number == 44 || !DRIVEN {
            let drawn: Vec<Vec<Option<u32>>> = field.rows().map(|row| row.collect()).collect();
            let wanted: Vec<Option<u32>> = (0..POINTS).map(|k| (marks[k] == 1).then_some(values[k])).collect();
            assert_eq!(drawn, chart(number, &wanted));
        }

        let packed = pack(&pds, &form, stored, &source, &mut out).unwrap();
        let message = Message::new(packed, stored).unwrap();
        assert_eq!(message.display().unwrap().reference, -50.0);
        assert_eq!(message.check(&source), Ok(()));
        assert_eq!(message.check(&Source { numbers: &vec![0; POINTS], ..source }).unwrap_err().reply, 17);
    }
}

// "a thinned GDS that isn't by value one of the eight" is 9.
#[test]
fn refused() {
    let marks = [1; POINTS];
    let told = |grid| {
        let form = Form { grid: Some(grid), bitmap: Bitmap::Without, packing_flags: 0, bits: 1 };
        length(&pds(255, 128), &form, Stored::NONE, &marks).map_err(|refusal| refusal.reply)
    };
    let g = octant(38);
    assert_eq!(told(g), Ok(8 + 28 + 178 + 442 + 4));
    for grid in [
        Grid { ni: 73, ..g },
        Grid { nj: 72, ..g },
        Grid { la1: 1250, ..g },
        Grid { lo1: 330000, ..g },
        Grid { resolution: 0, ..g },
        Grid { scan: 0, ..g },
    ] {
        assert_eq!(told(grid), Err(9));
    }
    let (rows, la2, lo2, di, dj) = (RowCounts::FromEquator, 90000, 150000, limits::MISSING, 1250);
    assert_eq!(g.projection, Projection::Thinned { rows, la2, lo2, di, dj });
    for projection in [
        Projection::LatLon { la2, lo2, di, dj },
        Projection::Thinned { rows: RowCounts::FromPole, la2, lo2, di, dj },
        Projection::Thinned { rows, la2: 88750, lo2, di, dj },
        Projection::Thinned { rows, la2, lo2: 240000, di, dj },
        Projection::Thinned { rows, la2, lo2, di: 1250, dj },
        Projection::Thinned { rows, la2, lo2, di, dj: limits::MISSING },
    ] {
        assert_eq!(told(Grid { projection, ..g }), Err(9));
    }
}
