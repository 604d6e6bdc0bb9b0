// The five kinds of rectangles: each written and read back, drawn by each setting of the scanning flags, and refused by
// 8 and 9.
use grib1::{length, limits, pack, scan, write, Bitmap, Form, Grid, Header, Message, Parts, Place, Projection};
use grib1::{Refusal, Section, Source, Stored};

const MARKS: [u8; 6] = [1; 6];
const VALUES: [u32; 6] = [0, 1, 2, 3, 4, 5];

const LATLON: Projection = Projection::LatLon { la2: 48000, lo2: -2000, di: 1500, dj: limits::MISSING };
const MERCATOR: Projection = Projection::Mercator { la2: -90000, lo2: 360000, latin: -22500, dx: 513669, dy: 1 };
const LAMBERT: Projection = Projection::Lambert {
    lov: -95000,
    dx: 81271,
    dy: 16777215,
    centre: 64,
    latin1: 25000,
    latin2: -25001,
    pole_la: -90000,
    pole_lo: -360000,
};
const GAUSSIAN: Projection = Projection::Gaussian { la2: -88542, lo2: 358125, di: limits::MISSING, circles: 47 };
const POLAR: Projection = Projection::Polar { lov: 360000, dx: 0, dy: 190500, centre: 255 };

// Each kind with its GDS by document 003's layout, of `grid` with no scanning flag.
const KINDS: [(Projection, &str); 5] = [
    (LATLON, "00002000FF000003000200C3508013880800BB808007D005DCFFFF0000000000"),
    (MERCATOR, "00002A00FF010003000200C35080138808815F90057E408057E4000007D6850000010000000000000000"),
    (LAMBERT, "00002A00FF030003000200C35080138808817318013D77FFFFFF40000061A88061A9815F90857E400000"),
    (GAUSSIAN, "00002000FF040003000200C350801388088159DE0576EDFFFF002F0000000000"),
    (POLAR, "00002000FF050003000200C35080138808057E4000000002E824FF0000000000"),
];

fn octets_of(hex: &str) -> Vec<u8> {
    (0..hex.len() / 2).map(|i| u8::from_str_radix(&hex[2 * i..2 * i + 2], 16).unwrap()).collect()
}

// Three columns and two rows.
fn grid(scan: u8, projection: Projection) -> Grid {
    Grid { ni: 3, nj: 2, la1: 50000, lo1: -5000, resolution: 8, scan, projection }
}

const PDS: [u8; 28] = [0, 0, 28, 3, 7, 0, 255, 128, 11, 100, 1, 244, 98, 3, 10, 6, 0, 1, 0, 0, 0, 0, 0, 0, 20, 0, 0, 1];

fn form(grid: Grid) -> Form {
    Form { grid: Some(grid), bitmap: Bitmap::Without, packing_flags: 0, bits: 3 }
}

fn told(grid: Grid) -> Result<usize, u32> {
    length(&PDS, &form(grid), Stored::NONE, &MARKS).map_err(|refusal| refusal.reply)
}

fn written(grid: Grid) -> Vec<u8> {
    let mut out = [0xAA; 128];
    let stored = Stored::NONE;
    let parts = Parts { pds: &PDS, form: form(grid), e: 0, r: 0, stored, values: &VALUES, marks: &MARKS };
    write(&parts, &mut out).unwrap().to_vec()
}

fn refused(octets: &[u8]) -> Refusal {
    Message::new(octets, Stored::NONE).unwrap_err()
}

#[test]
fn written_and_read() {
    let source = Source { numbers: &[-3, -2, -1, 0, 1, 2], marks: &MARKS, d: 1 };
    for (projection, hex) in KINDS {
        let (grid, gds) = (grid(0, projection), octets_of(hex));
        let octets = written(grid);
        assert_eq!(octets.len(), 8 + 28 + gds.len() + 14 + 4);
        assert_eq!(told(grid), Ok(octets.len()));
        let message = Message::new(&octets, Stored::NONE).unwrap();
        assert_eq!(message.section(Section::Gds).unwrap(), gds);
        let Header { points, present, grid: read, .. } = *message.header();
        assert_eq!((points, present, read), (6, 6, grid));
        assert_eq!(message.form(), form(grid));

        let mut out = vec![0; octets.len()];
        let packed = pack(&PDS, &form(grid), Stored::NONE, &source, &mut out).unwrap();
        let message = Message::new(packed, Stored::NONE).unwrap();
        assert_eq!((message.header().grid, message.header().r), (grid, 0xC1300000));
        assert_eq!(message.check(&source), Ok(()));
    }
}

// Row 0 is the greatest y: the last row of the message where rows run towards it (`scan::NORTH`), else the first.
#[test]
fn drawn() {
    let charts = [
        (0, [[0, 1, 2], [3, 4, 5]]),
        (scan::WEST, [[2, 1, 0], [5, 4, 3]]),
        (scan::NORTH, [[3, 4, 5], [0, 1, 2]]),
        (scan::WEST | scan::NORTH, [[5, 4, 3], [2, 1, 0]]),
        (scan::BY_COLUMN, [[0, 2, 4], [1, 3, 5]]),
        (scan::WEST | scan::BY_COLUMN, [[4, 2, 0], [5, 3, 1]]),
        (scan::NORTH | scan::BY_COLUMN, [[1, 3, 5], [0, 2, 4]]),
        (scan::WEST | scan::NORTH | scan::BY_COLUMN, [[5, 3, 1], [4, 2, 0]]),
    ];
    for (scan, chart) in charts {
        for projection in [LAMBERT, POLAR] {
            let octets = written(grid(scan, projection));
            let message = Message::new(&octets, Stored::NONE).unwrap();
            let (mut values, mut marks) = ([9; 6], [9; 6]);
            let field = message.read(&mut values, &mut marks).unwrap();
            assert_eq!(field.header().grid, grid(scan, projection));
            let drawn: Vec<Vec<u32>> = field.rows().map(|row| row.map(Option::unwrap).collect()).collect();
            assert_eq!(drawn, chart);
        }
    }
    let polar = grid(scan::WEST, POLAR);
    assert_eq!(polar.place(5), Some(Place { row: 1, column: 0 }));
    assert_eq!(polar.point(Place { row: 1, column: 0 }), Some(5));
    assert_eq!([1, 2].map(|row| polar.row_len(row)), [3, 0]);
    assert_eq!(polar.place(6), None);
}

// 8: a kind goes with its own length, and with no other kind's.
#[test]
fn types_and_lengths() {
    for (projection, _) in KINDS {
        let mut octets = written(grid(0, projection));
        let (kind, others) = (octets[8 + 28 + 5], if octets[8 + 28 + 2] == 32 { [1, 3] } else { [4, 5] });
        for number in [others[0], others[1], 2, 6] {
            octets[8 + 28 + 5] = number;
            let refusal = refused(&octets);
            assert_eq!((refusal.reply, refusal.stop), (8, None));
        }
        octets[8 + 28 + 5] = kind;
        octets[8 + 28 + 4] = 33;
        assert_eq!(refused(&octets).reply, 8);
    }
    let mut octets = written(grid(0, POLAR));
    octets[8 + 28 + 5] = 3;
    assert_eq!(
        refused(&octets).to_string(),
        "refused 8: GDS of no accepted type and length: types 0, 4 and 5 (octet 6) are 32 octets long, 1 and 3 are 42, \
         with octets 4 and 5 0 and 255; a thinned octant is of type 0 and 178 octets long, with 0 and 33"
    );
}

// 9: what every kind has, angles beyond their bounds, a Gaussian N that is missing, and steps that do not fit.
#[test]
fn out_of_bounds() {
    for (projection, _) in KINDS {
        let own = grid(0, projection);
        for grid in [Grid { ni: 0, ..own }, Grid { la1: 90001, ..own }, Grid { lo1: -360001, ..own }] {
            assert_eq!(told(grid), Err(9));
        }
        // the scan test: these have la2 below la1, and rows that would run north
        let tested = !matches!(projection, Projection::Lambert { .. } | Projection::Polar { .. });
        assert_eq!(told(grid(scan::NORTH, projection)).err(), tested.then_some(9));
    }
    let (la2, lo2, latin, dx, dy) = (1, 2, 3, 4, 5);
    let (lov, centre, latin1, latin2, pole_la, pole_lo) = (6, 7, 8, 9, 10, 11);
    let (di, circles) = (12, 13);
    for projection in [
        Projection::Mercator { la2: -90001, lo2, latin, dx, dy },
        Projection::Mercator { la2, lo2: 360001, latin, dx, dy },
        Projection::Mercator { la2, lo2, latin: 90001, dx, dy },
        Projection::Mercator { la2, lo2, latin, dx: limits::DISTANCE_MOST + 1, dy },
        Projection::Mercator { la2, lo2, latin, dx, dy: u32::MAX },
        Projection::Lambert { lov: 360001, dx, dy, centre, latin1, latin2, pole_la, pole_lo },
        Projection::Lambert { lov, dx: u32::MAX, dy, centre, latin1, latin2, pole_la, pole_lo },
        Projection::Lambert { lov, dx, dy: limits::DISTANCE_MOST + 1, centre, latin1, latin2, pole_la, pole_lo },
        Projection::Lambert { lov, dx, dy, centre, latin1: -90001, latin2, pole_la, pole_lo },
        Projection::Lambert { lov, dx, dy, centre, latin1, latin2: 90001, pole_la, pole_lo },
        Projection::Lambert { lov, dx, dy, centre, latin1, latin2, pole_la: 90001, pole_lo },
        Projection::Lambert { lov, dx, dy, centre, latin1, latin2, pole_la, pole_lo: -360001 },
        Projection::Gaussian { la2: -90001, lo2, di, circles },
        Projection::Gaussian { la2, lo2: -360001, di, circles },
        Projection::Gaussian { la2, lo2, di, circles: limits::MISSING },
        Projection::Polar { lov: -360001, dx, dy, centre },
        Projection::Polar { lov, dx: limits::DISTANCE_MOST + 1, dy, centre },
        Projection::Polar { lov, dx, dy: limits::DISTANCE_MOST + 1, centre },
    ] {
        assert_eq!(told(grid(0, projection)), Err(9));
    }
    for projection in [
        Projection::Mercator { la2, lo2, latin, dx, dy },
        Projection::Lambert { lov, dx, dy, centre, latin1, latin2, pole_la, pole_lo },
        Projection::Gaussian { la2, lo2, di, circles: limits::MISSING - 1 },
        Projection::Polar { lov, dx, dy, centre },
    ] {
        assert!(told(grid(0, projection)).is_ok());
    }

    // a message whose Gaussian N is missing
    let mut octets = written(grid(0, GAUSSIAN));
    octets[8 + 28 + 25..8 + 28 + 27].copy_from_slice(&[255, 255]);
    assert_eq!(
        refused(&octets).to_string(),
        "refused 9: Ni, Nj, n, a latitude, a longitude or, of types 0, 1 and 4, the scan test outside the rules, a \
         Gaussian N that is missing, a thinned grid that is none of the eight octants, or a step to be written over \
         16,777,215 metres"
    );
}
