// Grids and their charts.
use crate::{face, records};

/// How many points each row of a thinned octant has, in message order.
#[derive(Clone, Copy, Debug, PartialEq, Eq)]
pub enum RowCounts {
    /// From the equator on, 73 to 2: grids 37 to 40.
    FromEquator = 1,
    /// The same from the pole on, 2 to 73: grids 41 to 44.
    FromPole = 2,
}

/// What kind of grid it is, with the numbers that this kind alone has. Latitudes and longitudes are in thousandths of a
/// degree, north and east positive; `la2` and `lo2` are those of the last grid point. `di` and `dj` are steps in
/// thousandths of a degree along a row and along a column, or `limits::MISSING`; `dx` and `dy` are such steps in
/// metres, written where they are at most `limits::DISTANCE_MOST`, else refused by 9.
#[derive(Clone, Copy, Debug, PartialEq, Eq)]
pub enum Projection {
    /// Latitude/longitude, a rectangle.
    LatLon { la2: i32, lo2: i32, di: u16, dj: u16 },
    /// Latitude/longitude, a thinned octant, one of grids 37 to 44: 73 rows and 3,447 points, from 73 in the row at the
    /// equator to 2 at the pole. `ni` and `di` are `limits::MISSING`. A thinned grid that differs in a field from all
    /// eight is refused by 9: `Grid::catalogued` has them.
    Thinned { rows: RowCounts, la2: i32, lo2: i32, di: u16, dj: u16 },
    /// Mercator. The cylinder cuts the earth at latitude `latin`, where `dx` and `dy` (document 003's Di and Dj) are
    /// measured.
    Mercator { la2: i32, lo2: i32, latin: i32, dx: u32, dy: u32 },
    /// Lambert conformal. Meridian `lov` runs along the columns; the cone cuts the earth at latitudes `latin1` and
    /// `latin2`, the first and the second from the pole; `pole_la` and `pole_lo` are the southern pole; `centre` is the
    /// projection centre flag, GDS octet 27 as carried.
    Lambert { lov: i32, dx: u32, dy: u32, centre: u8, latin1: i32, latin2: i32, pole_la: i32, pole_lo: i32 },
    /// Gaussian latitude/longitude: `circles` is N, the latitude circles between a pole and the equator. It may not be
    /// `limits::MISSING`, which is refused by 9.
    Gaussian { la2: i32, lo2: i32, di: u16, circles: u16 },
    /// Polar stereographic: `lov`, `dx`, `dy` and `centre` as of a Lambert grid, but that the steps are measured at
    /// latitude 60.
    Polar { lov: i32, dx: u32, dy: u32, centre: u8 },
}

/// A grid: what every kind has, and its projection. Each but a thinned octant is a rectangle of `ni` by `nj` points,
/// and is drawn by these and `scan` alone; `row_len` tells how many points each row of any kind has.
///
/// On latitude/longitude, Mercator and Gaussian grids of more than one row, `la2` must be above `la1` where rows run
/// north (`scan::NORTH`) and below it where they run south, else it is refused by 9. Lambert and polar grids have no
/// such test.
///
/// ```
/// use grib1::{scan, Grid, Place, Projection};
/// // document 003's grid 205: rows run towards greater y, so that the first point lies in the last row of the chart
/// let projection = Projection::Polar { lov: -60000, dx: 190500, dy: 190500, centre: 0 };
/// let grid = Grid { ni: 45, nj: 39, la1: 616, lo1: -84904, resolution: 8, scan: scan::NORTH, projection };
/// assert_eq!(grid.place(0), Some(Place { row: 38, column: 0 }));
/// ```
#[derive(Clone, Copy, Debug, PartialEq, Eq)]
pub struct Grid {
    /// Points along a row (Nx of Lambert and polar grids); `limits::MISSING` on a thinned octant.
    pub ni: u16,
    /// Points along a column, the chart's rows (Ny of Lambert and polar grids).
    pub nj: u16,
    /// Latitude of the first grid point, in thousandths of a degree, north positive.
    pub la1: i32,
    /// Longitude of the first grid point, in thousandths of a degree, east positive.
    pub lo1: i32,
    /// Resolution flags, GDS octet 17 as carried.
    pub resolution: u8,
    /// Scanning flags, GDS octet 28 as carried: the module `scan` has the bits.
    pub scan: u8,
    pub projection: Projection,
}

/// A place of the chart: row 0 is north, column 0 is west; on Lambert and polar grids row 0 has the greatest y and
/// column 0 the least x. On a thinned octant a column is a position in its own row: the same one in another row lies at
/// another longitude.
#[derive(Clone, Copy, Debug, PartialEq, Eq)]
pub struct Place {
    pub row: u32,
    pub column: u32,
}

// The shortest message without a GDS, of any grid: N is 0. GRID_NUMBER is the place of its PDS octet 7.
const SHORTEST: [u8; 52] = *b"GRIB\x00\x00\x34\x01\
    \x00\x00\x1C\0\0\0\0\0\0\0\0\0\x01\x01\x01\0\0\0\0\0\0\0\0\0\x14\0\0\0\
    \x00\x00\x0C\x08\0\0\0\0\0\0\0\0\
    7777";
const GRID_NUMBER: usize = 8 + 6;

impl Grid {
    /// The grid of a number of the catalogue, as a message has it that has no GDS and this number in its PDS octet 7;
    /// None where the catalogue has no such number. All of them are latitude/longitude grids. Takes a header's time.
    ///
    /// ```
    /// use grib1::{Grid, Projection, RowCounts};
    /// let octant = Grid::catalogued(37).expect("37 to 44 are the thinned octants");
    /// assert!(matches!(octant.projection, Projection::Thinned { rows: RowCounts::FromEquator, .. }));
    /// assert_eq!((octant.row_len(0), octant.row_len(72), octant.row_len(73)), (2, 73, 0));
    /// ```
    pub fn catalogued(number: u8) -> Option<Grid> {
        let mut octets = SHORTEST;
        octets[GRID_NUMBER] = number;
        let h = face::header(&octets, 0, &[]);
        (h.reply == 0).then(|| Grid::of(&h.grid))
    }

    /// Where a grid point lies on the chart; None where the grid has no such point.
    pub fn place(&self, point: u32) -> Option<Place> {
        let p = face::place(self.record(), point);
        (p.on == 1).then_some(Place { row: p.row, column: p.column })
    }

    /// The grid point that lies at a place; None where the chart has no such place.
    pub fn point(&self, place: Place) -> Option<u32> {
        let p = face::point(self.record(), place.row, place.column);
        (p.on == 1).then_some(p.point)
    }

    /// How many points a row of the chart has: `ni` on a rectangle, its own count on a thinned octant; 0 where the
    /// chart has no such row.
    pub fn row_len(&self, row: u32) -> u32 {
        face::row(self.record(), row)
    }

    pub(crate) fn of(g: &records::Grid) -> Grid {
        Grid {
            ni: g.ni,
            nj: g.nj,
            la1: g.la1,
            lo1: g.lo1,
            resolution: g.resolution,
            scan: g.scan,
            projection: Projection::of(g),
        }
    }

    pub(crate) fn record(&self) -> records::Grid {
        let common = records::Grid {
            ni: self.ni,
            nj: self.nj,
            la1: self.la1,
            lo1: self.lo1,
            resolution: self.resolution,
            scan: self.scan,
            ..records::Grid::default()
        };
        self.projection.record(common)
    }
}

impl Projection {
    fn of(g: &records::Grid) -> Projection {
        let &records::Grid { la2, lo2, lov, dx, dy, di, dj, centre, .. } = g;
        match (g.kind, g.rows) {
            (records::LATLON, 0) => Projection::LatLon { la2, lo2, di, dj },
            (records::LATLON, 1) => Projection::Thinned { rows: RowCounts::FromEquator, la2, lo2, di, dj },
            (records::LATLON, 2) => Projection::Thinned { rows: RowCounts::FromPole, la2, lo2, di, dj },
            (records::MERCATOR, 0) => Projection::Mercator { la2, lo2, latin: g.latin1, dx, dy },
            (records::LAMBERT, 0) => {
                let &records::Grid { latin1, latin2, pole_la, pole_lo, .. } = g;
                Projection::Lambert { lov, dx, dy, centre, latin1, latin2, pole_la, pole_lo }
            }
            (records::GAUSSIAN, 0) => Projection::Gaussian { la2, lo2, di, circles: g.circles },
            (records::POLAR, 0) => Projection::Polar { lov, dx, dy, centre },
            // the codec has no other: a chart must not be drawn wrong where another archive is linked
            _ => panic!("libgrib1.a is of another version than this crate"),
        }
    }

    // What every kind has, with what this one has; all else is as given.
    fn record(&self, common: records::Grid) -> records::Grid {
        match *self {
            Projection::LatLon { la2, lo2, di, dj } => {
                records::Grid { kind: records::LATLON, la2, lo2, di, dj, ..common }
            }
            Projection::Thinned { rows, la2, lo2, di, dj } => {
                records::Grid { kind: records::LATLON, rows: rows as u8, la2, lo2, di, dj, ..common }
            }
            Projection::Mercator { la2, lo2, latin, dx, dy } => {
                records::Grid { kind: records::MERCATOR, la2, lo2, latin1: latin, dx, dy, ..common }
            }
            Projection::Lambert { lov, dx, dy, centre, latin1, latin2, pole_la, pole_lo } => {
                let cone = records::Grid { latin1, latin2, pole_la, pole_lo, ..common };
                records::Grid { kind: records::LAMBERT, lov, dx, dy, centre, ..cone }
            }
            Projection::Gaussian { la2, lo2, di, circles } => {
                records::Grid { kind: records::GAUSSIAN, la2, lo2, di, circles, ..common }
            }
            Projection::Polar { lov, dx, dy, centre } => {
                records::Grid { kind: records::POLAR, lov, dx, dy, centre, ..common }
            }
        }
    }
}
