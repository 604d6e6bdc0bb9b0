// One value under the cursor, by an index: beside a full read at every place of each scanning setting, of a thinned
// octant and of several groups with each kind of bitmap, and the edges of 14, 24 and 25.
use grib1::{limits, scan, write, Bitmap, Form, Grid, Message, Parts, Place, Projection, Refusal, Stored};

// Through the driver a call is a program's run: there fewer places are asked for.
const DRIVEN: bool = cfg!(feature = "driver");

const NUMBER: u16 = 9;

// Stands after the entries that are filled.
const STAYS: u32 = 0xAAAA_AAAA;

const SPECIMEN: &str = "4752494200005E01\
    00001C030700FFC00B6401F462030A06000100000000000014000001\
    00002000FF000002000200C3508007D08000C7388003E803E803E84000000000\
    0000080C0000D000\
    00000E0F0000439C4000030B8000\
    37373737";

fn specimen() -> Vec<u8> {
    (0..SPECIMEN.len() / 2).map(|i| u8::from_str_radix(&SPECIMEN[2 * i..2 * i + 2], 16).unwrap()).collect()
}

fn at(row: u32, column: u32) -> Place {
    Place { row, column }
}

fn rectangle(ni: u16, nj: u16, scan: u8) -> Grid {
    let la1 = if scan & scan::NORTH == 0 { 1000 } else { -1000 };
    let projection = Projection::LatLon { la2: -la1, lo2: 1000, di: limits::MISSING, dj: limits::MISSING };
    Grid { ni, nj, la1, lo1: 0, resolution: 0, scan, projection }
}

// All but one in five points.
fn four_in_five(points: usize) -> Vec<u8> {
    (0..points).map(|k| (k % 5 != 3) as u8).collect()
}

fn store_of(marks: &[u8]) -> Vec<u8> {
    let mut store = vec![0; marks.len().div_ceil(8)];
    for (k, mark) in marks.iter().enumerate() {
        store[k / 8] |= mark << (7 - k % 8);
    }
    store
}

// A message of these marks whose values of 20 bits all differ: point k has 3 k + 1.
fn written(grid: Grid, bitmap: Bitmap, stored: Stored, marks: &[u8]) -> Vec<u8> {
    let mut pds = [0; 28];
    pds[2] = 28;
    pds[6] = 255;
    pds[7] = if bitmap == Bitmap::Without { 128 } else { 192 };
    pds[12..15].copy_from_slice(&[98, 3, 10]);
    pds[24] = 20;
    let form = Form { grid: Some(grid), bitmap, packing_flags: 0, bits: 20 };
    let values: Vec<u32> = (0..).zip(marks).map(|(k, mark)| if *mark == 1 { 3 * k + 1 } else { 0 }).collect();
    let parts = Parts { pds: &pds, form, e: 0, r: 0, stored, values: &values, marks };
    let mut out = vec![0; limits::WRITTEN_MOST];
    write(&parts, &mut out).unwrap().to_vec()
}

// How many of the points stand before each group.
fn counted(marks: &[u8]) -> Vec<u32> {
    let before = |g: usize| marks[..g].iter().map(|mark| u32::from(*mark)).sum();
    (0..marks.len()).step_by(limits::GROUP).map(before).collect()
}

// The index of a message of these marks, which has an entry too few, as many as are needed, and more.
fn filled(message: &Message, marks: &[u8]) -> Vec<u32> {
    let wanted = counted(marks);
    let n = wanted.len();
    assert_eq!(n, (message.header().points as usize).div_ceil(limits::GROUP));
    let mut entries = vec![STAYS; n + 2];
    assert_eq!(message.index(&mut entries[..n - 1]).unwrap_err().reply, 14);
    assert_eq!(entries, vec![STAYS; n + 2]);
    assert_eq!(message.index(&mut entries[..n]), Ok(&wanted[..]));
    entries[..n].fill(7);
    assert_eq!(message.index(&mut entries), Ok(&wanted[..]));
    assert_eq!(entries[n..], [STAYS, STAYS]);
    wanted
}

// At each place what a full read gives there, and 24 beside each row.
fn as_read(message: &Message, index: &[u32]) {
    let n = message.header().points as usize;
    let (mut values, mut marks) = (vec![0; n], vec![0; n]);
    let field = message.read(&mut values, &mut marks).unwrap();
    let grid = message.header().grid;
    let some = |all: u32| (0..all).step_by(if DRIVEN { all as usize / 2 + 1 } else { 1 });
    let mut asked = 0;
    for row in some(grid.nj.into()) {
        let columns = grid.row_len(row);
        for column in some(columns) {
            let k = grid.point(at(row, column)).unwrap() as usize;
            let wanted = (field.marks()[k] == 1).then_some(field.values()[k]);
            assert_eq!(message.cursor(index, at(row, column)), Ok(wanted));
            asked += 1;
        }
        assert_eq!(message.cursor(index, at(row, columns)).unwrap_err().reply, 24);
    }
    assert!(asked == n || DRIVEN && asked > 0);
    assert_eq!(message.cursor(index, at(grid.nj.into(), 0)).unwrap_err().reply, 24);
}

#[test]
fn of_specimen() {
    let octets = specimen();
    let message = Message::new(&octets, Stored::NONE).unwrap();
    assert_eq!(filled(&message, &[1, 1, 0, 1]), [0]);
    let chart = [[None, Some(7)], [Some(0), Some(2)]];
    for (row, column) in [(0, 0), (0, 1), (1, 0), (1, 1)] {
        assert_eq!(message.cursor(&[0], at(row, column)), Ok(chart[row as usize][column as usize]));
        // what stands after the last group is not looked at
        assert_eq!(message.cursor(&[0, u32::MAX], at(row, column)), Ok(chart[row as usize][column as usize]));
        // an absent point is refused alike
        for unfit in [&[][..], &[1], &[u32::MAX], &[u32::MAX - 2]] {
            let refusal = message.cursor(unfit, at(row, column)).unwrap_err();
            assert_eq!((refusal.reply, refusal.stop), (25, None));
        }
    }
    for (row, column) in [(2, 0), (0, 2), (u32::MAX, 0), (0, u32::MAX), (u32::MAX, u32::MAX)] {
        for index in [&[0][..], &[], &[9]] {
            let refusal = message.cursor(index, at(row, column)).unwrap_err();
            assert_eq!((refusal.reply, refusal.stop), (24, None));
        }
    }
    // a message that is refused cannot be asked
    assert_eq!(Message::new(&octets[..93], Stored::NONE).unwrap_err().reply, 4);
}

#[test]
fn words() {
    let octets = specimen();
    let message = Message::new(&octets, Stored::NONE).unwrap();
    let said = |answer: Result<Option<u32>, Refusal>| answer.unwrap_err().to_string();
    assert_eq!(said(message.cursor(&[0], at(2, 0))), "refused 24: a place outside the chart");
    let unfit = "the index has fewer entries than groups, or the group's entry plus the ones in that group isn't the \
                 next entry (in the last group, m) or is above m";
    assert_eq!(said(message.cursor(&[], at(0, 0))), format!("refused 25: {unfit}"));
}

// 575 points are three groups. A place of the chart is another point in each setting.
#[test]
fn scanning() {
    let marks = four_in_five(575);
    let mut drawn = Vec::new();
    for setting in 0..8 {
        let octets = written(rectangle(25, 23, 32 * setting), Bitmap::Carried, Stored::NONE, &marks);
        let message = Message::new(&octets, Stored::NONE).unwrap();
        let index = filled(&message, &marks);
        assert_eq!(index, [0, 205, 410]);
        as_read(&message, &index);
        drawn.push(message.cursor(&index, at(5, 1)).unwrap());
    }
    // by rows and, where bit 3 is set, by columns, from each corner
    let point = |setting: u32| {
        let row = if setting & 2 == 0 { 5 } else { 22 - 5 };
        let column = if setting & 4 == 0 { 1 } else { 24 - 1 };
        if setting & 1 == 0 { row * 25 + column } else { column * 23 + row }
    };
    let wanted: Vec<Option<u32>> = (0..8).map(point).map(|k| (k % 5 != 3).then_some(3 * k + 1)).collect();
    assert_eq!(drawn, wanted);
}

#[test]
fn thinned() {
    let marks = four_in_five(3447);
    let store = store_of(&marks);
    let lent = Stored { number: NUMBER, octets: &store };
    for (number, bitmap, stored) in [(37, Bitmap::Carried, Stored::NONE), (44, Bitmap::Stored(NUMBER), lent)] {
        let octets = written(Grid::catalogued(number).unwrap(), bitmap, stored, &marks);
        let message = Message::new(&octets, stored).unwrap();
        let index = filled(&message, &marks);
        assert_eq!((index.len(), index[13]), (14, 2663));
        as_read(&message, &index);
    }
}

// About one group, two and many, by each kind of bitmap: of the last group those points that are left.
#[test]
fn groups() {
    for (ni, nj) in [(1, 1), (255, 1), (256, 1), (257, 1), (16, 32), (27, 19), (768, 1), (1, 1000)] {
        let n = ni as usize * nj as usize;
        let (some, all) = (four_in_five(n), vec![1; n]);
        let store = store_of(&some);
        let lent = Stored { number: NUMBER, octets: &store };
        for (bitmap, stored, marks) in [
            (Bitmap::Without, Stored::NONE, &all),
            (Bitmap::Carried, Stored::NONE, &some),
            (Bitmap::Stored(NUMBER), lent, &some),
        ] {
            let octets = written(rectangle(ni, nj, 0), bitmap, stored, marks);
            let message = Message::new(&octets, stored).unwrap();
            as_read(&message, &filled(&message, marks));
        }
    }
}

// The greatest grid takes the longest index; of points all of which are absent every entry is 0.
#[test]
fn greatest() {
    let all = vec![1; limits::POINTS_MOST];
    let octets = written(rectangle(256, 256, 0), Bitmap::Without, Stored::NONE, &all);
    let message = Message::new(&octets, Stored::NONE).unwrap();
    let index = filled(&message, &all);
    assert_eq!((index.len(), index[255]), (limits::INDEX_MOST, 65280));
    for (row, column) in [(0, 0), (0, 255), (1, 0), (254, 255), (255, 0), (255, 255)] {
        assert_eq!(message.cursor(&index, at(row, column)), Ok(Some(3 * (256 * row + column) + 1)));
    }
    let octets = written(rectangle(256, 256, 0), Bitmap::Carried, Stored::NONE, &vec![0; limits::POINTS_MOST]);
    let message = Message::new(&octets, Stored::NONE).unwrap();
    assert_eq!(message.index(&mut [STAYS; limits::INDEX_MOST]), Ok(&[0; limits::INDEX_MOST][..]));
    assert_eq!(message.cursor(&[0; limits::INDEX_MOST], at(255, 255)), Ok(None));
    assert_eq!(message.cursor(&[0; limits::INDEX_MOST - 1], at(0, 0)).unwrap_err().reply, 25);
}

// Every third of 600 points is present, 200 in all, in groups of 86, 85 and 29: points 0, 258 and 513 are the first of
// theirs. What each index gives at them, a value's data number or 25.
#[test]
fn unfit() {
    let marks: Vec<u8> = (0..600).map(|k| (k % 3 == 0) as u8).collect();
    let octets = written(rectangle(600, 1, 0), Bitmap::Carried, Stored::NONE, &marks);
    let message = Message::new(&octets, Stored::NONE).unwrap();
    assert_eq!(filled(&message, &marks), [0, 86, 171]);
    let bad = None;
    let most = u32::MAX;
    for (index, told) in [
        // its own, and longer
        (&[0, 86, 171][..], [Some(0), Some(86), Some(171)]),
        (&[0, 86, 171, most], [Some(0), Some(86), Some(171)]),
        // too short, whichever group is asked
        (&[0, 86], [bad, bad, bad]),
        (&[], [bad, bad, bad]),
        // an entry too low or too high: of the group, and as the next one
        (&[1, 86, 171], [bad, Some(86), Some(171)]),
        (&[0, 85, 171], [bad, bad, Some(171)]),
        (&[0, 87, 171], [bad, bad, Some(171)]),
        (&[0, 86, 170], [Some(0), bad, bad]),
        (&[0, 86, 172], [Some(0), bad, bad]),
        // two that agree, up to m and above it: not its own, and taken
        (&[114, 200, 0], [Some(114), bad, bad]),
        (&[115, 201, 0], [bad, bad, bad]),
        (&[0, 115, 200], [bad, Some(115), bad]),
        (&[0, 116, 201], [bad, bad, bad]),
        // other groups hold anything, and a sum is exact
        (&[0, 86, most], [Some(0), bad, bad]),
        (&[most, 86, 171], [bad, Some(86), Some(171)]),
        (&[7, 7, 171], [bad, bad, Some(171)]),
        (&[most, 85, 171], [bad, bad, Some(171)]),
        (&[most - 85, 0, 171], [bad, bad, Some(171)]),
        (&[0, most - 84, 0], [bad, bad, bad]),
        (&[0, 86, most - 28], [Some(0), bad, bad]),
    ] {
        for (point, wanted) in [0, 258, 513].into_iter().zip(told) {
            // the present point whose data number is d is point 3 d
            let wanted = wanted.map(|d: u32| Some(9 * d + 1)).ok_or(25);
            assert_eq!(message.cursor(index, at(0, point)).map_err(|refusal| refusal.reply), wanted);
            // an absent point after it
            let absent = message.cursor(index, at(0, point + 1)).map_err(|refusal| refusal.reply);
            assert_eq!(absent, wanted.map(|_| None));
        }
    }
}

// An index outlives the message that it was filled for, and serves another taking of the same octets; with another
// stored bitmap it is filled anew.
#[test]
fn kept() {
    let marks = four_in_five(600);
    let store = store_of(&marks);
    let lent = Stored { number: NUMBER, octets: &store };
    let octets = written(rectangle(25, 24, scan::NORTH), Bitmap::Stored(NUMBER), lent, &marks);
    let mut entries = [0; limits::INDEX_MOST];
    let index = Message::new(&octets, lent).unwrap().index(&mut entries).unwrap();
    assert_eq!(index, counted(&marks));
    as_read(&Message::new(&octets, lent).unwrap(), index);

    // a mark moves from the first group to the second: the entry between them is another, and the third is its own
    let mut moved = marks;
    moved.swap(255, 258);
    let store = store_of(&moved);
    let message = Message::new(&octets, Stored { number: NUMBER, octets: &store }).unwrap();
    let reply = |point| {
        let place = message.header().grid.place(point).unwrap();
        message.cursor(index, place).map_or_else(|refusal| refusal.reply, |_| 0)
    };
    assert_eq!([0, 255, 256, 511, 512, 599].map(reply), [25, 25, 25, 25, 0, 0]);
    let index = message.index(&mut entries).unwrap();
    assert_eq!(index, counted(&moved));
    as_read(&message, index);
}
