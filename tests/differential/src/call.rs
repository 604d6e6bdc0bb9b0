//! One call of the codec: what is sent to the driver, and what must come back.

use second_reading as rules;
use crate::cursor::Met;
use crate::kinds::{in_form, in_message, of_grid};
use second_reading::cases::pds_in;
use second_reading::grid::{from_catalogue, points};
use second_reading::{BitmapKind, DataNumber, Form, Grid, Header, Lent, Part, Parts, Reply, Rows, Source, UnderCursor};

/// The functions by the driver's numbers.
const HEADER: u32 = 0;
const READ: u32 = 1;
const SECTION: u32 = 2;
const BITMAP: u32 = 3;
const DISPLAY: u32 = 4;
const DATA_NUMBER: u32 = 5;
const CHECK: u32 = 6;
const PLACE: u32 = 7;
const POINT: u32 = 8;
const WRITE: u32 = 9;
const PACK: u32 = 10;
const LENGTH: u32 = 11;
const ROW: u32 = 12;
const INDEX: u32 = 13;
const CURSOR: u32 = 14;

/// Octets that hold any message that is written: a GDS of 42 with 65,536 points.
const WRITTEN_MOST: usize = 205_896;

pub struct Call {
    /// What is called, for the report of a difference.
    pub what: String,
    pub asked: Vec<u8>,
    pub expected: Vec<u8>,
    /// The reply expected, where the function gives one; the writer's and the packer's without section and place.
    pub reply: Option<Reply>,
    /// The PDS whose time a function judges that gives a reply; no octets of another function.
    pub pds: Vec<u8>,
    /// Which kind of grid it is about, where it is about one, as `kinds` counts them.
    pub kind: Option<usize>,
    /// Of a function of the chart, whether it finds something there.
    pub found: Option<bool>,
    /// Of the cursor on a message that is taken, what it meets.
    pub met: Option<Met>,
}

#[derive(Default)]
struct Octets(Vec<u8>);

impl Octets {
    fn word(&mut self, x: u32) -> &mut Octets {
        self.0.extend(x.to_le_bytes());
        self
    }

    fn words(&mut self, xs: &[u32]) -> &mut Octets {
        for &x in xs {
            self.word(x);
        }
        self
    }

    fn octets(&mut self, xs: &[u8]) -> &mut Octets {
        self.0.extend(xs);
        self
    }

    /// A buffer as it is asked: its count of elements first.
    fn list(&mut self, xs: &[u8]) -> &mut Octets {
        self.word(xs.len() as u32).octets(xs)
    }

    fn list_of_words(&mut self, xs: &[u32]) -> &mut Octets {
        self.word(xs.len() as u32).words(xs)
    }

    fn lent(&mut self, lent: &Lent) -> &mut Octets {
        self.word(lent.number as u32).list(&lent.octets)
    }

    fn grid(&mut self, g: &Grid) -> &mut Octets {
        self.grid_as(g, g.rows.number())
    }

    /// The grid with this number for its rows: of counts that no octant has it may be any above 2.
    fn grid_as(&mut self, g: &Grid, rows: u8) -> &mut Octets {
        self.words(&[g.la1 as u32, g.lo1 as u32, g.la2 as u32, g.lo2 as u32])
            .words(&[g.lov as u32, g.latin1 as u32, g.latin2 as u32, g.pole_la as u32, g.pole_lo as u32])
            .words(&[g.dx, g.dy, g.ni as u32, g.nj as u32, g.di as u32, g.dj as u32, g.circles as u32])
            .words(&[g.flags as u32, g.scan as u32, rows as u32, g.kind as u32, g.centre as u32])
    }

    fn part(&mut self, stored: bool, p: Part) -> &mut Octets {
        self.words(&[stored as u32, p.start, p.len])
    }

    fn reply(&mut self, reply: Reply) -> &mut Octets {
        self.words(&[reply.number, reply.section, reply.place])
    }

    fn header(&mut self, h: &Header) -> &mut Octets {
        let (kind, number) = bitmap_numbers(h.bitmap);
        self.reply(h.told())
            .words(&[h.points, h.present, h.d as u32, h.e as u32, h.r, kind])
            .grid(&h.grid)
            .part(false, h.places.pds)
            .part(false, h.places.gds)
            .part(false, h.places.bms)
            .part(false, h.places.bds)
            .words(&[number, h.time.year, h.time.month, h.time.day, h.time.hour, h.time.minute])
            .words(&[h.flags as u32, h.bits as u32])
    }

    fn form(&mut self, form: &Form, kinds: Kinds) -> &mut Octets {
        let (kind, number) = bitmap_numbers(form.bitmap);
        let grid = form.grid.unwrap_or_default();
        self.words(&[kinds.given.unwrap_or(form.grid.is_some() as u32), kinds.bitmap.unwrap_or(kind)])
            .grid_as(&grid, kinds.rows.unwrap_or(grid.rows.number()))
            .words(&[number, form.flags as u32, form.bits as u32])
    }

    /// What the driver says last: nothing else has changed.
    fn kept(&mut self) -> Vec<u8> {
        self.word(1);
        std::mem::take(&mut self.0)
    }
}

fn bitmap_numbers(kind: BitmapKind) -> (u32, u32) {
    match kind {
        BitmapKind::Without => (0, 0),
        BitmapKind::Carried => (1, 0),
        BitmapKind::Stored(number) => (2, number as u32),
    }
}

/// Kinds that the C face takes and that have no name: "any other number is refused".
#[derive(Clone, Copy, Default)]
pub struct Kinds {
    pub given: Option<u32>,
    pub bitmap: Option<u32>,
    /// Above 2.
    pub rows: Option<u8>,
}

/// What a form with such kinds stands for: a grid that 9 refuses, a stored bitmap that 10 refuses.
fn form_meant(form: &Form, kinds: Kinds) -> Form {
    let rows = |g: Grid| Grid { rows: if kinds.rows.is_some() { Rows::Neither } else { g.rows }, ..g };
    Form {
        grid: if kinds.given.is_some() { Some(Grid::default()) } else { form.grid.map(rows) },
        bitmap: if kinds.bitmap.is_some() { BitmapKind::Stored(0) } else { form.bitmap },
        ..*form
    }
}

fn asked(function: u32, message: &[u8], lent: &Lent) -> Octets {
    let mut asked = Octets::default();
    asked.word(function).list(message).lent(lent);
    asked
}

pub fn header(message: &[u8], lent: &Lent) -> (Header, Call) {
    let h = rules::header(message, lent);
    let call = Call {
        what: "header".into(),
        asked: asked(HEADER, message, lent).0,
        expected: Octets::default().header(&h).kept(),
        reply: Some(h.told()),
        pds: pds_in(message).to_vec(),
        kind: in_message(message),
        found: None,
        met: None,
    };
    (h, call)
}

pub fn read(message: &[u8], lent: &Lent, values: &[u32], marks: &[u8]) -> Call {
    let (mut v, mut m) = (values.to_vec(), marks.to_vec());
    let h = rules::read(message, lent.number, &lent.octets, &mut v, &mut m);
    Call {
        what: format!("read into {} values and {} marks", values.len(), marks.len()),
        asked: std::mem::take(&mut asked(READ, message, lent).list_of_words(values).list(marks).0),
        expected: Octets::default().header(&h).words(&v).octets(&m).kept(),
        reply: Some(h.told()),
        pds: pds_in(message).to_vec(),
        kind: in_message(message),
        found: None,
        met: None,
    }
}

pub fn section(message: &[u8], lent: &Lent, k: u32) -> Call {
    let part = rules::section(message, lent, k);
    Call {
        what: format!("section {k}"),
        asked: std::mem::take(&mut asked(SECTION, message, lent).word(k).0),
        expected: Octets::default().part(false, part).kept(),
        reply: None,
        pds: Vec::new(),
        kind: None,
        found: None,
        met: None,
    }
}

pub fn bitmap(message: &[u8], lent: &Lent) -> Call {
    let (stored, part) = rules::bitmap_in_force(message, lent);
    Call {
        what: "bitmap in force".into(),
        asked: asked(BITMAP, message, lent).0,
        expected: Octets::default().part(stored, part).kept(),
        reply: None,
        pds: Vec::new(),
        kind: None,
        found: None,
        met: None,
    }
}

pub fn display(message: &[u8], lent: &Lent) -> Call {
    let (reply, reference, step) = rules::display(message, lent);
    Call {
        what: "display".into(),
        asked: asked(DISPLAY, message, lent).0,
        expected: Octets::default()
            .reply(reply)
            .octets(&reference.to_le_bytes())
            .octets(&step.to_le_bytes())
            .kept(),
        reply: Some(reply),
        pds: pds_in(message).to_vec(),
        kind: in_message(message),
        found: None,
        met: None,
    }
}

pub fn data_number(message: &[u8], lent: &Lent, point: u32) -> Call {
    let (kind, number) = match rules::data_number(message, lent, point) {
        DataNumber::Outside => (0, 0),
        DataNumber::Present(number) => (1, number),
        DataNumber::Absent => (2, 0),
    };
    Call {
        what: format!("data number of {point}"),
        asked: std::mem::take(&mut asked(DATA_NUMBER, message, lent).word(point).0),
        expected: Octets::default().words(&[kind, number]).kept(),
        reply: None,
        pds: Vec::new(),
        kind: None,
        found: None,
        met: None,
    }
}

pub fn index(message: &[u8], lent: &Lent, room: &[u32]) -> Call {
    let mut after = room.to_vec();
    let filled = rules::fill(message, lent, &mut after);
    Call {
        what: format!("index of {} entries", room.len()),
        asked: std::mem::take(&mut asked(INDEX, message, lent).list_of_words(room).0),
        expected: Octets::default().reply(filled.reply).word(filled.entries).words(&after).kept(),
        reply: Some(filled.reply),
        pds: pds_in(message).to_vec(),
        kind: in_message(message),
        found: None,
        met: None,
    }
}

/// The cursor at a place, where there must be this.
pub fn cursor(message: &[u8], lent: &Lent, index: &[u32], at: (u32, u32), there: UnderCursor, met: Option<Met>) -> Call {
    let (row, column) = at;
    let (kind, value) = match there {
        UnderCursor::Refused(_) => (0, 0),
        UnderCursor::Value(x) => (1, x),
        UnderCursor::Absent => (2, 0),
    };
    let mut asked = asked(CURSOR, message, lent);
    asked.list_of_words(index).words(&[row, column]);
    Call {
        what: format!("cursor at {row}, {column} by {} entries", index.len()),
        asked: asked.0,
        expected: Octets::default().reply(there.reply()).words(&[kind, value]).kept(),
        reply: Some(there.reply()),
        pds: pds_in(message).to_vec(),
        kind: in_message(message),
        found: None,
        met,
    }
}

/// A grid of any numbers, and the number that its rows are handed over by.
#[derive(Clone, Copy)]
pub struct Chart {
    pub grid: Grid,
    pub rows: u8,
}

impl Chart {
    pub fn of(grid: &Grid) -> Chart {
        Chart { grid: *grid, rows: grid.rows.number() }
    }

    /// The call of a function of the chart on these words, which must answer those.
    fn call(&self, function: u32, what: String, words: &[u32], told: &[u32]) -> Call {
        let g = &self.grid;
        let mut asked = Octets::default();
        asked.word(function).grid_as(g, self.rows).words(words);
        Call {
            what: format!("{what} on kind {}, {} by {}, scan {}, rows {}", g.kind, g.ni, g.nj, g.scan, self.rows),
            asked: asked.0,
            expected: Octets::default().words(told).kept(),
            reply: None,
            pds: Vec::new(),
            kind: Some(of_grid(g)),
            found: Some(told[0] != 0),
            met: None,
        }
    }

    pub fn place(&self, point: u32) -> Call {
        let told = match rules::place_of(&self.grid, point) {
            None => [0, 0, 0],
            Some((row, column)) => [1, row, column],
        };
        self.call(PLACE, format!("place of {point}"), &[point], &told)
    }

    pub fn point(&self, row: u32, column: u32) -> Call {
        let told = match rules::point_at(&self.grid, row, column) {
            None => [0, 0],
            Some(point) => [1, point],
        };
        self.call(POINT, format!("point at {row}, {column}"), &[row, column], &told)
    }

    pub fn row(&self, row: u32) -> Call {
        self.call(ROW, format!("row {row}"), &[row], &[rules::points_in_row(&self.grid, row)])
    }
}

pub fn write(parts: &Parts, kinds: Kinds, out: &[u8]) -> Call {
    let meant = Parts { form: form_meant(&parts.form, kinds), ..parts.clone() };
    let mut after = out.to_vec();
    let (reply, len) = rules::write(&meant, &mut after);
    let mut asked = Octets::default();
    asked
        .word(WRITE)
        .list(&parts.pds)
        .form(&parts.form, kinds)
        .words(&[parts.e as u32, parts.r])
        .lent(&parts.lent)
        .list_of_words(&parts.values)
        .list(&parts.marks)
        .list(out);
    Call {
        what: format!("write into {} octets", out.len()),
        asked: asked.0,
        expected: Octets::default().words(&[reply, len]).octets(&after).kept(),
        reply: Some(Reply::of(reply)),
        pds: parts.pds.clone(),
        kind: in_form(&meant.form),
        found: None,
        met: None,
    }
}

/// How long the message will be: what writing gives for an E, an R and n values of 0, with room for any message.
pub fn length(pds: &[u8], form: &Form, kinds: Kinds, lent: &Lent, marks: &[u8]) -> Call {
    let meant = form_meant(form, kinds);
    let grid = meant.grid.or_else(|| pds.get(6).and_then(|&number| from_catalogue(number)));
    let n = grid.map_or(0, |g| points(&g)).min(65_537) as usize;
    let parts = Parts { pds: pds.to_vec(), form: meant, e: 0, r: 0, lent: lent.clone(), values: vec![0; n], marks: marks.to_vec() };
    let (reply, len) = rules::write(&parts, &mut vec![0; WRITTEN_MOST]);
    let mut asked = Octets::default();
    asked.word(LENGTH).list(pds).form(form, kinds).lent(lent).list(marks);
    Call {
        what: format!("length for {} marks", marks.len()),
        asked: asked.0,
        expected: Octets::default().words(&[reply, len]).kept(),
        reply: Some(Reply::of(reply)),
        pds: pds.to_vec(),
        kind: in_form(&meant),
        found: None,
        met: None,
    }
}

fn numbers(source: &Source) -> Vec<u32> {
    source.numbers.iter().map(|&v| v as u32).collect()
}

pub fn check(message: &[u8], lent: &Lent, source: &Source) -> Call {
    let reply = rules::check(message, lent, &source.numbers, &source.marks, source.d);
    let mut asked = asked(CHECK, message, lent);
    asked.list_of_words(&numbers(source)).list(&source.marks).word(source.d as u32);
    Call {
        what: "check".into(),
        asked: asked.0,
        expected: Octets::default().reply(reply).kept(),
        reply: Some(reply),
        pds: pds_in(message).to_vec(),
        kind: in_message(message),
        found: None,
        met: None,
    }
}

/// The call, and what the output must hold after it.
pub fn pack(pds: &[u8], form: &Form, kinds: Kinds, lent: &Lent, source: &Source, out: &[u8]) -> (Call, Vec<u8>) {
    let mut after = out.to_vec();
    let meant = form_meant(form, kinds);
    let (reply, len) = rules::pack(pds, &meant, lent, source, &mut after);
    let mut asked = Octets::default();
    asked
        .word(PACK)
        .list(pds)
        .form(form, kinds)
        .lent(lent)
        .list_of_words(&numbers(source))
        .list(&source.marks)
        .word(source.d as u32)
        .list(out);
    let call = Call {
        what: format!("pack into {} octets", out.len()),
        asked: asked.0,
        expected: Octets::default().words(&[reply, len]).octets(&after).kept(),
        reply: Some(Reply::of(reply)),
        pds: pds.to_vec(),
        kind: in_form(&meant),
        found: None,
        met: None,
    };
    after.truncate(len as usize);
    (call, after)
}
