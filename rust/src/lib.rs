//! A proved GRIB Edition 1 codec: a safe face of `libgrib1.a`. Nothing is copied or allocated here: lists and octets
//! are lent by the caller, and parts are borrowed from them. Every octet string gets the one reply that the rules fix,
//! and a refusal changes nothing that is lent. Grids are latitude/longitude (thinned octants too), Mercator, Lambert,
//! Gaussian and polar stereographic ones: `Projection` has what each kind has of its own. It needs no std.
//! `Message::read` unpacks a field, and `Message::cursor` gives what one place of its chart has, without that.
//!
//! ```
//! # let octets: &[u8] = &[
//! #     0x47, 0x52, 0x49, 0x42, 0x00, 0x00, 0x5E, 0x01, 0x00, 0x00, 0x1C, 0x03, 0x07, 0x00, 0xFF, 0xC0,
//! #     0x0B, 0x64, 0x01, 0xF4, 0x62, 0x03, 0x0A, 0x06, 0x00, 0x01, 0x00, 0x00, 0x00, 0x00, 0x00, 0x00,
//! #     0x14, 0x00, 0x00, 0x01, 0x00, 0x00, 0x20, 0x00, 0xFF, 0x00, 0x00, 0x02, 0x00, 0x02, 0x00, 0xC3,
//! #     0x50, 0x80, 0x07, 0xD0, 0x80, 0x00, 0xC7, 0x38, 0x80, 0x03, 0xE8, 0x03, 0xE8, 0x03, 0xE8, 0x40,
//! #     0x00, 0x00, 0x00, 0x00, 0x00, 0x00, 0x08, 0x0C, 0x00, 0x00, 0xD0, 0x00, 0x00, 0x00, 0x0E, 0x0F,
//! #     0x00, 0x00, 0x43, 0x9C, 0x40, 0x00, 0x03, 0x0B, 0x80, 0x00, 0x37, 0x37, 0x37, 0x37,
//! # ];
//! let message = grib1::Message::new(octets, grib1::Stored::NONE)?;
//! let n = message.header().points as usize;
//! let (mut values, mut marks) = (vec![0; n], vec![0; n]);
//! let field = message.read(&mut values, &mut marks)?;
//! let chart: Vec<Vec<Option<u32>>> = field.rows().map(|row| row.collect()).collect();
//! assert_eq!(chart, [[None, Some(7)], [Some(0), Some(2)]]);
//! # Ok::<(), grib1::Refusal>(())
//! ```

// Nothing of std is asked for: only the tests' driver, which starts programs, has it.
#![no_std]

#[cfg(feature = "driver")]
extern crate std;

mod grid;
pub mod limits;
mod records;
mod refusal;
mod rows;
pub mod scan;
mod section;

#[cfg(feature = "driver")]
mod driver;
#[cfg(feature = "driver")]
use driver as face;

#[cfg(not(feature = "driver"))]
mod linked;
#[cfg(not(feature = "driver"))]
use linked as face;

pub use grid::{Grid, Place, Projection, RowCounts};
pub use refusal::{Refusal, Stop};
pub use rows::{Row, Rows};
pub use section::Section;

/// The version of this crate, and of `include/grib1.h`.
pub const VERSION: &str = env!("CARGO_PKG_VERSION");

/// A stored bitmap that is lent with a message: its number and its octets.
#[derive(Clone, Copy, Debug)]
pub struct Stored<'a> {
    pub number: u16,
    pub octets: &'a [u8],
}

impl Stored<'static> {
    /// None is lent.
    pub const NONE: Stored<'static> = Stored { number: 0, octets: &[] };
}

/// Which points are present: all, by bits in the message, by the stored bitmap of a number.
#[derive(Clone, Copy, Debug, PartialEq, Eq)]
pub enum Bitmap {
    Without,
    Carried,
    Stored(u16),
}

/// The reference time of a field, with the whole year: 1701 to 9900.
#[derive(Clone, Copy, Debug, PartialEq, Eq)]
pub struct Moment {
    pub year: u16,
    pub month: u8,
    pub day: u8,
    pub hour: u8,
    pub minute: u8,
}

/// What a message says, but for its lists. X at a point stands for Y with Y × 10^D = R + X × 2^E; `r` is R's four
/// octets.
#[derive(Clone, Copy, Debug, PartialEq, Eq)]
pub struct Header {
    pub points: u32,
    pub present: u32,
    pub grid: Grid,
    pub bitmap: Bitmap,
    pub time: Moment,
    pub d: i32,
    pub e: i32,
    pub r: u32,
    pub packing_flags: u8,
    pub bits: u8,
}

/// R and 2^E, exactly.
#[derive(Clone, Copy, Debug, PartialEq)]
pub struct Display {
    pub reference: f64,
    pub step: f64,
}

/// What is said of a grid point: present, with its data number; absent; or no point of the grid.
#[derive(Clone, Copy, Debug, PartialEq, Eq)]
pub enum Data {
    Present(u32),
    Absent,
    Outside,
}

/// A source field: whole numbers V that stand for Y × 10^D, with a mark of 1 or 0 each.
#[derive(Clone, Copy, Debug)]
pub struct Source<'a> {
    pub numbers: &'a [i32],
    pub marks: &'a [u8],
    pub d: i32,
}

/// What the writer and the packer are to choose: a grid where a GDS is wanted, the bitmap, BDS flags and N.
#[derive(Clone, Copy, Debug, PartialEq, Eq)]
pub struct Form {
    pub grid: Option<Grid>,
    pub bitmap: Bitmap,
    pub packing_flags: u8,
    pub bits: u8,
}

/// What the writer is given. A year has one spelling in the PDS: its century, (year − 1) / 100 + 1, in octet 25 and its
/// year of century, (year − 1) % 100 + 1, in octet 13. So 2000 is 20 and 100, and 2001 is 21 and 1.
#[derive(Clone, Copy, Debug)]
pub struct Parts<'a> {
    pub pds: &'a [u8],
    pub form: Form,
    pub e: i32,
    pub r: u32,
    pub stored: Stored<'a>,
    pub values: &'a [u32],
    pub marks: &'a [u8],
}

/// A message that is taken, with the stored bitmap lent to it.
#[derive(Clone, Copy, Debug)]
pub struct Message<'a> {
    octets: &'a [u8],
    stored: Stored<'a>,
    header: Header,
    gds: bool,
}

impl<'a> Message<'a> {
    /// Takes a message, whole, or says why it is refused: replies 1 to 4, 6 to 12, and 20 to 23, which tell where a
    /// section's length went wrong.
    pub fn new(octets: &'a [u8], stored: Stored<'a>) -> Result<Message<'a>, Refusal> {
        let h = face::header(octets, stored.number, stored.octets);
        Refusal::unless_taken(h.reply, h.section, h.place)?;
        Ok(Message { octets, stored, header: header_of(&h), gds: h.gds.len > 0 })
    }

    pub fn header(&self) -> &Header {
        &self.header
    }

    /// The octets of a section; None where it is absent.
    pub fn section(&self, section: Section) -> Option<&'a [u8]> {
        self.part(face::section(self.octets, self.stored.number, self.stored.octets, section as u32))
    }

    /// The octets that hold the n bits of the bitmap in force, of the message or of the stored one; None where all
    /// points are present.
    pub fn bitmap(&self) -> Option<&'a [u8]> {
        self.part(face::bitmap(self.octets, self.stored.number, self.stored.octets))
    }

    fn part(&self, p: records::Part) -> Option<&'a [u8]> {
        let whole = if p.stored == 1 { self.stored.octets } else { self.octets };
        let start = p.start as usize;
        (p.len > 0).then(|| &whole[start..start + p.len as usize])
    }

    /// R and 2^E as doubles, or reply 16.
    pub fn display(&self) -> Result<Display, Refusal> {
        let d = face::display(self.octets, self.stored.number, self.stored.octets);
        Refusal::unless_taken(d.reply, d.section, d.place)?;
        Ok(Display { reference: d.reference, step: d.step })
    }

    /// The data number of a grid point. Takes a header's time.
    pub fn data_number(&self, point: u32) -> Data {
        let d = face::data_number(self.octets, self.stored.number, self.stored.octets, point);
        match d.kind {
            1 => Data::Present(d.data_number),
            2 => Data::Absent,
            _ => Data::Outside,
        }
    }

    /// Puts n values and n marks at the front of the lent lists; reply 14 where one is shorter.
    pub fn read<'b>(&self, values: &'b mut [u32], marks: &'b mut [u8]) -> Result<Field<'b>, Refusal> {
        let h = face::read(self.octets, self.stored.number, self.stored.octets, values, marks);
        Refusal::unless_taken(h.reply, h.section, h.place)?;
        let n = h.points as usize;
        Ok(Field { header: self.header, values: &values[..n], marks: &marks[..n] })
    }

    /// Fills the index of this message at the front of the lent list, and hands that front out: for each group of
    /// `limits::GROUP` grid points, how many present points stand before it. By it `cursor` finds one value without
    /// unpacking the others.
    ///
    /// Fill it once, when the message is taken, and keep it beside the message: it holds for as long as the octets of
    /// the message and of the stored bitmap, and that one's number, are the same, also for another `Message` of them.
    /// `limits::INDEX_MOST` entries hold any message's index, and the header's `points` over `limits::GROUP`, rounded
    /// up, this one's. Reply 14 where the list is shorter; it is then as it was. Later entries stay. Takes a header's
    /// time.
    pub fn index<'b>(&self, entries: &'b mut [u32]) -> Result<&'b [u32], Refusal> {
        let i = face::index(self.octets, self.stored.number, self.stored.octets, entries);
        Refusal::unless_taken(i.reply, i.section, i.place)?;
        Ok(&entries[..i.entries as usize])
    }

    /// X at one place of the chart, or None where the point is absent: what `read` gives there, by an index that
    /// `index` filled for this message, without unpacking the field. On a thinned octant the place's column is a
    /// position in its own row. Judges the whole message each time, and so takes a header's time.
    ///
    /// Reply 24 where the chart has no such place. Reply 25 where the index does not fit, at an absent place too: it is
    /// shorter than the message has groups, or the entry of the place's group plus the ones in that group is not the
    /// next entry (in the last group the header's `present`) or is above `present`. Other entries are not looked at,
    /// nor those after the last group.
    ///
    /// That an index is taken is no proof that it is this message's: one that was filled for another may fit at a
    /// place, and then leads to a value of this message, but perhaps of another point.
    ///
    /// ```
    /// # let octets: &[u8] = &[
    /// #     0x47, 0x52, 0x49, 0x42, 0x00, 0x00, 0x5E, 0x01, 0x00, 0x00, 0x1C, 0x03, 0x07, 0x00, 0xFF, 0xC0,
    /// #     0x0B, 0x64, 0x01, 0xF4, 0x62, 0x03, 0x0A, 0x06, 0x00, 0x01, 0x00, 0x00, 0x00, 0x00, 0x00, 0x00,
    /// #     0x14, 0x00, 0x00, 0x01, 0x00, 0x00, 0x20, 0x00, 0xFF, 0x00, 0x00, 0x02, 0x00, 0x02, 0x00, 0xC3,
    /// #     0x50, 0x80, 0x07, 0xD0, 0x80, 0x00, 0xC7, 0x38, 0x80, 0x03, 0xE8, 0x03, 0xE8, 0x03, 0xE8, 0x40,
    /// #     0x00, 0x00, 0x00, 0x00, 0x00, 0x00, 0x08, 0x0C, 0x00, 0x00, 0xD0, 0x00, 0x00, 0x00, 0x0E, 0x0F,
    /// #     0x00, 0x00, 0x43, 0x9C, 0x40, 0x00, 0x03, 0x0B, 0x80, 0x00, 0x37, 0x37, 0x37, 0x37,
    /// # ];
    /// use grib1::{limits, Message, Place, Stored};
    /// let message = Message::new(octets, Stored::NONE)?;
    /// let mut entries = [0; limits::INDEX_MOST];
    /// let index = message.index(&mut entries)?;
    /// // the cursor moves: an absent point, one with a value, and off the chart
    /// assert_eq!(message.cursor(index, Place { row: 0, column: 0 })?, None);
    /// assert_eq!(message.cursor(index, Place { row: 0, column: 1 })?, Some(7));
    /// assert_eq!(message.cursor(index, Place { row: 0, column: 2 }).unwrap_err().reply, 24);
    /// # Ok::<(), grib1::Refusal>(())
    /// ```
    pub fn cursor(&self, index: &[u32], place: Place) -> Result<Option<u32>, Refusal> {
        let c = face::cursor(self.octets, self.stored.number, self.stored.octets, index, place.row, place.column);
        Refusal::unless_taken(c.reply, c.section, c.place)?;
        Ok((c.kind == 1).then_some(c.value))
    }

    /// Whether the message renders a source field, every present point within half a step: else replies 15 to 18.
    pub fn check(&self, source: &Source) -> Result<(), Refusal> {
        let c = face::check(self.octets, self.stored.number, self.stored.octets, source.numbers, source.marks, source.d);
        Refusal::unless_taken(c.reply, c.section, c.place)
    }

    /// The form by which the writer makes this message again.
    pub fn form(&self) -> Form {
        let h = self.header;
        Form { grid: self.gds.then_some(h.grid), bitmap: h.bitmap, packing_flags: h.packing_flags, bits: h.bits }
    }
}

/// A field that was read: a value and a mark for each grid point.
#[derive(Clone, Copy, Debug)]
pub struct Field<'b> {
    header: Header,
    values: &'b [u32],
    marks: &'b [u8],
}

impl<'b> Field<'b> {
    pub fn header(&self) -> &Header {
        &self.header
    }

    /// X of each grid point in message order, 0 where it is absent.
    pub fn values(&self) -> &'b [u32] {
        self.values
    }

    /// 1 for each present grid point, 0 for an absent one.
    pub fn marks(&self) -> &'b [u8] {
        self.marks
    }

    /// The chart's rows from north, each from west: X, or None where the point is absent. On a Lambert or polar grid
    /// they go from the greatest y, each from the least x. On a thinned octant each row has its own length.
    pub fn rows(&self) -> Rows<'b> {
        Rows::new(&self.header.grid, self.values, self.marks)
    }
}

/// How many octets the message of a PDS, a form and n marks takes, for a caller who lends no more than these: whatever
/// E, R and the values or source numbers are, a `write` or `pack` of the same parts that accepts them hands out so
/// many. A refusal is one that they meet whatever these are.
pub fn length(pds: &[u8], form: &Form, stored: Stored, marks: &[u8]) -> Result<usize, Refusal> {
    let w = face::length(pds, form_record(form), stored.number, stored.octets, marks);
    Refusal::unless_accepted(w.reply)?;
    Ok(w.len as usize)
}

/// Writes the message of the parts given to the front of `out`, and hands out its octets. `limits::WRITTEN_MOST` octets
/// hold any message.
pub fn write<'o>(parts: &Parts, out: &'o mut [u8]) -> Result<&'o [u8], Refusal> {
    let p = parts;
    let w = face::write(p.pds, form_record(&p.form), p.e, p.r, p.stored.number, p.stored.octets, p.values, p.marks, out);
    Refusal::unless_accepted(w.reply)?;
    Ok(&out[..w.len as usize])
}

/// Packs a source field, with the least R and the least E that do, into a message at the front of `out`, and hands out
/// its octets.
pub fn pack<'o>(pds: &[u8], form: &Form, stored: Stored, source: &Source, out: &'o mut [u8]) -> Result<&'o [u8], Refusal> {
    let w = face::pack(pds, form_record(form), stored.number, stored.octets, source.numbers, source.marks, source.d, out);
    Refusal::unless_accepted(w.reply)?;
    Ok(&out[..w.len as usize])
}

fn header_of(h: &records::Header) -> Header {
    Header {
        points: h.points,
        present: h.present,
        grid: Grid::of(&h.grid),
        bitmap: match h.bitmap {
            1 => Bitmap::Carried,
            2 => Bitmap::Stored(h.bitmap_number),
            _ => Bitmap::Without,
        },
        time: Moment { year: h.year, month: h.month, day: h.day, hour: h.hour, minute: h.minute },
        d: h.d,
        e: h.e,
        r: h.r,
        packing_flags: h.packing_flags,
        bits: h.bits,
    }
}

fn form_record(f: &Form) -> records::Form {
    let (given, grid) = match &f.grid {
        Some(g) => (1, g.record()),
        None => (0, records::Grid::default()),
    };
    let (bitmap, bitmap_number) = match f.bitmap {
        Bitmap::Without => (0, 0),
        Bitmap::Carried => (1, 0),
        Bitmap::Stored(number) => (2, number),
    };
    records::Form { given, bitmap, grid, bitmap_number, packing_flags: f.packing_flags, bits: f.bits }
}
