// The archive's functions, each with its slices taken apart. A slice of Rust is what the archive asks for: a pointer
// that is not null, to that many elements, and what is lent as `&mut` overlaps nothing else.
use crate::records::{Checked, Cursor, Data, Display, Form, Grid, Header, Indexed, Part, Place, Point, Written};

extern "C" {
    fn grib1_header(m: *const u8, m_len: usize, number: u16, s: *const u8, s_len: usize) -> Header;
    fn grib1_read(
        m: *const u8, m_len: usize, number: u16, s: *const u8, s_len: usize, values: *mut u32, values_len: usize, marks: *mut u8, marks_len: usize,
    ) -> Header;
    fn grib1_section(m: *const u8, m_len: usize, number: u16, s: *const u8, s_len: usize, section: u32) -> Part;
    fn grib1_bitmap(m: *const u8, m_len: usize, number: u16, s: *const u8, s_len: usize) -> Part;
    fn grib1_display(m: *const u8, m_len: usize, number: u16, s: *const u8, s_len: usize) -> Display;
    fn grib1_place(grid: Grid, point: u32) -> Place;
    fn grib1_point(grid: Grid, row: u32, column: u32) -> Point;
    fn grib1_row(grid: Grid, row: u32) -> u32;
    fn grib1_data_number(m: *const u8, m_len: usize, number: u16, s: *const u8, s_len: usize, point: u32) -> Data;
    fn grib1_index(m: *const u8, m_len: usize, number: u16, s: *const u8, s_len: usize, index: *mut u32, index_len: usize) -> Indexed;
    fn grib1_cursor(
        m: *const u8, m_len: usize, number: u16, s: *const u8, s_len: usize, index: *const u32, index_len: usize, row: u32, column: u32,
    ) -> Cursor;
    fn grib1_length(pds: *const u8, pds_len: usize, form: Form, number: u16, s: *const u8, s_len: usize, marks: *const u8, marks_len: usize) -> Written;
    fn grib1_write(
        pds: *const u8, pds_len: usize, form: Form, e: i32, r: u32, number: u16, s: *const u8, s_len: usize, values: *const u32, values_len: usize,
        marks: *const u8, marks_len: usize, out: *mut u8, out_len: usize,
    ) -> Written;
    fn grib1_check(
        m: *const u8, m_len: usize, number: u16, s: *const u8, s_len: usize, numbers: *const i32, numbers_len: usize, marks: *const u8,
        marks_len: usize, d: i32,
    ) -> Checked;
    fn grib1_pack(
        pds: *const u8, pds_len: usize, form: Form, number: u16, s: *const u8, s_len: usize, numbers: *const i32, numbers_len: usize,
        marks: *const u8, marks_len: usize, d: i32, out: *mut u8, out_len: usize,
    ) -> Written;
}

pub fn header(m: &[u8], number: u16, s: &[u8]) -> Header {
    unsafe { grib1_header(m.as_ptr(), m.len(), number, s.as_ptr(), s.len()) }
}

pub fn read(m: &[u8], number: u16, s: &[u8], values: &mut [u32], marks: &mut [u8]) -> Header {
    unsafe { grib1_read(m.as_ptr(), m.len(), number, s.as_ptr(), s.len(), values.as_mut_ptr(), values.len(), marks.as_mut_ptr(), marks.len()) }
}

pub fn section(m: &[u8], number: u16, s: &[u8], section: u32) -> Part {
    unsafe { grib1_section(m.as_ptr(), m.len(), number, s.as_ptr(), s.len(), section) }
}

pub fn bitmap(m: &[u8], number: u16, s: &[u8]) -> Part {
    unsafe { grib1_bitmap(m.as_ptr(), m.len(), number, s.as_ptr(), s.len()) }
}

pub fn display(m: &[u8], number: u16, s: &[u8]) -> Display {
    unsafe { grib1_display(m.as_ptr(), m.len(), number, s.as_ptr(), s.len()) }
}

pub fn place(grid: Grid, point: u32) -> Place {
    unsafe { grib1_place(grid, point) }
}

pub fn point(grid: Grid, row: u32, column: u32) -> Point {
    unsafe { grib1_point(grid, row, column) }
}

pub fn row(grid: Grid, row: u32) -> u32 {
    unsafe { grib1_row(grid, row) }
}

pub fn data_number(m: &[u8], number: u16, s: &[u8], point: u32) -> Data {
    unsafe { grib1_data_number(m.as_ptr(), m.len(), number, s.as_ptr(), s.len(), point) }
}

pub fn index(m: &[u8], number: u16, s: &[u8], index: &mut [u32]) -> Indexed {
    unsafe { grib1_index(m.as_ptr(), m.len(), number, s.as_ptr(), s.len(), index.as_mut_ptr(), index.len()) }
}

pub fn cursor(m: &[u8], number: u16, s: &[u8], index: &[u32], row: u32, column: u32) -> Cursor {
    unsafe { grib1_cursor(m.as_ptr(), m.len(), number, s.as_ptr(), s.len(), index.as_ptr(), index.len(), row, column) }
}

pub fn length(pds: &[u8], form: Form, number: u16, s: &[u8], marks: &[u8]) -> Written {
    unsafe { grib1_length(pds.as_ptr(), pds.len(), form, number, s.as_ptr(), s.len(), marks.as_ptr(), marks.len()) }
}

#[allow(clippy::too_many_arguments)]
pub fn write(pds: &[u8], form: Form, e: i32, r: u32, number: u16, s: &[u8], values: &[u32], marks: &[u8], out: &mut [u8]) -> Written {
    unsafe {
        grib1_write(
            pds.as_ptr(), pds.len(), form, e, r, number, s.as_ptr(), s.len(), values.as_ptr(), values.len(), marks.as_ptr(), marks.len(),
            out.as_mut_ptr(), out.len(),
        )
    }
}

pub fn check(m: &[u8], number: u16, s: &[u8], numbers: &[i32], marks: &[u8], d: i32) -> Checked {
    unsafe { grib1_check(m.as_ptr(), m.len(), number, s.as_ptr(), s.len(), numbers.as_ptr(), numbers.len(), marks.as_ptr(), marks.len(), d) }
}

#[allow(clippy::too_many_arguments)]
pub fn pack(pds: &[u8], form: Form, number: u16, s: &[u8], numbers: &[i32], marks: &[u8], d: i32, out: &mut [u8]) -> Written {
    unsafe {
        grib1_pack(
            pds.as_ptr(), pds.len(), form, number, s.as_ptr(), s.len(), numbers.as_ptr(), numbers.len(), marks.as_ptr(), marks.len(), d,
            out.as_mut_ptr(), out.len(),
        )
    }
}
