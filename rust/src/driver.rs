// The archive's functions by way of a program that is linked with it (tests/rust_face/driver.c) and that the file named
// by GRIB1_DRIVER runs, one process for each call. Records and elements lie in memory alike on both sides: the fields
// have C's places, low octet first, and no pointer crosses.
use crate::records::{Checked, Cursor, Data, Display, Form, Grid, Header, Indexed, Part, Place, Point, Written};
use std::env;
use std::io::Write;
use std::mem::{size_of, size_of_val};
use std::process::{Command, Stdio};
use std::slice;
use std::vec::Vec;

// A call that is put together, and what came back.
struct Call(Vec<u8>);
struct Answer(Vec<u8>, usize);

fn octets_of<T: Copy>(list: &[T]) -> &[u8] {
    unsafe { slice::from_raw_parts(list.as_ptr().cast(), size_of_val(list)) }
}

impl Call {
    fn new(function: u32) -> Call {
        Call(Vec::new()).number(function)
    }

    fn number(mut self, x: u32) -> Call {
        self.0.extend(x.to_le_bytes());
        self
    }

    fn list<T: Copy>(self, list: &[T]) -> Call {
        let mut call = self.number(list.len() as u32);
        call.0.extend(octets_of(list));
        call
    }

    // a form or a grid
    fn record_in<T: Copy>(mut self, record: T) -> Call {
        self.0.extend(octets_of(&[record]));
        self
    }

    fn about(function: u32, m: &[u8], number: u16, s: &[u8]) -> Call {
        Call::new(function).list(m).number(number.into()).list(s)
    }

    fn answer(self) -> Answer {
        let program = env::var_os("GRIB1_DRIVER").expect("GRIB1_DRIVER names the program that is linked with the archive");
        let mut child = Command::new(program).stdin(Stdio::piped()).stdout(Stdio::piped()).spawn().expect("the driver starts");
        child.stdin.take().expect("a pipe").write_all(&self.0).expect("the driver reads");
        let done = child.wait_with_output().expect("the driver ends");
        assert!(done.status.success());
        Answer(done.stdout, 0)
    }

    // All answers but those that write a buffer.
    fn record<T: Copy>(self) -> T {
        self.answer().record()
    }
}

impl Answer {
    fn record<T: Copy>(&mut self) -> T {
        let place = self.1;
        self.1 += size_of::<T>();
        assert!(self.1 <= self.0.len());
        unsafe { self.0.as_ptr().add(place).cast::<T>().read_unaligned() }
    }

    fn list<T: Copy>(&mut self, list: &mut [T]) {
        for x in list {
            *x = self.record();
        }
    }
}

pub fn header(m: &[u8], number: u16, s: &[u8]) -> Header {
    Call::about(0, m, number, s).record()
}

pub fn read(m: &[u8], number: u16, s: &[u8], values: &mut [u32], marks: &mut [u8]) -> Header {
    let mut answer = Call::about(1, m, number, s).list(values).list(marks).answer();
    let header = answer.record();
    answer.list(values);
    answer.list(marks);
    header
}

pub fn section(m: &[u8], number: u16, s: &[u8], section: u32) -> Part {
    Call::about(2, m, number, s).number(section).record()
}

pub fn bitmap(m: &[u8], number: u16, s: &[u8]) -> Part {
    Call::about(3, m, number, s).record()
}

pub fn display(m: &[u8], number: u16, s: &[u8]) -> Display {
    Call::about(4, m, number, s).record()
}

pub fn data_number(m: &[u8], number: u16, s: &[u8], point: u32) -> Data {
    Call::about(5, m, number, s).number(point).record()
}

pub fn check(m: &[u8], number: u16, s: &[u8], numbers: &[i32], marks: &[u8], d: i32) -> Checked {
    Call::about(6, m, number, s).list(numbers).list(marks).number(d as u32).record()
}

pub fn index(m: &[u8], number: u16, s: &[u8], index: &mut [u32]) -> Indexed {
    let mut answer = Call::about(13, m, number, s).list(index).answer();
    let indexed = answer.record();
    answer.list(index);
    indexed
}

pub fn cursor(m: &[u8], number: u16, s: &[u8], index: &[u32], row: u32, column: u32) -> Cursor {
    Call::about(14, m, number, s).list(index).number(row).number(column).record()
}

pub fn place(grid: Grid, point: u32) -> Place {
    Call::new(7).record_in(grid).number(point).record()
}

pub fn point(grid: Grid, row: u32, column: u32) -> Point {
    Call::new(8).record_in(grid).number(row).number(column).record()
}

pub fn row(grid: Grid, row: u32) -> u32 {
    Call::new(9).record_in(grid).number(row).record()
}

#[allow(clippy::too_many_arguments)]
pub fn write(pds: &[u8], form: Form, e: i32, r: u32, number: u16, s: &[u8], values: &[u32], marks: &[u8], out: &mut [u8]) -> Written {
    let call = Call::new(10).list(pds).record_in(form).number(e as u32).number(r).number(number.into()).list(s);
    let mut answer = call.list(values).list(marks).list(out).answer();
    let written = answer.record();
    answer.list(out);
    written
}

#[allow(clippy::too_many_arguments)]
pub fn pack(pds: &[u8], form: Form, number: u16, s: &[u8], numbers: &[i32], marks: &[u8], d: i32, out: &mut [u8]) -> Written {
    let call = Call::new(11).list(pds).record_in(form).number(number.into()).list(s);
    let mut answer = call.list(numbers).list(marks).number(d as u32).list(out).answer();
    let written = answer.record();
    answer.list(out);
    written
}

pub fn length(pds: &[u8], form: Form, number: u16, s: &[u8], marks: &[u8]) -> Written {
    Call::new(12).list(pds).record_in(form).number(number.into()).list(s).list(marks).record()
}
