// The records of include/grib1.h, field by field in its order. Any bits are a value of each.

#[derive(Clone, Copy)]
#[repr(C)]
pub struct Part {
    pub stored: u32,
    pub start: u32,
    pub len: u32,
}

#[derive(Clone, Copy, Default)]
#[repr(C)]
pub struct Grid {
    pub la1: i32,
    pub lo1: i32,
    pub la2: i32,
    pub lo2: i32,
    pub lov: i32,
    pub latin1: i32,
    pub latin2: i32,
    pub pole_la: i32,
    pub pole_lo: i32,
    pub dx: u32,
    pub dy: u32,
    pub ni: u16,
    pub nj: u16,
    pub di: u16,
    pub dj: u16,
    pub circles: u16,
    pub resolution: u8,
    pub scan: u8,
    pub rows: u8,
    pub kind: u8,
    pub centre: u8,
}

// The kind of a grid: GDS octet 6.
pub const LATLON: u8 = 0;
pub const MERCATOR: u8 = 1;
pub const LAMBERT: u8 = 3;
pub const GAUSSIAN: u8 = 4;
pub const POLAR: u8 = 5;

#[derive(Clone, Copy)]
#[repr(C)]
pub struct Header {
    pub reply: u32,
    pub section: u32,
    pub place: u32,
    pub points: u32,
    pub present: u32,
    pub d: i32,
    pub e: i32,
    pub r: u32,
    pub bitmap: u32,
    pub grid: Grid,
    pub pds: Part,
    pub gds: Part,
    pub bms: Part,
    pub bds: Part,
    pub bitmap_number: u16,
    pub year: u16,
    pub month: u8,
    pub day: u8,
    pub hour: u8,
    pub minute: u8,
    pub packing_flags: u8,
    pub bits: u8,
}

#[derive(Clone, Copy)]
#[repr(C)]
pub struct Display {
    pub reply: u32,
    pub section: u32,
    pub place: u32,
    pub reference: f64,
    pub step: f64,
}

#[derive(Clone, Copy)]
#[repr(C)]
pub struct Place {
    pub on: u32,
    pub row: u32,
    pub column: u32,
}

#[derive(Clone, Copy)]
#[repr(C)]
pub struct Point {
    pub on: u32,
    pub point: u32,
}

#[derive(Clone, Copy)]
#[repr(C)]
pub struct Data {
    pub kind: u32,
    pub data_number: u32,
}

#[derive(Clone, Copy)]
#[repr(C)]
pub struct Indexed {
    pub reply: u32,
    pub section: u32,
    pub place: u32,
    pub entries: u32,
}

#[derive(Clone, Copy)]
#[repr(C)]
pub struct Cursor {
    pub reply: u32,
    pub section: u32,
    pub place: u32,
    pub kind: u32,
    pub value: u32,
}

#[derive(Clone, Copy)]
#[repr(C)]
pub struct Written {
    pub reply: u32,
    pub len: u32,
}

#[derive(Clone, Copy)]
#[repr(C)]
pub struct Checked {
    pub reply: u32,
    pub section: u32,
    pub place: u32,
}

#[derive(Clone, Copy)]
#[repr(C)]
pub struct Form {
    pub given: u32,
    pub bitmap: u32,
    pub grid: Grid,
    pub bitmap_number: u16,
    pub packing_flags: u8,
    pub bits: u8,
}
