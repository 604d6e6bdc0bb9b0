//! The rules' bounds, and what to lend: the names of `include/grib1.h`.

/// Octets of a message.
pub const MESSAGE_LEAST: usize = 8;
pub const MESSAGE_MOST: usize = 262144;

/// Octets of a message that is written here: an `out` of so many holds any.
pub const WRITTEN_MOST: usize = 205896;

/// Octets of a PDS, an even number.
pub const PDS_LEAST: usize = 28;
pub const PDS_MOST: usize = 1024;

/// Ni and Nj of a rectangle.
pub const SIDE_MOST: u16 = 65534;

/// Points of a grid: values and marks of so many hold any field.
pub const POINTS_MOST: usize = 65536;

/// Points of a group of an index; the last group has those that are left.
pub const GROUP: usize = 256;

/// Groups of a grid: an index of so many entries holds any message's.
pub const INDEX_MOST: usize = 256;

/// Thousandths of a degree, in magnitude.
pub const LATITUDE_MOST: i32 = 90000;
pub const LONGITUDE_MOST: i32 = 360000;

/// Steps of a grid in metres, `dx` and `dy`.
pub const DISTANCE_MOST: u32 = 16777215;

/// N, bits of a value.
pub const BITS_MOST: u8 = 24;

/// E of a message, in magnitude.
pub const EXPONENT_MOST: i32 = 32767;

/// E of a display.
pub const SHOWN_LEAST: i32 = -1022;
pub const SHOWN_MOST: i32 = 1023;

/// E of the check and the packer, from 0.
pub const STEP_MOST: i32 = 24;

/// A source number, in magnitude.
pub const SOURCE_MOST: i32 = 8388607;

/// A di or dj that is missing, and the ni and di of a thinned octant: all ones.
pub const MISSING: u16 = 65535;
