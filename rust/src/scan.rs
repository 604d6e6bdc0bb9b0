//! The scanning flags of a grid: bits 1, 2 and 3 of GDS octet 28. The others are carried and mean nothing here. On
//! Lambert and polar grids west is towards the least x, and north towards the greatest y.

/// Columns run west, else east.
pub const WEST: u8 = 128;

/// Rows run north, else south.
pub const NORTH: u8 = 64;

/// Points of one column are consecutive, else of one row.
pub const BY_COLUMN: u8 = 32;
