//! Messages that other programs wrote, and what they say is in them.

use super::Table;

/// A message and its text, by the name of both.
macro_rules! outside {
    ($name:literal) => {
        (
            concat!("outside-", $name),
            &include_bytes!(concat!("../../../tests/outside/", $name, ".grb"))[..],
            include_str!(concat!("../../../tests/outside/", $name, ".txt")),
        )
    };
}

pub fn add(table: &mut Table) {
    // GDS octet 6; thinned, where the counts begin; row and column of the first point
    for ((name, message, said), kind, rows, spot) in [
        (outside!("octant37"), 0, 1, [72, 0]),
        (outside!("octant42"), 0, 2, [72, 0]),
        (outside!("mercator_s0"), 1, 0, [0, 0]),
        (outside!("lambert_s0"), 3, 0, [0, 0]),
        (outside!("gauss_s0"), 4, 0, [0, 0]),
        (outside!("polar_s64"), 5, 0, [6, 0]),
    ] {
        let values = said.split_once("X ").expect("values").1;
        let points: Vec<Option<u32>> = values
            .split_whitespace()
            .map(|word| word.parse().ok())
            .collect();
        table
            .add(0, name, "written by another program", message.to_vec())
            .room(points.len(), points.len())
            .says("N", 10)
            .says("R", 0)
            .says("kind", kind)
            .says("rows", rows)
            .says("row of point 0", spot[0])
            .says("column of point 0", spot[1])
            .points(&points);
    }
}
