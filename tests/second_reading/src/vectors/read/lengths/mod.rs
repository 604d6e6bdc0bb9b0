//! R-2: where the lengths went wrong. "odd length, under or over its bounds,
//! running past the end section, and octets left over, each with the section's
//! number and its first octet's place in the message": each in each section, at
//! both edges.
//!
//! * `said`      lengths that a section says, whatever it has;
//! * `standing`  lengths that a section has and says;
//! * `ends`      the end section too early: lengths that can't be read;
//! * `left_over` the end section too late;
//! * `far`       places that take two octets and three.

mod ends;
mod far;
mod left_over;
mod said;
mod standing;

use super::Table;
use crate::vectors::lengths::{homes, Home};
use crate::vectors::messages::Sections;

pub fn add(table: &mut Table) {
    taken(table);
    said::add(table);
    standing::add(table);
    ends::add(table);
    left_over::add(table);
    far::add(table);
}

/// A line about a section of a home, with its bitmap lent and room for its points.
fn line(
    table: &mut Table,
    home: &Home,
    stop: (u32, u32, u32),
    what: &str,
    rule: &str,
    sections: &Sections,
) {
    let name = format!("{}-{}-{what}", stop.0, home.name);
    let vector = table.stop(stop, &name, rule, sections.message());
    vector.room(home.points, home.points).lent = home.lent.clone();
}

/// The messages as they are: no length went wrong.
fn taken(table: &mut Table) {
    for home in homes() {
        let vector = table.add(
            0,
            &format!("20-to-23-{}", home.name),
            "no length is odd, outside its bounds or past the end, and nothing is left over",
            home.sections.message(),
        );
        vector.room(home.points, home.points).lent = home.lent.clone();
    }
}
