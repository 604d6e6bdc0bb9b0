//! Two faults and more at once: "Checker: 1 to 12, then 18, 15, 16, 17." 5 stands
//! for a length that went wrong: 20, by the data section's, which starts at 77.

use super::{specimen_field, Table};
use crate::vectors::messages::set;
use crate::vectors::read::{with_e, with_lengths};
use crate::Source;

/// The specimen with those of these faults that are a message's; 16 is E = -1.
fn message(faults: &[u32]) -> Vec<u8> {
    let own: Vec<u32> = faults
        .iter()
        .copied()
        .filter(|&fault| fault <= 12)
        .collect();
    let e = if faults.contains(&16) { "8001" } else { "0000" };
    with_e(&own, e)
}

/// The specimen with year of century 0; of these faults 16 alone is a message's.
fn year_0(faults: &[u32]) -> Vec<u8> {
    let e = if faults.contains(&16) { "8001" } else { "0000" };
    with_lengths(&[], e, |sections| set(&mut sections.pds, 13, &[0]))
}

/// Its field, with those that are the source's.
fn source(faults: &[u32]) -> Source {
    let mut source = specimen_field();
    if faults.contains(&18) {
        // a mark of 2 at the absent point
        source.marks[2] = 2;
    }
    if faults.contains(&15) {
        source.d = 2;
    }
    if faults.contains(&17) {
        source.numbers[3] = 2_508;
    }
    source
}

pub fn add(table: &mut Table) {
    table.group("check-pairs");
    let mut add = |reply: u32, name: String, rule: String, faults: &[u32]| {
        match reply {
            5 => table.stop((20, 4, 77), &name, &rule, message(faults), source(faults)),
            _ => table.add(reply, &name, &rule, message(faults), source(faults)),
        };
    };
    for fault in [15, 16, 17, 18] {
        let rule = "the fault that the pairs have, alone".to_string();
        add(fault, format!("check-alone-{fault}"), rule, &[fault]);
    }
    // 1 to 12 come before all of the source's
    for reply in 1..=12 {
        let first = if reply == 5 { 20 } else { reply };
        for other in [18, 15, 16, 17] {
            let rule = format!("the first that applies: {first} before {other}");
            let name = format!("check-pair-{reply}-and-{other}");
            add(reply, name, rule, &[reply, other]);
        }
        let rule = format!("the first that applies: {first} before 18, 15, 16, 17");
        let faults = [reply, 18, 15, 16, 17];
        add(reply, format!("check-all-from-{reply}"), rule, &faults);
    }
    // then 18, 15, 16, 17, in this order
    for (reply, other) in [(18, 15), (18, 16), (18, 17), (15, 16), (15, 17), (16, 17)] {
        let rule = format!("the first that applies: {reply} before {other}");
        let name = format!("check-pair-{reply}-and-{other}");
        add(reply, name, rule, &[reply, other]);
    }
    for (reply, faults) in [(18, &[18, 15, 16, 17][..]), (15, &[15, 16, 17])] {
        let rule = format!("the first that applies: {reply} before all after it");
        add(reply, format!("check-all-from-{reply}"), rule, faults);
    }
    // 6 by year of century 0, which R-3 refuses, comes before them all
    for (name, rule, others) in [
        ("and-18", "18", &[18][..]),
        ("and-15", "15", &[15]),
        ("and-16", "16", &[16]),
        ("and-17", "17", &[17]),
        ("and-all", "18, 15, 16, 17", &[18, 15, 16, 17]),
    ] {
        table.add(
            6,
            &format!("check-year-0-{name}"),
            &format!("the first that applies: 6 by year 0 before {rule}"),
            year_0(others),
            source(others),
        );
    }
}
