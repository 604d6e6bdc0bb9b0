//! Lengths that a section says, whatever it has: odd, under and over its bounds,
//! past the end section's start, and each of these together.

use super::line;
use crate::vectors::lengths::{
    called, homes, listed, long_pds, no_bms, no_gds, octant, octant_carried, octant_stored, whole,
    Broken, Home, MOST_EVEN, ODD, ODD_OVER, ODD_OVER_PASSES, ODD_PASSES, ODD_UNDER, ONES, OVER,
    OVER_PASSES, PASSES, UNDER,
};
use crate::vectors::read::Table;

pub fn add(table: &mut Table) {
    let mut says = |home: &Home, section: u32, (reply, rule): Broken, lengths: &[usize]| {
        for &length in lengths {
            line(
                table,
                home,
                (reply, section, home.start(section)),
                &format!("{}-says-{length}", called(section)),
                rule,
                &home.says(section, length),
            );
        }
    };
    under(&mut says);
    over(&mut says);
    rectangles(&mut says);
    octants(&mut says);
}

/// Under its least, and one more, which is odd: 28, 32, 6 and 12.
fn under(says: &mut impl FnMut(&Home, u32, Broken, &[usize])) {
    for home in homes() {
        for section in home.present() {
            let (under, odd): (&[usize], &[usize]) = match section {
                1 => (&[0, 2, 26], &[1, 27]),
                2 => (&[0, 2, 30], &[1, 31]),
                3 => (&[0, 2, 4], &[1, 3, 5]),
                _ => (&[0, 2, 10], &[1, 11]),
            };
            says(&home, section, UNDER, under);
            says(&home, section, ODD_UNDER, odd);
        }
    }
}

/// "PDS over 1,024": past the end too, but where the PDS is long itself.
fn over(says: &mut impl FnMut(&Home, u32, Broken, &[usize])) {
    for home in [
        whole(),
        no_bms(),
        no_gds(),
        listed(),
        octant(),
        octant_carried(),
    ] {
        says(&home, 1, PASSES, &[1_022, 1_024]);
        says(&home, 1, ODD_PASSES, &[1_023]);
        says(&home, 1, OVER_PASSES, &[1_026, 65_564, MOST_EVEN]);
        says(&home, 1, ODD_OVER_PASSES, &[1_025, 1_027, ONES]);
    }
    // the end section starts 1,078 octets after the PDS does
    let home = long_pds();
    says(&home, 1, ODD, &[1_023]);
    says(&home, 1, OVER, &[1_026, 1_076, 1_078]);
    says(&home, 1, ODD_OVER, &[1_025, 1_027, 1_077]);
    says(&home, 1, OVER_PASSES, &[1_080, MOST_EVEN]);
    says(&home, 1, ODD_OVER_PASSES, &[1_079, ONES]);
}

fn rectangles(says: &mut impl FnMut(&Home, u32, Broken, &[usize])) {
    // the end section starts 82 octets after the PDS does, 54 after the GDS, 22
    // after the BMS and 14 after the BDS
    let home = whole();
    says(&home, 1, ODD, &[29, 81]);
    says(&home, 1, ODD_PASSES, &[83]);
    says(&home, 1, PASSES, &[84]);
    says(&home, 2, ODD, &[33, 53]);
    says(&home, 2, ODD_PASSES, &[55, ONES]);
    says(&home, 2, PASSES, &[56, 288, 65_568, MOST_EVEN]);
    says(&home, 3, ODD, &[7, 9, 21]);
    says(&home, 3, ODD_PASSES, &[23, ONES]);
    says(&home, 3, PASSES, &[24, 264, 65_544, MOST_EVEN]);
    says(&home, 4, ODD, &[13]);
    says(&home, 4, ODD_PASSES, &[15, 17, ONES]);
    says(&home, 4, PASSES, &[16, 18, 20, 270, 65_550, MOST_EVEN]);

    // 74, 46 and 14 octets
    let home = no_bms();
    says(&home, 1, ODD, &[29]);
    says(&home, 1, ODD_PASSES, &[75]);
    says(&home, 1, PASSES, &[76]);
    says(&home, 2, ODD, &[33, 45]);
    says(&home, 2, ODD_PASSES, &[47, ONES]);
    says(&home, 2, PASSES, &[48, MOST_EVEN]);
    says(&home, 4, ODD, &[13]);
    says(&home, 4, ODD_PASSES, &[15, ONES]);
    says(&home, 4, PASSES, &[16, MOST_EVEN]);

    // 110, 82 and 76 octets
    let home = no_gds();
    says(&home, 1, ODD, &[29]);
    says(&home, 1, ODD_PASSES, &[111]);
    says(&home, 1, PASSES, &[112]);
    says(&home, 3, ODD, &[7, 81]);
    says(&home, 3, ODD_PASSES, &[83, ONES]);
    says(&home, 3, PASSES, &[84, MOST_EVEN]);
    says(&home, 4, ODD, &[13, 75]);
    says(&home, 4, ODD_PASSES, &[77, ONES]);
    says(&home, 4, PASSES, &[78, MOST_EVEN]);

    // 40 and 12 octets
    let home = listed();
    says(&home, 1, ODD, &[29]);
    says(&home, 1, ODD_PASSES, &[41]);
    says(&home, 1, PASSES, &[42]);
    says(&home, 4, ODD_PASSES, &[13, ONES]);
    says(&home, 4, PASSES, &[14, MOST_EVEN]);

    // 54, 22 and 14 octets after a PDS of 1,024
    let home = long_pds();
    says(&home, 2, ODD, &[33]);
    says(&home, 2, ODD_PASSES, &[55]);
    says(&home, 2, PASSES, &[56]);
    says(&home, 3, ODD, &[7]);
    says(&home, 3, ODD_PASSES, &[23]);
    says(&home, 3, PASSES, &[24]);
    says(&home, 4, ODD, &[13]);
    says(&home, 4, ODD_PASSES, &[15]);
    says(&home, 4, PASSES, &[16]);
}

/// A GDS of 178 octets: in front of it, in it and behind it.
fn octants(says: &mut impl FnMut(&Home, u32, Broken, &[usize])) {
    // 218, 190 and 12 octets
    let home = octant();
    says(&home, 1, ODD, &[29]);
    says(&home, 1, ODD_PASSES, &[219]);
    says(&home, 1, PASSES, &[220]);
    says(&home, 2, ODD, &[33, 177, 179, 189]);
    says(&home, 2, ODD_PASSES, &[191, ONES]);
    says(&home, 2, PASSES, &[192, 434, 65_714, MOST_EVEN]);
    says(&home, 4, ODD_PASSES, &[13, ONES]);
    says(&home, 4, PASSES, &[14, MOST_EVEN]);

    // 720, 692, 514 and 76 octets
    let home = octant_carried();
    says(&home, 1, ODD, &[29]);
    says(&home, 1, ODD_PASSES, &[721]);
    says(&home, 1, PASSES, &[722]);
    says(&home, 2, ODD, &[33, 177, 179, 691]);
    says(&home, 2, ODD_PASSES, &[693, ONES]);
    says(&home, 2, PASSES, &[694, MOST_EVEN]);
    says(&home, 3, ODD, &[7, 437, 439, 513]);
    says(&home, 3, ODD_PASSES, &[515, ONES]);
    says(&home, 3, PASSES, &[516, MOST_EVEN]);
    says(&home, 4, ODD, &[13, 75]);
    says(&home, 4, ODD_PASSES, &[77, ONES]);
    says(&home, 4, PASSES, &[78, MOST_EVEN]);

    // 288, 260, 82 and 76 octets
    let home = octant_stored();
    says(&home, 1, ODD, &[29]);
    says(&home, 1, ODD_PASSES, &[289]);
    says(&home, 1, PASSES, &[290]);
    says(&home, 2, ODD, &[177, 179]);
    says(&home, 2, ODD_PASSES, &[261]);
    says(&home, 2, PASSES, &[262]);
    says(&home, 3, ODD, &[7]);
    says(&home, 3, ODD_PASSES, &[83]);
    says(&home, 3, PASSES, &[84]);
    says(&home, 4, ODD, &[75]);
    says(&home, 4, ODD_PASSES, &[77]);
    says(&home, 4, PASSES, &[78]);
}
