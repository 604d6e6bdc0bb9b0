//! "25 exactly when the index has fewer entries than groups, or the group's entry plus the
//! ones in that group isn't the next entry (in the last group, m) or is above m".

use super::Told::{self, Absent, Filled, Refused, Value};
use super::{row_of, Home, Table, MOST};

pub fn add(table: &mut Table) {
    table.group("index");
    three_groups(table);
    no_ones(table);
    no_bitmap(table);
    all_absent(table);
    one_group(table);
}

const TOO_SHORT: &str = "25: fewer entries than groups";
const NOT_NEXT: &str = "25: the group's entry plus its ones isn't the next entry";
const NOT_M: &str = "25: in the last group, the entry plus its ones isn't m";
const ABOVE: &str = "25: the sum is above m, though it is the next entry";
const NO_WRAP: &str = "25: the sum is more than 32 bits hold, and is not what is left of it there";
const OWN: &str = "the index as it is filled";
const OTHERS: &str = "the place's own group decides: other entries may be anything";
const ANY: &str =
    "from any index that isn't refused: the data number is the entry plus the ones before";

/// 600 points in a row, of which 0 to 99 are present, of 256 to 511 the even ones, and 520
/// to 599: 100, 128 and 80 ones in groups of 256, 256 and 88, m = 308. The value of data
/// number k is 3 k + 1.
pub fn three() -> Home {
    let mut k = 0;
    let points: Vec<Option<u32>> = (0..600)
        .map(|point| {
            let present = match point {
                0..=255 => point < 100,
                256..=511 => point % 2 == 0,
                _ => point >= 520,
            };
            present.then(|| {
                k += 1;
                3 * k - 2
            })
        })
        .collect();
    row_of(&points, 10, true).into()
}

/// An index, columns, and what is told there.
type Line<'a> = (&'a str, &'a [u32], &'a [(u32, Told)], &'a str);

fn lines(table: &mut Table, home: &Home, of: &str, all: &[Line]) {
    for (name, index, places, rule) in all {
        for (column, told) in *places {
            let refused = if *told == Refused(25) { "25-" } else { "" };
            let name = format!("{refused}{of}-{name}-column-{column}");
            table.ask(home, index, (0, *column), told.clone(), &name, rule);
        }
    }
}

fn three_groups(table: &mut Table) {
    let home = three();
    let filled = Filled(vec![0, 100, 228]);
    table.fill(&home, 3, filled.clone(), "fill-three", OWN);
    table.fill_alone(
        &home,
        4,
        filled,
        "fill-three-one-more",
        "entries after the last group stay",
    );
    table.fill(
        &home,
        2,
        Refused(14),
        "14-three-one-short",
        "14 if too short",
    );

    // by 100 in the first group: [0, 100, ..], m is 308
    let bad = &[(0, Refused(25)), (99, Refused(25)), (100, Refused(25))];
    let own = &[
        (0, Value(1)),
        (1, Value(4)),
        (99, Value(298)),
        (100, Absent),
        (255, Absent),
    ];
    lines(
        table,
        &home,
        "three-first",
        &[
            ("filled", &[0, 100, 228], own, OWN),
            ("one-more-0", &[0, 100, 228, 0], own, OTHERS),
            ("one-more-m", &[0, 100, 228, 308], own, OTHERS),
            ("one-more-all-ones", &[0, 100, 228, MOST], own, OTHERS),
            ("many-more", &[0, 100, 228, 1, MOST, 2, 0], own, OTHERS),
            ("last-0", &[0, 100, 0], own, OTHERS),
            ("last-low", &[0, 100, 227], own, OTHERS),
            ("last-high", &[0, 100, 229], own, OTHERS),
            ("last-all-ones", &[0, 100, MOST], own, OTHERS),
            (
                "both-higher",
                &[1, 101, 228],
                &[(0, Value(4)), (99, Value(301)), (100, Absent)],
                ANY,
            ),
            (
                "to-m",
                &[208, 308, 228],
                &[(0, Value(625)), (99, Value(922)), (255, Absent)],
                ANY,
            ),
            ("above-m", &[209, 309, 228], bad, ABOVE),
            (
                "above-m-far",
                &[2_147_483_648, 2_147_483_748, 228],
                bad,
                ABOVE,
            ),
            ("above-m-most", &[MOST - 100, MOST, 228], bad, ABOVE),
            ("too-high", &[1, 100, 228], bad, NOT_NEXT),
            ("too-high-by-256", &[256, 100, 228], bad, NOT_NEXT),
            ("next-low", &[0, 99, 228], bad, NOT_NEXT),
            ("next-high", &[0, 101, 228], bad, NOT_NEXT),
            ("next-0", &[0, 0, 228], bad, NOT_NEXT),
            ("next-m", &[0, 308, 228], bad, NOT_NEXT),
            ("next-all-ones", &[0, MOST, 228], bad, NOT_NEXT),
            ("all-ones", &[MOST, 100, 228], bad, NOT_NEXT),
            ("all-ones-throughout", &[MOST, MOST, MOST], bad, NOT_NEXT),
            ("wraps-to-99", &[MOST, 99, 228], bad, NO_WRAP),
            ("wraps-to-0", &[MOST - 99, 0, 228], bad, NO_WRAP),
            ("wraps-to-1", &[MOST - 98, 1, 228], bad, NO_WRAP),
            ("empty", &[], bad, TOO_SHORT),
            ("one-entry", &[0], bad, TOO_SHORT),
            ("one-short", &[0, 100], bad, TOO_SHORT),
        ],
    );

    // by 128 in the second: [.., 100, 228]
    let bad = &[(256, Refused(25)), (257, Refused(25)), (511, Refused(25))];
    let own = &[
        (256, Value(301)),
        (257, Absent),
        (258, Value(304)),
        (510, Value(682)),
        (511, Absent),
    ];
    lines(
        table,
        &home,
        "three-second",
        &[
            ("filled", &[0, 100, 228], own, OWN),
            ("one-more-0", &[0, 100, 228, 0], own, OTHERS),
            ("first-high", &[1, 100, 228], own, OTHERS),
            ("first-100", &[100, 100, 228], own, OTHERS),
            ("first-all-ones", &[MOST, 100, 228], own, OTHERS),
            (
                "from-0",
                &[0, 0, 128],
                &[(256, Value(1)), (257, Absent), (510, Value(382))],
                ANY,
            ),
            (
                "both-higher",
                &[0, 101, 229],
                &[(256, Value(304)), (510, Value(685)), (511, Absent)],
                ANY,
            ),
            (
                "both-lower",
                &[0, 99, 227],
                &[(256, Value(298)), (510, Value(679)), (511, Absent)],
                ANY,
            ),
            (
                "to-m",
                &[0, 180, 308],
                &[(256, Value(541)), (510, Value(922)), (511, Absent)],
                ANY,
            ),
            ("above-m", &[0, 181, 309], bad, ABOVE),
            ("above-m-most", &[0, MOST - 128, MOST], bad, ABOVE),
            ("too-low", &[0, 99, 228], bad, NOT_NEXT),
            ("too-high", &[0, 101, 228], bad, NOT_NEXT),
            ("next-low", &[0, 100, 227], bad, NOT_NEXT),
            ("next-high", &[0, 100, 229], bad, NOT_NEXT),
            ("next-m", &[0, 100, 308], bad, NOT_NEXT),
            ("0", &[0, 0, 228], bad, NOT_NEXT),
            ("all-ones", &[0, MOST, 228], bad, NOT_NEXT),
            ("wraps-to-127", &[0, MOST, 127], bad, NO_WRAP),
            ("wraps-to-0", &[0, MOST - 127, 0], bad, NO_WRAP),
            ("empty", &[], bad, TOO_SHORT),
            ("one-entry", &[0], bad, TOO_SHORT),
            ("one-short", &[0, 100], bad, TOO_SHORT),
        ],
    );

    // by 80 in the last: [.., .., 228], and then m
    let bad = &[(512, Refused(25)), (520, Refused(25)), (599, Refused(25))];
    let own = &[
        (512, Absent),
        (519, Absent),
        (520, Value(685)),
        (521, Value(688)),
        (599, Value(922)),
    ];
    lines(
        table,
        &home,
        "three-last",
        &[
            ("filled", &[0, 100, 228], own, OWN),
            ("one-more-0", &[0, 100, 228, 0], own, OTHERS),
            ("one-more-above-m", &[0, 100, 228, 309], own, OTHERS),
            ("one-more-all-ones", &[0, 100, 228, MOST], own, OTHERS),
            ("others-0", &[0, 0, 228], own, OTHERS),
            ("others-high", &[7, 9, 228], own, OTHERS),
            ("others-all-ones", &[MOST, MOST, 228], own, OTHERS),
            ("too-low", &[0, 100, 227], bad, NOT_M),
            ("too-high", &[0, 100, 229], bad, NOT_M),
            (
                "too-low-and-one-more-agrees",
                &[0, 100, 227, 307],
                bad,
                NOT_M,
            ),
            (
                "too-high-and-one-more-agrees",
                &[0, 100, 229, 309],
                bad,
                NOT_M,
            ),
            ("0", &[0, 100, 0], bad, NOT_M),
            ("m", &[0, 100, 308], bad, NOT_M),
            ("all-ones", &[0, 100, MOST], bad, NOT_M),
            ("wraps-to-0", &[0, 100, MOST - 79], bad, NO_WRAP),
            ("empty", &[], bad, TOO_SHORT),
            ("one-short", &[0, 100], bad, TOO_SHORT),
            ("one-short-its-own", &[228, 308], bad, TOO_SHORT),
        ],
    );
}

/// 768 points: 10 ones, a group without ones, and 5 ones; m = 15. The value of data number
/// k is 20 - k.
fn no_ones(table: &mut Table) {
    let points: Vec<Option<u32>> = (0..768)
        .map(|point| match point {
            0..=9 => Some(20 - point),
            512..=516 => Some(10 - (point - 512)),
            _ => None,
        })
        .collect();
    let home: Home = row_of(&points, 5, true).into();
    table
        .fill(&home, 3, Filled(vec![0, 10, 10]), "fill-no-ones", OWN)
        .chart(vec![points]);
    let bad = &[(256, Refused(25)), (511, Refused(25))];
    let own = &[(256, Absent), (400, Absent), (511, Absent)];
    lines(
        table,
        &home,
        "no-ones",
        &[
            (
                "filled",
                &[0, 10, 10],
                own,
                "a group without ones: the next entry is its own",
            ),
            ("0", &[0, 0, 0], own, ANY),
            ("m", &[0, 15, 15], own, ANY),
            ("above-m", &[0, 16, 16], bad, ABOVE),
            ("all-ones", &[0, MOST, MOST], bad, ABOVE),
            ("next-high", &[0, 10, 11], bad, NOT_NEXT),
            ("next-low", &[0, 10, 9], bad, NOT_NEXT),
            ("m-and-0", &[0, 15, 0], bad, NOT_NEXT),
        ],
    );
    lines(
        table,
        &home,
        "beside-no-ones",
        &[
            (
                "filled",
                &[0, 10, 10],
                &[(0, Value(20)), (9, Value(11)), (10, Absent), (255, Absent)],
                OWN,
            ),
            (
                "filled",
                &[0, 10, 10],
                &[
                    (512, Value(10)),
                    (516, Value(6)),
                    (517, Absent),
                    (767, Absent),
                ],
                OWN,
            ),
            (
                "to-m",
                &[5, 15, 10],
                &[(0, Value(15)), (9, Value(6)), (512, Value(10))],
                ANY,
            ),
            (
                "above-m",
                &[6, 16, 10],
                &[(0, Refused(25)), (255, Refused(25))],
                ABOVE,
            ),
        ],
    );
}

/// 600 points without a bitmap: 256, 256 and 88 ones, m = 600. The value of data number k
/// is k.
fn no_bitmap(table: &mut Table) {
    let points: Vec<Option<u32>> = (0..600).map(Some).collect();
    let home: Home = row_of(&points, 10, false).into();
    table
        .fill(
            &home,
            3,
            Filled(vec![0, 256, 512]),
            "fill-no-bitmap",
            "with no bitmap every point counts as a one",
        )
        .chart(vec![points]);
    let first = &[(0, Refused(25)), (255, Refused(25))];
    let second = &[(256, Refused(25)), (511, Refused(25))];
    let last = &[(512, Refused(25)), (599, Refused(25))];
    lines(
        table,
        &home,
        "no-bitmap",
        &[
            (
                "filled",
                &[0, 256, 512],
                &[
                    (0, Value(0)),
                    (255, Value(255)),
                    (256, Value(256)),
                    (511, Value(511)),
                    (512, Value(512)),
                    (599, Value(599)),
                ],
                OWN,
            ),
            (
                "first-to-m",
                &[344, 600, 512],
                &[(0, Value(344)), (255, Value(599)), (512, Value(512))],
                ANY,
            ),
            (
                "second-to-m",
                &[0, 344, 600],
                &[(256, Value(344)), (511, Value(599))],
                ANY,
            ),
            (
                "second-from-0",
                &[0, 0, 256],
                &[(256, Value(0)), (511, Value(255))],
                ANY,
            ),
            ("first-above-m", &[345, 601, 512], first, ABOVE),
            ("second-above-m", &[0, 345, 601], second, ABOVE),
            ("first-all-zeros", &[0, 0, 0], first, NOT_NEXT),
            ("second-all-zeros", &[0, 0, 0], second, NOT_NEXT),
            ("last-all-zeros", &[0, 0, 0], last, NOT_M),
            ("last-too-low", &[0, 256, 511], last, NOT_M),
            ("last-too-high", &[0, 256, 513], last, NOT_M),
            ("second-too-low", &[0, 255, 512], second, NOT_NEXT),
            ("first-wraps-to-255", &[MOST, 255, 512], first, NO_WRAP),
            ("second-wraps-to-0", &[0, MOST - 255, 0], second, NO_WRAP),
        ],
    );
}

/// 300 points, all absent: m = 0.
fn all_absent(table: &mut Table) {
    let home: Home = row_of(&[None; 300], 7, true).into();
    table
        .fill(&home, 2, Filled(vec![0, 0]), "fill-all-absent", "m = 0")
        .chart(vec![vec![None; 300]]);
    let first = &[(0, Refused(25)), (255, Refused(25))];
    let last = &[(256, Refused(25)), (299, Refused(25))];
    lines(
        table,
        &home,
        "all-absent",
        &[
            (
                "filled",
                &[0, 0],
                &[(0, Absent), (255, Absent), (256, Absent), (299, Absent)],
                "m = 0: every place is absent",
            ),
            (
                "other-group",
                &[MOST, 0],
                &[(256, Absent), (299, Absent)],
                OTHERS,
            ),
            ("first-above-m", &[1, 1], first, ABOVE),
            ("first-all-ones", &[MOST, MOST], first, ABOVE),
            ("first-next-high", &[0, 1], first, NOT_NEXT),
            ("first-one-short", &[0], first, TOO_SHORT),
            ("last-too-high", &[0, 1], last, NOT_M),
            ("last-all-ones", &[0, MOST], last, NOT_M),
            ("last-empty", &[], last, TOO_SHORT),
        ],
    );
}

/// One group alone: its entry is 0 and its ones are m.
fn one_group(table: &mut Table) {
    for (of, points) in [
        ("one-point", vec![Some(5)]),
        ("one-absent", vec![None]),
        ("three-points", vec![Some(5), None, Some(6)]),
    ] {
        let home: Home = row_of(&points, 3, true).into();
        table
            .fill(&home, 1, Filled(vec![0]), &format!("fill-{of}"), OWN)
            .chart(vec![points.clone()]);
        let there: Vec<(u32, Told)> = (0..)
            .zip(&points)
            .map(|(column, x)| (column, x.map_or(Absent, Value)))
            .collect();
        let bad: Vec<(u32, Told)> = there.iter().map(|&(c, _)| (c, Refused(25))).collect();
        lines(
            table,
            &home,
            of,
            &[
                ("filled", &[0], &there, OWN),
                ("one-more-0", &[0, 0], &there, OTHERS),
                ("one-more-1", &[0, 1], &there, OTHERS),
                ("one-more-all-ones", &[0, MOST], &there, OTHERS),
                ("too-high", &[1], &bad, NOT_M),
                ("all-ones", &[MOST], &bad, NOT_M),
                ("too-high-and-one-more", &[1, 2], &bad, NOT_M),
                ("empty", &[], &bad, TOO_SHORT),
            ],
        );
    }
}
