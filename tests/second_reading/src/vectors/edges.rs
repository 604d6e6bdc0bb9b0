//! Edges that the reader's table shares with the writer's and the packer's: the
//! time, and how many points a grid has.

/// A time in the PDS, and the reply to it.
pub struct Time {
    pub reply: u32,
    pub name: String,
    pub rule: &'static str,
    pub century: u8,
    /// Year of century, month, day, hour, minute: octets 13-17.
    pub octets: [u8; 5],
    /// By hand: year, month and day as a reader tells them, of one that is taken.
    pub told: Option<[i64; 3]>,
}

/// 6: "time out of its ranges"
pub fn times() -> Vec<Time> {
    let mut times = Vec::new();
    ranges(&mut times);
    calendar(&mut times);
    clock(&mut times);
    year_100(&mut times);
    times
}

/// Adds a time. Century; year of century, month, day, hour, minute.
fn add(
    times: &mut Vec<Time>,
    reply: u32,
    name: &str,
    rule: &'static str,
    century: u8,
    octets: [u8; 5],
) {
    times.push(Time {
        reply,
        name: name.to_string(),
        rule,
        century,
        octets,
        told: None,
    });
}

/// Adds a time that is taken, with the year, the month and the day that are told.
fn taken(
    times: &mut Vec<Time>,
    name: &str,
    rule: &'static str,
    century: u8,
    octets: [u8; 5],
    told: [i64; 3],
) {
    add(times, 0, name, rule, century, octets);
    times.last_mut().expect("just added").told = Some(told);
}

fn ranges(times: &mut Vec<Time>) {
    for (reply, century) in [
        (6, 0),
        (6, 17),
        (0, 18),
        (0, 19),
        (0, 98),
        (0, 99),
        (6, 100),
        (6, 255),
    ] {
        let name = format!("6-century-{century}");
        let rule = "6: century 18 to 99";
        add(times, reply, &name, rule, century, [98, 3, 10, 6, 0]);
    }
    for (year_of_century, year) in [(1, 1901), (2, 1902), (98, 1998), (99, 1999), (100, 2000)] {
        let name = format!("6-year-{year_of_century}");
        let octets = [year_of_century, 3, 10, 6, 0];
        taken(times, &name, YEAR_OF_CENTURY, 20, octets, [year, 3, 10]);
    }
    // 200 is twice 100, and 228 is 100 with its first bit set
    for year_of_century in [0, 101, 200, 228, 254, 255] {
        let name = format!("6-year-{year_of_century}");
        let octets = [year_of_century, 3, 10, 6, 0];
        add(times, 6, &name, YEAR_OF_CENTURY, 20, octets);
    }
    for (reply, month) in [(6, 0), (0, 1), (0, 2), (0, 11), (0, 12), (6, 13), (6, 255)] {
        let name = format!("6-month-{month}");
        let rule = "6: month 1 to 12";
        add(times, reply, &name, rule, 20, [98, month, 10, 6, 0]);
    }
    for (reply, day) in [(6, 0), (0, 1), (0, 2), (6, 255)] {
        let name = format!("6-day-{day}");
        let rule = "6: day from 1 on";
        add(times, reply, &name, rule, 20, [98, 3, day, 6, 0]);
    }
}

const YEAR_OF_CENTURY: &str = "6, R-3: the year of century runs from 1 to 100";

const GREGORIAN: &str = "6: day by the Gregorian calendar";

const LEAP: &str = "6: a leap year goes by the year, Gregorian";

/// Each month of a year that is no leap year, and its last day.
const LAST_DAYS: [(u8, u8); 12] = [
    (1, 31),
    (2, 28),
    (3, 31),
    (4, 30),
    (5, 31),
    (6, 30),
    (7, 31),
    (8, 31),
    (9, 30),
    (10, 31),
    (11, 30),
    (12, 31),
];

fn calendar(times: &mut Vec<Time>) {
    // 1999: the last day of each month, and the day after it
    for (month, last) in LAST_DAYS {
        for (reply, day) in [(0, last), (6, last + 1)] {
            let name = format!("6-1999-{month}-{day}");
            add(times, reply, &name, GREGORIAN, 20, [99, month, day, 6, 0]);
        }
    }
    let rule = "6: century 18 to 99, and 1700 is the year 100 of century 17";
    add(times, 6, "6-1700-2-29", rule, 17, [100, 2, 29, 6, 0]);
    // Year = 100 x (century - 1) + year of century: the year, the reply to a day of
    // its February, the day, century and year of century
    for (year, reply, day, century, year_of_century) in [
        (1704, 0, 29, 18, 4),
        (1800, 0, 28, 18, 100),
        (1800, 6, 29, 18, 100),
        (1900, 6, 29, 19, 100),
        (1900, 0, 28, 19, 100),
        (1996, 0, 29, 20, 96),
        (1996, 6, 30, 20, 96),
        (1998, 6, 29, 20, 98),
        (2000, 0, 29, 20, 100),
        (2000, 6, 30, 20, 100),
        (2001, 6, 29, 21, 1),
        (2004, 0, 29, 21, 4),
        (2100, 6, 29, 21, 100),
        (2400, 0, 29, 24, 100),
        (9600, 0, 29, 96, 100),
        (9899, 6, 29, 99, 99),
        (9900, 0, 28, 99, 100),
        (9900, 6, 29, 99, 100),
    ] {
        let name = format!("6-{year}-2-{day}");
        let octets = [year_of_century, 2, day, 6, 0];
        match reply {
            0 => taken(times, &name, LEAP, century, octets, [year, 2, day.into()]),
            _ => add(times, reply, &name, LEAP, century, octets),
        }
    }
}

fn clock(times: &mut Vec<Time>) {
    for (reply, hour) in [(0, 0), (0, 22), (0, 23), (6, 24), (6, 255)] {
        let name = format!("6-hour-{hour}");
        let rule = "6: hour 0 to 23";
        add(times, reply, &name, rule, 20, [98, 3, 10, hour, 0]);
    }
    for (reply, minute) in [(0, 0), (0, 58), (0, 59), (6, 60), (6, 255)] {
        let name = format!("6-minute-{minute}");
        let rule = "6: minute 0 to 59";
        add(times, reply, &name, rule, 20, [98, 3, 10, 6, minute]);
    }
}

/// R-3: "Document 003 keeps century 20 until 1 January 2001, so the year of century
/// runs from 1 to 100. The definition in 01 is wrong: 100 is to be taken and 0
/// refused, for readers and writers alike."
fn year_100(times: &mut Vec<Time>) {
    // 2000: the last minute of each month, and of the day after it; February's days
    // stand with the leap years
    for (month, last) in LAST_DAYS {
        if month != 2 {
            let at = |day| [100, month, day, 23, 59];
            let told = [2000, month.into(), last.into()];
            let name = format!("6-2000-{month}-{last}");
            taken(times, &name, GREGORIAN, 20, at(last), told);
            let name = format!("6-2000-{month}-{}", last + 1);
            add(times, 6, &name, GREGORIAN, 20, at(last + 1));
        }
    }
    // where a century begins and ends
    let rule = "R-3: century 20 until 1 January 2001, and so each century";
    for (name, century, octets, told) in [
        ("6-1701-1-1", 18, [1, 1, 1, 6, 0], [1701, 1, 1]),
        ("6-1900-12-31", 19, [100, 12, 31, 23, 59], [1900, 12, 31]),
        ("6-1901-1-1", 20, [1, 1, 1, 0, 0], [1901, 1, 1]),
        ("6-2000-1-1", 20, [100, 1, 1, 6, 0], [2000, 1, 1]),
        ("6-2001-1-1", 21, [1, 1, 1, 0, 0], [2001, 1, 1]),
        ("6-9899-12-31", 99, [99, 12, 31, 23, 59], [9899, 12, 31]),
        ("6-9900-12-31", 99, [100, 12, 31, 6, 0], [9900, 12, 31]),
    ] {
        taken(times, name, rule, century, octets, told);
    }
    let rule = "6: century 18 to 99: the last minute before the earliest time";
    add(times, 6, "6-1700-12-31", rule, 17, [100, 12, 31, 23, 59]);
    let rule = "6: century 18 to 99: the first minute after the latest time";
    add(times, 6, "6-9901-1-1", rule, 100, [1, 1, 1, 0, 0]);
    // the minute before a century's year 1, and the minute after its year 100
    for century in [18, 19, 20, 21, 98, 99] {
        let name = format!("6-century-{century}-year-0");
        let before = [0, 12, 31, 23, 59];
        add(times, 6, &name, YEAR_OF_CENTURY, century, before);
        let name = format!("6-century-{century}-year-101");
        let after = [101, 1, 1, 0, 0];
        add(times, 6, &name, YEAR_OF_CENTURY, century, after);
    }
    // the full centuries as document 01 spelled them, 9900 as it would have if it had
    // century 100, and those of their 29 Februaries that it took
    let rule = "R-3: 0 refused, which document 01 took for a full century";
    for century in [18, 20, 21, 22, 25, 99] {
        let name = format!("6-old-{century}-0");
        add(times, 6, &name, rule, century, [0, 6, 15, 12, 0]);
    }
    let beyond = "6: century 18 to 99, and R-3: 0 refused";
    add(times, 6, "6-old-100-0", beyond, 100, [0, 6, 15, 12, 0]);
    for century in [21, 25] {
        let name = format!("6-old-{century}-0-2-29");
        add(times, 6, &name, rule, century, [0, 2, 29, 6, 0]);
    }
    // a leap year by the year, 2004, in a spelling that is out of the range
    let name = "6-year-104-2-29";
    add(times, 6, name, YEAR_OF_CENTURY, 20, [104, 2, 29, 6, 0]);
    let rule = "6, R-3: 0 refused, and the month is no month either";
    add(times, 6, "6-year-0-month-13", rule, 20, [0, 13, 10, 6, 0]);
    let rule = "6: 100 is taken, and the rest of the time is judged as ever";
    for (name, octets) in [
        ("6-year-100-month-0", [100, 0, 10, 6, 0]),
        ("6-year-100-month-13", [100, 13, 10, 6, 0]),
        ("6-year-100-day-0", [100, 3, 0, 6, 0]),
        ("6-year-100-hour-24", [100, 3, 10, 24, 0]),
        ("6-year-100-minute-60", [100, 3, 10, 6, 60]),
    ] {
        add(times, 6, name, rule, 20, octets);
    }
}

/// Why the message below stands whole.
pub const YEAR_100: &str = "R-3: 100 is to be taken by writers too, and is carried as 100";

/// The specimen of 29 February 2000, octet for octet: year of century 100 is 64 (hex)
/// in octet 13 of its PDS, and century 20 is 14 in octet 25.
pub const SPECIMEN_OF_2000: &str = "47524942 00005E 01
    00001C 03 07 00 FF C0 0B 64 01F4 64021D0600 01 00 00 00 0000 00 14 00 0001
    000020 00 FF 00 0002 0002 00C350 8007D0 80 00C738 8003E8 03E8 03E8 40 00000000
    000008 0C 0000 D000
    00000E 0F 0000 439C4000 03 0B8000
    37373737";

/// 9: "Ni, Nj 1 to 65,534, points n = Ni x Nj 1 to 65,536": the reply, Ni, Nj.
pub const COUNTS: [(u32, u16, u16); 26] = [
    (9, 0, 2),
    (9, 2, 0),
    (9, 0, 0),
    (0, 1, 2),
    (0, 2, 1),
    (0, 1, 1),
    (0, 65_533, 1),
    (0, 1, 65_533),
    (0, 65_534, 1),
    (0, 1, 65_534),
    (9, 65_535, 1),
    (9, 1, 65_535),
    (9, 65_535, 0),
    (9, 0, 65_535),
    (0, 255, 257),
    (0, 256, 256),
    (0, 32_768, 2),
    (0, 2, 32_768),
    (9, 32_769, 2),
    (9, 2, 32_769),
    (9, 3, 21_846),
    (9, 257, 256),
    (9, 256, 257),
    (9, 65_534, 2),
    (9, 65_534, 65_534),
    (9, 65_535, 65_535),
];

/// 9: "Latitude magnitude is at most 90,000": the reply, the number as it is given.
pub const LATITUDES: [(u32, i32); 18] = [
    (0, 0),
    (0, 1),
    (0, -1),
    (0, 89_999),
    (0, 90_000),
    (9, 90_001),
    (0, -89_999),
    (0, -90_000),
    (9, -90_001),
    (9, 360_000),
    (9, 8_388_607),
    (9, -8_388_607),
    (9, 8_388_608),
    (9, -8_388_608),
    (9, 16_777_216),
    (9, -16_777_216),
    (9, i32::MAX),
    (9, i32::MIN),
];

/// 9: "longitude at most 360,000".
pub const LONGITUDES: [(u32, i32); 17] = [
    (0, 0),
    (0, 1),
    (0, -1),
    (0, 359_999),
    (0, 360_000),
    (9, 360_001),
    (0, -359_999),
    (0, -360_000),
    (9, -360_001),
    (9, 8_388_607),
    (9, -8_388_607),
    (9, 8_388_608),
    (9, -8_388_608),
    (9, 16_777_216),
    (9, -16_777_216),
    (9, i32::MAX),
    (9, i32::MIN),
];

/// The scan test compares values: the reply, a name, La1 and La2 in octets, scanning
/// flags.
pub const SIGNS: [(u32, &str, &str, &str, u8); 12] = [
    (9, "minus-zero-north", "800000", "000000", 64),
    (9, "minus-zero-south", "000000", "800000", 0),
    (9, "minus-zero-first-south", "800000", "000000", 0),
    (9, "minus-zero-last-north", "000000", "800000", 64),
    (0, "minus-2-to-minus-1-north", "800002", "800001", 64),
    (9, "minus-1-to-minus-2-north", "800001", "800002", 64),
    (0, "minus-1-to-minus-2-south", "800001", "800002", 0),
    (9, "minus-2-to-minus-1-south", "800002", "800001", 0),
    (0, "minus-1-to-zero-north", "800001", "000000", 64),
    (0, "minus-1-to-1-north", "800001", "000001", 64),
    (9, "1-to-minus-1-north", "000001", "800001", 64),
    (0, "1-to-minus-zero-south", "000001", "800000", 0),
];

/// 7: numbers that the catalogue does not have.
pub const NOT_LISTED: [u8; 15] = [0, 1, 4, 5, 21, 28, 31, 32, 35, 36, 46, 47, 130, 254, 255];
