//! how often each function met each kind of grid, taken and refused.

use crate::call::Call;
use second_reading::cases::kind_in;
use second_reading::grid::{of_no_kind, KINDS};
use second_reading::{Form, Grid};

/// The kinds as they are counted: those of GDS octet 6 in its order, and none of them.
const GRIDS: [&str; 6] = ["latitude/longitude", "Mercator", "Lambert", "Gaussian", "polar", "none"];
const NONE: usize = 5;

/// What a call met: taken, or found on the chart; refused by 8; refused by 9, or not found.
const MET: [&str; 3] = ["taken", "by 8", "by 9"];

/// What a function can meet of a grid, and of numbers or a GDS that stand for none.
struct Function {
    name: &'static str,
    met: &'static [usize],
    of_none: usize,
}

const READS: (&[usize], usize) = (&[0, 1, 2], 1);
const WRITES: (&[usize], usize) = (&[0, 2], 2);

const fn function(name: &'static str, (met, of_none): (&'static [usize], usize)) -> Function {
    Function { name, met, of_none }
}

/// By the first word of what a call is called.
const FUNCTIONS: [Function; 12] = [
    function("header", READS),
    function("read", READS),
    function("display", READS),
    function("check", READS),
    function("index", READS),
    function("cursor", READS),
    function("write", WRITES),
    function("length", WRITES),
    function("pack", WRITES),
    function("place", WRITES),
    function("point", WRITES),
    function("row", WRITES),
];

fn of_kind(kind: u8) -> usize {
    KINDS.iter().position(|&own| own == kind).unwrap_or(NONE)
}

/// Which kind a grid in numbers is.
pub fn of_grid(grid: &Grid) -> usize {
    if of_no_kind(grid) { NONE } else { of_kind(grid.kind) }
}

/// The same of a form that has a grid.
pub fn in_form(form: &Form) -> Option<usize> {
    form.grid.as_ref().map(of_grid)
}

/// The same of a message that has a GDS.
pub fn in_message(message: &[u8]) -> Option<usize> {
    kind_in(message).map(of_kind)
}

#[derive(Default)]
pub struct Grids([[[usize; MET.len()]; GRIDS.len()]; FUNCTIONS.len()]);

impl Grids {
    pub fn count(&mut self, call: &Call) {
        let function = FUNCTIONS.iter().position(|function| call.what.split(' ').next() == Some(function.name));
        let met = match (call.found, call.reply.map(|reply| reply.number)) {
            (Some(true), _) | (_, Some(0)) => Some(0),
            (_, Some(8)) => Some(1),
            (Some(false), _) | (_, Some(9)) => Some(2),
            _ => None,
        };
        if let (Some(function), Some(kind), Some(met)) = (function, call.kind, met) {
            self.0[function][kind][met] += 1;
        }
    }

    /// What a function never met.
    pub fn missed(&self) -> Vec<String> {
        let mut missed = Vec::new();
        for (function, kinds) in FUNCTIONS.iter().zip(self.0) {
            for (kind, times) in kinds.iter().enumerate() {
                let none = [function.of_none];
                let can_meet = if kind == NONE { &none[..] } else { function.met };
                let never = can_meet.iter().filter(|&&met| times[met] == 0);
                missed.extend(never.map(|&met| format!("{}: {} {}", function.name, GRIDS[kind], MET[met])));
            }
        }
        missed
    }
}

impl std::fmt::Display for Grids {
    fn fmt(&self, f: &mut std::fmt::Formatter<'_>) -> std::fmt::Result {
        let all: Vec<String> =
            FUNCTIONS.iter().zip(self.0).map(|(function, kinds)| format!("{} {kinds:?}", function.name)).collect();
        write!(f, "how often {} of {}: {}", MET.join(", "), GRIDS.join(", "), all.join(", "))
    }
}
