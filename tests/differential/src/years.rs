//! "100 is to be taken and 0 refused". How often each kind of call met what moved.

use crate::call::Call;
use second_reading::cases::{year_met, YEARS};

/// The functions that judge a time and give a reply, by the first word of what a call is called.
const KINDS: [&str; 9] = ["header", "read", "display", "check", "index", "cursor", "write", "length", "pack"];

#[derive(Default)]
pub struct Years([[usize; YEARS.len()]; KINDS.len()]);

impl Years {
    pub fn count(&mut self, call: &Call) {
        let kind = KINDS.iter().position(|kind| call.what.split(' ').next() == Some(*kind));
        let year = call.reply.and_then(|reply| year_met(&call.pds, reply.number));
        if let (Some(kind), Some(year)) = (kind, year) {
            self.0[kind][year] += 1;
        }
    }

    /// What a kind of call never met.
    pub fn missed(&self) -> Vec<String> {
        let mut missed = Vec::new();
        for (kind, times) in KINDS.iter().zip(self.0) {
            let never = YEARS.iter().zip(times).filter(|met| met.1 == 0);
            missed.extend(never.map(|(year, _)| format!("{kind}: {year}")));
        }
        missed
    }
}

impl std::fmt::Display for Years {
    fn fmt(&self, f: &mut std::fmt::Formatter<'_>) -> std::fmt::Result {
        let kinds: Vec<String> = KINDS.iter().zip(self.0).map(|(kind, times)| format!("{kind} {times:?}")).collect();
        write!(f, "how often {}: {}", YEARS.join(", "), kinds.join(", "))
    }
}
