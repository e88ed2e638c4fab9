// What was counted, and how it is told.

use crate::histogram::Histogram;
use std::fmt::{Display, Formatter, Result};

pub struct Tally {
    pub times: Histogram,
    // Answers that are no answer to what was asked, and connections that broke.
    pub refused: u64,
    // Values of another key or form, older than the last acknowledged set, or never sent.
    pub wrong: u64,
    // Keys that were not there, though a set of them was acknowledged.
    pub missing: u64,
    // Of the wrong and missing ones those that were read at the end, when nothing was under way.
    pub lost: u64,
    // Keys that were read at the end, as they should be or not.
    pub read_back: u64,
    pub acknowledged: u64,
}

impl Tally {
    pub fn new() -> Tally {
        Tally { times: Histogram::new(), refused: 0, wrong: 0, missing: 0, lost: 0, read_back: 0, acknowledged: 0 }
    }

    pub fn add(&mut self, other: Tally) {
        self.times.add(&other.times);
        self.refused += other.refused;
        self.wrong += other.wrong;
        self.missing += other.missing;
        self.lost += other.lost;
        self.read_back += other.read_back;
        self.acknowledged += other.acknowledged;
    }

    pub fn is_right(&self) -> bool {
        self.refused + self.wrong + self.missing + self.lost == 0
    }
}

pub struct Report {
    pub seconds: f64,
    // Processor seconds of this program.
    pub cpu: f64,
    pub tally: Tally,
}

impl Display for Report {
    fn fmt(&self, to: &mut Formatter<'_>) -> Result {
        let (tally, times) = (&self.tally, &self.tally.times);
        write!(to, "requests {} a_second {:.0}", times.total(), times.total() as f64 / self.seconds)?;
        write!(to, " p50_us {:.1} p99_us {:.1} max_us {:.0}", times.micros(500), times.micros(990), times.most_micros())?;
        write!(to, " sets {} errors {} wrong {} missing {}", tally.acknowledged, tally.refused, tally.wrong, tally.missing)?;
        write!(to, " read_back {} lost {} client_cpu_s {:.2}", tally.read_back, tally.lost, self.cpu)
    }
}

// User and system time of this program so far, by /proc, in hundredths of a second.
pub fn processor_seconds() -> f64 {
    let text = std::fs::read_to_string("/proc/self/stat").unwrap_or_default();
    let words = text.rsplit(')').next().unwrap_or("").split_whitespace();
    words.skip(11).take(2).filter_map(|word| word.parse::<f64>().ok()).sum::<f64>() / 100.0
}
