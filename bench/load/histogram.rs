// Times in nanoseconds, counted in classes that are at most a 64th wide.

use std::time::Duration;

pub struct Histogram {
    counts: Vec<u64>,
    most: u64,
}

fn class(nanos: u64) -> usize {
    let shift = (64 - nanos.leading_zeros()).saturating_sub(7);
    shift as usize * 64 + (nanos >> shift) as usize
}

// The least time of a class.
fn least(class: usize) -> u64 {
    if class < 128 { class as u64 } else { (64 + class as u64 % 64) << (class / 64 - 1) }
}

impl Histogram {
    pub fn new() -> Histogram {
        Histogram { counts: vec![0; 64 * 60], most: 0 }
    }

    pub fn count(&mut self, time: Duration) {
        let nanos = time.as_nanos() as u64;
        self.counts[class(nanos)] += 1;
        self.most = self.most.max(nanos);
    }

    pub fn add(&mut self, other: &Histogram) {
        self.counts.iter_mut().zip(&other.counts).for_each(|(count, more)| *count += more);
        self.most = self.most.max(other.most);
    }

    pub fn total(&self) -> u64 {
        self.counts.iter().sum()
    }

    // The microseconds that so many of a thousand times do not pass.
    pub fn micros(&self, of_thousand: u64) -> f64 {
        let mut left = (self.total() * of_thousand).div_ceil(1000);
        for (class, count) in self.counts.iter().enumerate() {
            if *count >= left {
                return least(class) as f64 / 1000.0;
            }
            left -= count;
        }
        0.0
    }

    pub fn most_micros(&self) -> f64 {
        self.most as f64 / 1000.0
    }
}
