// The same calls over a pair of std's own ordered sets.
use std::collections::BTreeSet;
use std::time::Instant;

const CALLS: u32 = 200_000;
const RUNS: u32 = 5;

struct FreeRuns {
    by_address: BTreeSet<(u32, u32)>,
    by_length: BTreeSet<(u32, u32)>,
}

impl FreeRuns {
    fn new(size: u32) -> Self {
        Self { by_address: BTreeSet::from([(0, size)]), by_length: BTreeSet::from([(size, 0)]) }
    }

    fn add(&mut self, at: u32, len: u32) {
        self.by_address.insert((at, len));
        self.by_length.insert((len, at));
    }

    fn remove(&mut self, at: u32, len: u32) {
        self.by_address.remove(&(at, len));
        self.by_length.remove(&(len, at));
    }

    fn below(&self, at: u32) -> Option<(u32, u32)> {
        self.by_address.range(..=(at, u32::MAX)).next_back().copied()
    }

    fn fits(&self, len: u32) -> Option<(u32, u32)> {
        self.by_length.range((len, 0)..).next().copied()
    }

    fn cut(&mut self, run: (u32, u32), at: u32, len: u32) {
        self.remove(run.0, run.1);
        if at > run.0 {
            self.add(run.0, at - run.0);
        }
        if at + len < run.0 + run.1 {
            self.add(at + len, run.0 + run.1 - at - len);
        }
    }

    fn take(&mut self, len: u32) -> Option<u32> {
        let (long, at) = self.fits(len)?;
        self.cut((at, long), at, len);
        Some(at)
    }

    fn take_at(&mut self, at: u32, len: u32) {
        let run = self.below(at).unwrap();
        self.cut(run, at, len);
    }

    fn give(&mut self, at: u32, len: u32) {
        if len == 0 {
            return;
        }
        let (mut at, mut end) = (at, at + len);
        if let Some(next) = self.below(end).filter(|next| next.0 == end) {
            self.remove(next.0, next.1);
            end += next.1;
        }
        if let Some(last) = self.below(at).filter(|last| last.0 + last.1 == at) {
            self.remove(last.0, last.1);
            at = last.0;
        }
        self.add(at, end - at);
    }
}

fn turns(space: &mut FreeRuns, calls: u32) -> u32 {
    let mut sum = 0;
    for i in 0..calls {
        let len = 100 + i.wrapping_mul(0x85EB_CA6B) % 500;
        if let Some((_, place)) = space.fits(len) {
            sum ^= place;
        }
        if let Some(at) = space.take(len) {
            space.give(at, len);
            sum ^= at;
        }
    }
    sum
}

fn main() {
    for count in [100u32, 10_000, 450_000] {
        let mut space = FreeRuns::new(count * 700);
        for i in 0..count {
            space.take_at(i * 700 + 100 + i % 512, 1);
        }
        let (mut best, mut sum) = (u128::MAX, 0);
        for _ in 0..RUNS {
            let start = Instant::now();
            sum ^= turns(&mut space, CALLS);
            best = best.min(start.elapsed().as_nanos());
        }
        println!("{count} {best}");
        eprintln!("{sum}");
    }
}
