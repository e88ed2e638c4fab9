// What was written: of each key the number of the last set that was sent, and of the last that was acknowledged. A key is written by one
// connection alone, in the order of its numbers. So a get is right where it reads a number that is not below the last one acknowledged
// before it was sent, and not above the last one sent before its answer came; of a connection's own key, between the two of its own order.

use std::sync::atomic::{AtomicU64, Ordering};

pub struct Ledger {
    sent: Vec<AtomicU64>,
    acknowledged: Vec<AtomicU64>,
}

impl Ledger {
    pub fn new(keys: usize) -> Ledger {
        let zeros = || (0..keys).map(|_| AtomicU64::new(0)).collect();
        Ledger { sent: zeros(), acknowledged: zeros() }
    }

    pub fn sent(&self, key: usize) -> u64 {
        self.sent[key].load(Ordering::SeqCst)
    }

    pub fn acknowledged(&self, key: usize) -> u64 {
        self.acknowledged[key].load(Ordering::SeqCst)
    }

    // The number of the next set of the key, which its connection is about to send.
    pub fn send(&self, key: usize) -> u64 {
        self.sent[key].fetch_add(1, Ordering::SeqCst) + 1
    }

    pub fn acknowledge(&self, key: usize, number: u64) {
        self.acknowledged[key].store(number, Ordering::SeqCst);
    }
}
