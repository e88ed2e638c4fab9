// Whether an answer is right.

use crate::connection::{Act, Pending};
use crate::protocol::Answer;
use crate::worker::Worker;

// How many faults a thread tells on standard error.
const TOLD: u64 = 5;

impl Worker<'_> {
    pub fn judge(&mut self, rest: usize, pending: &Pending, answer: &Answer, bytes: &[u8]) {
        let ledger = &self.shared.ledger;
        match (&pending.act, answer) {
            (Act::Set { number }, Answer::Stored) => {
                ledger.acknowledge(pending.key, *number);
                self.tally.acknowledged += 1;
            }
            (Act::Get { least, most }, Answer::Value(at)) => {
                let own = pending.key % self.shared.options.connections == rest;
                let (least, most) = if own { (ledger.acknowledged(pending.key), *most) } else { (*least, ledger.sent(pending.key)) };
                let number = self.pattern.number(pending.key, self.shared.options.size, &bytes[at.clone()]);
                if !number.is_some_and(|number| least <= number && number <= most) {
                    self.tally.wrong += 1;
                    self.tell(&format!("key {}: read {number:?}, not of {least} to {most}", pending.key));
                }
            }
            (Act::Get { least: 0, .. }, Answer::Missing) => {}
            (Act::Get { least, .. }, Answer::Missing) => {
                self.tally.missing += 1;
                self.tell(&format!("key {}: missing, {least} was acknowledged", pending.key));
            }
            (_, Answer::Refused(at)) => {
                self.tally.refused += 1;
                self.tell(&format!("key {}: {}", pending.key, String::from_utf8_lossy(&bytes[at.clone()])));
            }
            _ => {
                self.tally.refused += 1;
                self.tell("an answer to another request");
            }
        }
    }

    // The first few of what went wrong.
    pub fn tell(&self, text: &str) {
        if self.tally.refused + self.tally.wrong + self.tally.missing <= TOLD {
            eprintln!("{text}");
        }
    }
}
