// Values: the key's number and the set's, 8 bytes each, and then bytes that these two choose from a fixed pattern.

const LONGEST: usize = 1_048_576;
const SHIFTS: u64 = 251;

pub struct Pattern {
    bytes: Vec<u8>,
}

pub fn random(state: &mut u64) -> u64 {
    *state ^= *state << 13;
    *state ^= *state >> 7;
    *state ^= *state << 17;
    *state
}

impl Pattern {
    pub fn new() -> Pattern {
        let mut state = 0x9e37_79b9_7f4a_7c15;
        Pattern { bytes: (0..LONGEST + SHIFTS as usize).map(|_| random(&mut state) as u8).collect() }
    }

    fn body(&self, key: u64, number: u64, size: usize) -> &[u8] {
        let from = (key.wrapping_mul(31).wrapping_add(number) % SHIFTS) as usize;
        &self.bytes[from..from + size - 16]
    }

    pub fn write(&self, key: usize, number: u64, size: usize, to: &mut Vec<u8>) {
        to.extend_from_slice(&(key as u64).to_be_bytes());
        to.extend_from_slice(&number.to_be_bytes());
        to.extend_from_slice(self.body(key as u64, number, size));
    }

    // The number that a value of this key tells; none where it is no value of this key and size.
    pub fn number(&self, key: usize, size: usize, value: &[u8]) -> Option<u64> {
        if value.len() != size || value[..8] != (key as u64).to_be_bytes() {
            return None;
        }
        let number = u64::from_be_bytes(value[8..16].try_into().ok()?);
        (value[16..] == *self.body(key as u64, number, size)).then_some(number)
    }
}
