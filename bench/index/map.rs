// The same calls of std's own map.
use std::collections::HashMap;
use std::time::Instant;

const KEYS: u64 = 1_000_000;
const RUNS: u32 = 5;

#[derive(Clone, Copy)]
struct Slot {
    at: u32,
    _len: u32,
    _flags: u32,
    _cas: u64,
    _until: Option<u64>,
}

fn main() {
    let keys: Vec<Vec<u8>> = (0..KEYS)
        .map(|i| {
            let mut bytes = vec![0; 20];
            bytes[..8].copy_from_slice(&i.wrapping_mul(0x9E37_79B9_7F4A_7C15).to_le_bytes());
            bytes
        })
        .collect();
    let slot = Slot { at: 1, _len: 2, _flags: 3, _cas: 4, _until: None };
    let (mut first, mut again, mut get, mut sum) = (u128::MAX, u128::MAX, u128::MAX, 0u64);
    for _ in 0..RUNS {
        let mut map = HashMap::new();
        let start = Instant::now();
        for key in &keys {
            map.insert(key.clone(), slot);
        }
        first = first.min(start.elapsed().as_nanos());
        let start = Instant::now();
        for i in 0..keys.len() {
            *map.get_mut(&keys[i * 524_287 % keys.len()]).unwrap() = slot;
        }
        again = again.min(start.elapsed().as_nanos());
        let start = Instant::now();
        for i in 0..keys.len() {
            sum += map[&keys[i * 524_287 % keys.len()]].at as u64;
        }
        get = get.min(start.elapsed().as_nanos());
    }
    println!("new {first}\nknown {again}\nget {get}");
    eprintln!("{sum}");
}
