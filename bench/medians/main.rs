// Sets and gets on each partition of a group, by four connections that ask one at a time, before any loss and behind each: the medians of
// each partition, in microseconds, and the longest. main HOST:PORT K BYTES SECONDS PROCESS.. where each PROCESS is lost in turn. Built and used by
// bench/losses.sh: rustc -O main.rs

use std::io::{BufRead, BufReader, Read, Write};
use std::net::TcpStream;
use std::time::{Duration, Instant};

const CONNECTIONS: u32 = 4;
const KEYS: u32 = 64;

fn home(key: &str, k: u32) -> u32 {
    key.bytes().fold(2_166_136_261_u32, |hash, byte| (hash ^ u32::from(byte)).wrapping_mul(16_777_619)) % k
}

struct Client {
    stream: BufReader<TcpStream>,
    line: String,
}

impl Client {
    fn new(address: &str) -> Client {
        let stream = TcpStream::connect(address).expect("a server");
        stream.set_nodelay(true).expect("no delay");
        stream.set_read_timeout(Some(Duration::from_secs(60))).expect("a limit of time");
        Client { stream: BufReader::new(stream), line: String::new() }
    }

    fn ask(&mut self, request: &[u8]) -> &str {
        self.stream.get_mut().write_all(request).expect("a request is sent");
        self.line.clear();
        self.stream.read_line(&mut self.line).expect("an answer");
        self.line.trim_end()
    }

    fn set(&mut self, request: &[u8]) {
        assert_eq!(self.ask(request), "STORED");
    }

    fn get(&mut self, request: &[u8], bytes: usize) {
        assert!(self.ask(request).starts_with("VALUE"), "{}", self.line);
        let mut rest = vec![0; bytes + b"\r\nEND\r\n".len()];
        self.stream.read_exact(&mut rest).expect("a value");
    }
}

// What one connection measures: for each partition the times of its sets and of its gets, in nanoseconds.
type Times = Vec<[Vec<u64>; 2]>;

fn work(address: &str, k: u32, bytes: usize, seconds: f64, number: u32) -> Times {
    let mut client = Client::new(address);
    let mut times: Times = (0..k).map(|_| [Vec::new(), Vec::new()]).collect();
    let keys: Vec<String> = (0..KEYS).map(|i| format!("median:{number}:{i}")).collect();
    let value = "v".repeat(bytes);
    let (begun, mut i) = (Instant::now(), 0);
    while begun.elapsed().as_secs_f64() < seconds {
        let key = &keys[i % keys.len()];
        let of = &mut times[home(key, k) as usize];
        let set = format!("set {key} 0 0 {bytes}\r\n{value}\r\n");
        let at = Instant::now();
        client.set(set.as_bytes());
        of[0].push(at.elapsed().as_nanos() as u64);
        let at = Instant::now();
        client.get(format!("get {key}\r\n").as_bytes(), bytes);
        of[1].push(at.elapsed().as_nanos() as u64);
        i += 1;
    }
    times
}

fn middle(times: &mut Vec<u64>) -> (f64, f64) {
    times.sort_unstable();
    let last = times.last().copied().unwrap_or(0);
    (times.get(times.len() / 2).copied().unwrap_or(0) as f64 / 1e3, last as f64 / 1e3)
}

fn measure(address: &str, k: u32, bytes: usize, seconds: f64) {
    let mut all: Times = (0..k).map(|_| [Vec::new(), Vec::new()]).collect();
    std::thread::scope(|scope| {
        let workers: Vec<_> = (0..CONNECTIONS).map(|n| scope.spawn(move || work(address, k, bytes, seconds, n))).collect();
        for worker in workers {
            for (into, from) in all.iter_mut().zip(worker.join().expect("a worker")) {
                for (into, from) in into.iter_mut().zip(from) {
                    into.extend(from);
                }
            }
        }
    });
    for (d, [sets, gets]) in all.iter_mut().enumerate() {
        let ((set, set_most), (get, get_most)) = (middle(sets), middle(gets));
        println!("  d{d}: set {set:.0} (longest {set_most:.0}), get {get:.0} (longest {get_most:.0})");
    }
}

fn main() {
    let words: Vec<String> = std::env::args().skip(1).collect();
    let [address, k, bytes, seconds, lost @ ..] = &words[..] else {
        panic!("HOST:PORT K BYTES SECONDS PROCESS..");
    };
    let (k, bytes, seconds) = (k.parse().expect("k"), bytes.parse().expect("bytes"), seconds.parse().expect("seconds"));
    println!("nothing lost, µs:");
    measure(address, k, bytes, seconds);
    for process in lost {
        let told = Client::new(address).ask(format!("cocytus_fail {process} 0\r\n").as_bytes()).to_string();
        println!("{process} lost ({told}), µs:");
        measure(address, k, bytes, seconds);
    }
}
