// A load over memcached's text protocol, or redis's, by threads that each hold some connections. Every value tells its key and a running
// number, and every value that is read is checked: see `value.rs` and `ledger.rs`. Built and used by bench/serve.sh: rustc -O main.rs

mod connection;
mod histogram;
mod judge;
mod ledger;
mod options;
mod poll;
mod protocol;
mod report;
mod value;
mod worker;

use ledger::Ledger;
use options::Options;
use report::{Report, Tally};
use std::io::{Read, Write};
use std::net::TcpStream;
use std::process::ExitCode;
use std::sync::Barrier;
use std::sync::atomic::{AtomicU64, Ordering};
use std::time::{Duration, Instant};

// What the threads share: the barrier stands between filling, load and reading back.
pub struct Shared {
    options: Options,
    ledger: Ledger,
    barrier: Barrier,
    answered: AtomicU64,
}

// Sends one order of the project's own on a connection of its own, and gives its answer.
fn order(address: &str, failure: &str) -> std::io::Result<String> {
    let mut stream = TcpStream::connect(address)?;
    stream.set_read_timeout(Some(Duration::from_secs(10)))?;
    stream.write_all(format!("cocytus_fail {failure}\r\n").as_bytes())?;
    let mut answer = [0; 256];
    let many = stream.read(&mut answer)?;
    Ok(String::from_utf8_lossy(&answer[..many]).trim_end().to_string())
}

// While the load runs: lets processes fail at their times, and tells what was answered in each stretch of time.
fn watch(shared: &Shared) {
    let options = &shared.options;
    let (begun, mut told, mut before) = (Instant::now(), 0.0, 0);
    let mut fails = options.fails.iter().peekable();
    while begun.elapsed().as_secs_f64() < options.seconds {
        std::thread::sleep(Duration::from_millis(20));
        let at = begun.elapsed().as_secs_f64();
        while let Some((_, failure)) = fails.next_if(|(due, _)| *due <= at) {
            eprintln!("{at:.1} s: cocytus_fail {failure}: {:?}", order(options.address(0), failure));
        }
        if options.tell > 0.0 && at - told >= options.tell {
            let now = shared.answered.load(Ordering::Relaxed);
            eprintln!("{at:.1} s: {:.0} requests a second", (now - before) as f64 / (at - told));
            (told, before) = (at, now);
        }
    }
}

fn run(options: Options) -> Report {
    let ledger = Ledger::new(options.keys);
    let barrier = Barrier::new(options.threads + 1);
    let shared = Shared { options, ledger, barrier, answered: AtomicU64::new(0) };
    std::thread::scope(|scope| {
        let shared = &shared;
        let workers: Vec<_> = (0..shared.options.threads).map(|at| scope.spawn(move || worker::work(shared, at))).collect();
        shared.barrier.wait();
        let (begun, cpu) = (Instant::now(), report::processor_seconds());
        watch(shared);
        shared.barrier.wait();
        let (seconds, cpu) = (begun.elapsed().as_secs_f64(), report::processor_seconds() - cpu);
        let mut tally = Tally::new();
        workers.into_iter().for_each(|worker| tally.add(worker.join().expect("a thread ends")));
        Report { seconds, cpu, tally }
    })
}

fn main() -> ExitCode {
    match Options::read(std::env::args().skip(1)) {
        Ok(options) => {
            let report = run(options);
            println!("{report}");
            if report.tally.is_right() { ExitCode::SUCCESS } else { ExitCode::FAILURE }
        }
        Err(text) => {
            eprintln!("{text}\n{}", options::USAGE);
            ExitCode::from(2)
        }
    }
}
