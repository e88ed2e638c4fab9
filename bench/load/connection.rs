// A connection and what is under way on it.

use crate::Shared;
use std::collections::{HashSet, VecDeque};
use std::io::Result;
use std::net::TcpStream;
use std::time::{Duration, Instant};

// How long an answer is waited for.
pub const PATIENCE: Duration = Duration::from_secs(30);

pub enum Act {
    Set { number: u64 },
    // The last acknowledged and the last sent number when it was sent.
    Get { least: u64, most: u64 },
}

pub struct Pending {
    pub key: usize,
    pub act: Act,
    pub begun: Instant,
}

pub struct Connection {
    pub stream: TcpStream,
    pub input: Vec<u8>,
    pub output: Vec<u8>,
    pub pending: VecDeque<Pending>,
    // Its number: its keys are those that leave this rest.
    pub rest: usize,
    // The next of its keys to fill or to read back.
    pub next: usize,
    // Keys of which a set was not answered, as a connection broke: they are not written again.
    pub retired: HashSet<usize>,
}

pub fn connect(address: &str) -> Result<TcpStream> {
    let stream = TcpStream::connect(address)?;
    stream.set_nodelay(true)?;
    stream.set_read_timeout(Some(PATIENCE))?;
    stream.set_write_timeout(Some(PATIENCE))?;
    Ok(stream)
}

impl Connection {
    pub fn new(shared: &Shared, rest: usize) -> Connection {
        let address = shared.options.address(rest);
        let stream = connect(address).unwrap_or_else(|error| {
            eprintln!("{address}: {error}");
            std::process::exit(2)
        });
        Connection { stream, input: Vec::new(), output: Vec::new(), pending: VecDeque::new(), rest, next: rest, retired: HashSet::new() }
    }
}
