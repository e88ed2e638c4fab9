// Requests and answers of memcached's text protocol, and of redis's.

use std::io::Write;
use std::ops::Range;

#[derive(Clone, Copy)]
pub enum Protocol {
    Memcached,
    // Behind each set stands a WAIT for so many replicas; none for 0.
    Redis(u32),
}

pub enum Answer {
    Stored,
    // Where in the bytes the value stands.
    Value(Range<usize>),
    Missing,
    // Where its line stands.
    Refused(Range<usize>),
}

// An answer that is whole, and how many bytes it has.
type Whole = Option<(Answer, usize)>;

// The end of the first line from `from` on, its two last bytes left out.
fn line_end(bytes: &[u8], from: usize) -> Option<usize> {
    bytes.get(from..)?.windows(2).position(|pair| pair == b"\r\n").map(|at| from + at)
}

fn number(word: &[u8]) -> Option<usize> {
    std::str::from_utf8(word).ok()?.parse().ok()
}

// A value of so many bytes from `from` on, with `behind` behind it.
fn block(bytes: &[u8], from: usize, size: usize, behind: &[u8]) -> Whole {
    let end = from + size;
    let stop = end + behind.len();
    if bytes.len() < stop {
        return None;
    }
    let answer = if bytes[end..stop] == *behind { Answer::Value(from..end) } else { Answer::Refused(0..stop) };
    Some((answer, stop))
}

fn memcached(bytes: &[u8]) -> Whole {
    let end = line_end(bytes, 0)?;
    match &bytes[..end] {
        b"STORED" => Some((Answer::Stored, end + 2)),
        b"END" => Some((Answer::Missing, end + 2)),
        line if line.starts_with(b"VALUE ") => match line.rsplit(|byte| *byte == b' ').next().and_then(number) {
            Some(size) => block(bytes, end + 2, size, b"\r\nEND\r\n"),
            None => Some((Answer::Refused(0..end), end + 2)),
        },
        _ => Some((Answer::Refused(0..end), end + 2)),
    }
}

// The answer of a WAIT behind a set's, which ends at `from`: at least so many replicas have it.
fn waited(bytes: &[u8], from: usize, replicas: u32) -> Whole {
    let end = line_end(bytes, from)?;
    let have = bytes[from..end].strip_prefix(b":").and_then(number);
    let enough = have.is_some_and(|have| have >= replicas as usize);
    Some((if enough { Answer::Stored } else { Answer::Refused(from..end) }, end + 2))
}

fn redis(bytes: &[u8], set: bool, replicas: u32) -> Whole {
    let end = line_end(bytes, 0)?;
    match &bytes[..end] {
        b"+OK" if replicas > 0 => waited(bytes, end + 2, replicas),
        b"+OK" => Some((Answer::Stored, end + 2)),
        b"$-1" => Some((Answer::Missing, end + 2)),
        line if line.starts_with(b"$") => block(bytes, end + 2, number(&line[1..])?, b"\r\n"),
        _ if set && replicas > 0 => Some((Answer::Refused(0..end), line_end(bytes, end + 2)? + 2)),
        _ => Some((Answer::Refused(0..end), end + 2)),
    }
}

impl Protocol {
    pub fn write_get(self, key: &[u8], to: &mut Vec<u8>) {
        match self {
            Protocol::Memcached => to.extend_from_slice(b"get "),
            Protocol::Redis(_) => write!(to, "*2\r\n$3\r\nGET\r\n${}\r\n", key.len()).expect("memory"),
        }
        to.extend_from_slice(key);
        to.extend_from_slice(b"\r\n");
    }

    // What stands in front of a set's value.
    pub fn write_set(self, key: &[u8], size: usize, to: &mut Vec<u8>) {
        match self {
            Protocol::Memcached => to.extend_from_slice(b"set "),
            Protocol::Redis(_) => write!(to, "*3\r\n$3\r\nSET\r\n${}\r\n", key.len()).expect("memory"),
        }
        to.extend_from_slice(key);
        match self {
            Protocol::Memcached => write!(to, " 0 0 {size}\r\n").expect("memory"),
            Protocol::Redis(_) => write!(to, "\r\n${size}\r\n").expect("memory"),
        }
    }

    // What stands behind it.
    pub fn end_set(self, to: &mut Vec<u8>) {
        to.extend_from_slice(b"\r\n");
        if let Protocol::Redis(replicas @ 1..) = self {
            let digits = replicas.to_string();
            write!(to, "*3\r\n$4\r\nWAIT\r\n${}\r\n{digits}\r\n$5\r\n10000\r\n", digits.len()).expect("memory");
        }
    }

    // The first answer of these bytes, once it is whole.
    pub fn answer(self, bytes: &[u8], set: bool) -> Whole {
        match self {
            Protocol::Memcached => memcached(bytes),
            Protocol::Redis(replicas) => redis(bytes, set, replicas),
        }
    }
}
