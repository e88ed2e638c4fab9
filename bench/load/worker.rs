// A thread of the load and its connections: each sends a number of requests in one piece, and the next ones when all are answered.

use crate::Shared;
use crate::connection::{Act, Connection, PATIENCE, Pending, connect};
use crate::poll::Poll;
use crate::protocol::{Answer, Protocol};
use crate::report::Tally;
use crate::value::{self, Pattern};
use std::io::{Read, Result, Write};
use std::sync::atomic::Ordering;
use std::time::{Duration, Instant};

// After so many broken connections a thread sends nothing more.
const BROKEN: u32 = 10;

#[derive(Clone, Copy, PartialEq)]
enum Stage {
    Fill,
    Load,
    ReadBack,
}

pub struct Worker<'a> {
    pub shared: &'a Shared,
    protocol: Protocol,
    pub pattern: Pattern,
    pub tally: Tally,
    random: u64,
    stage: Stage,
    end: Instant,
    broken: u32,
    poll: Poll,
    piece: Vec<u8>,
}

impl Worker<'_> {
    // The next request of a connection, if there is one: the key, and whether it is a set.
    fn choose(&mut self, connection: &mut Connection) -> Option<(usize, bool)> {
        let options = &self.shared.options;
        if self.broken >= BROKEN {
            return None;
        }
        if self.stage != Stage::Load {
            let key = connection.next;
            connection.next += options.connections;
            return (key < options.keys).then_some((key, self.stage == Stage::Fill));
        }
        if Instant::now() >= self.end {
            return None;
        }
        let (choice, spot) = (value::random(&mut self.random) % 100, value::random(&mut self.random) as usize);
        if choice < options.gets {
            return Some((spot % options.keys, false));
        }
        let own = (options.keys - connection.rest).div_ceil(options.connections);
        let key = connection.rest + spot % own * options.connections;
        Some((key, !connection.retired.contains(&key)))
    }

    // Sends requests in one piece, if none is under way.
    fn send(&mut self, connection: &mut Connection) -> Result<()> {
        if !connection.pending.is_empty() {
            return Ok(());
        }
        let depth = if self.stage == Stage::Load { self.shared.options.depth } else { self.shared.options.depth.max(16) };
        connection.output.clear();
        let begun = Instant::now();
        while connection.pending.len() < depth {
            let Some((key, set)) = self.choose(connection) else { break };
            let act = self.write(key, set, &mut connection.output);
            connection.pending.push_back(Pending { key, act, begun });
        }
        connection.stream.write_all(&connection.output)
    }

    fn write(&self, key: usize, set: bool, to: &mut Vec<u8>) -> Act {
        let (ledger, size) = (&self.shared.ledger, self.shared.options.size);
        let name = format!("load:{key:08}");
        if !set {
            self.protocol.write_get(name.as_bytes(), to);
            return Act::Get { least: ledger.acknowledged(key), most: ledger.sent(key) };
        }
        let number = ledger.send(key);
        self.protocol.write_set(name.as_bytes(), size, to);
        self.pattern.write(key, number, size, to);
        self.protocol.end_set(to);
        Act::Set { number }
    }

    // Reads once, and treats each answer that is whole.
    fn receive(&mut self, connection: &mut Connection) -> Result<()> {
        let many = connection.stream.read(&mut self.piece)?;
        if many == 0 {
            return Err(std::io::ErrorKind::UnexpectedEof.into());
        }
        let now = Instant::now();
        connection.input.extend_from_slice(&self.piece[..many]);
        let (mut from, mut answers) = (0, 0);
        while let Some(pending) = connection.pending.front() {
            let set = matches!(pending.act, Act::Set { .. });
            let Some((answer, length)) = self.protocol.answer(&connection.input[from..], set) else { break };
            self.judge(connection.rest, pending, &answer, &connection.input[from..from + length]);
            match self.stage {
                Stage::Load => self.tally.times.count(now - pending.begun),
                Stage::ReadBack if !matches!(answer, Answer::Refused(_)) => self.tally.read_back += 1,
                _ => {}
            }
            connection.pending.pop_front();
            (from, answers) = (from + length, answers + 1);
        }
        connection.input.drain(..from);
        self.shared.answered.fetch_add(answers, Ordering::Relaxed);
        Ok(())
    }

    // A new connection in place of one that broke.
    fn mend(&mut self, connection: &mut Connection, error: std::io::Error) {
        (self.tally.refused, self.broken) = (self.tally.refused + 1, self.broken + 1);
        self.tell(&format!("connection {}: {error}", connection.rest));
        let unanswered = connection.pending.drain(..).filter(|pending| matches!(pending.act, Act::Set { .. }));
        connection.retired.extend(unanswered.map(|pending| pending.key));
        connection.input.clear();
        std::thread::sleep(Duration::from_millis(100));
        if let Ok(stream) = connect(self.shared.options.address(connection.rest)) {
            self.poll.watch(&stream, connection.rest);
            connection.stream = stream;
        }
        let _ = self.send(connection);
    }

    fn serve(&mut self, connection: &mut Connection, ready: bool) {
        let received = if ready { self.receive(connection) } else { Ok(()) };
        if let Err(error) = received.and_then(|()| self.send(connection)) {
            self.mend(connection, error);
        }
    }

    // Waits for the connections, and treats those that have something to read; or mends them where none has.
    fn turn(&mut self, connections: &mut [Connection]) {
        let ready = self.poll.wait(PATIENCE.as_millis() as i32);
        for number in &ready {
            self.serve(&mut connections[number / self.shared.options.threads], true);
        }
        if ready.is_empty() {
            for connection in connections.iter_mut().filter(|connection| !connection.pending.is_empty()) {
                self.mend(connection, std::io::ErrorKind::TimedOut.into());
            }
        }
    }

    // A stage of all connections: to its end, and until nothing is under way.
    fn run(&mut self, stage: Stage, connections: &mut [Connection]) {
        (self.stage, self.end) = (stage, Instant::now() + Duration::from_secs_f64(self.shared.options.seconds));
        connections.iter_mut().for_each(|connection| connection.next = connection.rest);
        connections.iter_mut().for_each(|connection| self.serve(connection, false));
        while connections.iter().any(|connection| !connection.pending.is_empty()) {
            match connections {
                [connection] => self.serve(connection, true),
                _ => self.turn(connections),
            }
        }
    }
}

// Fills its connections' keys, loads the server, and reads the keys back.
pub fn work(shared: &Shared, thread: usize) -> Tally {
    let options = &shared.options;
    let mut connections: Vec<Connection> = (thread..options.connections).step_by(options.threads).map(|rest| Connection::new(shared, rest)).collect();
    let mut worker = Worker {
        shared,
        protocol: options.redis.map_or(Protocol::Memcached, Protocol::Redis),
        pattern: Pattern::new(),
        tally: Tally::new(),
        random: 0x2545_f491_4f6c_dd1d ^ (thread as u64 + 1),
        stage: Stage::Fill,
        end: Instant::now(),
        broken: 0,
        poll: Poll::new(),
        piece: vec![0; 262_144],
    };
    connections.iter().for_each(|connection| worker.poll.watch(&connection.stream, connection.rest));
    worker.run(Stage::Fill, &mut connections);
    shared.barrier.wait();
    worker.run(Stage::Load, &mut connections);
    shared.barrier.wait();
    let before = worker.tally.wrong + worker.tally.missing;
    worker.run(Stage::ReadBack, &mut connections);
    worker.tally.lost = worker.tally.wrong + worker.tally.missing - before;
    worker.tally
}
