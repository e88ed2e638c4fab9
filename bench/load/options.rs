// What is asked for on the command line.

pub const USAGE: &str = "load ADDRESS[,ADDRESS..] [--threads 4] [--connections 4] [--depth 1] [--gets 90] [--size 100] [--keys 10000] [--seconds 2]
     [--tell SECONDS] [--fail PROCESS[:KEEP]@SECONDS].. [--redis REPLICAS]
Connections go to the addresses in turn. Each sends --depth requests in one piece and the next ones when all are answered; --gets of 100 are a get, the others a set of --size
bytes. Times are from sending to the answer. --fail lets a process fail by `cocytus_fail`, on a further connection; its links keep KEEP messages,
or all. --redis speaks redis's protocol: behind each set stands WAIT REPLICAS, where it isn't 0.";

pub struct Options {
    // At least one.
    pub addresses: Vec<String>,
    pub threads: usize,
    pub connections: usize,
    pub depth: usize,
    pub gets: u64,
    pub size: usize,
    pub keys: usize,
    pub seconds: f64,
    pub tell: f64,
    // When, and which process with how many messages kept.
    pub fails: Vec<(f64, String)>,
    pub redis: Option<u32>,
}

fn number<T: std::str::FromStr>(word: &str, text: Option<String>) -> Result<T, String> {
    text.and_then(|text| text.parse().ok()).ok_or(format!("no number behind {word}"))
}

fn failure(text: Option<String>) -> Result<(f64, String), String> {
    let text = text.unwrap_or_default();
    let (who, at) = text.split_once('@').ok_or("--fail wants PROCESS@SECONDS")?;
    let (process, keep) = who.split_once(':').unwrap_or((who, "all"));
    Ok((number("--fail", Some(at.to_string()))?, format!("{process} {keep}")))
}

impl Options {
    // Where the connection of this number goes.
    pub fn address(&self, connection: usize) -> &str {
        &self.addresses[connection % self.addresses.len()]
    }

    pub fn read(mut words: impl Iterator<Item = String>) -> Result<Options, String> {
        let addresses = words.next().ok_or("no address")?.split(',').map(str::to_string).collect();
        let mut options = Options {
            addresses,
            threads: 4,
            connections: 4,
            depth: 1,
            gets: 90,
            size: 100,
            keys: 10_000,
            seconds: 2.0,
            tell: 0.0,
            fails: Vec::new(),
            redis: None,
        };
        while let Some(word) = words.next() {
            options.take(&word, words.next())?;
        }
        options.fails.sort_by(|a, b| a.0.total_cmp(&b.0));
        options.threads = options.threads.min(options.connections);
        options.judge()
    }

    fn take(&mut self, word: &str, text: Option<String>) -> Result<(), String> {
        match word {
            "--threads" => self.threads = number(word, text)?,
            "--connections" => self.connections = number(word, text)?,
            "--depth" => self.depth = number(word, text)?,
            "--gets" => self.gets = number(word, text)?,
            "--size" => self.size = number(word, text)?,
            "--keys" => self.keys = number(word, text)?,
            "--seconds" => self.seconds = number(word, text)?,
            "--tell" => self.tell = number(word, text)?,
            "--fail" => self.fails.push(failure(text)?),
            "--redis" => self.redis = Some(number(word, text)?),
            _ => return Err(format!("no such word: {word}")),
        }
        Ok(())
    }

    fn judge(self) -> Result<Options, String> {
        let ranges = [
            ("--threads from 1 on", self.threads >= 1),
            ("--connections from 1 to 1000", (1..=1000).contains(&self.connections)),
            ("--depth from 1 to 1000", (1..=1000).contains(&self.depth)),
            ("--gets at most 100", self.gets <= 100),
            ("--size from 16 to 1048576", (16..=1_048_576).contains(&self.size)),
            ("--keys at least as many as connections, and at most 10 million", (self.connections..=10_000_000).contains(&self.keys)),
            ("--seconds above 0, at most 86400", self.seconds > 0.0 && self.seconds <= 86_400.0),
        ];
        match ranges.iter().find(|range| !range.1) {
            Some((text, _)) => Err(text.to_string()),
            None => Ok(self),
        }
    }
}
