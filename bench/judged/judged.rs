// Random runs of groups, and after a share of their events a message with a field, the sender or the receiver changed. Standard output has
// the runs as scripts with a line `judge FROM TO LEN FRAME` for each message; the file of the second word has, for each, `yes` or `no`, its kind,
// what was changed, and `sender` where nothing but whom it comes from is against it. The model beside says what fits (`check_fits`);
// where it is silent, `says` below does.
#![allow(dead_code)]
mod check;
mod explore;
mod induct;
mod script;
mod world;
use explore::{Rng, event_text, random_event, style};
use std::io::Write;
use std::rc::Rc;
use world::*;

// A process: below k a data process, else a parity process; from 1000 on a data process that the group hasn't.
const NO_DATA: usize = 1000;

fn spell_process(k: usize, p: usize) -> [u8; 2] {
    match p {
        p if p >= NO_DATA => [0, (p - NO_DATA) as u8],
        p if p < k => [0, p as u8],
        p => [1, (p - k) as u8],
    }
}

// A message, from whom and to whom.
#[derive(Clone)]
struct Case {
    from: usize,
    to: usize,
    msg: Msg,
}

// ---- frames ----
fn session(s: &Session) -> Vec<u8> {
    let mut o = if s.0 >= NO_DATA { vec![0, (s.0 - NO_DATA) as u8] } else { vec![1, s.0 as u8] };
    o.extend(s.1.to_be_bytes());
    o
}
fn maybe<T>(x: &Option<T>, spell: impl Fn(&T) -> Vec<u8>) -> Vec<u8> {
    x.as_ref().map_or(vec![0], |x| [vec![1], spell(x)].concat())
}
fn eight(n: &u64) -> Vec<u8> {
    n.to_be_bytes().to_vec()
}
fn run(r: &Run) -> Vec<u8> {
    [r.at.to_be_bytes(), r.len.to_be_bytes()].concat()
}
fn long(bytes: &[u8]) -> Vec<u8> {
    [&(bytes.len() as u32).to_be_bytes(), bytes].concat()
}
fn update(u: &Update) -> Vec<u8> {
    let body = match &u.body {
        Body::Put { flags, until, run: r, delta } => {
            let spelled = Run { at: r.at, len: delta.len() as u32 };
            [vec![0], flags.to_be_bytes().to_vec(), maybe(until, eight), run(&spelled), long(delta)].concat()
        }
        Body::Remove => vec![1],
        Body::Touch { until } => [vec![2], maybe(until, eight)].concat(),
    };
    let outcome = match &u.outcome {
        Reply::Stored => vec![0],
        Reply::Deleted => vec![1],
        Reply::Touched => vec![2],
        Reply::Number(n) => [vec![3], eight(n)].concat(),
        r => panic!("an update is answered {:?}", r),
    };
    let front = [eight(&u.number), vec![u.caller as u8], eight(&u.call), vec![u.key.len() as u8], u.key.to_vec()].concat();
    [front, body, maybe(&u.frees, run), outcome].concat()
}
fn frame(k: usize, m: &Msg) -> Vec<u8> {
    let text = match m {
        Msg::Update { rank, d, u, stable } => [vec![1, *rank as u8, *d as u8], update(u), eight(stable)].concat(),
        Msg::Ack { rank, d, number } => [vec![2, *rank as u8, *d as u8], eight(number)].concat(),
        Msg::Stable { rank, d, number } => [vec![3, *rank as u8, *d as u8], eight(number)].concat(),
        Msg::Adopt { rank, d, base, list } => {
            assert!(list.iter().all(|u| *u == whole(u.clone())), "no frame spells this list");
            let front = [vec![4, *rank as u8, *d as u8], eight(base), (list.len() as u16).to_be_bytes().to_vec()].concat();
            list.iter().fold(front, |o, u| [o, update(u)].concat())
        }
        Msg::ReadBlock { s, block, rows } => {
            let rows: Vec<u8> = rows.iter().map(|r| *r as u8).collect();
            [vec![5], session(s), (*block as u32).to_be_bytes().to_vec(), vec![rows.len() as u8], rows].concat()
        }
        Msg::Block { s, bytes, number } => [vec![6], session(s), long(bytes), eight(number)].concat(),
        Msg::Mark { s, rank, block, d, number } => {
            [vec![7], session(s), vec![*rank as u8], (*block as u32).to_be_bytes().to_vec(), vec![*d as u8], eight(number)].concat()
        }
        Msg::Row { s, bytes, stamp } => {
            let front = [vec![8], session(s), long(bytes), vec![stamp.len() as u8]].concat();
            stamp.iter().fold(front, |o, n| [o, eight(n)].concat())
        }
        Msg::Cease { upto } => [vec![9], eight(upto)].concat(),
        Msg::Notice { dead } => [vec![10], spell_process(k, *dead).to_vec()].concat(),
    };
    long(&text)
}

// ---- what fits ----
// What `check_fits` says of the message as the first of a link from another process of the group.
fn fits(w: &World, c: &Case) -> bool {
    let n = w.sh.n();
    let from = if c.from < n && c.from != c.to { c.from } else { (c.to + 1) % n };
    let mut w = w.clone();
    for x in 0..n {
        w.link_mut(x, c.to).clear();
    }
    w.link_mut(from, c.to).push_back(c.msg.clone());
    let mut o = vec![];
    check::check_fits(&w, &[c.to], &mut o);
    o.is_empty()
}
fn is_process(sh: Shape, p: usize) -> bool {
    p < sh.n()
}
fn is_parity(sh: Shape, p: usize) -> bool {
    p >= sh.k && p < sh.n()
}
// Whether the message fits, told apart: what the sender of a rank or of a notice is, and all else.
fn says(w: &World, c: &Case) -> (bool, bool) {
    let sh = w.sh;
    let (k, m) = (sh.k, sh.m);
    let parity = c.to >= k;
    let told = |rank: usize, d: usize| c.from == if rank == 0 { d } else { k + rank - 1 };
    let ranked = |rank: usize, d: usize| d < k && rank <= m;
    let mine = |s: &Session| s.0 == c.to - k;
    match &c.msg {
        Msg::Update { rank, d, .. } | Msg::Stable { rank, d, .. } => {
            (told(*rank, *d), parity && ranked(*rank, *d) && fits(w, c))
        }
        Msg::Adopt { rank, d, list, .. } => {
            let stale = parity && ranked(*rank, *d) && *rank < w.par[c.to - k].rank[*d];
            let few = stale || list.len() <= w.window;
            (told(*rank, *d), parity && ranked(*rank, *d) && few && fits(w, c))
        }
        Msg::Ack { rank, d, .. } => {
            let sent = ranked(*rank, *d) && is_parity(sh, c.from);
            (true, sent && (parity || *d == c.to) && w.rank_of(c.to, *d) == Some(*rank) && fits(w, c))
        }
        Msg::ReadBlock { s, block, rows } => {
            let mut sorted = rows.clone();
            sorted.sort();
            let msg = Msg::ReadBlock { s: *s, block: *block, rows: sorted };
            let named = s.0 < m && rows.iter().all(|r| *r < m);
            (true, !parity && named && fits(w, &Case { msg, ..c.clone() }))
        }
        Msg::Block { s, bytes, .. } => (true, parity && mine(s) && c.from < k && bytes.len() == sh.block && fits(w, c)),
        Msg::Row { s, bytes, .. } => {
            let asked = |w: &World| w.par[s.0].sessions.get(&s.1).map_or(true, |g| g.rows.contains(&s.0));
            let sent = parity && mine(s) && is_parity(sh, c.from) && bytes.len() == sh.block;
            (true, sent && if c.from == c.to { asked(w) } else { fits(w, c) })
        }
        Msg::Mark { s, rank, d, number: _, .. } => {
            if !parity {
                return (true, false);
            }
            let p = &w.par[c.to - k];
            let leader = if s.0 >= NO_DATA { 0 } else { s.0 };
            if leader == c.to - k && s.1 > p.last_session {
                return (true, false);
            }
            let knows = leader < m && p.known >> (k + leader) & 1 == 1;
            let ceased = if leader < m { p.ceased[leader] } else { 0 };
            let accepts = *rank == p.rank.get(*d).copied().unwrap_or(0) && !knows && ceased < s.1;
            (true, !accepts || (s.0 < m && *d < k && fits(w, c)))
        }
        Msg::Cease { .. } => (true, parity && is_parity(sh, c.from)),
        Msg::Notice { dead } => (c.from == *dead, is_process(sh, *dead) && fits(w, c)),
    }
}

// ---- changes ----
fn near(r: &mut Rng, n: u64) -> u64 {
    match r.below(6) {
        0 => r.below(8) as u64,
        1 => n.saturating_sub(1 + r.below(3) as u64),
        2 => u64::MAX,
        _ => n.saturating_add(1 + r.below(3) as u64),
    }
}
fn other(r: &mut Rng, n: usize, least: usize) -> usize {
    match r.below(8) {
        0 => 255,
        1 => n,
        _ => r.below(least.max(n)),
    }
}
fn any_process(r: &mut Rng, sh: Shape) -> usize {
    match r.below(12) {
        0 => NO_DATA + sh.k + r.below(3),
        1 => sh.n() + r.below(3),
        _ => r.below(sh.n()),
    }
}
fn any_leader(r: &mut Rng, sh: Shape) -> usize {
    if r.chance(1, 6) { NO_DATA + r.below(sh.k) } else { other(r, sh.m, 1) }
}
fn change_session(r: &mut Rng, sh: Shape, s: &mut Session) {
    if r.chance(1, 2) {
        s.0 = any_leader(r, sh);
    } else {
        s.1 = near(r, s.1);
    }
}
fn change_bytes(r: &mut Rng, bytes: &mut Rc<[u8]>) {
    let mut v = bytes.to_vec();
    if r.chance(1, 2) || v.is_empty() {
        v.push(r.below(256) as u8);
    } else if r.chance(1, 2) {
        v.pop();
    } else {
        let at = r.below(v.len());
        v[at] ^= 1;
    }
    *bytes = v.into();
}
fn change_run(r: &mut Rng, run: &mut Run) {
    if r.chance(1, 2) {
        run.at = near(r, run.at as u64) as u32 % (1 << 30);
    } else {
        run.len = near(r, run.len as u64) as u32 % (1 << 30);
    }
}
// `place`: the update is one of a message of its own, whose run can have another length than its value.
fn change_update(r: &mut Rng, sh: Shape, keys: &[Key], place: bool, u: &mut Rc<Update>) {
    let mut v = (**u).clone();
    match r.below(8) {
        0 => v.number = near(r, v.number),
        1 => v.call = near(r, v.call),
        2 => v.caller = r.below(256) as u32,
        3 => v.key = r.pick(keys).clone(),
        4 => {
            v.frees = match v.frees {
                None => Some(Run { at: r.below(sh.space()) as u32, len: r.below(4) as u32 }),
                Some(_) if r.chance(1, 3) => None,
                Some(mut run) => {
                    change_run(r, &mut run);
                    Some(run)
                }
            }
        }
        5 => v.outcome = [Reply::Stored, Reply::Deleted, Reply::Touched, Reply::Number(r.next())][r.below(4)].clone(),
        _ => match &mut v.body {
            Body::Put { run, delta, until, .. } => match r.below(6) {
                0 | 1 => run.at = [near(r, run.at as u64) as u32 % (1 << 30), r.below(sh.space() + 1) as u32][r.below(2)],
                2 if place => run.len = near(r, run.len as u64) as u32 % (1 << 30),
                3 if place => change_bytes(r, delta),
                2 | 3 => {
                    change_bytes(r, delta);
                    run.len = delta.len() as u32;
                }
                4 => *until = Some(r.next()),
                _ => v.body = if r.chance(1, 2) { Body::Remove } else { Body::Touch { until: None } },
            },
            body => {
                *body = match r.below(3) {
                    0 => Body::Remove,
                    1 => Body::Touch { until: Some(9) },
                    _ => Body::Put { flags: 0, until: None, run: Run { at: r.below(sh.space()) as u32, len: 1 }, delta: Rc::from(&[7][..]) },
                }
            }
        },
    }
    *u = Rc::new(v);
}
fn change_list(r: &mut Rng, sh: Shape, keys: &[Key], list: &mut Rc<Vec<Rc<Update>>>) {
    let mut v = (**list).clone();
    match r.below(4) {
        0 => drop(v.pop()),
        1 if !v.is_empty() => drop(v.remove(0)),
        2 if v.len() > 1 => v.swap(0, 1),
        _ if v.is_empty() => v.push(Rc::new(Update {
            number: 1,
            caller: 0,
            call: 0,
            key: keys[0].clone(),
            body: Body::Remove,
            frees: None,
            outcome: Reply::Deleted,
        })),
        _ => {
            let at = r.below(v.len());
            change_update(r, sh, keys, false, &mut v[at]);
        }
    }
    *list = Rc::new(v);
}
fn change_rank(r: &mut Rng, sh: Shape, rank: &mut usize, d: &mut usize) {
    if r.chance(1, 2) {
        *rank = other(r, sh.m + 1, 2);
    } else {
        *d = other(r, sh.k, 2);
    }
}
fn change_field(r: &mut Rng, sh: Shape, keys: &[Key], msg: &mut Msg) {
    let which = r.below(4);
    match msg {
        Msg::Update { rank, d, u, stable } => match which {
            0 => change_rank(r, sh, rank, d),
            1 => *stable = near(r, *stable),
            _ => change_update(r, sh, keys, true, u),
        },
        Msg::Ack { rank, d, number } | Msg::Stable { rank, d, number } => match which {
            0 | 1 => change_rank(r, sh, rank, d),
            _ => *number = near(r, *number),
        },
        Msg::Adopt { rank, d, base, list } => match which {
            0 => change_rank(r, sh, rank, d),
            1 => *base = near(r, *base),
            _ => change_list(r, sh, keys, list),
        },
        Msg::ReadBlock { s, block, rows } => match which {
            0 => change_session(r, sh, s),
            1 => *block = near(r, *block as u64) as usize % (1 << 30),
            2 => rows.push(other(r, sh.m, 1)),
            _ => rows.reverse(),
        },
        Msg::Block { s, bytes, number } => match which {
            0 | 1 => change_session(r, sh, s),
            2 => change_bytes(r, bytes),
            _ => *number = near(r, *number),
        },
        Msg::Mark { s, rank, block, d, number } => match which {
            0 => change_session(r, sh, s),
            1 => change_rank(r, sh, rank, d),
            2 => *block = near(r, *block as u64) as usize % (1 << 30),
            _ => *number = near(r, *number),
        },
        Msg::Row { s, bytes, stamp } => match which {
            0 | 1 => change_session(r, sh, s),
            2 => change_bytes(r, bytes),
            _ => stamp.push(r.next()),
        },
        Msg::Cease { upto } => *upto = near(r, *upto),
        Msg::Notice { dead } => *dead = any_process(r, sh),
    }
}
// The update with the length of its value as that of its run, since no frame of a list spells another.
fn whole(u: Rc<Update>) -> Rc<Update> {
    let mut u = (*u).clone();
    if let Body::Put { run, delta, .. } = &mut u.body {
        run.len = delta.len() as u32;
    }
    Rc::new(u)
}
// Another message of the same numbers.
fn change_kind(r: &mut Rng, sh: Shape, from: usize, msg: &mut Msg) {
    *msg = match msg.clone() {
        _ if r.chance(1, 3) => Msg::Notice { dead: if from < NO_DATA && r.chance(2, 3) { from } else { any_process(r, sh) } },
        Msg::Ack { rank, d, number } => Msg::Stable { rank, d, number },
        Msg::Stable { rank, d, number } => Msg::Ack { rank, d, number },
        Msg::Update { rank, d, u, stable } if r.chance(1, 2) => Msg::Adopt { rank, d, base: stable, list: Rc::new(vec![whole(u)]) },
        Msg::Update { rank, d, u, .. } => Msg::Stable { rank, d, number: u.number },
        Msg::Adopt { rank, d, base, .. } => Msg::Ack { rank, d, number: base },
        Msg::ReadBlock { s, block, .. } => Msg::Mark { s, rank: 0, block, d: r.below(sh.k), number: 0 },
        Msg::Mark { s, block, .. } => Msg::ReadBlock { s, block, rows: vec![0] },
        Msg::Block { s, bytes, number } => Msg::Row { s, bytes, stamp: vec![number] },
        Msg::Row { s, bytes, .. } => Msg::Block { s, bytes, number: 0 },
        Msg::Cease { upto } => Msg::Notice { dead: upto as usize % sh.n() },
        Msg::Notice { .. } => Msg::Cease { upto: r.below(3) as u64 },
    };
}
// Nothing, the sender in a quarter, the receiver, the kind or a field.
fn change(r: &mut Rng, w: &World, keys: &[Key], c: &mut Case) -> &'static str {
    match r.below(20) {
        0 | 1 => "nothing",
        2..=6 => {
            c.from = any_process(r, w.sh);
            "sender"
        }
        7 | 8 => {
            let living: Vec<usize> = (0..w.sh.n()).filter(|q| !w.is_dead(*q)).collect();
            c.to = *r.pick(&living);
            "receiver"
        }
        9 | 10 => {
            change_kind(r, w.sh, c.from, &mut c.msg);
            "kind"
        }
        _ => {
            change_field(r, w.sh, keys, &mut c.msg);
            "field"
        }
    }
}

// ---- runs ----
struct Files<O: Write, T: Write> {
    out: O,
    told: T,
    judged: usize,
    events: u64,
}
impl<O: Write, T: Write> Files<O, T> {
    fn step(&mut self, w: &mut World, ev: &Event) -> Answer {
        writeln!(self.out, "{}", event_text(w, ev).lines().last().unwrap()).unwrap();
        self.events += 1;
        w.step(ev)
    }
    fn judge(&mut self, w: &World, c: &Case, was: &str, what: &str) {
        let (sender, rest) = says(w, c);
        let verdict = if sender && rest { "yes" } else { "no" };
        let alone = if !sender && rest { "sender" } else { "-" };
        writeln!(self.out, "{}", judge_line(w, c)).unwrap();
        writeln!(self.told, "{} {} {} {} {}", verdict, kind(&c.msg), was, what, alone).unwrap();
        self.judged += 1;
    }
}
// A log of 255 or 256 updates at a parity process, and what comes next there.
fn full_run<O: Write, T: Write>(r: &mut Rng, f: &mut Files<O, T>) {
    let sh = Shape { k: 1, m: 2, blocks: 1, block: 16 };
    let mut w = World::new(sh);
    w.keep_ops = true;
    writeln!(f.out, "group 1 2 1 16").unwrap();
    for n in 0..256 {
        let key: Key = format!("k{}", n).into_bytes().into();
        let op = Op { now: 0, kind: Kind::Set, key, flags: 0, expiry: 0, num: 0, value: Rc::from(&[][..]) };
        f.step(&mut w, &Event::Ask { caller: n, op, at: 0 });
    }
    let list: Vec<Rc<Update>> = w.link(0, 1).iter().map(|m| if let Msg::Update { u, .. } = m { u.clone() } else { panic!() }).collect();
    for _ in 0..255 + r.below(2) {
        f.step(&mut w, &Event::Deliver { from: 0, to: 1 });
    }
    let mut last = (*list[255]).clone();
    last.key = Rc::from(&b"more"[..]);
    let mut longer = list.clone();
    last.number = 257;
    longer.push(Rc::new(last.clone()));
    for number in 256..259 {
        for stable in 0..3 {
            let u = Rc::new(Update { number, ..last.clone() });
            f.judge(&w, &Case { from: 0, to: 1, msg: Msg::Update { rank: 0, d: 0, u, stable } }, "Update", "full");
        }
    }
    for (base, list) in [(0, list), (1, longer[1..].to_vec()), (0, longer)] {
        f.judge(&w, &Case { from: 0, to: 1, msg: Msg::Adopt { rank: 0, d: 0, base, list: Rc::new(list) } }, "Adopt", "full");
    }
}
fn random_run<O: Write, T: Write>(r: &mut Rng, f: &mut Files<O, T>, count: usize) {
    let sh = Shape { k: 1 + r.below(4), m: 1 + r.below(4), blocks: 1 + r.below(3), block: *r.pick(&[16, 32]) };
    let mut s = style(r, sh);
    let keys = explore::keys_for(sh.k, 3, sh.k);
    let mut w = World::new(sh);
    w.keep_ops = true;
    let mut names: Vec<(Name, usize)> = vec![];
    let mut moment = 0;
    writeln!(f.out, "group {} {} {} {}", sh.k, sh.m, sh.blocks, sh.block).unwrap();
    for _ in 0..300 {
        for ev in random_event(r, &mut s, 16, &w, &names) {
            if let Event::Ask { op, .. } = &ev {
                if op.now != moment {
                    moment = op.now;
                    writeln!(f.out, "time {}", moment).unwrap();
                }
            }
            let a = f.step(&mut w, &ev);
            if let (Event::Ask { caller, at, .. }, Answer::Ticket(_)) = (&ev, &a) {
                names.push(((*caller, w.asks(*caller) - 1), *at));
            }
        }
        if w.is_down() || f.judged >= count {
            break;
        }
        if let Some(mut c) = first_message(r, &w) {
            let was = kind(&c.msg);
            let mut what = change(r, &w, &keys, &mut c).to_string();
            if what != "nothing" && r.chance(1, 5) {
                what = format!("{}+{}", what, change(r, &w, &keys, &mut c));
            }
            f.judge(&w, &c, &was, &what);
        }
    }
}
// The first message of a link, now and then; half of the time one that is neither an update nor an acknowledgement, where there is one.
fn first_message(r: &mut Rng, w: &World) -> Option<Case> {
    if r.chance(3, 5) {
        return None;
    }
    let n = w.sh.n();
    let open = (0..n * n).filter(|x| !w.is_dead(x % n) && !w.links[*x].is_empty());
    let (usual, rare): (Vec<usize>, Vec<usize>) = open.partition(|x| matches!(w.links[*x][0], Msg::Update { .. } | Msg::Ack { .. }));
    let from = if usual.is_empty() || (!rare.is_empty() && r.chance(1, 2)) { rare } else { usual };
    if from.is_empty() {
        return None;
    }
    let x = *r.pick(&from);
    Some(Case { from: x / n, to: x % n, msg: w.links[x][0].clone() })
}

// ---- text ----
fn hex(bytes: &[u8]) -> String {
    bytes.iter().map(|b| format!("{:02x}", b)).collect()
}
fn kind(m: &Msg) -> String {
    format!("{:?}", m).split(' ').next().unwrap().to_string()
}
fn judge_line(w: &World, c: &Case) -> String {
    let mut other_len = "-".to_string();
    if let Msg::Update { u, .. } = &c.msg {
        if let Body::Put { run, delta, .. } = &u.body {
            if run.len as usize != delta.len() {
                other_len = run.len.to_string();
            }
        }
    }
    let from = hex(&spell_process(w.sh.k, c.from));
    format!("judge {} {} {} {}", from, w.sh.pname(c.to), other_len, hex(&frame(w.sh.k, &c.msg)))
}

fn main() {
    let words: Vec<String> = std::env::args().collect();
    let count: usize = words[1].parse().expect("judged COUNT FILE SEED");
    let seed: u64 = words[3].parse().expect("judged COUNT FILE SEED");
    let told = std::io::BufWriter::new(std::fs::File::create(&words[2]).unwrap());
    let mut f = Files { out: std::io::BufWriter::new(std::io::stdout()), told, judged: 0, events: 0 };
    let mut runs = 0;
    while f.judged < count {
        let mut r = Rng::new(seed.wrapping_mul(1_000_003).wrapping_add(runs));
        runs += 1;
        if runs % 50 == 0 {
            full_run(&mut r, &mut f);
        } else {
            random_run(&mut r, &mut f, count);
        }
    }
    eprintln!("{} messages, {} events, {} runs", f.judged, f.events, runs);
}
