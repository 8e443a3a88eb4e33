//! A node on one network, by hand: its timers, what it does with what it takes, and its clock.
//!
//! Peers are numbered from 0 to 63, so a set of them is the bits of a number.

pub const NOBODY: u8 = 255;
pub const NEVER: u64 = u64::MAX;
pub const LIMIT: i64 = 2_147_483_648_000_000;
pub const HOLD: u64 = 60_000_000;
pub const GAP: u64 = 1_000_000;
pub const MAXADJ: u64 = 20_000_000;
pub const LIFE: u64 = 30_000_000;

const QUIET_TIME: u64 = 80_000_000;
const WINDOW_TIME: u64 = 5_000_000;
const SLACK: u64 = 1_000_000;
const ELECT_MIN: u64 = 300_000_000;
const ELECT_SPREAD: u64 = 300_000_000;
const ROUND_TIME: u64 = 240_000_000;
const PROBE_TIME: u64 = 1_000_000;
const CLOSE_TIME: u64 = 8_000_000;
const RETRY: u64 = 1_000_000;
const TRIES: u64 = 3;
const LAST: u64 = 4_000_000;
const REUSE: u64 = 70_000_000;
const SPAN: i64 = 20_000;
const SLEW: u64 = 200;
const DATEHOLD: u64 = 45_000_000;
const FAR: u64 = 1_073_741_824_000_000;

/// The names of messages, by their type less 1.
pub const KINDS: [&str; 24] = [
    "adjtime", "ack", "masterreq", "masterack", "settime", "masterup", "slaveup", "election", "accept",
    "refuse", "conflict", "resolve", "quit", "date", "datereq", "dateack", "traceon", "traceoff", "msite",
    "msitereq", "test", "setdate", "setdatereq", "loop",
];

pub const ADJTIME: u8 = 1;
pub const ACK: u8 = 2;
const MASTERREQ: u8 = 3;
const MASTERACK: u8 = 4;
pub const SETTIME: u8 = 5;
const MASTERUP: u8 = 6;
const SLAVEUP: u8 = 7;
pub const ELECTION: u8 = 8;
pub const ACCEPT: u8 = 9;
const REFUSE: u8 = 10;
pub const CONFLICT: u8 = 11;
const RESOLVE: u8 = 12;
pub const QUIT: u8 = 13;
const DATE: u8 = 14;
const DATEREQ: u8 = 15;
const DATEACK: u8 = 16;
const TRACEON: u8 = 17;
const TRACEOFF: u8 = 18;
const MSITE: u8 = 19;
const MSITEREQ: u8 = 20;
const TEST: u8 = 21;
const SETDATE: u8 = 22;
pub const SETDATEREQ: u8 = 23;
pub const LOOP: u8 = 24;
pub const REQUEST: u8 = 128;
pub const REPLY: u8 = 129;

pub const ALARMS: [&str; 8] = ["quiet", "search", "elect", "window", "probe", "close", "resolve", "round"];

const QUIET: usize = 0;
const SEARCH: usize = 1;
const ELECT: usize = 2;
const WINDOW: usize = 3;
const PROBE: usize = 4;
pub const CLOSE: usize = 5;
const ALARM_RESOLVE: usize = 6;
const ROUND: usize = 7;

#[derive(Clone, Copy, PartialEq, Eq)]
pub enum Role {
    Starting,
    Loose,
    Follow(u8),
    Candidate,
    Master,
}

/// A message or a stamp. A message has its time or its hops in `a`, and the number of its name in a table of names.
#[derive(Clone, Copy, PartialEq)]
pub struct Datagram {
    pub kind: u8,
    pub name: u16,
    pub number: u16,
    /// The time or the hops of a message; the word of a stamp.
    pub a: u64,
    /// The counter of a stamp.
    pub b: u64,
    /// The reading of a reply, whose number is its ticket.
    pub c: i64,
}

impl Datagram {
    fn message(kind: u8, number: u16, name: u16) -> Datagram {
        Datagram { kind, name, number, a: 0, b: 0, c: 0 }
    }
}

/// What takes a node's acts.
pub trait Desk {
    fn boot(&mut self);
    fn role(&mut self, role: Role);
    /// One of the acts `back`, `backer`, `quit`, `join`, `leave`, `rival`, `acked` and `gave`.
    fn peer(&mut self, act: Of, peer: u8);
    fn arm(&mut self, alarm: usize, at: u64);
    fn ring(&mut self, alarm: usize, late: bool);
    fn took(&mut self, from: u8, taken: &Result<Datagram, &'static str>);
    fn post(&mut self, to: u8, datagram: Datagram);
    fn sample(&mut self, peer: u8, counter: u64, best: &Sample);
    fn close(&mut self, count: usize, lo: i64, width: i64, mean: i64);
    fn correct(&mut self, amount: i64, stepped: bool, shown: i64);
    fn abandon(&mut self);
    fn trace(&mut self, on: bool);
}

#[derive(Clone, Copy)]
pub enum Of {
    Back,
    Backer,
    Quit,
    Join,
    Leave,
    Rival,
    Acked,
    Gave,
}

#[derive(Clone, Copy)]
struct Send {
    began: u64,
    posts: u64,
    datagram: Datagram,
}

impl Send {
    fn due(&self) -> u64 {
        self.began + self.posts * RETRY
    }
}

#[derive(Clone, Copy)]
pub struct Sample {
    pub trip: i64,
    pub diff: i64,
    pub err: i64,
    pub ticket: u16,
}

/// What a master knows of a peer: its last correction, and what a round asked it and learned.
#[derive(Clone, Copy)]
struct Entry {
    posted: u64,
    number: u16,
    acked: bool,
    asked: u8,
    open: u8,
    counters: [u64; 4],
    starts: [i64; 4],
    best: Option<Sample>,
    dated: u64,
    date: u16,
}

const IDLE: Entry = Entry {
    posted: NEVER,
    number: 0,
    acked: false,
    asked: 0,
    open: 0,
    counters: [0; 4],
    starts: [0; 4],
    best: None,
    dated: NEVER,
    date: 0,
};

const UNSENT: Send = Send { began: 0, posts: 0, datagram: Datagram { kind: 0, name: 0, number: 0, a: 0, b: 0, c: 0 } };

pub struct Node {
    pub up: bool,
    pub rate: i64,
    pub wall: i64,
    /// The least deadline of all alarms and open sends, or one before it.
    due: u64,
    offset: i64,
    own: u8,
    role: Role,
    ticket: u16,
    name: u16,
    kept: u16,
    empty: u16,
    may: bool,
    strict: bool,
    others: u64,
    word: u64,
    alarms: [u64; 8],
    rest: i64,
    slewing: u64,
    booted: u64,
    held: u8,
    backed: u64,
    quitted: u64,
    corrected: u64,
    taken: Option<(u8, u16)>,
    begun: u64,
    backers: u32,
    open: u64,
    slaves: u64,
    measured: u64,
    rivals: u64,
    asked: u64,
    probes: u8,
    passed: u64,
    sends: Vec<Send>,
    entries: Vec<Entry>,
}

/// The numbers of the peers in a set, ascending.
fn each(mut peers: u64) -> impl Iterator<Item = u8> {
    std::iter::from_fn(move || {
        (peers != 0).then(|| {
            let peer = peers.trailing_zeros() as u8;
            peers &= peers - 1;
            peer
        })
    })
}

fn is_past(at: u64, long: u64, tick: u64) -> bool {
    at == NEVER || tick - at >= long
}

fn in_range(value: i64) -> bool {
    -LIMIT < value && value < LIMIT
}

impl Node {
    /// A node whose own name has the same number as it has.
    pub fn new(own: u8, rate: i64, wall: i64, may: bool) -> Node {
        Node {
            up: false, rate, wall, due: NEVER, offset: 0, own, role: Role::Starting, ticket: 0,
            name: u16::from(own), kept: 0, empty: 0, may, strict: false, others: 0, word: 0,
            alarms: [NEVER; 8], rest: 0, slewing: 0, booted: 0, held: NOBODY, backed: 0, quitted: NEVER,
            corrected: NEVER, taken: None, begun: 0, backers: 0, open: 0, slaves: 0, measured: 0, rivals: 0,
            asked: 0, probes: 0, passed: NEVER, sends: Vec::new(), entries: Vec::new(),
        }
    }

    /// Among so many nodes, with the number of the empty name.
    pub fn join(&mut self, nodes: usize, strict: bool, empty: u16) {
        let all = if nodes == 64 { u64::MAX } else { (1 << nodes) - 1 };
        self.others = all & !(1 << self.own);
        self.strict = strict;
        self.empty = empty;
        self.sends = vec![UNSENT; nodes];
        self.entries = vec![IDLE; nodes];
    }

    pub fn tick(&self, at: u64) -> u64 {
        (at as i64 + (at as i64 * self.rate).div_euclid(1_000_000)) as u64
    }

    pub fn boot(&mut self, tick: u64, word: u64, desk: &mut impl Desk) {
        self.up = true;
        self.word = word;
        self.ticket = (word % 32768) as u16;
        self.offset = self.wall;
        (self.rest, self.slewing, self.booted) = (0, tick, tick);
        (self.held, self.quitted, self.corrected, self.taken) = (NOBODY, NEVER, NEVER, None);
        (self.kept, self.begun, self.asked, self.passed) = (self.empty, 0, 0, NEVER);
        self.entries.fill(IDLE);
        desk.boot();
        self.become_role(Role::Starting, desk);
        self.arm(QUIET, tick, QUIET_TIME, desk);
    }

    fn become_role(&mut self, role: Role, desk: &mut impl Desk) {
        self.role = role;
        self.alarms = [NEVER; 8];
        self.due = NEVER;
        (self.open, self.slaves, self.measured, self.rivals, self.backers) = (0, 0, 0, 0, 0);
        desk.role(role);
    }

    fn arm(&mut self, alarm: usize, tick: u64, after: u64, desk: &mut impl Desk) {
        let at = tick + after;
        self.alarms[alarm] = at;
        self.due = self.due.min(at);
        desk.arm(alarm, at);
    }

    fn arm_elect(&mut self, tick: u64, desk: &mut impl Desk) {
        self.arm(ELECT, tick, ELECT_MIN + self.word % ELECT_SPREAD, desk);
    }

    pub fn target(&self, tick: u64) -> i64 {
        self.offset + tick as i64
    }

    fn rest(&self, tick: u64) -> i64 {
        let left = self.rest.unsigned_abs().saturating_sub((tick - self.slewing) / SLEW) as i64;
        if self.rest < 0 { -left } else { left }
    }

    fn correct(&mut self, tick: u64, amount: i64, set: bool, desk: &mut impl Desk) {
        let stepped = set || amount.unsigned_abs() > MAXADJ;
        self.rest = if stepped { 0 } else { self.rest(tick) + amount };
        self.slewing = tick;
        self.offset += amount;
        self.ticket = (self.ticket + 1) % 32768;
        self.corrected = tick;
        self.taken = None;
        desk.correct(amount, stepped, self.target(tick) - self.rest);
    }

    fn post(&self, to: u8, kind: u8, number: u16, desk: &mut impl Desk) {
        desk.post(to, Datagram::message(kind, number, self.name));
    }

    fn post_to_others(&self, kind: u8, desk: &mut impl Desk) {
        for peer in each(self.others) {
            self.post(peer, kind, 0, desk);
        }
    }

    /// Begins a send, which takes the place of the one that is open to this peer.
    fn begin(&mut self, to: u8, tick: u64, datagram: Datagram, desk: &mut impl Desk) {
        self.sends[usize::from(to)] = Send { began: tick, posts: 1, datagram };
        self.open |= 1 << to;
        self.due = self.due.min(tick + RETRY);
        desk.post(to, datagram);
    }

    /// Begins a send with the next number of the node's own.
    fn begin_own(&mut self, to: u8, tick: u64, kind: u8, time: i64, desk: &mut impl Desk) {
        let number = 0x8000 + ((self.word % 32768 + self.begun) % 32768) as u16;
        self.begun += 1;
        let datagram = Datagram { a: time as u64, ..Datagram::message(kind, number, self.name) };
        self.begin(to, tick, datagram, desk);
    }

    /// The send that is open to a peer.
    fn sent(&self, to: u8) -> Option<&Datagram> {
        (self.open >> to & 1 != 0).then(|| &self.sends[usize::from(to)].datagram)
    }

    /// Ends the send that is open to a peer, where it has this number and is as asked.
    fn end(&mut self, peer: u8, number: u16, fits: impl Fn(u8) -> bool, desk: &mut impl Desk) -> Option<u8> {
        let kind = self.sent(peer).filter(|sent| sent.number == number && fits(sent.kind))?.kind;
        self.open &= !(1 << peer);
        desk.peer(Of::Acked, peer);
        Some(kind)
    }

    fn may_stand(&self, tick: u64) -> bool {
        self.may && tick - self.booted >= ELECT_MIN && is_past(self.quitted, ELECT_MIN, tick) && self.may_back(tick, self.own)
    }

    fn may_back(&self, tick: u64, peer: u8) -> bool {
        self.held == NOBODY || self.held == peer || tick - self.backed >= HOLD
    }

    fn back(&mut self, tick: u64, peer: u8, desk: &mut impl Desk) {
        (self.held, self.backed) = (peer, tick);
        desk.peer(Of::Back, peer);
    }

    fn search(&mut self, tick: u64, desk: &mut impl Desk) {
        self.arm(SEARCH, tick, WINDOW_TIME, desk);
        self.post_to_others(MASTERREQ, desk);
    }

    fn stand(&mut self, tick: u64, desk: &mut impl Desk) {
        self.become_role(Role::Candidate, desk);
        self.back(tick, self.own, desk);
        self.arm(WINDOW, tick, WINDOW_TIME, desk);
        for peer in each(self.others) {
            self.begin_own(peer, tick, ELECTION, 0, desk);
        }
    }

    fn give_way(&mut self, tick: u64, desk: &mut impl Desk) {
        self.become_role(Role::Loose, desk);
        self.arm_elect(tick, desk);
    }

    fn follow(&mut self, tick: u64, master: u8, name: u16, desk: &mut impl Desk) {
        self.kept = name;
        self.become_role(Role::Follow(master), desk);
        self.arm_elect(tick, desk);
        self.post(master, SLAVEUP, self.ticket, desk);
    }

    /// A step: what is due, and then what comes in, from a peer or a stranger.
    pub fn step(&mut self, tick: u64, from: u8, input: Option<&Result<Datagram, &'static str>>, desk: &mut impl Desk) {
        if self.due <= tick {
            self.look(tick, desk);
        }
        if let Some(taken) = input {
            desk.took(from, taken);
            if let Ok(datagram) = taken
                && from != self.own
            {
                self.take(tick, from, datagram, desk);
            }
        }
    }

    pub fn is_idle(&self, tick: u64) -> bool {
        tick < self.due
    }

    #[cold]
    #[inline(never)]
    fn look(&mut self, tick: u64, desk: &mut impl Desk) {
        for peer in each(self.open) {
            self.repeat(tick, peer, desk);
        }
        for alarm in 0..8 {
            let at = self.alarms[alarm];
            if at <= tick {
                self.alarms[alarm] = NEVER;
                let late = alarm != QUIET && tick > at + SLACK;
                desk.ring(alarm, late);
                self.ring(tick, alarm, late, desk);
            }
        }
        let sends = each(self.open).map(|peer| self.sends[usize::from(peer)].due());
        self.due = sends.chain(self.alarms).min().unwrap_or(NEVER);
    }

    fn repeat(&mut self, tick: u64, peer: u8, desk: &mut impl Desk) {
        let send = &mut self.sends[usize::from(peer)];
        if tick < send.due() {
            return;
        }
        let datagram = send.datagram;
        let corrects = matches!(datagram.kind, ADJTIME | SETTIME);
        if tick > send.began + LAST || send.posts == TRIES {
            self.open &= !(1 << peer);
            desk.peer(Of::Gave, peer);
            if corrects {
                self.leave(peer, desk);
            }
        } else {
            send.posts += 1;
            if corrects {
                self.entries[usize::from(peer)].posted = tick;
            }
            desk.post(peer, datagram);
        }
    }

    /// A peer leaves the slaves, if it is one.
    fn leave(&mut self, peer: u8, desk: &mut impl Desk) {
        if self.slaves >> peer & 1 != 0 {
            self.slaves &= !(1 << peer);
            self.measured &= !(1 << peer);
            desk.peer(Of::Leave, peer);
        }
    }

    fn ring(&mut self, tick: u64, alarm: usize, late: bool, desk: &mut impl Desk) {
        match (alarm, late) {
            (QUIET, _) => {
                self.become_role(Role::Loose, desk);
                self.search(tick, desk);
            }
            (SEARCH, _) | (ELECT, true) => self.arm_elect(tick, desk),
            (ELECT, false) if self.may_stand(tick) => self.stand(tick, desk),
            (ELECT, false) => {
                if let Role::Follow(_) = self.role {
                    self.become_role(Role::Loose, desk);
                }
                self.search(tick, desk);
            }
            (WINDOW, false) if !self.strict || self.sends.len() < 2 * self.backers as usize + 2 => {
                self.become_role(Role::Master, desk);
                self.arm(ROUND, tick, ROUND_TIME, desk);
                self.post_to_others(MASTERUP, desk);
            }
            (WINDOW, _) => self.give_way(tick, desk),
            (PROBE, false) => self.probe(tick, desk),
            (CLOSE, false) => self.close(tick, desk),
            (PROBE | CLOSE, true) => self.abandon(desk),
            (ALARM_RESOLVE, false) => {
                for peer in each(self.rivals) {
                    self.begin_own(peer, tick, QUIT, 0, desk);
                }
            }
            (ROUND, false) => self.begin_round(tick, desk),
            (ROUND, true) => self.arm(ROUND, tick, ROUND_TIME, desk),
            _ => {}
        }
    }

    fn probe(&mut self, tick: u64, desk: &mut impl Desk) {
        self.probes += 1;
        for peer in each(self.measured) {
            self.ask(tick, peer, desk);
        }
        if self.probes < 3 {
            self.arm(PROBE, tick, PROBE_TIME, desk);
        }
    }

    fn begin_round(&mut self, tick: u64, desk: &mut impl Desk) {
        self.arm(ROUND, tick, ROUND_TIME, desk);
        self.arm(PROBE, tick, PROBE_TIME, desk);
        self.arm(CLOSE, tick, CLOSE_TIME, desk);
        self.post_to_others(MASTERUP, desk);
        self.probes = 0;
        self.measured = self.slaves;
        for entry in &mut self.entries {
            (entry.asked, entry.open, entry.best) = (0, 0, None);
        }
        for peer in each(self.slaves) {
            self.ask(tick, peer, desk);
        }
    }

    fn ask(&mut self, tick: u64, peer: u8, desk: &mut impl Desk) {
        let (counter, start) = (self.asked, self.target(tick));
        self.asked = counter.wrapping_add(1);
        let entry = &mut self.entries[usize::from(peer)];
        let place = usize::from(entry.asked);
        (entry.counters[place], entry.starts[place]) = (counter, start);
        entry.open |= 1 << place;
        entry.asked += 1;
        desk.post(peer, Datagram { kind: REQUEST, name: 0, number: 0, a: self.word, b: counter, c: 0 });
    }

    fn abandon(&mut self, desk: &mut impl Desk) {
        (self.alarms[PROBE], self.alarms[CLOSE]) = (NEVER, NEVER);
        desk.abandon();
    }

    /// The largest group of near differences, the own clock's among them: its count, least, width and mean.
    fn group(&self) -> (usize, i64, i64, i64) {
        let mut values = [0; 64];
        let mut count = 1;
        for peer in each(self.measured) {
            if let Some(best) = self.entries[usize::from(peer)].best
                && best.diff.unsigned_abs() < FAR
            {
                values[count] = best.diff;
                count += 1;
            }
        }
        let values = &mut values[..count];
        values.sort_unstable();
        let (mut best, mut end, mut sum, mut mean) = (None, 0, 0i128, 0);
        for (start, lo) in values.iter().enumerate() {
            while end < values.len() && values[end] - lo <= SPAN {
                sum += i128::from(values[end]);
                end += 1;
            }
            let width = values[end - 1] - lo;
            let rank = (usize::MAX - (end - start), width, lo.unsigned_abs(), *lo);
            if best.is_none_or(|best| rank < best) {
                best = Some(rank);
                mean = sum.div_euclid((end - start) as i128) as i64;
            }
            sum -= i128::from(*lo);
        }
        let (left, width, _, lo) = best.unwrap();
        (usize::MAX - left, lo, width, mean)
    }

    fn close(&mut self, tick: u64, desk: &mut impl Desk) {
        let (count, lo, width, mean) = self.group();
        if !in_range(self.target(tick) + mean) {
            return self.abandon(desk);
        }
        desk.close(count, lo, width, mean);
        self.correct(tick, mean, false, desk);
        for peer in each(self.measured) {
            match self.entries[usize::from(peer)].best {
                None => self.leave(peer, desk),
                Some(best) if best.diff.unsigned_abs() < FAR => {
                    self.begin_correction(tick, peer, ADJTIME, best.ticket, mean - best.diff, desk)
                }
                Some(best) => self.set_time(tick, peer, best.ticket, desk),
            }
        }
    }

    fn set_time(&mut self, tick: u64, peer: u8, number: u16, desk: &mut impl Desk) {
        let target = self.target(tick);
        if in_range(target) {
            self.begin_correction(tick, peer, SETTIME, number, target, desk);
        }
    }

    fn begin_correction(&mut self, tick: u64, peer: u8, kind: u8, number: u16, time: i64, desk: &mut impl Desk) {
        let entry = &mut self.entries[usize::from(peer)];
        if is_past(entry.posted, REUSE, tick) || entry.acked && number == (entry.number + 1) % 32768 {
            (entry.posted, entry.number, entry.acked) = (tick, number, false);
            let datagram = Datagram { a: time as u64, ..Datagram::message(kind, number, self.name) };
            self.begin(peer, tick, datagram, desk);
        }
    }

    /// What follows from a datagram of another node or of a stranger.
    fn take(&mut self, tick: u64, from: u8, m: &Datagram, desk: &mut impl Desk) {
        match m.kind {
            REQUEST => {
                let reading = self.target(tick);
                if in_range(reading) {
                    desk.post(from, Datagram { kind: REPLY, name: 0, number: self.ticket, c: reading, ..*m });
                }
            }
            MSITE => {
                let name = match self.role {
                    Role::Master => self.name,
                    Role::Follow(_) => self.kept,
                    _ => self.empty,
                };
                desk.post(from, Datagram::message(ACK, m.number, name));
            }
            TRACEON | TRACEOFF => {
                desk.trace(m.kind == TRACEON);
                self.post(from, ACK, m.number, desk);
            }
            _ if self.role == Role::Starting => {}
            MSITEREQ => {
                if self.role == Role::Master {
                    self.post(from, ACK, m.number, desk);
                }
            }
            TEST => {
                self.post(from, ACK, m.number, desk);
                if matches!(self.role, Role::Loose | Role::Follow(_)) && self.may_stand(tick) {
                    self.stand(tick, desk);
                }
            }
            DATE | SETDATE => self.take_date(tick, from, m, desk),
            _ if from == NOBODY => {}
            _ => self.hear(tick, from, m, desk),
        }
    }

    /// What follows from a datagram that only a peer may send.
    fn hear(&mut self, tick: u64, p: u8, m: &Datagram, desk: &mut impl Desk) {
        match (m.kind, self.role) {
            (ACK, _) => {
                let fits = |kind| !matches!(kind, ELECTION | SETDATEREQ);
                if let Some(ADJTIME | SETTIME) = self.end(p, m.number, fits, desk) {
                    self.entries[usize::from(p)].acked = true;
                }
            }
            (QUIT, _) => {
                self.quitted = tick;
                desk.peer(Of::Quit, p);
                self.post(p, ACK, m.number, desk);
                if !matches!(self.role, Role::Follow(_)) {
                    self.follow(tick, p, m.name, desk);
                }
            }
            (DATEREQ | SETDATEREQ, Role::Master) => {
                let entry = &self.entries[usize::from(p)];
                if entry.dated != NEVER && entry.date == m.number && tick - entry.dated < DATEHOLD {
                    self.post(p, DATEACK, m.number, desk);
                } else if self.set_date(tick, p, m, desk) {
                    (self.entries[usize::from(p)].dated, self.entries[usize::from(p)].date) = (tick, m.number);
                }
            }
            (DATEACK, Role::Follow(_)) => {
                self.end(p, m.number, |kind| kind == SETDATEREQ, desk);
            }
            (_, Role::Loose | Role::Follow(_)) => self.hear_as_slave(tick, p, m, desk),
            (_, Role::Candidate) => self.hear_as_candidate(tick, p, m, desk),
            (_, Role::Master) => self.hear_as_master(tick, p, m, desk),
            _ => {}
        }
    }

    fn hear_as_slave(&mut self, tick: u64, p: u8, m: &Datagram, desk: &mut impl Desk) {
        match (m.kind, self.role) {
            (MASTERUP, Role::Follow(q)) if p == q => {
                self.arm_elect(tick, desk);
                self.post(p, SLAVEUP, self.ticket, desk);
            }
            (MASTERUP | MASTERACK, Role::Follow(q)) => {
                if p != q && self.sent(q).is_none() {
                    self.begin_own(q, tick, CONFLICT, 0, desk);
                }
            }
            (MASTERUP, _) => self.follow(tick, p, m.name, desk),
            (MASTERACK, _) => {
                if self.alarms[SEARCH] != NEVER {
                    self.follow(tick, p, m.name, desk);
                }
            }
            (ELECTION, _) => {
                if self.may_back(tick, p) {
                    self.back(tick, p, desk);
                    self.arm_elect(tick, desk);
                    self.post(p, ACCEPT, m.number, desk);
                } else {
                    self.post(p, REFUSE, m.number, desk);
                }
            }
            (ADJTIME | SETTIME, Role::Follow(q)) if p == q => self.take_correction(tick, p, m, desk),
            _ => {}
        }
    }

    fn take_correction(&mut self, tick: u64, p: u8, m: &Datagram, desk: &mut impl Desk) {
        let set = m.kind == SETTIME;
        let amount = if set { m.a as i64 - self.target(tick) } else { m.a as i64 };
        let fits = in_range(self.target(tick) + amount);
        if m.number == self.ticket && is_past(self.corrected, GAP, tick) && fits {
            self.correct(tick, amount, set, desk);
            self.taken = Some((p, m.number));
            self.arm_elect(tick, desk);
            self.post(p, ACK, m.number, desk);
        } else if self.taken == Some((p, m.number)) {
            self.post(p, ACK, m.number, desk);
        }
    }

    fn hear_as_candidate(&mut self, tick: u64, p: u8, m: &Datagram, desk: &mut impl Desk) {
        match m.kind {
            MASTERUP | MASTERACK => self.follow(tick, p, m.name, desk),
            ELECTION => self.post(p, REFUSE, m.number, desk),
            ACCEPT => {
                if self.end(p, m.number, |kind| kind == ELECTION, desk).is_some() {
                    self.backers += 1;
                    desk.peer(Of::Backer, p);
                }
            }
            REFUSE => {
                if self.end(p, m.number, |kind| kind == ELECTION, desk).is_some() {
                    self.give_way(tick, desk);
                }
            }
            _ => {}
        }
    }

    fn resolve(&mut self, tick: u64, desk: &mut impl Desk) {
        if self.alarms[ALARM_RESOLVE] == NEVER {
            self.arm(ALARM_RESOLVE, tick, WINDOW_TIME, desk);
            self.post_to_others(RESOLVE, desk);
        }
    }

    fn hear_as_master(&mut self, tick: u64, p: u8, m: &Datagram, desk: &mut impl Desk) {
        match m.kind {
            MASTERREQ | RESOLVE => self.post(p, MASTERACK, m.number, desk),
            SLAVEUP => {
                if m.number < 32768 && self.slaves >> p & 1 == 0 {
                    desk.peer(Of::Join, p);
                    self.slaves |= 1 << p;
                    self.set_time(tick, p, m.number, desk);
                }
            }
            ELECTION => {
                if self.sent(p).is_none_or(|sent| sent.kind != QUIT) {
                    self.begin_own(p, tick, QUIT, 0, desk);
                }
            }
            MASTERUP => self.resolve(tick, desk),
            CONFLICT => {
                self.post(p, ACK, m.number, desk);
                self.resolve(tick, desk);
            }
            MASTERACK => {
                if self.alarms[ALARM_RESOLVE] != NEVER && self.rivals >> p & 1 == 0 {
                    self.rivals |= 1 << p;
                    desk.peer(Of::Rival, p);
                }
            }
            REPLY => {
                if self.alarms[CLOSE] != NEVER && m.a == self.word {
                    self.sample(tick, p, m, desk);
                }
            }
            _ => {}
        }
    }

    fn sample(&mut self, tick: u64, p: u8, m: &Datagram, desk: &mut impl Desk) {
        let d = self.target(tick);
        let entry = &mut self.entries[usize::from(p)];
        let Some(place) = (0..4).find(|place| entry.open >> place & 1 != 0 && entry.counters[*place] == m.b) else {
            return;
        };
        entry.open &= !(1 << place);
        let trip = d - entry.starts[place];
        let half = trip.div_euclid(2);
        let sample = Sample { trip, diff: m.c - entry.starts[place] - half, err: trip - half, ticket: m.number };
        if entry.best.is_none_or(|best| trip < best.trip) {
            entry.best = Some(sample);
        }
        desk.sample(p, m.b, &sample);
    }

    fn take_date(&mut self, tick: u64, from: u8, m: &Datagram, desk: &mut impl Desk) {
        match self.role {
            Role::Follow(q) => {
                if is_past(self.passed, REUSE, tick) && self.sent(q).is_none() {
                    self.post(from, ACK, m.number, desk);
                    self.begin_own(q, tick, SETDATEREQ, m.a as i64, desk);
                    self.passed = tick;
                }
            }
            Role::Master => {
                self.set_date(tick, from, m, desk);
            }
            _ => {}
        }
    }

    fn set_date(&mut self, tick: u64, from: u8, m: &Datagram, desk: &mut impl Desk) -> bool {
        let settled = each(self.slaves).all(|p| {
            let entry = &self.entries[usize::from(p)];
            entry.acked || is_past(entry.posted, REUSE, tick)
        });
        let time = m.a as i64;
        if !settled || !is_past(self.corrected, GAP, tick) || !in_range(time) {
            return false;
        }
        self.correct(tick, time - self.target(tick), true, desk);
        self.post(from, DATEACK, m.number, desk);
        for peer in each(self.slaves) {
            self.leave(peer, desk);
        }
        self.post_to_others(MASTERUP, desk);
        if self.alarms[CLOSE] != NEVER {
            self.abandon(desk);
        }
        true
    }
}
