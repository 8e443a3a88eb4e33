//! The audit of a claimed trace on one network, by hand: what a promise asks of a line is decided by facts that are kept from line to
//! line, so that it takes a time linear in the lines. A schedule with networks, and a peer that no node is, end with status 9.

use crate::claims::{Act, Claims, Line, Premises, time_of};
use crate::node::{ACCEPT, ADJTIME, CLOSE, CONFLICT, ELECTION, GAP, HOLD, NEVER, NOBODY, Node, QUIT, REPLY, REQUEST, Role, SETDATEREQ, SETTIME};
use crate::schedule::{Event, Header, Stage, Stop, bad, event_of, lacking};
use crate::text::{Cursor, Lines, first_line};
use std::io::{self, Write};

const MOST_NODES: usize = 16;
const MOST_EVENTS: usize = 20_000;
/// No post, or no line.
const NONE: u32 = u32::MAX;
/// A bound that lies so far above a difference stays above it, however the clocks run, until one of them is moved.
const EASE: i128 = 8;

/// The best sample of a peer: its round trip, its error, and the true time of its reading, if that is known.
#[derive(Clone, Copy)]
struct Best {
    trip: i128,
    err: i64,
    reading: Option<u64>,
}

/// A Close: its line, how often its node had booted and corrected its clock by then, and the samples that it had.
struct Closing {
    line: u32,
    lives: u32,
    corrects: u32,
    bests: Vec<Option<Best>>,
}

/// What a Close began to correct: its master and line, the master's counts, and the reading and its error.
#[derive(Clone, Copy)]
struct Cast {
    master: u8,
    close: u32,
    lives: u32,
    corrects: u32,
    at: u64,
    err: i64,
}

/// What is known of a post: the send that it is of, what began that, and how far the clocks of both its ends were moved.
#[derive(Clone, Copy)]
struct Sent {
    send: u32,
    cast: Option<Cast>,
    acted: bool,
    moved: [i128; 2],
}

/// What is known of a node.
struct Facts {
    role: Role,
    moved: i128,
    lives: u32,
    corrects: u32,
    corrected: u64,
    /// The last candidate that it backed and the last other one, with the ticks.
    backs: [(u8, u64); 2],
    going: bool,
    /// Of each peer: the open requests of a round by counter, the best sample, and the last send with the open one.
    asked: Vec<Vec<(u64, i128)>>,
    bests: Vec<Option<Best>>,
    begun: Vec<u32>,
    open: Vec<u32>,
    /// Of the step that it is in.
    step: Step,
    /// Which act stood before its last correction, and what that came of.
    after: u32,
    cast: Option<Cast>,
}

#[derive(Default)]
struct Step {
    event: u32,
    took: bool,
    acting: bool,
    backed: Option<u8>,
    unbacked: bool,
    closing: Option<Closing>,
}

impl Facts {
    fn new(nodes: usize) -> Facts {
        Facts {
            role: Role::Starting, moved: 0, lives: 0, corrects: 0, corrected: NEVER, backs: [(NOBODY, 0); 2], going: false,
            asked: vec![Vec::new(); nodes], bests: vec![None; nodes], begun: vec![NONE; nodes], open: vec![NONE; nodes],
            step: Step::default(), after: NONE, cast: None,
        }
    }

    fn forget_requests(&mut self) {
        for asked in &mut self.asked {
            asked.clear();
        }
    }

    /// Whether a Back at this tick keeps the hold.
    fn holds(&self, p: u8, tick: u64) -> bool {
        let other = if self.backs[0].0 == p { self.backs[1] } else { self.backs[0] };
        other.0 == NOBODY || other.1 + HOLD <= tick
    }

    fn back(&mut self, p: u8, tick: u64) {
        if self.backs[0].0 != p {
            self.backs[1] = self.backs[0];
        }
        self.backs[0] = (p, tick);
        self.step.backed = Some(p);
    }

    /// A life or a role begins: what a round and sends left is gone.
    fn begin(&mut self, role: Role) {
        self.role = role;
        self.going = false;
        self.forget_requests();
        self.bests.fill(None);
        self.open.fill(NONE);
    }
}

struct Audit<'a> {
    claims: &'a Claims,
    premises: Premises,
    facts: Vec<Facts>,
    sent: Vec<Sent>,
    /// Whether the act before is a Close.
    closes: bool,
    /// The least part that fails in the event at hand.
    part: u8,
    /// Whether clocks agree for as long as none is moved.
    eased: bool,
}

fn half_up(trip: i128) -> i128 {
    -(-trip).div_euclid(2)
}

impl Audit<'_> {
    fn all_kept(&self) -> bool {
        self.premises.honest && self.premises.life && self.premises.words
    }

    fn clock(&self, node: u8, moved: i128, at: u64) -> i128 {
        let it: &Node = &self.claims.nodes[usize::from(node)];
        i128::from(it.wall) + moved + i128::from(it.tick(at))
    }

    fn facts(&mut self, node: u8) -> &mut Facts {
        &mut self.facts[usize::from(node)]
    }

    /// A part is kept, or fails.
    fn asks(&mut self, part: u8, kept: bool) {
        if !kept {
            self.part = self.part.min(part);
        }
    }

    /// Looks at all lines, and gives the least event in which a part fails, and the part.
    fn judge(&mut self) -> Option<(u8, u32)> {
        let lines = &self.claims.lines;
        for (index, line) in lines.iter().enumerate() {
            if self.facts(line.node).step.event != line.event {
                self.facts(line.node).step = Step { event: line.event, ..Step::default() };
            }
            self.line(index as u32, line);
            if lines.get(index + 1).is_none_or(|next| next.event != line.event) {
                let settled = !self.facts(line.node).step.unbacked;
                self.asks(12, settled);
                if self.part < u8::MAX {
                    return Some((self.part, line.event));
                }
            }
        }
        None
    }

    fn line(&mut self, index: u32, line: &Line) {
        let closes = std::mem::replace(&mut self.closes, matches!(line.act, Act::Close));
        match line.act {
            Act::Boot => self.boot(line.node),
            Act::Become(role) => {
                let facts = self.facts(line.node);
                facts.begin(role);
                facts.step.unbacked |= role == Role::Candidate;
            }
            Act::Back(p) => {
                let kept = self.facts(line.node).holds(p, line.tick);
                self.asks(12, kept);
                let facts = self.facts(line.node);
                facts.back(p, line.tick);
                facts.step.unbacked &= p != line.node;
            }
            Act::Ended(p, acked) => self.end(line.node, p, acked),
            Act::Alarm(alarm, armed) => self.alarm(line.node, alarm, armed),
            Act::Sample { peer, counter, diff, err } => self.sample(line, peer, counter, diff, err),
            Act::Close => self.close(index, line.node),
            Act::Correct(amount) => self.correct(index, line, amount, closes),
            Act::Abandon => {
                let facts = self.facts(line.node);
                facts.going = false;
                facts.forget_requests();
            }
            Act::Took => {
                let step = &mut self.facts(line.node).step;
                (step.took, step.acting) = (true, true);
            }
            Act::Post(k) => self.post(line, k),
            Act::Other => {}
        }
        if self.all_kept() && !self.eased {
            self.agree(line);
        }
    }

    fn boot(&mut self, node: u8) {
        let facts = self.facts(node);
        facts.begin(Role::Starting);
        facts.begun.fill(NONE);
        (facts.moved, facts.corrected, facts.cast) = (0, NEVER, None);
        facts.lives += 1;
        self.eased = false;
    }

    /// A send to a peer ends: a correction that is acknowledged was taken.
    fn end(&mut self, node: u8, peer: u8, acked: bool) {
        let open = std::mem::replace(&mut self.facts(node).open[usize::from(peer)], NONE);
        if acked && open != NONE && self.all_kept() {
            let corrects = matches!(self.claims.posts[open as usize].m.kind, ADJTIME | SETTIME);
            self.asks(14, self.sent[open as usize].acted || !corrects);
        }
    }

    fn alarm(&mut self, node: u8, alarm: usize, armed: bool) {
        let facts = self.facts(node);
        if !armed {
            facts.step.acting = true;
        }
        if alarm == CLOSE {
            facts.going = armed;
            facts.forget_requests();
            if armed {
                facts.bests.fill(None);
            }
        }
    }

    /// The post that the step of a line takes.
    fn came(&self, line: &Line) -> Option<usize> {
        match self.claims.events[line.event as usize - 1] {
            Event::Take { datagram, .. } => Some(datagram as usize),
            _ => None,
        }
    }

    fn sample(&mut self, line: &Line, peer: u8, counter: u64, diff: i64, err: i64) {
        let now = self.clock(line.node, self.facts[usize::from(line.node)].moved, time_of(&self.claims.events[line.event as usize - 1]));
        let came = self.came(line);
        let facts = self.facts(line.node);
        let going = facts.going;
        let asked = &mut facts.asked[usize::from(peer)];
        let start = asked.iter().position(|(it, _)| *it == counter).map(|place| asked.swap_remove(place).1);
        let trip = now - start.unwrap_or(0);
        if self.premises.honest && self.premises.words {
            let trips_well = going && start.is_some() && i128::from(err) == half_up(trip);
            self.asks(15, trips_well && self.errs_little(line, came, peer, diff, err));
        }
        let reading = came.map(|k| self.claims.posts[k].at);
        let best = &mut self.facts(line.node).bests[usize::from(peer)];
        if best.is_none_or(|best| trip < best.trip) {
            *best = Some(Best { trip, err, reading });
        }
    }

    /// Whether a sample has a reading, from which it errs by at most its err.
    fn errs_little(&self, line: &Line, came: Option<usize>, peer: u8, diff: i64, err: i64) -> bool {
        let Some(k) = came else {
            return false;
        };
        let post = &self.claims.posts[k];
        if post.m.kind != REPLY || post.node != peer || post.to != line.node {
            return false;
        }
        let moved = self.sent[k].moved;
        let ahead = self.clock(peer, moved[0], post.at) - self.clock(line.node, moved[1], post.at);
        (i128::from(diff) - ahead).abs() <= i128::from(err)
    }

    fn close(&mut self, index: u32, node: u8) {
        let leads = self.facts(node).role == Role::Master;
        self.asks(13, leads);
        let facts = self.facts(node);
        let closing = Closing { line: index, lives: facts.lives, corrects: facts.corrects, bests: facts.bests.clone() };
        facts.step.closing = Some(closing);
    }

    /// The message that the step of a line brings to its node.
    fn brought(&self, line: &Line) -> Option<usize> {
        self.came(line).filter(|k| self.claims.posts[*k].to == line.node && self.claims.posts[*k].m.kind <= 24)
    }

    fn correct(&mut self, index: u32, line: &Line, amount: i64, closes: bool) {
        let role = self.facts(line.node).role;
        self.asks(13, !closes || role == Role::Master);
        let corrected = self.facts(line.node).corrected;
        self.asks(14, corrected == NEVER || corrected + GAP <= line.tick);
        let brought = self.brought(line);
        if let Role::Follow(master) = role
            && self.premises.honest
        {
            self.asks(14, brought.is_some_and(|k| self.obeys(line, k, master, amount)));
        }
        let taken = brought.filter(|_| self.facts[usize::from(line.node)].step.took);
        let send = taken.map(|k| self.sent[k].send).filter(|send| *send != NONE);
        let mut cast = None;
        if let Some(send) = send {
            let sent = &mut self.sent[send as usize];
            let again = std::mem::replace(&mut sent.acted, true);
            cast = sent.cast;
            let kept = !again || !self.all_kept();
            self.asks(14, kept);
        }
        let facts = self.facts(line.node);
        facts.moved += i128::from(amount);
        facts.corrects += 1;
        (facts.corrected, facts.after, facts.cast) = (line.tick, index.wrapping_sub(1), cast);
        self.eased = false;
    }

    /// Whether a follower's correction is what its master says.
    fn obeys(&self, line: &Line, k: usize, master: u8, amount: i64) -> bool {
        let post = &self.claims.posts[k];
        let target = self.clock(line.node, self.facts[usize::from(line.node)].moved, time_of(&self.claims.events[line.event as usize - 1]));
        let said = i128::from(post.m.a as i64);
        let moves = match post.m.kind {
            ADJTIME => i128::from(amount) == said,
            SETTIME => i128::from(amount) == said - target,
            _ => false,
        };
        post.node == master && moves
    }

    fn post(&mut self, line: &Line, k: u32) {
        let post = &self.claims.posts[k as usize];
        let peer = usize::from(post.to);
        let mut sent = Sent { send: NONE, cast: None, acted: false, moved: [0; 2] };
        match post.m.kind {
            REPLY if post.to != NOBODY => sent.moved = [self.facts(line.node).moved, self.facts(post.to).moved],
            REQUEST if post.to != NOBODY => self.ask(line, post.to, post.m.b),
            ACCEPT => {
                let kept = self.facts(line.node).step.backed == Some(post.to);
                self.asks(12, kept);
            }
            ELECTION => {
                let kept = !self.facts(line.node).step.unbacked;
                self.asks(12, kept);
            }
            _ => {}
        }
        if matches!(post.m.kind, ADJTIME | SETTIME) {
            let leads = self.facts(line.node).role == Role::Master;
            self.asks(13, leads);
        }
        if matches!(post.m.kind, ADJTIME | SETTIME | ELECTION | CONFLICT | QUIT | SETDATEREQ) && post.to != NOBODY {
            if self.facts(line.node).step.acting {
                (self.facts(line.node).begun[peer], self.facts(line.node).open[peer]) = (k, k);
                if post.m.kind == ADJTIME {
                    sent.cast = self.cast(line.node, peer);
                }
            }
            sent.send = self.facts(line.node).begun[peer];
        }
        self.sent.push(sent);
    }

    /// A request goes off in a round.
    fn ask(&mut self, line: &Line, to: u8, counter: u64) {
        let now = self.clock(line.node, self.facts[usize::from(line.node)].moved, time_of(&self.claims.events[line.event as usize - 1]));
        let asked = &mut self.facts(line.node).asked[usize::from(to)];
        match asked.iter_mut().find(|(it, _)| *it == counter) {
            Some((_, start)) => *start = now,
            None => asked.push((counter, now)),
        }
    }

    /// What an ADJTIME to a peer comes of that begins: the Close of its step, which needs a sample of the peer.
    fn cast(&mut self, master: u8, peer: usize) -> Option<Cast> {
        let closing = self.facts[usize::from(master)].step.closing.as_ref()?;
        let Some(best) = closing.bests[peer] else {
            if self.all_kept() {
                self.asks(16, false);
            }
            return None;
        };
        let (close, lives, corrects) = (closing.line, closing.lives, closing.corrects);
        best.reading.map(|at| Cast { master, close, lives, corrects, at, err: best.err })
    }

    /// At most by how much a clock has drifted since a reading.
    fn drifted(&self, at: u64, reading: u64) -> i128 {
        let time = u128::from(at.saturating_sub(reading));
        ((u128::from(self.claims.drift) * time).div_ceil(1_000_000) + 1) as i128
    }

    /// Whether the clocks that one Close corrected agree, also with the master's, at a line.
    fn agree(&mut self, line: &Line) {
        let at = time_of(&self.claims.events[line.event as usize - 1]);
        let mut ease = i128::MAX;
        for (node, a) in self.facts.iter().enumerate() {
            let Some(c) = &a.cast else {
                continue;
            };
            let (own, most) = (self.clock(node as u8, a.moved, at), i128::from(c.err) + 2 * self.drifted(at, c.at));
            for (other, b) in self.facts.iter().enumerate() {
                if let Some(d) = &b.cast
                    && (c.master, c.close) == (d.master, d.close)
                {
                    let both = most + i128::from(d.err) + 2 * self.drifted(at, d.at);
                    ease = ease.min(both - (own - self.clock(other as u8, b.moved, at)).abs());
                }
            }
            let b = &self.facts[usize::from(c.master)];
            if c.lives == b.lives && (c.corrects == b.corrects || b.after == c.close) {
                ease = ease.min(most - (own - self.clock(c.master, b.moved, at)).abs());
            }
        }
        self.eased = ease >= EASE;
        self.asks(16, ease >= 0);
    }
}

/// What was read of an audit's input.
struct Input {
    header: Header,
    events: Vec<Event>,
    up: u64,
    last: u64,
    octets: [u8; 300],
    claims: Option<Claims>,
}

impl Input {
    /// Treats the first of several lines, and gives its octets.
    fn next(&mut self, number: u64, lines: &[u8]) -> Result<usize, Stop> {
        let mut words = Cursor { rest: lines };
        if let Some(claims) = &mut self.claims {
            claims.line(&mut words)?;
            return Ok(lines.len() - words.rest.len());
        }
        if self.header.stage == Stage::Events
            && let Some(event) = event_of(&mut words, &mut self.octets)
        {
            self.event(event)?;
            return Ok(lines.len() - words.rest.len());
        }
        let line = first_line(lines);
        match self.header.stage {
            Stage::Events if line == b"end" => {
                self.header.stage = Stage::Over;
                let (nodes, events) = (std::mem::take(&mut self.header.nodes), std::mem::take(&mut self.events));
                self.claims = Some(Claims::new(nodes, self.header.drift, events));
            }
            Stage::Events => return bad("line"),
            _ => {
                if self.header.ends_before(number, line)? {
                    return self.next(number, lines);
                }
                if self.header.nodes.len() > MOST_NODES {
                    return Err(Stop::Limit);
                }
            }
        }
        Ok(line.len() + 1)
    }

    fn event(&mut self, event: Event) -> Result<(), Stop> {
        let at = time_of(&event);
        if at < self.last {
            return Err(Stop::Bad(format!("time-back {at} {}", self.last)));
        }
        let nodes = self.header.nodes.len();
        match event {
            Event::Boot { node, .. } => {
                lacking(nodes, node, 0, None)?;
            }
            Event::Turn { node, .. } => self.check(node, 0, None)?,
            Event::Bytes { node, port, from, .. } => self.check(node, port, from)?,
            Event::Take { .. } => {}
        }
        if self.events.len() >= MOST_EVENTS {
            return Err(Stop::Limit);
        }
        if let Event::Boot { node, .. } = event {
            self.up |= 1 << node;
        }
        self.last = at;
        self.events.push(event);
        Ok(())
    }

    fn check(&self, node: u32, port: u8, from: Option<u32>) -> Result<(), Stop> {
        let place = lacking(self.header.nodes.len(), node, port, from)?;
        if self.up >> place & 1 == 0 { Err(Stop::Bad(format!("not-up {node}"))) } else { Ok(()) }
    }
}

fn refuse(number: u64, stop: Stop) -> io::Result<i32> {
    match stop {
        Stop::Bad(cause) => writeln!(io::stdout(), "bad {number} {cause}").map(|()| 2),
        Stop::Limit => writeln!(io::stdout(), "limit {number}").map(|()| 7),
    }
}

/// Reads a schedule and the lines that are claimed of it, writes the verdict, and gives the status.
pub fn audit() -> io::Result<i32> {
    let mut lines = Lines::new(io::stdin().lock());
    let mut input = Input { header: Header::new(), events: Vec::new(), up: 0, last: 0, octets: [0; 300], claims: None };
    let (mut kept, mut number) = (0, 0);
    while lines.fill(&mut kept)? {
        while lines.is_ready() {
            number += 1;
            match input.next(number, lines.rest()) {
                Ok(count) => lines.pass(count),
                Err(stop) => return refuse(number, stop),
            }
        }
    }
    let Some(mut claims) = input.claims else {
        return refuse(number + 1, Stop::Bad(input.header.lacks().unwrap_or("no-end").to_string()));
    };
    if let Err(stop) = claims.end() {
        return refuse(number + 1, stop);
    }
    let facts = claims.nodes.iter().map(|_| Facts::new(claims.nodes.len())).collect();
    let premises = claims.premises;
    let mut audit = Audit { claims: &claims, premises, facts, sent: Vec::new(), closes: false, part: u8::MAX, eased: true };
    match audit.judge() {
        None => writeln!(io::stdout(), "holds").map(|()| 0),
        Some((part, event)) => writeln!(io::stdout(), "fails D{part} {event}").map(|()| 0),
    }
}
