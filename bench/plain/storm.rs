//! The generator: a schedule from a number, which is run and counted. Of what was posted the last 256 are enough.

use crate::node::{Datagram, Desk, NOBODY, Node, Of, REQUEST, Role, Sample};
use crate::replay::{MOST_EVENTS, MOST_POSTS};
use std::io::{self, BufWriter, StdoutLock, Write};

const RECENT: u64 = 20_000_000;

/// A datagram that was posted, with the nodes that it went from and to, and when.
#[derive(Clone, Copy)]
struct Post {
    datagram: Datagram,
    at: u64,
    from: u8,
    to: u8,
}

/// A desk that counts acts.
struct Counts {
    posts: Vec<Post>,
    posted: u64,
    took: u64,
    corrects: u64,
    masters: u64,
    at: u64,
    node: u8,
}

impl Desk for Counts {
    fn boot(&mut self) {}

    fn role(&mut self, role: Role) {
        self.masters += u64::from(role == Role::Master);
    }

    fn peer(&mut self, _: Of, _: u8) {}

    fn arm(&mut self, _: usize, _: u64) {}

    fn ring(&mut self, _: usize, _: bool) {}

    fn took(&mut self, _: u8, _: &Result<Datagram, &'static str>) {
        self.took += 1;
    }

    fn post(&mut self, to: u8, datagram: Datagram) {
        self.posts[self.posted as usize % 256] = Post { datagram, at: self.at, from: self.node, to };
        self.posted += 1;
    }

    fn sample(&mut self, _: u8, _: u64, _: &Sample) {}

    fn close(&mut self, _: usize, _: i64, _: i64, _: i64) {}

    fn correct(&mut self, _: i64, _: bool, _: i64) {
        self.corrects += 1;
    }

    fn abandon(&mut self) {}

    fn trace(&mut self, _: bool) {}
}

struct Draws {
    state: u64,
}

impl Draws {
    fn next(&mut self) -> u64 {
        self.state = self.state.wrapping_mul(6_364_136_223_846_793_005).wrapping_add(1_442_695_040_888_963_407);
        self.state
    }

    fn below(&mut self, most: u64) -> u64 {
        (self.next() >> 33) % most
    }
}

/// An event but a boot: of the node that would act, or of none, and what comes in there, which may be a post.
struct Event {
    node: u8,
    from: u8,
    post: Option<u64>,
    input: Option<Result<Datagram, &'static str>>,
}

/// Draws an event.
fn draw(draws: &mut Draws, desk: &mut Counts, count: u64) -> Event {
    desk.at += draws.below(20_001);
    let choice = draws.below(8);
    if (4..7).contains(&choice) && desk.posted > 0 {
        let k = desk.posted - 1 - draws.below(desk.posted.min(4 * count));
        let post = &desk.posts[k as usize % 256];
        if desk.at - post.at <= RECENT {
            return Event { node: post.to, from: post.from, post: Some(k), input: Some(Ok(post.datagram)) };
        }
    }
    let node = draws.below(count) as u8;
    let request = Datagram { kind: REQUEST, name: 0, number: 0, a: draws.state, b: 0, c: 0 };
    Event { node, from: NOBODY, post: None, input: (choice == 7).then_some(Ok(request)) }
}

/// The line of an event in a schedule.
fn write_event(schedule: &mut impl Write, at: u64, event: &Event) -> io::Result<()> {
    match (event.post, event.input) {
        (Some(k), _) => writeln!(schedule, "at {at} take {k}"),
        (None, Some(Ok(request))) => writeln!(schedule, "at {at} bytes {} - 80010000{:016x}{:032x}", event.node, request.a, 0),
        _ => writeln!(schedule, "at {at} turn {}", event.node),
    }
}

fn happen(node: &mut Node, event: &Event, desk: &mut Counts) {
    let tick = node.tick(desk.at);
    desk.node = event.node;
    if event.input.is_some() || !node.is_idle(tick) {
        node.step(tick, event.from, event.input.as_ref(), desk);
    }
}

/// A storm, and where its schedule goes, if it is asked for.
struct Storm {
    draws: Draws,
    nodes: Vec<Node>,
    desk: Counts,
    schedule: Option<BufWriter<StdoutLock<'static>>>,
}

impl Storm {
    /// So many nodes, none of which has booted.
    fn new(seed: u64, count: u64, writes_schedule: bool) -> io::Result<Storm> {
        let unposted = Post { datagram: Datagram { kind: 0, name: 0, number: 0, a: 0, b: 0, c: 0 }, at: 0, from: 0, to: 0 };
        let desk = Counts { posts: vec![unposted; 256], posted: 0, took: 0, corrects: 0, masters: 0, at: 0, node: 0 };
        let schedule = writes_schedule.then(|| BufWriter::new(io::stdout().lock()));
        let mut storm = Storm { draws: Draws { state: seed }, nodes: Vec::new(), desk, schedule };
        storm.write(|schedule| schedule.write_all(b"tsp-schedule 1\ndrift 100\n"))?;
        for own in 0..count {
            let rate = storm.draws.below(201) as i64 - 100;
            let wall = storm.draws.below(2_000_001) as i64 - 1_000_000;
            storm.nodes.push(Node::new(own as u8, rate, wall, true));
            storm.nodes[own as usize].join(count as usize, false, 0);
            storm.write(|schedule| writeln!(schedule, "node n{own} {rate} {wall} m"))?;
        }
        Ok(storm)
    }

    #[inline]
    fn write(&mut self, line: impl FnOnce(&mut BufWriter<StdoutLock<'static>>) -> io::Result<()>) -> io::Result<()> {
        self.schedule.as_mut().map_or(Ok(()), line)
    }

    fn boot(&mut self, own: u64) -> io::Result<()> {
        let word = self.draws.next();
        self.nodes[own as usize].boot(0, word, &mut self.desk);
        self.write(|schedule| writeln!(schedule, "at 0 boot {own} {word}"))
    }

    /// Lets an event more happen; false where there is no room for it.
    fn step(&mut self, event: u64) -> io::Result<bool> {
        let count = self.nodes.len() as u64;
        let drawn = draw(&mut self.draws, &mut self.desk, count);
        let is_full = self.desk.posted + 24 * count + 256 > MOST_POSTS as u64;
        if event >= MOST_EVENTS || drawn.node != NOBODY && is_full {
            return Ok(false);
        }
        if self.schedule.is_some() {
            let at = self.desk.at;
            self.write(|schedule| write_event(schedule, at, &drawn))?;
        }
        if drawn.node != NOBODY {
            happen(&mut self.nodes[usize::from(drawn.node)], &drawn, &mut self.desk);
        }
        Ok(true)
    }
}

/// Runs a storm, writes its summary or its schedule, and gives the status.
pub fn storm(seed: u64, count: u64, events: u64, writes_schedule: bool) -> io::Result<i32> {
    let mut storm = Storm::new(seed, count, writes_schedule)?;
    for event in 0..events {
        if event < count {
            storm.boot(event)?;
        } else if !storm.step(event)? {
            writeln!(io::stdout(), "limit {}", event + 1)?;
            return Ok(7);
        }
    }
    if writes_schedule {
        storm.write(|schedule| schedule.write_all(b"end\n").and_then(|()| schedule.flush()))?;
        return Ok(0);
    }
    let Counts { posted, took, corrects, masters, .. } = storm.desk;
    writeln!(io::stdout(), "events {events} posted {posted} took {took} corrects {corrects} masters {masters}")?;
    Ok(0)
}
