//! The replay of a schedule on one network: a schedule with networks ends with status 9.

use crate::node::{ALARMS, Datagram, Desk, NOBODY, Node, Of, REPLY, Role, Sample};
use crate::schedule::{Event, Header, Stage, Stop, bad, event_of, lacking};
use crate::text::{Cursor, Lines, Name, Output, decode, first_line, put_datagram};
use std::io::{self, Write};

pub const MOST_EVENTS: u64 = 200_000;
pub const MOST_POSTS: usize = 1_000_000;

/// A datagram that was posted, with the nodes that it went from and to.
struct Post {
    datagram: Datagram,
    from: u8,
    to: u8,
}

/// A desk that writes each act as its line.
struct Trace<W> {
    out: Output<W>,
    names: Vec<Name>,
    posts: Vec<Post>,
    event: u64,
    node: u8,
    tick: u64,
    /// The words before each act of the event, where it had one already.
    head: [u8; 32],
    count: usize,
    /// Where in the output the word and the counter of a request stand that was taken last.
    word: (usize, usize),
}

impl<W: Write> Trace<W> {
    /// An event begins, of which no act was put yet.
    fn begin(&mut self, node: u8, tick: u64) {
        (self.node, self.tick, self.count) = (node, tick, 0);
    }

    fn head(&mut self) {
        self.out.reserve();
        if self.count == 0 {
            self.first_head();
        } else {
            let (head, count) = (self.head, self.count);
            self.out.front(&head, count);
        }
    }

    fn first_head(&mut self) {
        let from = self.out.at;
        self.out.number(self.event);
        self.out.octet(b' ');
        self.out.number(u64::from(self.node));
        self.out.put(b" 0 ");
        self.out.number(self.tick);
        self.out.octet(b' ');
        self.count = self.out.at - from;
        self.head = self.out.since(from);
    }

    fn place(&mut self, peer: u8) {
        match peer {
            NOBODY => self.out.octet(b'-'),
            _ => self.out.number(u64::from(peer)),
        }
    }

    fn end_with_number(&mut self, value: u64) {
        self.out.number(value);
        self.out.octet(b'\n');
    }
}

impl<W: Write> Desk for Trace<W> {
    fn boot(&mut self) {
        self.head();
        self.out.put(b"boot\n");
    }

    fn role(&mut self, role: Role) {
        self.head();
        self.out.put(b"become ");
        match role {
            Role::Starting => self.out.put(b"starting\n"),
            Role::Loose => self.out.put(b"loose\n"),
            Role::Candidate => self.out.put(b"candidate\n"),
            Role::Master => self.out.put(b"master\n"),
            Role::Follow(master) => {
                self.out.put(b"follow ");
                self.end_with_number(u64::from(master));
            }
        }
    }

    fn peer(&mut self, act: Of, peer: u8) {
        self.head();
        match act {
            Of::Back => self.out.put(b"back "),
            Of::Backer => self.out.put(b"backer "),
            Of::Quit => self.out.put(b"quit "),
            Of::Join => self.out.put(b"join "),
            Of::Leave => self.out.put(b"leave "),
            Of::Rival => self.out.put(b"rival "),
            Of::Acked => self.out.put(b"acked "),
            Of::Gave => self.out.put(b"gave "),
        }
        self.end_with_number(u64::from(peer));
    }

    fn arm(&mut self, alarm: usize, at: u64) {
        self.head();
        self.out.put(b"arm ");
        self.out.text(ALARMS[alarm].as_bytes());
        self.out.octet(b' ');
        self.end_with_number(at);
    }

    fn ring(&mut self, alarm: usize, late: bool) {
        self.head();
        if late { self.out.put(b"late ") } else { self.out.put(b"ring ") }
        self.out.text(ALARMS[alarm].as_bytes());
        self.out.octet(b'\n');
    }

    fn took(&mut self, from: u8, taken: &Result<Datagram, &'static str>) {
        self.head();
        self.out.put(b"took ");
        self.place(from);
        self.out.octet(b' ');
        match taken {
            Ok(datagram) => {
                let at = self.out.at;
                put_datagram(&mut self.out, datagram, &self.names);
                self.word = (at + b"request ".len(), self.out.at - 1);
            }
            Err(fault) => {
                self.out.put(b"refused ");
                self.out.text(fault.as_bytes());
                self.out.octet(b'\n');
            }
        }
    }

    fn post(&mut self, to: u8, datagram: Datagram) {
        self.head();
        self.out.put(b"post ");
        self.out.number(self.posts.len() as u64);
        self.out.octet(b' ');
        self.place(to);
        self.out.octet(b' ');
        if datagram.kind == REPLY {
            // (it answers the request that was just taken, of which the output has two numbers)
            self.out.put(b"reply ");
            self.out.number(u64::from(datagram.number));
            self.out.octet(b' ');
            let (from, end) = self.word;
            self.out.again(from, end);
            self.out.octet(b' ');
            self.out.signed(datagram.c);
            self.out.octet(b'\n');
        } else {
            put_datagram(&mut self.out, &datagram, &self.names);
        }
        self.posts.push(Post { datagram, from: self.node, to });
    }

    fn sample(&mut self, peer: u8, counter: u64, sample: &Sample) {
        self.head();
        self.out.put(b"sample ");
        self.out.number(u64::from(peer));
        self.out.octet(b' ');
        self.out.number(counter);
        self.out.octet(b' ');
        self.out.signed(sample.diff);
        self.out.octet(b' ');
        self.out.signed(sample.err);
        self.out.octet(b' ');
        self.end_with_number(u64::from(sample.ticket));
    }

    fn close(&mut self, count: usize, lo: i64, width: i64, mean: i64) {
        self.head();
        self.out.put(b"close ");
        self.out.number(count as u64);
        self.out.octet(b' ');
        self.out.signed(lo);
        self.out.octet(b' ');
        self.out.signed(width);
        self.out.octet(b' ');
        self.out.signed(mean);
        self.out.octet(b'\n');
    }

    fn correct(&mut self, amount: i64, stepped: bool, shown: i64) {
        self.head();
        self.out.put(b"correct ");
        self.out.signed(amount);
        if stepped { self.out.put(b" step ") } else { self.out.put(b" slew ") }
        self.out.signed(shown);
        self.out.octet(b'\n');
    }

    fn abandon(&mut self) {
        self.head();
        self.out.put(b"abandon\n");
    }

    fn trace(&mut self, on: bool) {
        self.head();
        if on { self.out.put(b"trace on\n") } else { self.out.put(b"trace off\n") }
    }
}

struct Replay<W> {
    header: Header,
    nodes: Vec<Node>,
    desk: Trace<W>,
    last: u64,
    octets: [u8; 300],
}

impl<W: Write> Replay<W> {
    fn new(out: W) -> Replay<W> {
        let desk = Trace {
            out: Output::new(out), names: Vec::new(), posts: Vec::new(), event: 0, node: 0, tick: 0, head: [0; 32],
            count: 0, word: (0, 0),
        };
        Replay { header: Header::new(), nodes: Vec::new(), desk, last: 0, octets: [0; 300] }
    }

    /// Treats the first of several lines, and gives its octets.
    #[inline]
    fn next(&mut self, number: u64, lines: &[u8]) -> Result<usize, Stop> {
        if self.header.stage == Stage::Events {
            let mut words = Cursor { rest: lines };
            if let Some(event) = event_of(&mut words, &mut self.octets) {
                return self.event(event).map(|()| lines.len() - words.rest.len());
            }
        }
        self.line(number, first_line(lines), lines)
    }

    /// Treats a line that is no event of those behind the first.
    #[cold]
    #[inline(never)]
    fn line(&mut self, number: u64, line: &[u8], lines: &[u8]) -> Result<usize, Stop> {
        match self.header.stage {
            Stage::Over => return bad("after-end"),
            Stage::Events if line == b"end" => self.header.stage = Stage::Over,
            Stage::Events => return bad("line"),
            _ => {
                if self.header.ends_before(number, line)? {
                    self.begin();
                    return self.next(number, lines);
                }
            }
        }
        Ok(line.len() + 1)
    }

    /// The header is whole.
    fn begin(&mut self) {
        self.nodes = std::mem::take(&mut self.header.nodes);
        let (count, empty) = (self.nodes.len(), self.header.names.len() as u16);
        self.header.names.push(Vec::new());
        self.desk.names = self.header.names.iter().map(|name| Name::of(name)).collect();
        for node in &mut self.nodes {
            node.join(count, self.header.strict, empty);
        }
    }

    #[inline]
    fn event(&mut self, event: Event) -> Result<(), Stop> {
        match event {
            Event::Turn { at, node } => self.turn(at, node),
            Event::Take { at, datagram } => self.take(at, datagram),
            Event::Boot { at, node, word } => self.boot(at, node, word),
            Event::Bytes { at, node, port, from, count } => self.hand(at, node, port, from, count),
        }
    }

    /// Refuses a time before the last one's.
    fn time(&self, at: u64) -> Result<(), Stop> {
        if at < self.last {
            return Err(Stop::Bad(format!("time-back {at} {}", self.last)));
        }
        Ok(())
    }

    /// Refuses an event of a node that there isn't, or for which there is no room.
    #[inline]
    fn check(&mut self, at: u64, node: u32, up: bool) -> Result<usize, Stop> {
        self.time(at)?;
        let (nodes, place) = (self.nodes.len(), node as usize);
        if place >= nodes {
            return lacking(nodes, node, 0, None);
        }
        if up && !self.nodes[place].up {
            return Err(Stop::Bad(format!("not-up {node}")));
        }
        if self.desk.event >= MOST_EVENTS || self.desk.posts.len() + 24 * nodes + 256 > MOST_POSTS {
            return Err(Stop::Limit);
        }
        self.last = at;
        self.desk.event += 1;
        Ok(place)
    }

    fn boot(&mut self, at: u64, node: u32, word: u64) -> Result<(), Stop> {
        let place = self.check(at, node, false)?;
        let node = &mut self.nodes[place];
        let tick = node.tick(at);
        self.desk.begin(place as u8, tick);
        node.boot(tick, word, &mut self.desk);
        Ok(())
    }

    fn turn(&mut self, at: u64, node: u32) -> Result<(), Stop> {
        let place = self.check(at, node, true)?;
        let node = &mut self.nodes[place];
        let tick = node.tick(at);
        if !node.is_idle(tick) {
            self.desk.begin(place as u8, tick);
            node.step(tick, NOBODY, None, &mut self.desk);
        }
        Ok(())
    }

    fn take(&mut self, at: u64, number: u64) -> Result<(), Stop> {
        let posts = &self.desk.posts;
        let Some(post) = usize::try_from(number).ok().and_then(|number| posts.get(number)) else {
            self.time(at)?;
            return Err(Stop::Bad(format!("no-datagram {number} {}", self.desk.posts.len())));
        };
        let (to, from, datagram) = (post.to, post.from, post.datagram);
        if to == NOBODY {
            self.time(at)?;
            if self.desk.event >= MOST_EVENTS {
                return Err(Stop::Limit);
            }
            self.last = at;
            self.desk.event += 1;
            return Ok(());
        }
        let place = self.check(at, u32::from(to), true)?;
        self.input(at, place, from, Ok(datagram));
        Ok(())
    }

    fn hand(&mut self, at: u64, node: u32, port: u8, from: Option<u32>, count: usize) -> Result<(), Stop> {
        self.time(at)?;
        lacking(self.nodes.len(), node, port, from)?;
        let place = self.check(at, node, true)?;
        let names = &mut self.desk.names;
        let taken = decode(&self.octets[..count], |octets| {
            let name = Name::of(octets);
            let found = names.iter().position(|known| known.is(&name)).unwrap_or_else(|| {
                names.push(name);
                names.len() - 1
            });
            u16::try_from(found).unwrap_or_else(|_| std::process::exit(9))
        });
        self.input(at, place, from.map_or(NOBODY, |from| from as u8), taken);
        Ok(())
    }

    fn input(&mut self, at: u64, place: usize, from: u8, taken: Result<Datagram, &'static str>) {
        let node = &mut self.nodes[place];
        let tick = node.tick(at);
        self.desk.begin(place as u8, tick);
        node.step(tick, from, Some(&taken), &mut self.desk);
    }

    /// The last line of a refusal, and the status.
    fn refuse(&mut self, number: u64, stop: Stop) -> io::Result<i32> {
        let (line, status) = match stop {
            Stop::Bad(cause) => (format!("bad {number} {cause}\n"), 2),
            Stop::Limit => (format!("limit {number}\n"), 7),
        };
        self.desk.out.text(line.as_bytes());
        self.desk.out.flush()?;
        Ok(status)
    }
}

/// Reads a schedule, writes its trace, and gives the status.
pub fn replay() -> io::Result<i32> {
    let mut lines = Lines::new(io::stdin().lock());
    let mut replay = Replay::new(io::stdout().lock());
    let (mut kept, mut number) = (0, 0);
    while lines.fill(&mut kept)? {
        while lines.is_ready() {
            number += 1;
            match replay.next(number, lines.rest()) {
                Ok(count) => lines.pass(count),
                Err(stop) => return replay.refuse(number, stop),
            }
        }
        replay.desk.out.flush()?;
    }
    match (replay.header.lacks(), replay.nodes.is_empty()) {
        (None, _) => Ok(0),
        (Some(_), false) => replay.refuse(number + 1, Stop::Bad("no-end".to_string())),
        (Some(cause), true) => replay.refuse(number + 1, Stop::Bad(cause.to_string())),
    }
}
