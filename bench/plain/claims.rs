//! What a trace claims of a schedule's events, by hand: each line is read, and must fit the event that it tells of.

use crate::node::{ALARMS, Datagram, KINDS, LIFE, LIMIT, LOOP, NOBODY, Node, REPLY, REQUEST, Role};
use crate::schedule::{Event, Stop, bad};
use crate::text::{Cursor, carries_time, name_octets};

const MOST_LINES: usize = 20_000;
const FAULTS: [&[u8]; 9] =
    [b"short", b"long", b"version", b"kind", b"stamp-length", b"no-end", b"name-too-long", b"reserved", b"time"];

/// An act of which a promise asks something, or that changes what one asks of others.
#[derive(Clone, Copy)]
pub enum Act {
    Boot,
    Become(Role),
    Back(u8),
    /// An Acked, or else a Gave.
    Ended(u8, bool),
    /// An alarm is armed, or else met.
    Alarm(usize, bool),
    Sample { peer: u8, counter: u64, diff: i64, err: i64 },
    Close,
    Correct(i64),
    Abandon,
    Took,
    /// The datagram with this number.
    Post(u32),
    Other,
}

/// A line that fits, with the number of its event.
pub struct Line {
    pub tick: u64,
    pub act: Act,
    pub event: u32,
    pub node: u8,
}

pub struct Post {
    pub at: u64,
    pub m: Datagram,
    pub event: u32,
    pub node: u8,
    pub to: u8,
}

/// An act as a line tells it.
enum Told {
    Act(Act),
    Took(u8, Option<Datagram>),
    Post(u64, u8, Datagram),
}

/// What the whole schedule keeps.
#[derive(Clone, Copy)]
pub struct Premises {
    pub honest: bool,
    pub life: bool,
    pub words: bool,
}

pub struct Claims {
    pub nodes: Vec<Node>,
    pub drift: u64,
    pub events: Vec<Event>,
    pub lines: Vec<Line>,
    pub posts: Vec<Post>,
    pub premises: Premises,
    names: Vec<Vec<u8>>,
    octets: Vec<u8>,
    words: Vec<u64>,
    up: u64,
    /// How many events were passed, and what the lines of the next one come to: whether there are any, and a Took.
    passed: usize,
    begun: bool,
    took: bool,
}

/// The true time of an event.
pub fn time_of(event: &Event) -> u64 {
    match *event {
        Event::Boot { at, .. } | Event::Turn { at, .. } | Event::Take { at, .. } | Event::Bytes { at, .. } => at,
    }
}

fn history<T>() -> Result<T, Stop> {
    bad("history")
}

impl Claims {
    pub fn new(nodes: Vec<Node>, drift: u64, events: Vec<Event>) -> Claims {
        let premises = Premises { honest: true, life: true, words: true };
        Claims {
            nodes, drift, events, lines: Vec::new(), posts: Vec::new(), premises, names: Vec::new(), octets: Vec::new(),
            words: Vec::new(), up: 0, passed: 0, begun: false, took: false,
        }
    }

    /// The claimed post that an event with this number may take.
    fn post(&self, k: u64) -> Option<&Post> {
        self.posts.get(usize::try_from(k).ok()?).filter(|post| (post.event as usize) <= self.passed)
    }

    /// The node that acts at an event.
    fn actor(&self, event: &Event) -> Option<u8> {
        match *event {
            Event::Boot { node, .. } | Event::Turn { node, .. } | Event::Bytes { node, .. } => Some(node as u8),
            Event::Take { datagram, .. } => {
                let post = self.post(datagram)?;
                (post.to != NOBODY && self.up >> post.to & 1 != 0).then_some(post.to)
            }
        }
    }

    /// Passes the event at hand.
    fn pass(&mut self) -> Result<(), Stop> {
        let Some(event) = self.events.get(self.passed) else {
            return history();
        };
        let (event, begun, took) = (*event, self.begun, self.took);
        let lacks = match event {
            Event::Boot { node, word, .. } => {
                self.up |= 1 << node;
                self.words.push(word);
                !begun
            }
            Event::Turn { .. } => false,
            Event::Take { at, datagram } => {
                let late = self.post(datagram).is_some_and(|post| at.saturating_sub(post.at) > LIFE);
                self.premises.life &= !late;
                begun && !took
            }
            Event::Bytes { from, .. } => {
                self.premises.honest &= from.is_none();
                !took
            }
        };
        self.passed += 1;
        (self.begun, self.took) = (false, false);
        if lacks { history() } else { Ok(()) }
    }

    /// Passes all events that are left.
    pub fn end(&mut self) -> Result<(), Stop> {
        while self.passed < self.events.len() {
            self.pass()?;
        }
        self.words.sort_unstable();
        self.premises.words = self.words.windows(2).all(|pair| pair[0] != pair[1]);
        Ok(())
    }

    /// Takes the line at the front, and goes over it with its line feed.
    pub fn line(&mut self, words: &mut Cursor) -> Result<(), Stop> {
        let Some((event, node, port, tick, told)) = self.read(words) else {
            return bad("line");
        };
        while (self.passed as u64) + 1 < event {
            self.pass()?;
        }
        let (number, here) = (self.passed as u64 + 1, self.events.get(self.passed).copied());
        let Some(here) = here.filter(|here| event == number && port == 0 && self.actor(here).map(u32::from) == Some(node)) else {
            return history();
        };
        let at = time_of(&here);
        if tick != self.nodes[node as usize].tick(at) || !self.fits(&here, &told) {
            return history();
        }
        if self.lines.len() >= MOST_LINES {
            return Err(Stop::Limit);
        }
        let (node, event) = (node as u8, event as u32);
        self.begun = true;
        let act = match told {
            Told::Act(act) => act,
            Told::Took(..) => {
                self.took = true;
                Act::Took
            }
            Told::Post(number, to, m) => {
                self.posts.push(Post { at, m, event, node, to });
                Act::Post(number as u32)
            }
        };
        self.lines.push(Line { tick, act, event, node });
        Ok(())
    }

    /// Whether an act may stand next in an event.
    fn fits(&self, event: &Event, told: &Told) -> bool {
        let wants_boot = matches!(event, Event::Boot { .. }) && !self.begun;
        match told {
            Told::Act(Act::Boot) => wants_boot,
            Told::Took(from, taken) => !wants_boot && !self.took && self.brings(event, *from, taken),
            Told::Post(number, ..) => !wants_boot && *number == self.posts.len() as u64,
            Told::Act(_) => !wants_boot,
        }
    }

    /// Whether an event brings what was taken.
    fn brings(&self, event: &Event, from: u8, taken: &Option<Datagram>) -> bool {
        match *event {
            Event::Take { datagram, .. } => self.post(datagram).is_some_and(|post| from == post.node && *taken == Some(post.m)),
            Event::Bytes { from: sender, .. } => from == sender.map_or(NOBODY, |sender| sender as u8),
            _ => false,
        }
    }

    /// Reads a line: the numbers of its event and node, its port, its tick and its act.
    fn read(&mut self, words: &mut Cursor) -> Option<(u64, u32, u8, u64, Told)> {
        let event = words.number()?;
        words.skip(b" ")?;
        let node = words.short()?;
        words.skip(b" ")?;
        let port = words.number().and_then(|port| u8::try_from(port).ok())?;
        words.skip(b" ")?;
        let tick = words.number()?;
        words.skip(b" ")?;
        let told = match words.rest.first()? {
            b'p' => {
                words.skip(b"post ")?;
                let number = words.number()?;
                words.skip(b" ")?;
                let to = self.place(words)?;
                words.skip(b" ")?;
                Told::Post(number, to, self.datagram(words)?)
            }
            b't' if words.skip(b"took ").is_some() => {
                let from = self.place(words)?;
                words.skip(b" ")?;
                if words.skip(b"refused ").is_some() {
                    let fault = words.word();
                    FAULTS.contains(&fault).then_some(Told::Took(from, None))?
                } else {
                    Told::Took(from, Some(self.datagram(words)?))
                }
            }
            _ => Told::Act(self.act(words)?),
        };
        words.ends()?;
        Some((event, node, port, tick, told))
    }

    /// A peer. One that no node is, is none that this program audits.
    fn peer(&self, words: &mut Cursor) -> Option<u8> {
        let peer = words.short()?;
        if peer as usize >= self.nodes.len() {
            std::process::exit(9);
        }
        Some(peer as u8)
    }

    fn place(&self, words: &mut Cursor) -> Option<u8> {
        if words.skip(b"-").is_some() { Some(NOBODY) } else { self.peer(words) }
    }

    /// Any other act.
    fn act(&self, words: &mut Cursor) -> Option<Act> {
        let word = words.word();
        if !matches!(word, b"boot" | b"abandon") {
            words.skip(b" ")?;
        }
        Some(match word {
            b"boot" => Act::Boot,
            b"abandon" => Act::Abandon,
            b"become" => Act::Become(self.role(words)?),
            b"back" => Act::Back(self.peer(words)?),
            b"acked" => Act::Ended(self.peer(words)?, true),
            b"gave" => Act::Ended(self.peer(words)?, false),
            b"backer" | b"quit" | b"join" | b"leave" | b"rival" => self.peer(words).map(|_| Act::Other)?,
            b"ring" | b"late" => Act::Alarm(alarm(words)?, false),
            b"arm" => {
                let alarm = alarm(words)?;
                words.skip(b" ")?;
                words.number()?;
                Act::Alarm(alarm, true)
            }
            b"sample" => self.sample(words)?,
            b"close" => {
                words.short()?;
                for _ in 0..3 {
                    words.skip(b" ")?;
                    words.signed()?;
                }
                Act::Close
            }
            b"correct" => {
                let amount = words.signed()?;
                words.skip(b" slew ").or_else(|| words.skip(b" step "))?;
                words.signed()?;
                Act::Correct(amount)
            }
            b"trace" => words.skip(b"on").or_else(|| words.skip(b"off")).map(|()| Act::Other)?,
            _ => return None,
        })
    }

    fn sample(&self, words: &mut Cursor) -> Option<Act> {
        let peer = self.peer(words)?;
        words.skip(b" ")?;
        let counter = words.number()?;
        words.skip(b" ")?;
        let diff = words.signed()?;
        words.skip(b" ")?;
        let err = words.signed()?;
        words.skip(b" ")?;
        words.number().filter(|ticket| *ticket < 65536)?;
        Some(Act::Sample { peer, counter, diff, err })
    }

    fn role(&self, words: &mut Cursor) -> Option<Role> {
        Some(match words.word() {
            b"starting" => Role::Starting,
            b"loose" => Role::Loose,
            b"candidate" => Role::Candidate,
            b"master" => Role::Master,
            b"follow" => {
                words.skip(b" ")?;
                Role::Follow(self.peer(words)?)
            }
            _ => return None,
        })
    }

    /// The datagram of a message line.
    fn datagram(&mut self, words: &mut Cursor) -> Option<Datagram> {
        let mut m = Datagram { kind: 0, name: 0, number: 0, a: 0, b: 0, c: 0 };
        match words.word() {
            b"request" => {
                m.kind = REQUEST;
                words.skip(b" ")?;
                m.a = words.number()?;
                words.skip(b" ")?;
                m.b = words.number()?;
            }
            b"reply" => {
                m.kind = REPLY;
                words.skip(b" ")?;
                m.number = words.number().filter(|ticket| *ticket < 32768)? as u16;
                words.skip(b" ")?;
                m.a = words.number()?;
                words.skip(b" ")?;
                m.b = words.number()?;
                words.skip(b" ")?;
                m.c = words.signed().filter(|reading| (1 - LIMIT..LIMIT).contains(reading))?;
            }
            word => {
                m.kind = KINDS.iter().position(|kind| kind.as_bytes() == word)? as u8 + 1;
                words.skip(b" ")?;
                m.number = words.number().and_then(|number| u16::try_from(number).ok())?;
                words.skip(b" ")?;
                if carries_time(m.kind) {
                    m.a = words.signed().filter(|time| (-LIMIT..LIMIT).contains(time))? as u64;
                    words.skip(b" ")?;
                } else if m.kind == LOOP {
                    m.a = words.number().filter(|hops| *hops < 256)?;
                    words.skip(b" ")?;
                }
                m.name = self.name(words.word())?;
            }
        }
        Some(m)
    }

    /// The number of a name, by its text.
    fn name(&mut self, text: &[u8]) -> Option<u16> {
        if let Some(place) = self.names.iter().position(|name| name == text) {
            return Some(place as u16);
        }
        name_octets(text, &mut self.octets)?;
        self.names.push(text.to_vec());
        u16::try_from(self.names.len() - 1).ok()
    }
}

fn alarm(words: &mut Cursor) -> Option<usize> {
    let word = words.word();
    ALARMS.iter().position(|alarm| alarm.as_bytes() == word)
}
