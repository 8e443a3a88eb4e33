//! Schedules, by hand: the lines of a header, and those of events.

use crate::node::Node;
use crate::text::{Cursor, octets_of};

pub const LATEST: u64 = 1_000_000_000_000_000;

/// How a line ends a command.
pub enum Stop {
    Bad(String),
    Limit,
}

pub fn bad<T>(cause: &str) -> Result<T, Stop> {
    Err(Stop::Bad(cause.to_string()))
}

/// Which lines belong to the place that was reached.
#[derive(Clone, Copy, PartialEq)]
pub enum Stage {
    Title,
    Drift,
    Nodes,
    Events,
    Over,
}

/// What a header says, as far as it was read. A schedule with networks ends with status 9.
pub struct Header {
    pub stage: Stage,
    pub strict: bool,
    pub drift: u64,
    pub nodes: Vec<Node>,
    pub names: Vec<Vec<u8>>,
    version: u64,
}

/// A node's line: its name, and the node.
fn node_of(line: &[u8], own: usize, drift: u64) -> Option<(Vec<u8>, Node)> {
    let mut words = Cursor { rest: line };
    words.skip(b"node ")?;
    let name = words.word();
    let plain = |octet: &u8| octet.is_ascii_alphanumeric() || b".-_".contains(octet);
    let named = (1..=255).contains(&name.len()) && name.iter().all(plain);
    words.skip(b" ")?;
    let rate = words.signed().filter(|rate| rate.unsigned_abs() <= drift)?;
    words.skip(b" ")?;
    let wall = words.signed().filter(|wall| wall.unsigned_abs() <= LATEST)?;
    let may = words.rest == b" m";
    (named && own < 64 && (may || words.rest == b" s")).then(|| (name.to_vec(), Node::new(own as u8, rate, wall, may)))
}

impl Header {
    pub fn new() -> Header {
        Header { stage: Stage::Title, strict: false, drift: 0, nodes: Vec::new(), names: Vec::new(), version: 0 }
    }

    /// The number behind these words, which is the whole line and no more than this.
    fn number_behind(words: &[u8], line: &[u8], most: u64) -> Result<u64, Stop> {
        let mut cursor = Cursor { rest: line };
        let number = cursor.skip(words).and_then(|()| cursor.number());
        number.filter(|number| *number <= most && cursor.rest.is_empty()).map_or_else(|| bad("header"), Ok)
    }

    /// Takes a line, and tells whether it is the first behind the header.
    pub fn ends_before(&mut self, number: u64, line: &[u8]) -> Result<bool, Stop> {
        match self.stage {
            Stage::Title => {
                self.version = Header::number_behind(b"tsp-schedule ", line, 2)?;
                self.stage = Stage::Drift;
                if self.version == 0 { bad("header") } else { Ok(false) }
            }
            Stage::Drift => {
                self.drift = Header::number_behind(b"drift ", line, 1000)?;
                self.stage = Stage::Nodes;
                Ok(false)
            }
            _ if number == 3 && self.version == 2 => {
                self.strict = line == b"strict";
                if self.strict { Ok(false) } else { bad("header") }
            }
            _ if line.starts_with(b"node ") => {
                let Some((name, node)) = node_of(line, self.nodes.len(), self.drift) else {
                    return bad("header");
                };
                self.names.push(name);
                self.nodes.push(node);
                Ok(false)
            }
            _ if self.nodes.is_empty() => bad("header"),
            _ if line.starts_with(b"net ") => std::process::exit(9),
            _ => {
                self.stage = Stage::Events;
                Ok(true)
            }
        }
    }

    /// What is missing where the input ends.
    pub fn lacks(&self) -> Option<&'static str> {
        match self.stage {
            Stage::Over => None,
            _ if self.nodes.is_empty() => Some("header"),
            _ => Some("no-end"),
        }
    }
}

/// An event; octets are left where they were read to.
#[derive(Clone, Copy)]
pub enum Event {
    Boot { at: u64, node: u32, word: u64 },
    Turn { at: u64, node: u32 },
    Take { at: u64, datagram: u64 },
    Bytes { at: u64, node: u32, port: u8, from: Option<u32>, count: usize },
}

/// The event whose line stands at the front, which is then gone over with its line feed.
#[inline(always)]
pub fn event_of(words: &mut Cursor, octets: &mut [u8; 300]) -> Option<Event> {
    words.skip(b"at ")?;
    let at = words.number().filter(|at| *at <= LATEST)?;
    if words.skip(b" turn ").is_some() {
        let node = words.short()?;
        words.ends()?;
        return Some(Event::Turn { at, node });
    }
    if words.skip(b" take ").is_some() {
        let datagram = words.number()?;
        words.ends()?;
        return Some(Event::Take { at, datagram });
    }
    if words.skip(b" bytes ").is_some() {
        let node = words.short()?;
        let port = if words.skip(b"/").is_some() { words.number().filter(|port| (1..=255).contains(port))? as u8 } else { 0 };
        words.skip(b" ")?;
        let from = if words.skip(b"-").is_some() { None } else { Some(words.short()?) };
        words.skip(b" ")?;
        let count = octets_of(words.rest, octets);
        words.rest = &words.rest[2 * count..];
        words.ends().filter(|()| count > 0)?;
        return Some(Event::Bytes { at, node, port, from, count });
    }
    words.skip(b" boot ")?;
    let node = words.short()?;
    words.skip(b" ")?;
    let word = words.number()?;
    words.ends()?;
    Some(Event::Boot { at, node, word })
}

/// Refuses a node that there isn't, or whose port there isn't, or a sender.
pub fn lacking(nodes: usize, node: u32, port: u8, from: Option<u32>) -> Result<usize, Stop> {
    let missing = [Some(node), Some(node).filter(|_| port > 0), from].into_iter().flatten();
    for (number, it) in missing.enumerate() {
        if it as usize >= nodes || number == 1 && port > 0 {
            return Err(Stop::Bad(format!("no-node {it} {nodes}")));
        }
    }
    Ok(node as usize)
}
