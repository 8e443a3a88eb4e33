//! Texts, by hand: a cursor over a line, an output of fixed room, and datagrams as octets and as lines.

use crate::node::{Datagram, KINDS, LIMIT, LOOP, REPLY, REQUEST};
use std::io::{self, Read, Write};

const POWERS: [u64; 9] = [1, 10, 100, 1000, 10_000, 100_000, 1_000_000, 10_000_000, 100_000_000];

/// What at most eight digits at the front are, and how many there are: all of them at once, each octet of a number a digit.
#[inline]
fn front_digits(octets: &[u8]) -> (u64, usize) {
    let Some(front) = octets.first_chunk::<8>() else {
        let mut front = [0; 8];
        front[..octets.len()].copy_from_slice(octets);
        return digits_of(front);
    };
    digits_of(*front)
}

#[inline]
fn digits_of(octets: [u8; 8]) -> (u64, usize) {
    let digits = u64::from_le_bytes(octets) ^ 0x3030_3030_3030_3030;
    let others = (digits.wrapping_add(0x0606_0606_0606_0606) | digits) & 0xf0f0_f0f0_f0f0_f0f0;
    let count = (others.trailing_zeros() / 8) as usize;
    if count == 0 {
        return (0, 0);
    }
    let digits = digits << (64 - 8 * count);
    let pairs = digits.wrapping_mul(10).wrapping_add(digits >> 8);
    let even = (pairs & 0x0000_00ff_0000_00ff).wrapping_mul(0x000f_4240_0000_0064);
    let odd = (pairs >> 16 & 0x0000_00ff_0000_00ff).wrapping_mul(0x0000_2710_0000_0001);
    (even.wrapping_add(odd) >> 32, count)
}

/// Eight digits of a number below 10^8, the first one in the lowest octet.
#[inline]
fn eight_digits(value: u64) -> u64 {
    let fours = value / 10_000 | value % 10_000 << 32;
    let hundreds = (fours * 10_486 >> 20) & 0x0000_007f_0000_007f;
    let twos = hundreds | (fours - 100 * hundreds) << 16;
    let tens = (twos * 103 >> 10) & 0x000f_000f_000f_000f;
    (tens | (twos - 10 * tens) << 8) + 0x3030_3030_3030_3030
}

/// What is behind a place of a line.
#[derive(Clone, Copy)]
pub struct Cursor<'a> {
    pub rest: &'a [u8],
}

impl<'a> Cursor<'a> {
    /// Goes over these octets; None where others stand here.
    pub fn skip(&mut self, octets: &[u8]) -> Option<()> {
        self.rest = self.rest.strip_prefix(octets)?;
        Some(())
    }

    /// A number without a sign, in the one way that it is written.
    #[inline]
    pub fn number(&mut self) -> Option<u64> {
        let (mut value, mut count) = front_digits(self.rest);
        if count == 0 || self.rest[0] == b'0' && self.rest.get(1).is_some_and(u8::is_ascii_digit) {
            return None;
        }
        let mut more = count;
        while more == 8 {
            let (part, found) = front_digits(&self.rest[count..]);
            value = if count == 8 { value * POWERS[found] + part } else { value.checked_mul(POWERS[found])?.checked_add(part)? };
            more = found;
            count += more;
        }
        self.rest = &self.rest[count..];
        Some(value)
    }

    pub fn signed(&mut self) -> Option<i64> {
        let negative = self.rest.first() == Some(&b'-');
        if negative {
            self.rest = &self.rest[1..];
        }
        match (negative, self.number()?) {
            (true, 0) => None,
            (true, value) if value <= 1 << 63 => Some((value as i64).wrapping_neg()),
            (true, _) => None,
            (false, value) => i64::try_from(value).ok(),
        }
    }

    /// A number below 2^32.
    pub fn short(&mut self) -> Option<u32> {
        u32::try_from(self.number()?).ok()
    }

    /// The word up to the next space or line feed, or the end.
    pub fn word(&mut self) -> &'a [u8] {
        let end = self.rest.iter().position(|octet| matches!(octet, b' ' | b'\n')).unwrap_or(self.rest.len());
        let (word, rest) = self.rest.split_at(end);
        self.rest = rest;
        word
    }

    /// Goes over the line feed.
    pub fn ends(&mut self) -> Option<()> {
        self.skip(b"\n")
    }
}

/// The lines of an input, which are read into one buffer.
pub struct Lines<R> {
    input: R,
    buffer: Vec<u8>,
    at: usize,
    end: usize,
    over: bool,
}

const ROOM: usize = 1 << 16;

impl<R: Read> Lines<R> {
    pub fn new(input: R) -> Lines<R> {
        Lines { input, buffer: vec![0; 2 * ROOM], at: 0, end: 0, over: false }
    }

    /// Whether a whole line was read already, so that nothing is waited for.
    pub fn is_ready(&self) -> bool {
        self.at < self.end
    }

    /// Reads up to the end of a line at least. False at the end of the input.
    pub fn fill(&mut self, kept: &mut usize) -> io::Result<bool> {
        if self.over {
            return Ok(false);
        }
        self.buffer.copy_within(self.at..*kept, 0);
        *kept -= self.at;
        self.at = 0;
        loop {
            if *kept + ROOM > self.buffer.len() {
                self.buffer.resize(self.buffer.len() + ROOM, 0);
            }
            let count = self.input.read(&mut self.buffer[*kept..])?;
            if count == 0 {
                self.over = true;
                if *kept > 0 {
                    self.buffer[*kept] = b'\n';
                    *kept += 1;
                }
                self.end = *kept;
                return Ok(*kept > 0);
            }
            let new = &self.buffer[*kept..*kept + count];
            let whole = new.iter().rposition(|octet| *octet == b'\n');
            *kept += count;
            if let Some(place) = whole {
                self.end = *kept - count + place + 1;
                return Ok(true);
            }
        }
    }

    /// The lines that were read, from the next one on.
    pub fn rest(&self) -> &[u8] {
        &self.buffer[self.at..self.end]
    }

    /// Goes over so many octets.
    pub fn pass(&mut self, count: usize) {
        self.at += count;
    }
}

/// The first line of several, without its line feed.
pub fn first_line(lines: &[u8]) -> &[u8] {
    &lines[..lines.iter().position(|octet| *octet == b'\n').unwrap()]
}

/// An output whose octets are written when it is full, or told to.
pub struct Output<W> {
    output: W,
    buffer: Box<[u8; ROOM]>,
    pub at: usize,
}

/// More than any line has.
const LONGEST: usize = 1024;

impl<W: Write> Output<W> {
    pub fn new(output: W) -> Output<W> {
        Output { output, buffer: Box::new([0; ROOM]), at: 0 }
    }

    pub fn flush(&mut self) -> io::Result<()> {
        self.output.write_all(&self.buffer[..self.at])?;
        self.at = 0;
        self.output.flush()
    }

    /// Makes room for a line.
    pub fn reserve(&mut self) {
        if self.at > ROOM - 2 * LONGEST && self.flush().is_err() {
            std::process::exit(4);
        }
    }

    /// Octets whose number is known when this is compiled, of which the first so many count.
    pub fn front<const N: usize>(&mut self, octets: &[u8; N], count: usize) {
        self.buffer[self.at..self.at + N].copy_from_slice(octets);
        self.at += count;
    }

    pub fn put<const N: usize>(&mut self, octets: &[u8; N]) {
        self.front(octets, N);
    }

    pub fn text(&mut self, octets: &[u8]) {
        self.buffer[self.at..self.at + octets.len()].copy_from_slice(octets);
        self.at += octets.len();
    }

    /// The octets that were put since a place once more.
    pub fn again(&mut self, from: usize, to: usize) {
        self.buffer.copy_within(from..to, self.at);
        self.at += to - from;
    }

    pub fn octet(&mut self, octet: u8) {
        self.buffer[self.at] = octet;
        self.at += 1;
    }

    /// The octets from a place on, of which those that were put count.
    pub fn since(&self, from: usize) -> [u8; 32] {
        self.buffer[from..from + 32].try_into().unwrap()
    }

    #[inline]
    pub fn number(&mut self, value: u64) {
        if value < 10 {
            self.octet(b'0' + value as u8);
        } else if value < 100_000_000 {
            self.first_digits(value);
        } else {
            self.long_number(value);
        }
    }

    /// A number below 10^8, without zeros before it.
    fn first_digits(&mut self, value: u64) {
        let digits = eight_digits(value);
        let zeros = ((digits ^ 0x3030_3030_3030_3030) | 1 << 56).trailing_zeros() / 8;
        self.front(&(digits >> (8 * zeros)).to_le_bytes(), 8 - zeros as usize);
    }

    fn long_number(&mut self, value: u64) {
        let high = value / 100_000_000;
        if high < 100_000_000 {
            self.first_digits(high);
        } else {
            self.first_digits(high / 100_000_000);
            self.put(&eight_digits(high % 100_000_000).to_le_bytes());
        }
        self.put(&eight_digits(value % 100_000_000).to_le_bytes());
    }

    pub fn signed(&mut self, value: i64) {
        if value < 0 {
            self.octet(b'-');
        }
        self.number(value.unsigned_abs());
    }
}

/// A name as a line has it: most have few octets.
pub struct Name {
    short: [u8; 16],
    count: usize,
    long: Box<[u8]>,
}

impl Name {
    pub fn of(name: &[u8]) -> Name {
        let mut long = Vec::new();
        for octet in name {
            match octet {
                33..=36 | 38..=126 => long.push(*octet),
                _ => write!(long, "%{octet:02x}").unwrap(),
            }
        }
        if name.is_empty() {
            long.push(b'%');
        }
        long.push(b'\n');
        let (mut short, count) = ([0; 16], long.len());
        if count <= 16 {
            short[..count].copy_from_slice(&long);
        }
        Name { short, count, long: long.into() }
    }

    pub fn put(&self, out: &mut Output<impl Write>) {
        if self.count <= 16 {
            out.front(&self.short, self.count);
        } else {
            out.text(&self.long);
        }
    }

    pub fn is(&self, other: &Name) -> bool {
        self.long == other.long
    }
}

const fn padded(word: &str) -> ([u8; 16], usize) {
    let (mut text, octets, mut i) = ([b' '; 16], word.as_bytes(), 0);
    while i < octets.len() {
        text[i] = octets[i];
        i += 1;
    }
    (text, octets.len() + 1)
}

const WORDS: [([u8; 16], usize); 24] = {
    let mut words = [([0; 16], 0); 24];
    let mut i = 0;
    while i < 24 {
        words[i] = padded(KINDS[i]);
        i += 1;
    }
    words
};

pub fn carries_time(kind: u8) -> bool {
    matches!(kind, 1 | 5 | 14 | 15 | 22 | 23)
}

/// The line of a datagram, by a table of names.
pub fn put_datagram(out: &mut Output<impl Write>, m: &Datagram, names: &[Name]) {
    match m.kind {
        REQUEST => {
            out.put(b"request ");
            out.number(m.a);
            out.octet(b' ');
            out.number(m.b);
            out.octet(b'\n');
        }
        REPLY => {
            out.put(b"reply ");
            out.number(u64::from(m.number));
            out.octet(b' ');
            out.number(m.a);
            out.octet(b' ');
            out.number(m.b);
            out.octet(b' ');
            out.signed(m.c);
            out.octet(b'\n');
        }
        _ => {
            let (word, count) = &WORDS[usize::from(m.kind) - 1];
            out.front(word, *count);
            out.number(u64::from(m.number));
            out.octet(b' ');
            if carries_time(m.kind) {
                out.signed(m.a as i64);
                out.octet(b' ');
            } else if m.kind == LOOP {
                out.number(m.a);
                out.octet(b' ');
            }
            names[usize::from(m.name)].put(out);
        }
    }
}

const DIGITS: [u8; 256] = {
    let mut digits = [255; 256];
    let mut i = 0;
    while i < 16 {
        digits[b"0123456789abcdef"[i] as usize] = i as u8;
        digits[b"0123456789ABCDEF"[i] as usize] = i as u8;
        i += 1;
    }
    digits
};

/// The octets of hexadecimal up to what is none, at most 300.
pub fn octets_of(hex: &[u8], octets: &mut [u8; 300]) -> usize {
    let pairs = hex.as_chunks::<2>().0;
    for (count, ([high, low], octet)) in pairs.iter().zip(octets.iter_mut()).enumerate() {
        let (high, low) = (DIGITS[usize::from(*high)], DIGITS[usize::from(*low)]);
        if high | low > 15 {
            return count;
        }
        *octet = high << 4 | low;
    }
    pairs.len().min(300)
}

fn u64_at(octets: &[u8], at: usize) -> u64 {
    u64::from_be_bytes(octets[at..at + 8].try_into().unwrap())
}

fn time_at(octets: &[u8]) -> Option<i64> {
    let seconds = i32::from_be_bytes(octets[4..8].try_into().unwrap());
    let micros = i32::from_be_bytes(octets[8..12].try_into().unwrap());
    let value = i64::from(seconds) * 1_000_000 + i64::from(micros);
    (micros.unsigned_abs() <= 999_999 && (-LIMIT..LIMIT).contains(&value)).then_some(value)
}

/// What octets spell; a message's name becomes the number that `number_of` gives it.
pub fn decode(octets: &[u8], number_of: impl FnOnce(&[u8]) -> u16) -> Result<Datagram, &'static str> {
    if octets.len() < 13 {
        return Err("short");
    }
    if octets.len() > 268 {
        return Err("long");
    }
    if octets[1] != 1 {
        return Err("version");
    }
    let number = u16::from_be_bytes([octets[2], octets[3]]);
    match octets[0] {
        kind @ 1..=24 => {
            let room = &octets[12..];
            let Some(end) = room.iter().position(|octet| *octet == 0) else {
                return Err(if room.len() < 256 { "no-end" } else { "name-too-long" });
            };
            let a = match kind {
                LOOP => u64::from(octets[4]),
                _ if carries_time(kind) => time_at(octets).ok_or("time")? as u64,
                _ => 0,
            };
            Ok(Datagram { kind, number, name: number_of(&room[..end]), a, b: 0, c: 0 })
        }
        REQUEST | REPLY if octets.len() != 28 => Err("stamp-length"),
        kind @ (REQUEST | REPLY) => {
            let (a, b, c) = (u64_at(octets, 4), u64_at(octets, 12), u64_at(octets, 20) as i64);
            if kind == REQUEST && (number != 0 || c != 0) || number > 32767 {
                return Err("reserved");
            }
            if c <= -LIMIT || c >= LIMIT {
                return Err("time");
            }
            Ok(Datagram { kind, number, name: 0, a, b, c })
        }
        _ => Err("kind"),
    }
}

/// The octets of a name, by its text, which has one spelling.
pub fn name_octets(text: &[u8], name: &mut Vec<u8>) -> Option<()> {
    name.clear();
    let mut rest = text;
    while let [octet, after @ ..] = rest {
        let (octet, after) = match (octet, after) {
            (b'%', [high @ (b'0'..=b'9' | b'a'..=b'f'), low @ (b'0'..=b'9' | b'a'..=b'f'), after @ ..]) => {
                let octet = DIGITS[usize::from(*high)] << 4 | DIGITS[usize::from(*low)];
                if matches!(octet, 0 | 33..=36 | 38..=126) {
                    return None;
                }
                (octet, after)
            }
            (b'%', []) if name.is_empty() => return Some(()),
            (33..=36 | 38..=126, after) => (*octet, after),
            _ => return None,
        };
        name.push(octet);
        rest = after;
    }
    (1..=255).contains(&name.len()).then_some(())
}
