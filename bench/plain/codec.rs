//! A plain program of the same job as `show` and `pack`, by hand over Rust's standard library alone:
//! `read_until`, a `match` for each digit, slices, and `write!` to a buffered standard output.
use node::{Datagram, KINDS, LIMIT, LOOP, REPLY, REQUEST};
use std::io::{self, BufRead, BufReader, BufWriter, Write};
use std::str;
use text::{carries_time, decode, name_octets};

#[allow(dead_code)]
mod node;
#[allow(dead_code)]
mod text;

fn digit(octet: u8) -> Option<u8> {
    match octet {
        b'0'..=b'9' => Some(octet - b'0'),
        b'a'..=b'f' => Some(octet - b'a' + 10),
        b'A'..=b'F' => Some(octet - b'A' + 10),
        _ => None,
    }
}

fn octets_of(line: &[u8], octets: &mut Vec<u8>) -> Option<()> {
    if line.len() % 2 != 0 || line.len() > 1024 {
        return None;
    }
    octets.clear();
    for pair in line.chunks_exact(2) {
        octets.push(digit(pair[0])? * 16 + digit(pair[1])?);
    }
    Some(())
}

fn write_line(out: &mut impl Write, m: &Datagram, name: &[u8]) -> io::Result<()> {
    match m.kind {
        REQUEST => writeln!(out, "request {} {}", m.a, m.b),
        REPLY => writeln!(out, "reply {} {} {} {}", m.number, m.a, m.b, m.c),
        kind => {
            write!(out, "{} {} ", KINDS[usize::from(kind) - 1], m.number)?;
            match kind {
                LOOP => write!(out, "{} ", m.a)?,
                _ if carries_time(kind) => write!(out, "{} ", m.a as i64)?,
                _ => {}
            }
            if name.is_empty() {
                out.write_all(b"%")?;
            }
            for octet in name {
                match octet {
                    b'%' | 0..=32 | 127.. => write!(out, "%{octet:02x}")?,
                    _ => out.write_all(&[*octet])?,
                }
            }
            out.write_all(b"\n")
        }
    }
}

/// The number, where it is written in the one way that it has.
fn number_of<T: str::FromStr>(word: &str) -> Option<T> {
    let digits = word.strip_prefix('-').unwrap_or(word);
    let plain = digits == "0" && word == "0" || !digits.starts_with(['0', '+']);
    if plain { word.parse().ok() } else { None }
}

/// The datagram of a message line, whose name goes to `name`.
fn datagram_of(line: &[u8], name: &mut Vec<u8>) -> Option<Datagram> {
    let mut words = str::from_utf8(line).ok()?.split(' ');
    let mut m = Datagram { kind: 0, name: 0, number: 0, a: 0, b: 0, c: 0 };
    match words.next()? {
        "request" => (m.kind, m.a, m.b) = (REQUEST, number_of(words.next()?)?, number_of(words.next()?)?),
        "reply" => {
            (m.kind, m.number) = (REPLY, number_of(words.next()?).filter(|ticket| *ticket <= 32767)?);
            (m.a, m.b) = (number_of(words.next()?)?, number_of(words.next()?)?);
            m.c = number_of(words.next()?).filter(|reading| (1 - LIMIT..LIMIT).contains(reading))?;
        }
        word => {
            m.kind = KINDS.iter().position(|kind| *kind == word)? as u8 + 1;
            m.number = number_of(words.next()?)?;
            match m.kind {
                LOOP => m.a = u64::from(number_of::<u8>(words.next()?)?),
                kind if carries_time(kind) => {
                    m.a = number_of(words.next()?).filter(|time| (-LIMIT..LIMIT).contains(time))? as u64;
                }
                _ => {}
            }
            name_octets(words.next()?.as_bytes(), name)?;
        }
    };
    words.next().is_none().then_some(m)
}

fn encode(m: &Datagram, name: &[u8], octets: &mut Vec<u8>) {
    octets.clear();
    octets.extend_from_slice(&[m.kind, 1]);
    octets.extend_from_slice(&m.number.to_be_bytes());
    if m.kind > LOOP {
        octets.extend_from_slice(&m.a.to_be_bytes());
        octets.extend_from_slice(&m.b.to_be_bytes());
        octets.extend_from_slice(&m.c.to_be_bytes());
        return;
    }
    if carries_time(m.kind) {
        octets.extend_from_slice(&((m.a as i64).div_euclid(1_000_000) as i32).to_be_bytes());
        octets.extend_from_slice(&((m.a as i64).rem_euclid(1_000_000) as i32).to_be_bytes());
    } else {
        octets.push(m.a as u8);
        octets.resize(12, 0);
    }
    octets.extend_from_slice(name);
    octets.resize(if name.len() <= 63 { 76 } else { 268 }, 0);
}

fn write_hex(out: &mut impl Write, octets: &[u8]) -> io::Result<()> {
    for octet in octets {
        let digits = b"0123456789abcdef";
        out.write_all(&[digits[usize::from(octet >> 4)], digits[usize::from(octet & 15)]])?;
    }
    out.write_all(b"\n")
}

fn refuse(out: &mut impl Write, number: u64, cause: &str) -> io::Result<()> {
    writeln!(out, "bad {number} {cause}")?;
    out.flush()?;
    std::process::exit(2)
}

fn main() -> io::Result<()> {
    let packs = std::env::args().nth(1).as_deref() == Some("pack");
    let mut input = BufReader::with_capacity(65536, io::stdin().lock());
    let mut out = BufWriter::with_capacity(65536, io::stdout().lock());
    let (mut line, mut octets, mut name, mut number) = (Vec::new(), Vec::new(), Vec::new(), 0);
    while input.read_until(b'\n', &mut line)? > 0 {
        number += 1;
        if line.ends_with(b"\n") {
            line.pop();
        }
        if packs {
            match datagram_of(&line, &mut name) {
                Some(datagram) => {
                    encode(&datagram, &name, &mut octets);
                    write_hex(&mut out, &octets)?;
                }
                None => refuse(&mut out, number, "message")?,
            }
        } else if octets_of(&line, &mut octets).is_none() {
            refuse(&mut out, number, "hex")?;
        } else {
            let keep = |octets: &[u8]| {
                name.clear();
                name.extend_from_slice(octets);
                0
            };
            match decode(&octets, keep) {
                Ok(datagram) => write_line(&mut out, &datagram, &name)?,
                Err(cause) => refuse(&mut out, number, cause)?,
            }
        }
        line.clear();
    }
    out.flush()
}
