//! The jobs of `replay`, `storm` and `audit` by hand, over Rust's standard library alone: what the program is measured beside.
//! Built by `rustc -O --edition 2024 bench/plain/main.rs`, and run with the words of the command. With `schedule` in the place of
//! `storm` it writes the schedule that a storm runs.

mod audit;
mod claims;
mod node;
mod replay;
mod schedule;
mod storm;
mod text;

/// The numbers of a storm that are words.
fn numbers(words: &[&str]) -> Option<[u64; 3]> {
    let [seed, nodes, events] = words else {
        return None;
    };
    let numbers = [seed.parse().ok()?, nodes.parse().ok()?, events.parse().ok()?];
    ((1..=64).contains(&numbers[1]) && (1..=200_000).contains(&numbers[2])).then_some(numbers)
}

fn main() {
    let words: Vec<String> = std::env::args().skip(1).collect();
    let words: Vec<&str> = words.iter().map(String::as_str).collect();
    let status = match &words[..] {
        ["replay"] => replay::replay(),
        ["audit"] => audit::audit(),
        [word @ ("storm" | "schedule"), rest @ ..] => match numbers(rest) {
            Some([seed, nodes, events]) => storm::storm(seed, nodes, events, *word == "schedule"),
            None => Ok(1),
        },
        _ => Ok(1),
    };
    std::process::exit(status.unwrap_or(4));
}
