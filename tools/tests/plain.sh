#!/bin/sh
# The program beside two that share no code with it, in plain Rust by hand (bench/plain/main.rs and bench/plain/codec.rs): the same traces, summaries,
# verdicts, lines and octets.
. "$(dirname "$0")/common.sh"
has rustc || { skip 'there is no rustc' 'the program beside a plain one'; exit; }
./tsp --path >"$out/path"
echo 'fn main() { if let Some(true) = Some(true) && true {} }' >"$out/new.rs"
rustc --edition 2024 -o "$out/new" "$out/new.rs" 2>"$out/told" || { skip 'this rustc is older than 1.88' 'the program beside a plain one'; exit; }
for name in main codec; do rustc -O --edition 2024 -o "$out/$name" "bench/plain/$name.rs" || fail "bench/plain/$name.rs isn't compiled"; done
python3 tools/tests/plain.py "$(cat "$out/path")" "$out/main" "$out/codec"
