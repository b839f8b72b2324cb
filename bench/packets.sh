#!/usr/bin/env bash
# Times decode and encode over ten million mixed packets of the first format, against a loop that
# only copies the same bytes. The program is written into a copy of the crates and of what was kept
# of their proofs, proved and run there by `rt run`, and thrown away.
set -euo pipefail
top=$(cd "$(dirname "$0")/.." && pwd)
copy=$(mktemp -d)
trap 'rm -rf "$copy"' EXIT
mkdir "$copy/crates"
for crate in peg_name peg_event peg_model peg_grammar peg_packet; do
    cp -a "$top/crates/$crate" "$copy/crates"
done
grep -E '^(peg_name|peg_event|peg_model|peg_grammar|peg_packet):' "$top/crates.txt" > "$copy/crates.txt"
cd "$copy"
rt new crates/bench_packets start_io > /dev/null
echo 'bench_packets: peg_name peg_event peg_model peg_grammar peg_packet' >> crates.txt
cd crates/bench_packets
rm -f src/*.rt stdin stdout
cat > src/main.rt <<'RATTLE'
#![tactic(auto)]

use peg_packet::{decode, encode};
use std::io;
use std::time::Instant;

fn respell(bytes: &[u8], out: &mut [u8; 1152]) -> usize {
    match decode(bytes) {
        Some((format, packet)) => encode(format, &packet, out),
        None => 0,
    }
}

fn copy(bytes: &[u8], out: &mut [u8; 1152]) -> usize {
    let len = bytes.len().min(out.len());
    out[..len].copy_from_slice(&bytes[..len]);
    len
}

fn walk(packets: &[&[u8]], reads: bool, out: &mut [u8; 1152]) -> u64 {
    let mut sum: u64 = 0;
    for turn in 0..1_000_000_u64 {
        for bytes in packets {
            let len = if reads { respell(bytes, out) } else { copy(bytes, out) };
            let seen = out[(turn % 23) as usize];
            sum = sum.wrapping_add(len as u64).wrapping_add(u64::from(seen));
        }
    }
    sum
}

fn main(rt: HostRuntime) -> io::Result<()> {
    let packets: [&[u8]; 10] = [
        b"PG\x01\x02\0\x01\0\0\0\0\0\0\0\x01\0\0\0\0\0\0\0\0\0\0\x08some key\x01\0\x20value of thirty two bytes, whole",
        b"PG\x01\x04\0\x01\0\0\0\0\0\0\0\x01\0\0\0\0\0\0\0\x09\x03\0\x08some key\x01\0\x20value of thirty two bytes, whole",
        b"PG\x01\x06\0\x01\0\0\0\0\0\0\0\x01\0\0\0\0\0\0\0\x09\x03\0\x08some key",
        b"PG\x01\x01\0\x02\0\0\0\0\0\0\0\x02\0\0\0\0\0\0\0\0\0\0\x08some key",
        b"PG\x01\x03\0\x02\0\0\0\0\0\0\0\x02\0\0\0\0\0\0\0\0\x03\0\x08some key",
        b"PG\x01\x05\0\x02\0\0\0\0\0\0\0\x02\0\0\0\0\0\0\0\x09\x03\0\x08some key\x01\0\x20value of thirty two bytes, whole",
        b"PG\x01\x07\0\0\0\0\0\0\0\x01\x03\x0f\x08some key",
        b"PG\x01\x0a\x01\x0f\0\0\0\0\0\0\0\x09\x08some key\x01\0\x20value of thirty two bytes, whole",
        b"PG\x01\x0b\x0f\0\0\0\0\0\0\0\x09\x08some key",
        b"PG\x01\x0f\0\0\0\0\0\0\0\x01\0\0\0\0\0\0\0\x03\x02\x01k\0\0\0\0\0\0\0\x02\0\0\0\0\0\0\0\x01\x01a\0\0\0\0\0\0\0\x01\0\0\0\0\0\0\0\0",
    ];
    let mut out = [0; 1152];
    let start = Instant::now(&rt)?;
    let copied = walk(&packets, false, &mut out);
    let copying = start.elapsed(&rt)?;
    let start = Instant::now(&rt)?;
    let respelled = walk(&packets, true, &mut out);
    let respelling = start.elapsed(&rt)?;
    println!(rt; "sums {copied} and {respelled}")?;
    println!(rt; "copy {} ms", copying.as_millis())?;
    println!(rt; "decode and encode {} ms", respelling.as_millis())
}
RATTLE
rt run > lines 2>&1 || { tail -20 lines; exit 1; }
grep -E '^(sums|copy|decode) ' lines
awk '/^copy /{c=$2} /^decode /{d=$4} END{printf "ratio %.1f, %.1f ns a packet\n", d/c, d/10}' lines
echo "$(nproc) processors, $(sed -n 's/^model name[^:]*: //p' /proc/cpuinfo | head -1)"
