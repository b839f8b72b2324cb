#!/usr/bin/env bash
# Times an active switch that lists 64 keys over a million mixed packets of the first format (reads,
# writes and replies of those keys), against a loop that decodes the same packets and does nothing
# more. The program is written into a copy of the crates and of what was kept of their proofs, proved
# and run there by `rt run`, and thrown away.
set -euo pipefail
top=$(cd "$(dirname "$0")/.." && pwd)
copy=$(mktemp -d)
trap 'rm -rf "$copy"' EXIT
mkdir "$copy/crates"
crates='peg_name peg_event peg_model peg_grammar peg_packet peg_stamp peg_directory peg_rules peg_parts peg_hot peg_switch'
for crate in $crates; do
    cp -a "$top/crates/$crate" "$copy/crates"
done
grep -E "^(${crates// /|}):" "$top/crates.txt" > "$copy/crates.txt"
cd "$copy"
rt new crates/bench_switch start_io > /dev/null
echo 'bench_switch: peg_name peg_packet peg_switch' >> crates.txt
cd crates/bench_switch
rm -f src/*.rt stdin stdout
cat > src/main.rt <<'RATTLE'
#![tactic(auto)]

use peg_name::{Config, Key, OutOfMemory, SwitchId};
use peg_packet::{Post, decode};
use peg_switch::{Switch, SwitchDid, most_packets};
use std::alloc::Global;
use std::io;
use std::process::Abort;
use std::time::Instant;

fn step(rt: &impl Abort, switch: &mut Switch, post: &mut Post, bytes: &[u8], pick: u64) -> u64 {
    let format = switch.config().format();
    post.clear();
    assert!(rt; post.format() == format && most_packets(format) <= post.slots());
    match switch.step(bytes, pick, post) {
        SwitchDid::Malformed => 1,
        SwitchDid::OutOfPlace => 1,
        _ => 0,
    }
}

fn list(rt: &impl Abort, switch: &mut Switch, post: &mut Post) -> u64 {
    let mut promote = *b"PG\x01\x07\0\0\0\0\0\0\0\x01\x01\x08some key";
    let mut refused: u64 = 0;
    for number in 1..65u8 {
        promote[11] = number;
        promote[20] = number;
        refused = refused.wrapping_add(step(rt, switch, post, &promote, 0));
    }
    refused
}

fn walk(
    rt: &impl Abort,
    switch: &mut Switch,
    post: &mut Post,
    packets: &[&[u8]],
    steps: bool,
) -> u64 {
    let mut refused: u64 = 0;
    for turn in 0..200_000_u64 {
        for bytes in packets {
            let one = if steps {
                step(rt, switch, post, bytes, turn)
            } else {
                u64::from(decode(bytes).is_none())
            };
            refused = refused.wrapping_add(one);
        }
    }
    refused
}

fn made(rt: &impl Abort, alloc: Global) -> Result<(Switch, Post), OutOfMemory> {
    let Ok(config) = Config::make(1, 16, 256, 1, 64, 12, 1) else {
        return Err(OutOfMemory);
    };
    let keys: [Key; 0] = [];
    let id = SwitchId(0);
    assert!(rt; u64::from(id.0) < config.switches());
    let mut switch = Switch::make(alloc, &config, id, &keys)?;
    let mut post = Post::make(alloc, config.format(), 64)?;
    let refused = list(rt, &mut switch, &mut post);
    assert!(rt; refused == 0);
    Ok((switch, post))
}

fn main(rt: HostRuntime) -> io::Result<()> {
    let packets: [&[u8]; 5] = [
        b"PG\x01\x02\0\x01\0\0\0\0\0\0\0\x01\0\0\0\0\0\0\0\0\0\0\x08some ke\x01\x01\0\x08of eight",
        b"PG\x01\x01\0\x02\0\0\0\0\0\0\0\x02\0\0\0\0\0\0\0\0\0\0\x08some ke\x11",
        b"PG\x01\x06\0\x01\0\0\0\0\0\0\0\x01\0\0\0\0\0\0\0\x50\x03\0\x08some ke\x21",
        b"PG\x01\x01\0\x03\0\0\0\0\0\0\0\x02\0\0\0\0\0\0\0\0\0\0\x08some ke\x31",
        b"PG\x01\x05\0\x02\0\0\0\0\0\0\0\x02\0\0\0\0\0\0\0\x50\x02\0\x08some ke\x40\x01\0\x08of eight",
    ];
    let Ok((mut switch, mut post)) = made(&rt, rt.alloc()) else {
        return Ok(());
    };
    let start = Instant::now(&rt)?;
    let malformed = walk(&rt, &mut switch, &mut post, &packets, false);
    let decoding = start.elapsed(&rt)?;
    let start = Instant::now(&rt)?;
    let refused = walk(&rt, &mut switch, &mut post, &packets, true);
    let stepping = start.elapsed(&rt)?;
    println!(rt; "refused {malformed} and {refused}")?;
    println!(rt; "decode {} ms", decoding.as_millis())?;
    println!(rt; "step {} ms", stepping.as_millis())
}
RATTLE
rt run > lines 2>&1 || { tail -20 lines; exit 1; }
grep -E '^(refused|decode|step) ' lines
awk '/^decode /{d=$2} /^step /{s=$2}
    END{printf "%.0f packets a second decoded, %.0f stepped: %.0f ns a packet, %.1f times decode\n", 1e9/d, 1e9/s, s, s/d}' lines
echo "$(nproc) processors, $(sed -n 's/^model name[^:]*: //p' /proc/cpuinfo | head -1)"
