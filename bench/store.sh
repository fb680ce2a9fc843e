#!/usr/bin/env bash
# Seconds of a run in the store in memory, at 1,000, 10,000, 20,000 and 40,000 files: each file is created, which is one
# event, and then asked for its size, which is one search. Beside the seconds stands by how much they grew for each doubling
# of the files. Other counts can be given as words.
#
# The program is made in a folder of its own, from copies of the two crates, and is proved and built there by `rt run`: the
# first run takes some minutes, perhaps five alone on a machine.
set -eu
cd "$(dirname "$0")/.."
[ "$#" -gt 0 ] || set -- 1000 10000 20000 40000
work="$(mktemp -d)"
trap 'rm -rf "$work"' EXIT

for crate in ice_store store_memory; do
    mkdir -p "$work/crates/$crate"
    cp -r "crates/$crate/src" "crates/$crate/specs" "crates/$crate/proofs" "$work/crates/$crate/"
done
cp HANDLES "$work/HANDLES"
cat >"$work/crates.txt" <<'TEXT'
ice_store:
store_memory: ice_store
store_bench: ice_store store_memory anyhow
TEXT
mkdir -p "$work/crates/store_bench/src"
cat >"$work/crates/store_bench/src/main.rt" <<'TEXT'
//! Creates as many files in a store in memory as each word says, and asks for the size of each: COUNT ..
#![tactic(auto)]

use anyhow::{Result, bail};
use ice_store::{Alone, Items, Place, Store, Text};
use std::alloc::Global;
use std::env;
use std::time::Instant;
use store_memory::{MemStore, Quiet};

type Solo = MemStore<Quiet<Alone>>;

fn place_of(alloc: Global, number: u64) -> Result<Place> {
    let text = format!(in alloc; "/warehouse/table/data/{number}.avro")?;
    match Place::read(alloc, &Text::copy_of(alloc, text.as_bytes())?) {
        Ok(place) => Ok(place),
        Err(_) => bail!("no place"),
    }
}

fn create(store: &mut Solo, place: &Place) -> Result<()> {
    match store.create(place) {
        Ok(_) => Ok(()),
        Err(_) => bail!("no file"),
    }
}

fn look(store: &mut Solo, place: &Place) -> Result<()> {
    match store.size(place) {
        Ok(Some(0)) => Ok(()),
        _ => bail!("no size"),
    }
}

fn fill(alloc: Global, count: u64) -> Result<()> {
    let nobody = Quiet { manners: Alone };
    let mut store = MemStore::new(alloc, Items::empty(alloc), 0, nobody, Items::empty(alloc))?;
    for number in 0..count {
        create(&mut store, &place_of(alloc, number)?)?;
    }
    for number in 0..count {
        look(&mut store, &place_of(alloc, number)?)?;
    }
    Ok(())
}

fn main(rt: HostRuntime) -> Result<()> {
    for word in env::args(&rt)?.skip(1) {
        let count = word.parse::<u64>()?;
        let began = Instant::now(&rt)?;
        fill(rt.alloc(), count)?;
        println!(rt; "{count} {}", began.elapsed(&rt)?.as_micros())?;
    }
    Ok(())
}
TEXT

(cd "$work/crates/store_bench" && rt run -- "$@") >"$work/said" 2>"$work/log" ||
    { cat "$work/said" "$work/log" >&2; exit 1; }
date -u '+%Y-%m-%d %H:%M UTC'
echo "processor: $(sed -n 's/^model name[^:]*: //p' /proc/cpuinfo | head -1), $(nproc) of them; load $(cut -d' ' -f1-3 /proc/loadavg)"
grep -E '^[0-9]+ [0-9]+$' "$work/said" | awk '
    BEGIN { printf "%9s %12s %14s %12s\n", "files", "seconds", "microseconds", "a doubling" }
    BEGIN { printf "%9s %12s %14s %12s\n", "", "", "a file", "" }
    {
        printf "%9d %12.4f %14.2f ", $1, $2 / 1000000, $2 / $1
        if (NR > 1 && $1 != files && $2 > 0 && micros > 0) printf "%12.2f\n", exp(log($2 / micros) * log(2) / log($1 / files)); else printf "%12s\n", "-"
        files = $1; micros = $2
    }'
