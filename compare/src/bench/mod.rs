//! The calls, timed on volumes of several looks and sizes and of both editions: the programs one after the other, in one run. A line for
//! each volume, size, call and program, times in milliseconds, fields parted by tabs. Behind them the longest name, and the engines for shared
//! blocks.

mod long_name;
mod regions;
mod volumes;

use crate::library::Library;
use second::query::RECORDS_ROOM;
use second::refusal::{Refusal, NOT_LIVE, SUCCESS};
use second::store::{Own, Store, API};
use std::hint::black_box;
use std::time::{Duration, Instant};
use volumes::{new_at, Kind, Volume, BIG, BIG_AT, BYTES, GONE, KINDS, MIB};

const SIZES: [usize; 4] = [64, 256, 1024, 4094];
/// All is timed so often, one after the other, so that a slow moment of the machine does not meet all rounds of a call.
const SWEEPS: u32 = 3;
/// In each sweep a call is timed until so much time went by, and so often at least.
const LEAST_ROUNDS: u32 = 3;
const ROUNDS: u32 = 60;
const ENOUGH: Duration = Duration::from_millis(60);
/// All entries, one by one and at once.
const BY_LIST: &str = "list all by list";
const AT_ONCE: &str = "list all";
/// A volume of more entries is not listed one by one: it is judged for each of them, and that takes too long.
const MOST_BY_LIST: usize = 1024;

/// What is timed: another commit's library, if one was linked, the library and the second program.
const PROGRAMS: &[(&str, &dyn Store)] = &[
    #[cfg(before)]
    ("before", &crate::before::Library),
    ("library", &Library),
    ("second", &Own),
];

/// A call on an image, a path of its last slot and room for 1 MiB.
type Call = fn(&dyn Store, &mut [u8], &[u8], &mut [u8]) -> Refusal;

/// What each call is timed on: the volume, or one with an entry less for what a create adds.
const CALLS: [(&str, Call); 12] = [
    ("open", |store, image, _, out| black_box(store.open(image, out)).refusal),
    ("find", |store, image, path, _| black_box(store.find(image, path)).refusal),
    ("list", |store, image, _, out| black_box(store.list(image, 0, out)).refusal),
    (BY_LIST, |store, image, _, out| list_by_list(store, image, out)),
    (AT_ONCE, |store, image, _, out| black_box(store.list_all(image, 0, &mut out[..RECORDS_ROOM])).refusal),
    ("read", |store, image, _, out| black_box(store.read(image, BIG, out)).refusal),
    ("create", |store, image, _, out| black_box(store.create_file(image, b"new", 1, out)).refusal),
    ("delete", |store, image, path, _| black_box(store.delete(image, path, 1)).refusal),
    ("delete of 1 MiB", |store, image, _, _| black_box(store.delete(image, BIG, 1)).refusal),
    ("delete keep", |store, image, path, _| black_box(store.delete_keep(image, path, 1)).refusal),
    ("reclaim", |store, image, _, _| black_box(store.reclaim(image, 1)).refusal),
    ("restore", |store, image, _, _| black_box(store.restore(image, GONE, 1)).refusal),
];

/// From slot to slot until no entry is left.
fn list_by_list(store: &dyn Store, image: &[u8], out: &mut [u8]) -> Refusal {
    let mut slot = 0;
    loop {
        let listed = black_box(store.list(image, slot, out));
        if listed.refusal != SUCCESS || listed.kind == 0 {
            return listed.refusal;
        }
        slot = listed.slot + 1;
    }
}

/// The best times so far, in the order in which they are printed.
#[derive(Default)]
struct Table {
    lines: Vec<(String, Duration)>,
}

impl Table {
    /// One more measurement of what the fields name. What took long is not measured again, to save time.
    fn measure(&mut self, fields: String, time: impl FnOnce() -> Result<Duration, String>) -> Result<(), String> {
        let known = self.lines.iter().position(|line| line.0 == fields);
        if known.is_some_and(|place| ENOUGH <= self.lines[place].1) {
            return Ok(());
        }
        let time = time().map_err(|error| format!("{fields}: {error}"))?;
        match known {
            Some(place) => self.lines[place].1 = self.lines[place].1.min(time),
            None => self.lines.push((fields, time)),
        }
        Ok(())
    }
}

/// On the volumes whose names begin so.
pub fn run(volumes: &str) -> Result<String, String> {
    if let Some((program, store)) = PROGRAMS.iter().find(|(_, store)| store.api() != API) {
        return Err(format!("{program} has interface {}, not {API}", store.api()));
    }
    let mut table = Table::default();
    for _ in 0..SWEEPS {
        for kind in KINDS.iter().filter(|kind| kind.name.starts_with(volumes)) {
            for size in SIZES {
                timed(kind, kind.most(size), &mut table)?;
            }
        }
        copies(&mut table)?;
    }
    let mut text = "volume\tentries\tcall\tprogram\tms".to_string();
    for (fields, time) in table.lines {
        text += &format!("\n{fields}\t{:.4}", millis(time));
    }
    Ok(text + "\n" + &long_name::run()? + "\n" + &regions::run()?)
}

/// The engines for shared blocks alone.
pub fn of_regions() -> Result<String, String> {
    regions::run()
}

/// 1 MiB copied by the machine out of an image and into it, from where a read of the first volume reads and to where a create on it writes: where
/// the bytes lie in their pages can move such a copy by a factor of four.
fn copies(table: &mut Table) -> Result<(), String> {
    let mut image = KINDS[0].volume(SIZES[0] - 1)?.image.clone();
    let mut out = vec![7; MIB];
    let new = new_at(SIZES[0] - 1);
    table.measure("memory\t\tcopy out\tmachine".to_string(), || {
        best(ROUNDS, || {
            black_box(&mut out).copy_from_slice(black_box(&image[BIG_AT..BIG_AT + MIB]));
            true
        })
    })?;
    table.measure("memory\t\tcopy in\tmachine".to_string(), || {
        best(ROUNDS, || {
            black_box(&mut image[new..new + MIB]).copy_from_slice(black_box(&out));
            true
        })
    })
}

/// What a call answers on these volumes.
fn wanted(kind: &Kind, call: &str) -> Refusal {
    match call {
        "restore" if !kind.edition.keeps_deleted() => NOT_LIVE,
        _ => SUCCESS,
    }
}

fn is_timed(call: &str, entries: usize) -> bool {
    call != BY_LIST || entries <= MOST_BY_LIST
}

/// All calls on volumes of this look, and one pass over the index bytes.
fn timed(kind: &Kind, entries: usize, table: &mut Table) -> Result<(), String> {
    let full = kind.volume(entries)?;
    let less = kind.volume(entries - 1)?;
    let index = &full.image[BYTES - full.index..];
    let sum = || black_box(black_box(index).iter().try_fold(0_u64, |sum, byte| sum.checked_add((*byte).into()))).is_some();
    table.measure(format!("{}\t{entries}\tpass\tmachine", kind.name), || best(ROUNDS, sum))?;
    for (name, call) in CALLS.into_iter().filter(|(name, _)| is_timed(name, entries)) {
        let volume = if name == "create" { &less } else { &full };
        for (program, store) in PROGRAMS {
            let fields = format!("{}\t{entries}\t{name}\t{program}", kind.name);
            table.measure(fields, || best_on(volume, *store, call, wanted(kind, name)))?;
        }
    }
    Ok(())
}

/// The best time of a call on the volume, whose super-block and index are laid anew each time.
fn best_on(volume: &Volume, store: &dyn Store, call: Call, wanted: Refusal) -> Result<Duration, String> {
    let mut image = volume.image.clone();
    let mut out = vec![7; MIB];
    let index = BYTES - volume.index - 64;
    let mut least = Duration::MAX;
    let mut spent = Duration::ZERO;
    for round in 0..ROUNDS {
        image[..512].copy_from_slice(&volume.image[..512]);
        image[index..].copy_from_slice(&volume.image[index..]);
        let start = Instant::now();
        let answer = call(store, black_box(&mut image), black_box(&volume.last), black_box(&mut out));
        let time = start.elapsed();
        if answer != wanted {
            return Err(format!("a call of the benchmark answered {answer}"));
        }
        least = least.min(time);
        spent += time;
        if LEAST_ROUNDS <= round + 1 && ENOUGH < spent {
            break;
        }
    }
    Ok(least)
}

fn best(rounds: u32, mut call: impl FnMut() -> bool) -> Result<Duration, String> {
    let mut least = Duration::MAX;
    for _ in 0..rounds {
        let start = Instant::now();
        if !call() {
            return Err("a call of the benchmark was refused".to_string());
        }
        least = least.min(start.elapsed());
    }
    Ok(least)
}

fn millis(time: Duration) -> f64 {
    time.as_secs_f64() * 1000.0
}
