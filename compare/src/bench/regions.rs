//! The engines for shared blocks on volumes of one region for each entry, in several orders of the index: over a lent table, over a table of
//! its own, and by comparing each with every other; the second program both ways; and an open. All in one run; the engines' times hold the
//! judging of the index up to 6, which all have to do.

use super::volumes::{of_regions, Extent};
use super::{best, millis, SWEEPS};
use crate::engines;
use crate::library::Library;
use second::refusal::{Refusal, REGIONS, SUCCESS};
use second::store::{Own, Store};
use second::xorshift::Xorshift;
use second::TableRegion;
use std::hint::black_box;
use std::time::Duration;

const SIZES: [usize; 2] = [2000, 4000];
const ROUNDS: u32 = 40;
/// What compares each with every other is timed less often: it takes a thousand times as long.
const PLAIN_ROUNDS: u32 = 3;

/// An order of so many regions in the index, whether it begins with an entry of the longest name, and the answer.
type Order = (&'static str, fn(usize) -> Vec<Extent>, bool, Refusal);

const ORDERS: [Order; 6] = [
    ("descending", |n| (0..n).rev().map(one_block).collect(), false, SUCCESS),
    ("ascending", |n| (0..n).map(one_block).collect(), false, SUCCESS),
    ("shuffled", |n| shuffled((0..n).map(one_block).collect()), false, SUCCESS),
    ("equal starts", |n| (0..n).map(|place| (1, 2 + place)).collect(), false, REGIONS),
    ("equal starts, shuffled", |n| shuffled((0..n).map(|place| (1, 2 + place)).collect()), false, REGIONS),
    // Of one region twice no name is walked, whatever stands before it.
    ("two regions, shuffled, behind a long name", |n| shuffled((0..n - 256).map(|place| one_block(place % 2)).collect()), true, REGIONS),
];

fn one_block(place: usize) -> Extent {
    (1 + place, 2 + place)
}

fn shuffled(mut extents: Vec<Extent>) -> Vec<Extent> {
    let mut random = Xorshift::new(11);
    super::volumes::permute(&mut extents, &mut random);
    extents
}

/// An engine on an image and a table with room for all its regions.
type Engine = fn(&[u8], &mut [TableRegion]) -> Refusal;

const ENGINES: &[(&str, Engine, u32)] = &[
    ("lent table", |image, table| engines::in_table(image, table).answer, ROUNDS),
    ("own table", |image, _| Library.sharing(image).refusal, ROUNDS),
    ("plain", |image, _| Library.sharing_plain(image).refusal, PLAIN_ROUNDS),
    ("second, in order", |image, _| Own.sharing(image).refusal, ROUNDS),
    ("second, plain", |image, _| Own.sharing_plain(image).refusal, PLAIN_ROUNDS),
    // All of 1 to 8, which judges the same regions.
    #[cfg(before)]
    ("open: before", |image, _| crate::before::Library.open(image, &mut [0; 64]).refusal, PLAIN_ROUNDS),
    ("open: library", |image, _| Library.open(image, &mut [0; 64]).refusal, ROUNDS),
    ("open: second", |image, _| Own.open(image, &mut [0; 64]).refusal, ROUNDS),
];

/// A line for each order and engine: the best times for both sizes, and how many times the first the second is.
pub fn run() -> Result<String, String> {
    let mut text = format!("regions\tengine\tms, {}\tms, {}\tratio", SIZES[0], SIZES[1]);
    for (order, extents, behind, wanted) in ORDERS {
        let mut images = Vec::new();
        for size in SIZES {
            images.push(of_regions(&extents(size), behind)?);
        }
        for (name, engine, rounds) in ENGINES {
            let times = [least(&images[0], *engine, *rounds, wanted)?, least(&images[1], *engine, *rounds, wanted)?];
            let ratio = times[1].as_secs_f64() / times[0].as_secs_f64();
            text += &format!("\n{order}\t{name}\t{:.4}\t{:.4}\t{ratio:.2}", millis(times[0]), millis(times[1]));
        }
    }
    Ok(text)
}

fn least(image: &[u8], engine: Engine, rounds: u32, wanted: Refusal) -> Result<Duration, String> {
    let mut table = vec![TableRegion::default(); 4096];
    let mut least = Duration::MAX;
    for _ in 0..SWEEPS {
        least = least.min(best(rounds, || engine(black_box(image), black_box(&mut table)) == wanted)?);
    }
    Ok(least)
}
