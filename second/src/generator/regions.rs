//! Tables of regions, exact, short, empty and long: over volumes as the calls leave them, over volumes laid by hand
//! whose regions touch or share blocks, and over images with a bound, an index or a super-block that is not good.

use super::built::name_at;
use super::spans::{Laid, Spot};
use super::{built, crowded, damage, history, least_reserved, reports, sums, tails, volume_name, Known, Writer};
use crate::edition::{Edition, SUM_AT};
use crate::index::{DELETED_FILE, END_AT, FILE, LENGTH_AT, START_AT, UNUSABLE};
use crate::script::MOST_PLACES;
use crate::superblock::Geometry;
use crate::volume::Volume;
use crate::xorshift::Xorshift;

/// Places about as many as there are regions, about as many as a line shows whole, and about as many as there can be.
#[rustfmt::skip]
const PLACES: [&str; 22] = [
    "=", "=", "=", "=", "=", "=", "=-1", "=-1", "=-1", "=-2", "=-9", "=+1", "=+1", "=+3", "=+40", "=+500", "0", "1",
    "16", "17", "4096", "5000",
];
/// Lengths that are refusal 1, most of them with the magic still there.
const CUT: [usize; 6] = [511, 511, 511, 0x1AF, 0x1A9, 0];
/// How many of a hundred scenes of other families end with a table.
const CLOSED: u64 = 25;

pub fn scene(w: &mut Writer) {
    match w.rng.below(20) {
        0..=2 => used(w),
        3 | 4 => churned(w),
        5..=11 => by_hand(w),
        12..=16 => changed(w),
        17 => damage::damages(w, 5, look),
        _ => of_others(w),
    }
}

/// A line that lends a table.
fn table(rng: &mut Xorshift) -> String {
    let any = rng.below(60).to_string();
    let places = if rng.chance(10) { any } else { rng.pick(&PLACES).to_string() };
    format!("regions {places} {}", rng.below(1_000_000))
}

/// A table or two, and mostly the answer without one.
fn look(w: &mut Writer) {
    let tables = 1 + w.rng.below(2);
    for _ in 0..tables {
        let line = table(&mut w.rng);
        w.put(line);
    }
    if w.rng.chance(60) {
        w.put("sharing".to_string());
    }
}

/// Tables of every length that makes a difference: just enough, one place short, none, and more.
fn look_closely(w: &mut Writer) {
    let more = 2 + w.rng.below(30);
    let far = w.rng.pick(&[1_000, 4_094, 4_096, MOST_PLACES as u64]);
    for places in ["=", "=-1", "0", "=+1", &format!("=+{more}"), &far.to_string()] {
        let seed = w.rng.below(1_000_000);
        w.put(format!("regions {places} {seed}"));
    }
    w.put("sharing".to_string());
}

/// At times a table behind all else in a scene of another family, and the answer without one.
pub fn close(w: &mut Writer) {
    close_after(w, |_| {});
}

/// The same with something done before, where there is such a table.
pub fn close_after(w: &mut Writer, prepare: impl FnOnce(&mut Writer)) {
    if w.aside.chance(CLOSED) {
        prepare(w);
        let (places, seed) = (w.aside.pick(&["=", "=", "=", "=-1", "=+1", "=+20"]), w.aside.below(1_000_000));
        w.put(format!("regions {places} {seed}"));
        w.put("sharing".to_string());
    }
}

/// A volume as the calls leave it, from its format on.
fn used(w: &mut Writer) {
    let block = 256 << w.rng.below(5);
    history::begin(w, block);
    look(w);
    for _ in 0..3 {
        let count = 3 + w.rng.below(8);
        history::steps(w, count, block);
        look(w);
    }
    erase(w);
    w.put("history".to_string());
}

/// Many files by calls. What is put where others were makes their regions come in another order than their slots.
fn churned(w: &mut Writer) {
    let block = 256 << w.rng.below(2);
    w.put(format!("image {}", 160 * block));
    let name = volume_name(&mut w.rng);
    w.format(block, least_reserved(block), &name);
    let rounds = 2 + w.rng.below(2);
    for _ in 0..rounds {
        let files = 8 + w.rng.below(12);
        for _ in 0..files {
            let (length, serial) = (w.rng.pick(&[0, 1, block, block, 2 * block, 3 * block + 1]), w.serial());
            w.mkfile(format!("c{serial}").as_bytes(), length);
        }
        look(w);
        let deletes = 3 + w.rng.below(8);
        (0..deletes).for_each(|_| drop(delete_one(w)));
        look(w);
        if w.rng.chance(70) {
            w.reclaim();
            look(w);
        }
    }
    look_closely(w);
    w.put("history".to_string());
}

/// Deletes a live file, if there is one, and gives its path.
fn delete_one(w: &mut Writer) -> Vec<u8> {
    let mut files = w.live();
    files.retain(|known| !known.directory);
    let Known { path, .. } = w.rng.pick(&files);
    if !path.is_empty() {
        w.delete_either(&path, 70);
    }
    path
}

/// Tables before and after deletes, restores, a reclaim and a create. Where the volume does not open, there is nothing
/// to delete, and nothing may change.
fn erase(w: &mut Writer) {
    if Volume::judge(w.image()).is_err() {
        w.reclaim();
        return look(w);
    }
    let deletes = 1 + w.rng.below(3);
    for _ in 0..deletes {
        let path = delete_one(w);
        look(w);
        if w.rng.chance(40) {
            w.restore(&path);
            look(w);
        }
    }
    w.reclaim();
    look_closely(w);
    let (block, serial) = (w.geometry().map_or(256, |geometry| geometry.block), w.serial());
    let length = w.rng.pick(&[0, 1, block, 2 * block + 1]);
    w.mkfile(format!("e{serial}").as_bytes(), length);
    look(w);
}

fn put_image(w: &mut Writer, image: &[u8]) {
    w.put(format!("image {}", image.len()));
    w.poke_back(image);
}

/// A volume laid by hand, and what becomes of it when calls write to it. At last one of many entries is changed.
fn by_hand(w: &mut Writer) {
    let laid = Laid::new(&mut w.rng, w.edition);
    put_image(w, &laid.image);
    look_closely(w);
    w.open();
    if !laid.is_large() {
        return erase(w);
    }
    let spot = w.rng.pick(&laid.spots);
    if w.rng.chance(50) {
        meet(w, &laid);
    } else {
        bound(w, &laid, &spot);
    }
    look_closely(w);
}

/// A volume laid by hand, with one thing about it changed at a time.
fn changed(w: &mut Writer) {
    let mut laid = Laid::new(&mut w.rng, w.edition);
    while laid.is_large() || laid.spots.is_empty() {
        laid = Laid::new(&mut w.rng, w.edition);
    }
    put_image(w, &laid.image);
    look(w);
    let rounds = 8 + w.rng.below(6);
    for _ in 0..rounds {
        change(w, &laid);
        look(w);
        // Where the image is refused, most of the other tables have no place to keep.
        let (places, seed) = (w.rng.pick(&["1", "7", "16", "30", "=+5"]), w.rng.below(1_000_000));
        w.put(format!("regions {places} {seed}"));
        if w.rng.chance(20) {
            w.open();
        }
        if w.length() != laid.image.len() as u64 {
            w.put(format!("truncate {}", laid.image.len()));
        }
        w.poke_back(&laid.image);
    }
    look(w);
}

fn change(w: &mut Writer, laid: &Laid) {
    let spot = w.rng.pick(&laid.spots);
    match w.rng.below(30) {
        0..=9 => bound(w, laid, &spot),
        10..=12 => meet(w, laid),
        13 | 14 => other_kind(w, &spot),
        15..=17 => index_fault(w, laid, &spot),
        18 | 19 => path_fault(w, laid),
        20..=27 => reports::fault(w),
        _ => {
            let length = w.rng.pick(&CUT);
            w.put(format!("truncate {length}"));
        }
    }
    // A change of the index may come with another one.
    if w.rng.chance(10) && w.length() == laid.image.len() as u64 {
        let spot = w.rng.pick(&laid.spots);
        bound(w, laid, &spot);
    }
}

/// Makes the sum of an entry right, where the edition has sums, or at times leaves it wrong.
fn settle(w: &mut Writer, at: usize) {
    if w.rng.chance(94) {
        w.reseal(at);
    }
}

/// Other numbers for an entry, at a bound or past it.
fn bound(w: &mut Writer, laid: &Laid, spot: &Spot) {
    let numbers = some_numbers(&mut w.rng, spot, &laid.geometry);
    w.poke(spot.field(w.edition, START_AT), &numbers.map(u64::to_le_bytes).concat());
    settle(w, spot.at);
}

/// Start, end as it is stored, and length: not good by themselves, or just good.
fn some_numbers(rng: &mut Xorshift, spot: &Spot, geometry: &Geometry) -> [u64; 3] {
    let Geometry { reserved, block, total, .. } = *geometry;
    let Spot { start, end, .. } = *spot;
    let past = geometry.data_end();
    let last = |past| geometry.edition.stored_end(past);
    let (room, high) = ((end - start) * block, rng.pick(&[1 << 32, 1 << 55, 1 << 63]));
    let outside = [
        [reserved - 1, last(end), 0],
        [0, last(end), 0],
        [start, last(past + 1), 0],
        [past, last(past + 1), 0],
        [start, last(total), 0],
    ];
    let no_block = [[start, last(start), 0], [start + 1, last(start), 0], [end, last(start), 0], [past, last(past), 0]];
    let empty = [[0, 0, 0], [0, 0, 1], [start, 0, 0]];
    let huge = [
        [start, u64::MAX, 0],
        [u64::MAX, u64::MAX, 0],
        [u64::MAX, 0, 0],
        [start, u64::MAX - 1, 0],
        [start | high, last(end) | high, 0],
        [start, last(end) | high, 0],
    ];
    let too_long =
        [room + 1, room + 1, room | high, u64::MAX, u64::MAX - room].map(|length| [start, last(end), length]);
    let good = [
        [start, last(end), room],
        [reserved, last(end), block],
        [start, last(past), 0],
        [past - 1, last(past), block],
        [reserved, last(past), 0],
    ];
    let choices: [&[[u64; 3]]; 7] = [&outside, &outside, &no_block, &empty, &huge, &too_long, &good];
    let choices = rng.pick(&choices);
    rng.pick(choices)
}

/// The end of a region at the start of the next one, or one block further, where they share just that.
fn meet(w: &mut Writer, laid: &Laid) {
    let mut spots = laid.spots.clone();
    spots.sort_by_key(|spot| spot.start);
    let place = w.rng.below(spots.len() as u64 - 1) as usize;
    let (lower, upper) = (spots[place], spots.get(place + 1).copied().unwrap_or_default());
    if lower.start < upper.start {
        let end = w.edition.stored_end(upper.start + w.rng.below(2));
        w.poke(lower.field(w.edition, END_AT), &end.to_le_bytes());
        w.poke(lower.field(w.edition, LENGTH_AT), &[0; 8]);
        settle(w, lower.at);
    }
}

/// A file becomes a deleted one or the other way round; of an unusable entry the spare bytes change.
fn other_kind(w: &mut Writer, spot: &Spot) {
    let byte = w.rng.byte();
    match spot.kind {
        FILE => w.poke(spot.at, &[DELETED_FILE]),
        DELETED_FILE => w.poke(spot.at, &[FILE]),
        _ => w.poke(spot.at + 2, &[byte; 8]),
    }
    settle(w, spot.at);
}

/// Mostly refusal 6: a marker, a type that may not stand there, a sum or a name.
fn index_fault(w: &mut Writer, laid: &Laid, spot: &Spot) {
    let first = laid.geometry.slot_offset(0);
    let kind = w.rng.pick(&[0x01, 0x02, 0x20, 0x41, 0xFF]);
    match w.rng.below(5) {
        0 => w.poke(first, &[kind]),
        1 => w.poke(laid.image.len() - 64, &[kind]),
        2 if spot.kind != UNUSABLE => {
            w.poke(spot.at + name_at(w.edition, spot.kind), b"?");
            w.reseal(spot.at);
        }
        3 => {
            let byte = laid.image[spot.at + SUM_AT].wrapping_add(1);
            w.poke(spot.at + SUM_AT, &[byte]);
        }
        _ => {
            w.poke(spot.at, &[kind]);
            settle(w, spot.at);
        }
    }
}

/// Refusal 8 to the calls: a file gets the path of another entry, or one whose directory is not there.
fn path_fault(w: &mut Writer, laid: &Laid) {
    let files: Vec<Spot> = laid.spots.iter().filter(|spot| spot.kind == FILE).copied().collect();
    if files.is_empty() {
        return;
    }
    let (file, other) = (w.rng.pick(&files), w.rng.pick(&files));
    let path = if file.slot == other.slot { "none/n\0".to_string() } else { format!("n{}\0", other.slot) };
    w.poke(file.at + name_at(w.edition, FILE), path.as_bytes());
    w.reseal(file.at);
}

/// A volume of another family, with a fault or without, and what becomes of it.
fn of_others(w: &mut Writer) {
    let image = match w.rng.below(8) {
        0..=2 => built::some_image(w),
        3 | 4 => crowded::some_image(w),
        5 => tails::some_image(w),
        _ if w.edition == Edition::V1_0 => built::some_image(w),
        6 => sums::some_image(w),
        _ => return sums::damages(w, 5, look),
    };
    put_image(w, &image);
    look_closely(w);
    if w.rng.chance(60) {
        erase(w);
    }
}
