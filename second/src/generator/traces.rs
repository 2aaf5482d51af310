//! Volumes laid by hand for both deletes, with bytes in every block: regions longer than their files, runs longer than
//! their names, deleted files and unusable entries behind what goes, and data areas larger than all regions. In 1.10
//! there are deleted runs and stray slots, which the first delete rewrites.

use super::built::{slots_for, Builder};
use super::crowded::{lay, shuffle};
use super::{least_reserved, path_of_length, regions, Known, Writer};
use crate::edition::Edition;
use crate::index::{DELETED_DIRECTORY, DELETED_FILE, DIRECTORY, FILE, UNUSABLE, UNUSED};
use crate::superblock::{Geometry, SLOT};
use crate::volume::Volume;
use crate::xorshift::Xorshift;

/// What holds the last regions, in the order of their blocks.
const ENDS: [&[u8]; 10] = [
    &[FILE],
    &[FILE, FILE],
    &[FILE, DELETED_FILE],
    &[DELETED_FILE, FILE],
    &[FILE, UNUSABLE],
    &[UNUSABLE, FILE],
    &[FILE, DELETED_FILE, UNUSABLE],
    &[FILE, UNUSABLE, DELETED_FILE],
    &[DELETED_FILE, UNUSABLE, FILE],
    &[FILE, DELETED_FILE, DELETED_FILE],
];
const HOLDERS: [u8; 7] = [FILE, FILE, FILE, FILE, FILE, DELETED_FILE, UNUSABLE];
const OTHERS: [u8; 8] = [FILE, FILE, DIRECTORY, DIRECTORY, DELETED_FILE, DELETED_DIRECTORY, UNUSED, UNUSED];
/// As edition 1.0 has them: lengths of names that take runs of one to four slots.
const LENGTHS: [usize; 8] = [0, 0, 0, 0, 29, 30, 94, 200];
/// In a hundred volumes of 1.0, how many have a version that only reads.
const SOME_NEWER: u64 = 4;
/// Up to this block length an image is made whole again between the deletes, which takes a line for every 64 bytes.
const SHORT: u64 = 1_024;

/// An entry or an unused slot to lay. Its blocks count from the first that is not reserved; without blocks both numbers
/// are 0.
#[derive(Clone, Debug, Default)]
struct Item {
    kind: u8,
    path: Vec<u8>,
    slots: u64,
    span: (u64, u64),
}

pub fn scene(w: &mut Writer) {
    let builder = laid(w);
    let (length, seed) = (builder.image.len(), w.rng.below(1_000_000));
    w.put(format!("imagefill {length} {seed}"));
    lay(w, &builder.image, &builder.geometry);
    w.open();
    w.list_each(3);
    let whole = w.image().to_vec();
    let rounds = if builder.geometry.block <= SHORT { 2 + w.rng.below(3) } else { 0 };
    for _ in 0..rounds {
        some_deletes(w);
        w.poke_back(&whole);
    }
    all_deletes(w);
    w.listing();
    regions::close(w);
}

/// What holds the regions, in the order of their blocks, and what holds none.
fn some_kinds(rng: &mut Xorshift) -> (Vec<u8>, Vec<u8>) {
    let mut holders: Vec<u8> = (0..rng.below(5)).map(|_| rng.pick(&HOLDERS)).collect();
    holders.extend_from_slice(rng.pick(&ENDS));
    let others = (0..1 + rng.below(5)).map(|_| rng.pick(&OTHERS)).collect();
    (holders, others)
}

/// The items in the order of their slots, the paths among them chosen.
fn some_items(rng: &mut Xorshift, edition: Edition) -> Vec<Item> {
    let (holders, others) = some_kinds(rng);
    let mut past = rng.pick(&[0, 0, 0, 1]);
    let mut items = Vec::new();
    for kind in holders {
        let start = past + rng.pick(&[0, 0, 0, 1, 2]);
        past = start + 1 + rng.below(3);
        items.push(Item { kind, span: (start, past), ..Item::default() });
    }
    items.extend(others.into_iter().map(|kind| Item { kind, ..Item::default() }));
    shuffle(rng, &mut items);
    let directory = b"d".to_vec();
    items.push(Item { kind: DIRECTORY, path: directory, ..Item::default() });
    name_all(rng, edition, &mut items);
    shuffle(rng, &mut items);
    items
}

/// Paths of their own, many of them below one directory; deleted entries at times have that of another entry.
fn name_all(rng: &mut Xorshift, edition: Edition, items: &mut [Item]) {
    let mut paths: Vec<Vec<u8>> = Vec::new();
    for (serial, item) in (1..).zip(items) {
        let deleted = matches!(item.kind, DELETED_FILE | DELETED_DIRECTORY);
        if item.path.is_empty() {
            let directory: &[u8] = rng.pick(&[&b""[..], b"d"]);
            let length = rng.pick(&LENGTHS);
            item.path = path_of_length(rng, directory, length, serial);
        }
        if deleted && !paths.is_empty() && rng.chance(60) {
            item.path = rng.pick(&paths);
        }
        item.slots = match item.kind {
            UNUSABLE | UNUSED => 1,
            kind => slots_for(edition, kind, item.path.len() + 1) + rng.pick(&[0, 0, 0, 1, 2]),
        };
        if !matches!(item.kind, UNUSABLE | UNUSED) {
            paths.push(item.path.clone());
        }
    }
}

/// Some slots are left unused, and the data area may end behind the last region and at the ceiling block.
fn some_geometry(rng: &mut Xorshift, edition: Edition, items: &[Item]) -> Geometry {
    let block = 256 << rng.pick(&[0, 0, 1, 1, 1, 2, 3, 4]);
    let reserved = least_reserved(block) + rng.below(3);
    let slots: u64 = items.iter().map(|item| item.slots).sum();
    let index = SLOT * (2 + slots + rng.pick(&[0, 0, 1, 3]));
    let end = items.iter().map(|item| item.span.1).max().unwrap_or(0);
    let data = end + rng.pick(&[0, 0, 0, 1, 2, 6]);
    let total = reserved + data + rng.pick(&[0, 0, 1, 5]) + index.div_ceil(block);
    Geometry { edition, image: total * block, block, total, reserved, data, index }
}

fn laid(w: &mut Writer) -> Builder {
    let items = some_items(&mut w.rng, w.edition);
    let geometry = some_geometry(&mut w.rng, w.edition, &items);
    let mut builder = Builder::with(geometry, SOME_NEWER, &mut w.rng);
    for item in &items {
        lay_one(&mut builder, &mut w.rng, item);
    }
    while builder.slot < geometry.slots() - 1 {
        builder.unused(&mut w.rng);
    }
    builder
}

fn lay_one(builder: &mut Builder, rng: &mut Xorshift, item: &Item) {
    let Geometry { edition, block, reserved, .. } = builder.geometry;
    let (start, end) = item.span;
    if item.kind == UNUSED {
        return builder.unused(rng);
    }
    let room = (end - start) * block;
    // As many bytes as there is room for, so many that the last block is not needed, few, or none.
    let length = rng.pick(&[room, room, room.saturating_sub(1), room.saturating_sub(block), room.min(1), 0]);
    let numbers = if end > 0 { (reserved + start, reserved + end, length) } else { (0, 0, 0) };
    let at = builder.geometry.slot_offset(builder.slot);
    builder.run(item.kind, item.slots, &[item.path.as_slice(), b"\0"].concat(), numbers);
    let stale = edition.rewrites(item.kind);
    if stale && rng.chance(30) {
        builder.break_sum(rng, at);
    }
}

/// The path of the live file whose blocks lie last, of some live entry, or nearly one.
fn some_path(w: &mut Writer) -> Vec<u8> {
    let live = w.live();
    let Known { mut path, .. } = w.rng.pick(&live);
    match w.rng.below(10) {
        0..=4 => last_file(w).unwrap_or(path),
        5 => {
            path.push(b'!');
            path
        }
        _ => path,
    }
}

fn last_file(w: &Writer) -> Option<Vec<u8>> {
    let volume = Volume::judge(w.image()).ok()?;
    let files = volume.index.entries.iter().filter(|entry| entry.is_live() && entry.start > 0);
    files.max_by_key(|entry| entry.end).map(|entry| entry.path.to_vec())
}

/// A few deletes, with other calls between them.
fn some_deletes(w: &mut Writer) {
    let deletes = 1 + w.rng.below(4);
    for _ in 0..deletes {
        let path = some_path(w);
        w.delete_either(&path, 35);
        match w.rng.below(8) {
            0 | 1 => drop(w.open()),
            2 => drop(w.read(&path)),
            3 => drop(w.find(&path)),
            4 => drop(w.restore(&path)),
            5 => drop(w.reclaim()),
            6 => create(w),
            _ => drop(w.list_all()),
        }
    }
    w.open();
    let deleted = w.deleted();
    let path = w.rng.pick(&deleted).path;
    w.restore(&path);
}

/// A file in the blocks, or an entry in the slots, that a delete has given back.
fn create(w: &mut Writer) {
    let block = w.geometry().map_or(256, |geometry| geometry.block);
    let (bytes, length) = (w.rng.pick(&[0, 1, block, 2 * block, 3 * block]), w.rng.pick(&LENGTHS));
    let (length, serial) = (w.edge(length), w.serial());
    let mut path = path_of_length(&mut w.rng, b"", length, serial);
    path.push(b'w');
    w.mkfile(&path, bytes);
    w.find(&path);
}

/// One after the other until nothing is live, the directory last or nearly so.
fn all_deletes(w: &mut Writer) {
    let keeping = w.rng.pick(&[0, 20, 50]);
    let mut live = w.live();
    shuffle(&mut w.rng, &mut live);
    live.sort_by_key(|known| known.path == b"d");
    for known in &live {
        w.delete_either(&known.path, keeping);
        if w.rng.chance(25) {
            w.open();
        }
        if w.rng.chance(15) {
            w.delete_either(b"d", 50);
        }
        if w.rng.chance(10) {
            w.restore(&known.path);
        }
    }
    w.open();
    if w.rng.chance(50) {
        w.reclaim();
        w.open();
    }
}
