//! Both deletes, on all that can be deleted: what they wipe, what they keep, and what the data area shrinks to. Short
//! stories by calls with the check of the history between them, volumes laid by hand with bytes in every block, the
//! sixth empty file, and refusals, which both calls give alike. A story does not look at the answers.

use super::history::{closing, free_blocks};
use super::traces;
use super::{damage, least_reserved, odd_path, path_of_length, regions, reports, sums, volume_name, Writer};
use crate::edition::Edition;
use crate::superblock::{Geometry, LEAST_INDEX, SLOT, VERSION};

type Story = fn(&mut Writer, &[u8]);

const STORIES: [Story; 14] = [
    last,
    middle,
    kept_behind,
    kept_before,
    without_blocks,
    again,
    several_kept,
    below,
    reclaimed,
    refilled,
    long_names,
    outgrown,
    refused,
    everything,
];

/// As edition 1.0 has them: lengths of names that take runs of one to five slots.
const LENGTHS: [usize; 10] = [0, 0, 0, 0, 29, 30, 54, 94, 200, 285];

pub fn scene(w: &mut Writer) {
    match w.rng.below(20) {
        0..=9 => by_calls(w),
        10 | 11 => sixth(w),
        12..=16 => traces::scene(w),
        17 => arguments(w),
        18 if w.edition == Edition::V1_10 => sums::damages(w, 6, both_somewhere),
        _ => damaged(w),
    }
}

/// A volume, stories about paths of their own, and a look at all that is left.
fn by_calls(w: &mut Writer) {
    begin(w);
    let stories = 4 + w.rng.below(4);
    for _ in 0..stories {
        let path = some_path(w);
        STORIES[w.rng.below(STORIES.len() as u64) as usize](w, &path);
        w.put("history".to_string());
    }
    closing(w);
    regions::close(w);
}

/// An image, mostly full of bytes, so that what is not wiped shows, and an accepted format.
fn begin(w: &mut Writer) {
    let block = 256 << w.rng.below(5);
    let total = (least_reserved(block) + 10 + w.rng.below(30)).min(98_304 / block);
    let (length, seed) = (total * block, w.rng.below(1_000_000));
    let filled = w.rng.chance(75);
    w.put(if filled { format!("imagefill {length} {seed}") } else { format!("image {length}") });
    let reserved = least_reserved(block) + w.rng.pick(&[0, 0, 1, 3]);
    let name = volume_name(&mut w.rng);
    w.format(block, reserved, &name);
}

/// A path of its own, so that others can be made beside it.
fn some_path(w: &mut Writer) -> Vec<u8> {
    let length = w.rng.pick(&LENGTHS);
    let (length, serial) = (w.edge(length), w.serial());
    path_of_length(&mut w.rng, b"", length, serial)
}

/// The path with one more byte.
fn beside(path: &[u8], byte: u8) -> Vec<u8> {
    // The longest that create takes stays as long.
    [&path[..path.len().min(284)], &[byte]].concat()
}

fn block(w: &Writer) -> u64 {
    w.geometry().map_or(512, |geometry| geometry.block)
}

/// A file of one block or more.
fn file(w: &mut Writer, path: &[u8]) {
    let block = block(w);
    let length = w.rng.pick(&[1, block - 1, block, block + 1, 2 * block, 2 * block + 9]);
    w.mkfile(path, length);
}

/// A file with blocks, an empty one or a directory.
fn make(w: &mut Writer, path: &[u8]) {
    match w.rng.below(10) {
        0..=6 => file(w, path),
        7 => drop(w.mkfile(path, 0)),
        _ => drop(w.mkdir(path)),
    }
}

/// What a delete, or what came behind it, has left of a path and of the sizes.
fn look(w: &mut Writer, path: &[u8]) {
    match w.rng.below(6) {
        0 => drop(w.find(path)),
        1 => drop(w.read(path)),
        2 => drop(w.list_all()),
        3 | 4 => drop(w.open()),
        _ => {
            w.find(path);
            w.read(path);
        }
    }
    if w.rng.chance(30) {
        w.put("history".to_string());
    }
}

fn remove(w: &mut Writer, path: &[u8]) {
    w.delete_either(path, 45);
    look(w, path);
}

/// The data area grows by a file and shrinks with it, by and by.
fn last(w: &mut Writer, path: &[u8]) {
    let behind = beside(path, b'z');
    file(w, path);
    let turns = 1 + w.rng.below(3);
    for _ in 0..turns {
        file(w, &behind);
        look(w, &behind);
        remove(w, &behind);
    }
    remove(w, path);
}

/// First the one in the middle, whose blocks stay in the data area, then one of those around it.
fn middle(w: &mut Writer, path: &[u8]) {
    let [left, right] = [b'a', b'z'].map(|byte| beside(path, byte));
    for one in [&left[..], path, &right] {
        file(w, one);
    }
    remove(w, path);
    if w.rng.chance(50) {
        w.restore(path);
        look(w, path);
    }
    let (first, second) = if w.rng.chance(50) { (&left, &right) } else { (&right, &left) };
    remove(w, first);
    if w.rng.chance(40) {
        file(w, path);
    }
    remove(w, second);
}

/// A deleted file that was kept lies behind the one that is wiped.
fn kept_behind(w: &mut Writer, path: &[u8]) {
    let behind = beside(path, b'z');
    file(w, path);
    file(w, &behind);
    w.delete_keep(&behind);
    w.delete(path);
    look(w, path);
    if w.rng.chance(50) {
        w.restore(&behind);
        w.read(&behind);
        remove(w, &behind);
    } else {
        w.reclaim();
        look(w, &behind);
        w.restore(&behind);
    }
}

/// The kept one lies before it: the data area shrinks to that one's end.
fn kept_before(w: &mut Writer, path: &[u8]) {
    let behind = beside(path, b'z');
    file(w, path);
    file(w, &behind);
    w.delete_keep(path);
    w.delete(&behind);
    look(w, &behind);
    w.restore(path);
    w.read(path);
    w.restore(&behind);
    remove(w, path);
}

/// An empty file and a directory have nothing to wipe, but where the data area is larger than the regions left, as a
/// delete that keeps leaves it in 1.10, it shrinks with them too.
fn without_blocks(w: &mut Writer, path: &[u8]) {
    let larger = beside(path, b'z');
    if w.rng.chance(50) {
        w.mkfile(path, 0);
    } else {
        w.mkdir(path);
    }
    file(w, &larger);
    w.delete_keep(&larger);
    w.open();
    remove(w, path);
    w.open();
    w.restore(path);
    w.restore(&larger);
    look(w, &larger);
}

/// The same path made and deleted again and again, now kept and now wiped.
fn again(w: &mut Writer, path: &[u8]) {
    let turns = 2 + w.rng.below(4);
    for _ in 0..turns {
        make(w, path);
        remove(w, path);
        if w.rng.chance(25) {
            w.delete_either(path, 50);
        }
        if w.rng.chance(30) {
            w.restore(path);
            look(w, path);
        }
        if w.rng.chance(15) {
            w.reclaim();
        }
    }
    w.restore(path);
    look(w, path);
}

/// Several deleted entries of one path and a live one; only that goes by a plain delete.
fn several_kept(w: &mut Writer, path: &[u8]) {
    let kept = 1 + w.rng.below(3);
    for _ in 0..kept {
        make(w, path);
        w.delete_keep(path);
    }
    make(w, path);
    w.restore(path);
    w.delete(path);
    look(w, path);
    // One comes back, of more none does.
    w.restore(path);
    look(w, path);
    remove(w, path);
    w.reclaim();
    w.restore(path);
}

/// A directory goes when nothing live is below it, though deleted entries may be.
fn below(w: &mut Writer, path: &[u8]) {
    let child = [&path[..path.len().min(280)], b"/x"].concat();
    let directory = &child[..child.len() - 2];
    w.mkdir(directory);
    make(w, &child);
    both_refused(w, directory);
    remove(w, &child);
    remove(w, directory);
    w.restore(&child);
    w.restore(directory);
    w.restore(&child);
    look(w, &child);
    if w.rng.chance(50) {
        remove(w, &child);
        remove(w, directory);
    }
}

/// Reclaims between the deletes; behind a plain one they find nothing of it.
fn reclaimed(w: &mut Writer, path: &[u8]) {
    let [left, right] = [b'a', b'z'].map(|byte| beside(path, byte));
    for one in [&left[..], path, &right] {
        make(w, one);
    }
    for one in [path, &right[..], &left] {
        remove(w, one);
        if w.rng.chance(60) {
            w.reclaim();
            w.open();
        }
        if w.rng.chance(40) {
            w.restore(one);
        }
    }
}

/// All free blocks in one file; only when they are wiped can another take them without a reclaim.
fn refilled(w: &mut Writer, path: &[u8]) {
    let length = free_blocks(w) * block(w);
    w.mkfile(path, length);
    remove(w, path);
    let other = beside(path, b'y');
    w.mkfile(&other, length);
    w.restore(path);
    look(w, &other);
    if w.rng.chance(70) {
        remove(w, &other);
    }
    w.reclaim();
    w.mkfile(&other, length.saturating_sub(1));
    w.delete(&other);
    look(w, &other);
}

/// A long run is wiped whole, so that one as long fits there and the index does not grow.
fn long_names(w: &mut Writer, path: &[u8]) {
    let length = w.rng.pick(&[30, 94, 158, 222, 285]);
    let (length, first, second) = (w.edge(length), w.serial(), w.serial());
    let [one, other] = [first, second].map(|serial| path_of_length(&mut w.rng, b"", length, serial));
    make(w, &one);
    make(w, path);
    remove(w, &one);
    make(w, &other);
    w.open();
    w.restore(&one);
    remove(w, &other);
    remove(w, path);
}

/// The index grows up to the data area; the blocks of a wiped file are room for it.
fn outgrown(w: &mut Writer, path: &[u8]) {
    let length = free_blocks(w).saturating_sub(1) * block(w);
    w.mkfile(path, length);
    for turn in 0..3 {
        let (length, serial) = (w.edge(222), w.serial());
        let other = path_of_length(&mut w.rng, b"", length, serial);
        w.mkfile(&other, 0);
        if turn == 1 {
            remove(w, path);
        }
    }
    w.restore(path);
    look(w, path);
}

/// Paths that neither call takes, and one that both did.
fn refused(w: &mut Writer, path: &[u8]) {
    make(w, path);
    let odd = odd_path(&mut w.rng);
    both_refused(w, &odd);
    let nearly = beside(path, b'y');
    both_refused(w, &nearly);
    w.delete_keep(path);
    both_refused(w, path);
    make(w, path);
    w.delete(path);
    both_refused(w, path);
}

/// Both calls, in either order, with a path that they should refuse.
fn both_refused(w: &mut Writer, path: &[u8]) {
    let first = w.rng.pick(&[0, 100]);
    w.delete_either(path, first);
    w.delete_either(path, 100 - first);
}

/// Deletes all that is live, the deepest first, and asks for it again.
fn everything(w: &mut Writer, path: &[u8]) {
    make(w, path);
    let mut live = w.live();
    live.sort_by_key(|known| std::cmp::Reverse(known.path.len()));
    let keeping = w.rng.pick(&[0, 50, 50]);
    for known in live.iter().take(12) {
        w.delete_either(&known.path, keeping);
    }
    w.open();
    w.list_all();
    for known in live.iter().take(4) {
        w.restore(&known.path);
    }
}

/// A file that takes all blocks there are when the index has a slot more; then empty files until the index cannot grow.
fn sixth(w: &mut Writer) {
    let block = 256 << w.rng.below(4);
    let reserved = least_reserved(block).max(w.rng.pick(&[1, 2, 2]));
    let name = volume_name(&mut w.rng);
    w.put("image 65536".to_string());
    w.format(block, reserved, &name);
    let Some(geometry) = w.geometry() else { return };
    let grown = Geometry { index: LEAST_INDEX + SLOT, ..geometry };
    let blocks = grown.ceiling().unwrap_or(0).saturating_sub(reserved);
    w.mkfile(b"big", blocks * block);
    while empty(w) == 0 {}
    let calls = if w.rng.chance(50) { [0, 50] } else { [100, 50] };
    w.delete_either(b"big", calls[0]);
    w.open();
    empty(w);
    w.put("history".to_string());
    if w.rng.chance(50) {
        w.restore(b"big");
    }
    w.reclaim();
    empty(w);
    let live = w.live();
    let path = w.rng.pick(&live).path;
    w.delete_either(&path, calls[1]);
    empty(w);
    closing(w);
}

/// An empty file of a short name, the longest one where blocks are long and the index has far to grow.
fn empty(w: &mut Writer) -> u8 {
    let (block, serial) = (block(w), w.serial());
    let length = if block > 512 { 285 } else { 0 };
    let path = path_of_length(&mut w.rng, b"", length, serial);
    w.mkfile(&path, 0)
}

/// Refusals 9, 10, 11 and 14 by both calls on one image, alone and together.
fn arguments(w: &mut Writer) {
    begin(w);
    for (path, length) in [(&b"f"[..], 300), (b"g", 0), (b"d/f", 600)] {
        w.mkdir(b"d");
        w.mkfile(path, length);
    }
    w.mkfile(b"old", 5);
    w.delete_keep(b"old");
    let whole = w.image().to_vec();
    let rounds = 2 + w.rng.below(2);
    for round in 0..rounds {
        if round > 0 {
            let version = w.rng.pick(&[0x11, 0x12, 0x1A, 0x1B, 0xFF, 0x10]);
            w.poke(w.edition.super_field(VERSION), &[version]);
            w.refit(w.edition);
        }
        for path in [&b"d"[..], b"none", b"old", b"d/f/x", b"", b"d/", b"f", b"d/f"] {
            both(w, path);
        }
        let odd = odd_path(&mut w.rng);
        both(w, &odd);
        w.poke_back(&whole);
    }
}

/// Both calls on one image; after one that is accepted it is made whole again.
fn both(w: &mut Writer, path: &[u8]) {
    let whole = w.image().to_vec();
    let first = w.rng.pick(&[0, 100]);
    for keeping in [first, 100 - first] {
        w.delete_either(path, keeping);
        if w.image() != whole {
            w.open();
            w.poke_back(&whole);
        }
    }
}

/// Both calls with a live path, or where the image does not open with one that it most likely has.
pub fn both_somewhere(w: &mut Writer) {
    let live = w.live();
    let path = if live.is_empty() { b"d/f".to_vec() } else { w.rng.pick(&live).path };
    both(w, &path);
}

/// Each refusal by opening, the length that is refused before all else among them.
fn damaged(w: &mut Writer) {
    damage::damages(w, 5, both_somewhere);
    let whole = w.image().to_vec();
    for _ in 0..3 {
        reports::fault(w);
        both_somewhere(w);
        if w.length() != whole.len() as u64 {
            w.put(format!("truncate {}", whole.len()));
        }
        w.poke_back(&whole);
    }
    if w.rng.chance(30) {
        w.put("truncate 511".to_string());
        both(w, b"d/f");
    }
}
