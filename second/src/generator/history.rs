//! Histories: a format, then calls of all sorts until slots or blocks run out, then a look at
//! everything that is left and the check of the history.

use super::{least_reserved, odd_path, path_of_length, regions, restore, text, volume_name, Writer};
use crate::edition::Edition;
use crate::script::hex;

/// What the calls of one history mostly are.
#[derive(Clone, Copy, PartialEq, Eq)]
enum Mode {
    Churn,
    FillSlots,
    FillBlocks,
    Deep,
}

/// In a hundred deletes, how many keep.
const KEEPING: u64 = 72;
/// As edition 1.0 has them.
const EDGE_LENGTHS: [usize; 12] = [1, 29, 30, 53, 54, 93, 94, 117, 118, 284, 285, 286];
/// Bytes of a name up to the end of a slot, for files and for directories.
const SLOT_ENDS: [usize; 8] = [30, 54, 94, 118, 158, 182, 222, 246];
/// Few enough to meet again; one letter comes in two ways, which are two paths.
#[rustfmt::skip]
const POOL: [&str; 17] = [
    "a", "b", "ab", "ab/c", "a/b", "a/b/c", "ab/", "d", "d/x", "d/x/y", "À", "A\u{300}", "À/é", "À/é/€", "À la page",
    "À la page/😀", "é/",
];

pub fn scene(w: &mut Writer) {
    let block = 256 << w.rng.below(5);
    begin(w, block);
    let mode = some_mode(w);
    if mode == Mode::FillSlots && w.rng.chance(70) {
        // With no free block left, the index soon has nowhere to grow.
        let length = free_blocks(w) * block;
        w.mkfile(b"big", length);
    }
    let steps = if w.rng.chance(3) { 150 } else { 6 + w.rng.below(40) };
    for _ in 0..steps {
        step(w, mode, block);
    }
    closing(w);
    regions::close(w);
}

/// An image, at times full of stale bytes, and an accepted format.
pub fn begin(w: &mut Writer, block: u64) {
    let least = least_reserved(block);
    let spare = if w.rng.chance(75) { w.rng.below(12) } else { w.rng.below(60) };
    let total = (least + 2 + spare).min(65_536 / block);
    let length = total * block;
    if w.rng.chance(50) {
        w.put(format!("image {length}"));
    } else {
        let seed = w.rng.below(1_000_000);
        w.put(format!("imagefill {length} {seed}"));
    }
    if w.rng.chance(4) {
        w.mkfile(b"early", 3);
        w.put("history".to_string());
    }
    let reserved = if w.rng.chance(80) { least } else { least + w.rng.below(total - 1 - least) };
    let name = volume_name(&mut w.rng);
    w.format(block, reserved, &name);
    if w.rng.chance(10) {
        w.list_all();
    }
}

/// So many steps of any mode.
pub fn steps(w: &mut Writer, count: u64, block: u64) {
    let mode = some_mode(w);
    for _ in 0..count {
        step(w, mode, block);
    }
}

fn some_mode(w: &mut Writer) -> Mode {
    [Mode::Churn, Mode::FillSlots, Mode::FillBlocks, Mode::Deep][w.rng.below(4) as usize]
}

fn step(w: &mut Writer, mode: Mode, block: u64) {
    let dice = w.rng.below(100);
    match mode {
        Mode::FillSlots if dice < 70 => return create_empty(w),
        Mode::FillBlocks if dice < 60 => return create_file(w, block),
        Mode::Deep if dice < 45 => return create_directory(w),
        _ => {}
    }
    match w.rng.below(100) {
        0..=24 => create_file(w, block),
        25..=33 => create_directory(w),
        34..=52 => delete(w),
        53..=64 => bring_back(w),
        65..=70 => restore::story(w),
        71..=83 => look(w),
        84..=86 => again(w),
        87 => reformat(w, block),
        88..=91 => odd(w),
        _ => plain(w),
    }
}

/// The calls without a path.
fn plain(w: &mut Writer) {
    match w.rng.below(10) {
        0..=4 => w.reclaim(),
        5 | 6 => w.open(),
        7 | 8 => list_somewhere(w),
        _ => w.listing(),
    };
}

/// A live directory's path, or the empty path for the root.
fn some_directory(w: &mut Writer) -> Vec<u8> {
    let mut directories: Vec<Vec<u8>> =
        w.live().into_iter().filter(|known| known.directory).map(|known| known.path).collect();
    directories.push(Vec::new());
    w.rng.pick(&directories)
}

fn some_live(w: &mut Writer) -> Vec<u8> {
    let live = w.live();
    w.rng.pick(&live).path
}

/// A deleted entry's path; if there is none, a live one is deleted and kept.
fn some_deleted(w: &mut Writer) -> Vec<u8> {
    let deleted = w.deleted();
    if deleted.is_empty() {
        let path = some_live(w);
        w.delete_keep(&path);
        return path;
    }
    w.rng.pick(&deleted).path
}

fn new_path(w: &mut Writer) -> Vec<u8> {
    match w.rng.below(20) {
        0..=5 => w.rng.pick(&POOL).as_bytes().to_vec(),
        6..=8 => {
            let length = w.rng.pick(&EDGE_LENGTHS);
            let length = w.edge(length);
            path_somewhere(w, length)
        }
        9 => {
            let end = w.rng.pick(&SLOT_ENDS);
            let end = w.edge(end);
            text::across(&mut w.rng, end)
        }
        10 => some_live(w),
        11 => [some_live(w), b"/x".to_vec()].concat(),
        _ => path_somewhere(w, 0),
    }
}

/// A path of its own in some live directory.
pub fn path_somewhere(w: &mut Writer, length: usize) -> Vec<u8> {
    let directory = some_directory(w);
    let serial = w.serial();
    path_of_length(&mut w.rng, &directory, length, serial)
}

pub fn free_blocks(w: &Writer) -> u64 {
    let geometry = w.geometry();
    geometry.and_then(|geometry| geometry.ceiling()?.checked_sub(geometry.data_end())).unwrap_or(0)
}

fn create_file(w: &mut Writer, block: u64) {
    let free = free_blocks(w);
    let length = match w.rng.below(14) {
        0 => 0,
        1 => 1,
        2 => block - 1,
        3 | 4 => block,
        5 => block + 1,
        6 => 2 * block,
        7 => free * block,
        8 => free * block + 1,
        9 => free.saturating_sub(1) * block,
        10 => w.length(),
        _ => w.rng.below(3 * block + 1),
    };
    let path = new_path(w);
    let refused = w.mkfile(&path, length);
    if refused == 0 && w.rng.chance(25) {
        w.read(&path);
    }
}

fn create_empty(w: &mut Writer) {
    let length = w.rng.pick(&[0, 0, 0, 29, 30, 93, 94, 285]);
    let length = w.edge(length);
    let serial = w.serial();
    let path = path_of_length(&mut w.rng, b"", length, serial);
    if w.rng.chance(70) {
        w.mkfile(&path, 0);
    } else {
        w.mkdir(&path);
    }
}

fn create_directory(w: &mut Writer) {
    let path = if w.rng.chance(50) {
        let directory =
            w.live().into_iter().filter(|known| known.directory).map(|known| known.path).max_by_key(Vec::len);
        let serial = w.serial();
        path_of_length(&mut w.rng, &directory.unwrap_or_default(), 0, serial)
    } else {
        new_path(w)
    };
    w.mkdir(&path);
}

fn delete(w: &mut Writer) {
    let path = if w.rng.chance(85) { some_live(w) } else { new_path(w) };
    w.delete_either(&path, KEEPING);
    if w.rng.chance(10) {
        w.delete_either(&path, KEEPING);
    }
    if w.rng.chance(20) {
        // The same path again, at times while a deleted entry still holds its slots and blocks.
        w.mkfile(&path, 5);
    }
    if w.rng.chance(15) {
        w.restore(&path);
    }
}

/// Brings back what is deleted; at times what is live too, or was never there.
fn bring_back(w: &mut Writer) {
    let path = match w.rng.below(20) {
        0..=15 => some_deleted(w),
        16 | 17 => some_live(w),
        _ => new_path(w),
    };
    let refused = w.restore(&path);
    if refused == 0 && w.rng.chance(40) {
        w.read(&path);
    }
    if refused == 0 && w.rng.chance(20) {
        w.delete_either(&path, KEEPING);
    }
}

fn look(w: &mut Writer) {
    let path = if w.rng.chance(80) { some_live(w) } else { new_path(w) };
    w.find(&path);
    w.read(&path);
}

/// Creates what is already live.
fn again(w: &mut Writer) {
    let path = some_live(w);
    if w.rng.chance(50) {
        w.mkfile(&path, 1);
    } else {
        w.mkdir(&path);
    }
}

fn list_somewhere(w: &mut Writer) -> u8 {
    if w.rng.chance(30) {
        return w.list_all();
    }
    let slot = if w.rng.chance(80) { w.rng.below(20) } else { u64::MAX - w.rng.below(2) };
    let room = w.rng.pick(&[0, 1, 29, 285]);
    w.put(format!("list {slot} {room}"))
}

fn reformat(w: &mut Writer, block: u64) {
    let block = if w.rng.chance(50) { block } else { 128 << w.rng.below(7) };
    let reserved = least_reserved(block) + w.rng.below(3);
    let name = if w.rng.chance(80) { volume_name(&mut w.rng) } else { odd_path(&mut w.rng) };
    if w.rng.chance(65) {
        w.format(block, reserved, &name);
    } else {
        format_other(w, block, reserved, &name);
    }
}

/// A format in the other edition, which the scene goes on in if it is accepted.
pub fn format_other(w: &mut Writer, block: u64, reserved: u64, name: &[u8]) {
    let other = if w.edition == Edition::V1_0 { Edition::V1_10 } else { Edition::V1_0 };
    if w.format_as(other.version().into(), block, reserved, name) == 0 {
        w.edition = other;
    }
}

fn odd(w: &mut Writer) {
    let path = odd_path(&mut w.rng);
    w.any_call(&path);
}

/// Looks at everything live, by each call that can, and asks for the check.
pub fn closing(w: &mut Writer) {
    w.list_each(12);
    for known in w.live().iter().take(8) {
        w.find(&known.path);
        if !known.directory {
            w.put(format!("read {} {}", hex(&known.path), known.length));
        }
    }
    w.open();
    w.listing();
    w.put("history".to_string());
}
