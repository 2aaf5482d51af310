//! Deleting and bringing back: short stories around one path each, with other calls in between. A story does not look at
//! the answers: on a full volume, or on a path that an earlier one left, it meets other refusals than it is meant for.

use super::history::{begin, closing, free_blocks, path_somewhere};
use super::{odd_path, path_of_length, text, volume_name, Known, Writer};
use crate::index::{DELETED_DIRECTORY, DELETED_FILE};
use crate::superblock::VERSION;

type Story = fn(&mut Writer, &[u8]);

const STORIES: [Story; 20] = [
    at_once,
    later,
    to_the_byte,
    made_again,
    file_and_directory,
    reclaimed,
    after_growth,
    below,
    chain,
    another_above,
    twice_below,
    deleted_again,
    between_others,
    on_a_full_volume,
    everything,
    reformatted,
    arguments,
    relatives,
    wiped,
    wiped_and_kept,
];

/// As edition 1.0 has them: lengths of names that take runs of one to five slots.
const LENGTHS: [usize; 12] = [0, 0, 0, 0, 29, 30, 53, 54, 93, 94, 200, 285];
const POOL: [&[u8]; 5] = [b"a", b"b", b"ab", b"a/b", b"\xc3\x80"];

pub fn scene(w: &mut Writer) {
    if w.rng.chance(25) {
        let block = 256 << w.rng.below(5);
        begin(w, block);
    } else {
        roomy(w);
    }
    let stories = 3 + w.rng.below(5);
    for _ in 0..stories {
        story(w);
    }
    closing(w);
    let whole = w.image().to_vec();
    for _ in 0..2 {
        behind_the_calls(w);
        w.poke_back(&whole);
    }
}

/// One of the stories.
pub fn story(w: &mut Writer) {
    let path = some_path(w);
    STORIES[w.rng.below(STORIES.len() as u64) as usize](w, &path);
}

/// A volume with room for most of what the stories create.
fn roomy(w: &mut Writer) {
    let block = 256 << w.rng.below(3);
    let total = 40 + w.rng.below(24);
    w.put(format!("image {}", total * block));
    let name = volume_name(&mut w.rng);
    w.format(block, 2, &name);
}

fn some_path(w: &mut Writer) -> Vec<u8> {
    let length = w.rng.pick(&LENGTHS);
    let length = w.edge(length);
    let known = [w.live(), w.deleted()].concat();
    let serial = w.serial();
    match w.rng.below(10) {
        0..=3 => path_of_length(&mut w.rng, b"", length, serial),
        4 | 5 => path_somewhere(w, length),
        6 | 7 if !known.is_empty() => w.rng.pick(&known).path,
        8 => {
            let end = w.edge(30);
            text::across(&mut w.rng, end)
        }
        _ => w.rng.pick(&POOL).to_vec(),
    }
}

fn inside(path: &[u8], name: &str) -> Vec<u8> {
    [path, b"/", name.as_bytes()].concat()
}

fn block(w: &Writer) -> u64 {
    w.geometry().map_or(512, |geometry| geometry.block)
}

/// A file of up to three blocks.
fn file(w: &mut Writer, path: &[u8]) {
    let block = block(w);
    let length = w.rng.pick(&[0, 1, 5, block - 1, block, block, block + 1, 2 * block, 3 * block]);
    w.mkfile(path, length);
}

/// A file, at times a directory.
fn make(w: &mut Writer, path: &[u8]) {
    if w.rng.chance(75) {
        file(w, path);
    } else {
        w.mkdir(path);
    }
}

/// Creates something else, so that the index or the data area may grow.
fn make_another(w: &mut Writer) {
    let length = w.rng.pick(&LENGTHS);
    let length = w.edge(length);
    let path = path_somewhere(w, length);
    make(w, &path);
}

/// Up to two calls that have nothing to do with the story.
fn meanwhile(w: &mut Writer) {
    for _ in 0..w.rng.below(3) {
        match w.rng.below(6) {
            0..=2 => make_another(w),
            3 => w.list_each(3),
            4 => {
                w.open();
            }
            _ => {
                w.listing();
            }
        }
    }
}

fn look(w: &mut Writer, path: &[u8]) {
    w.find(path);
    w.read(path);
}

/// Mostly a delete that keeps, as the stories are about what comes back.
fn remove(w: &mut Writer, path: &[u8]) {
    w.delete_either(path, 93);
}

fn at_once(w: &mut Writer, path: &[u8]) {
    make(w, path);
    remove(w, path);
    w.restore(path);
    look(w, path);
    // Nothing deleted has the path any more.
    w.restore(path);
}

fn later(w: &mut Writer, path: &[u8]) {
    make(w, path);
    meanwhile(w);
    remove(w, path);
    make_another(w);
    meanwhile(w);
    w.restore(path);
    look(w, path);
}

/// With the stamp it had, the image is as before the delete.
fn to_the_byte(w: &mut Writer, path: &[u8]) {
    make(w, path);
    let stamp = w.live().iter().find(|known| known.path == path).map_or(0, |known| known.stamp);
    w.open();
    remove(w, path);
    w.restore_at(path, stamp);
    look(w, path);
}

/// Live again by another creation, then deleted twice or more, then gone.
fn made_again(w: &mut Writer, path: &[u8]) {
    make(w, path);
    w.delete_keep(path);
    for _ in 0..1 + w.rng.below(2) {
        make(w, path);
        w.restore(path);
        meanwhile(w);
        w.delete_keep(path);
        w.restore(path);
    }
    if w.rng.chance(50) {
        w.reclaim();
        w.restore(path);
    }
}

fn file_and_directory(w: &mut Writer, path: &[u8]) {
    let file_first = w.rng.chance(50);
    for is_file in [file_first, !file_first] {
        if is_file {
            file(w, path);
        } else {
            w.mkdir(path);
        }
        w.delete_keep(path);
    }
    w.restore(path);
    w.find(path);
}

fn reclaimed(w: &mut Writer, path: &[u8]) {
    make(w, path);
    remove(w, path);
    w.reclaim();
    w.restore(path);
    meanwhile(w);
    make(w, path);
    w.restore(path);
    remove(w, path);
    w.restore(path);
    look(w, path);
}

/// The slots have other numbers by the time of the restore.
fn after_growth(w: &mut Writer, path: &[u8]) {
    make(w, path);
    remove(w, path);
    for _ in 0..1 + w.rng.below(4) {
        let length = w.rng.pick(&[30, 93, 94, 285]);
        let serial = w.serial();
        let other = path_of_length(&mut w.rng, b"", length, serial);
        w.mkfile(&other, 0);
    }
    w.restore(path);
    look(w, path);
}

/// A directory comes back empty; what was in it comes back by itself, and only then.
fn below(w: &mut Writer, path: &[u8]) {
    let child = inside(path, "x");
    w.mkdir(path);
    make(w, &child);
    remove(w, &child);
    remove(w, path);
    w.restore(&child);
    meanwhile(w);
    w.restore(path);
    w.find(&child);
    w.list_each(4);
    if w.rng.chance(30) {
        remove(w, path);
        w.restore(path);
    }
    w.restore(&child);
    look(w, &child);
    remove(w, path);
}

/// Three levels, brought back in any order.
fn chain(w: &mut Writer, path: &[u8]) {
    let middle = inside(path, "\u{e9}");
    let leaf = inside(&middle, "x");
    w.mkdir(path);
    w.mkdir(&middle);
    make(w, &leaf);
    for gone in [&leaf[..], &middle, path] {
        remove(w, gone);
    }
    for _ in 0..6 {
        let back = w.rng.pick(&[path, &middle, &leaf]).to_vec();
        w.restore(&back);
    }
    look(w, &leaf);
}

/// The directory's path is taken by a file, which does not serve, or by another directory, which does.
fn another_above(w: &mut Writer, path: &[u8]) {
    let child = inside(path, "x");
    w.mkdir(path);
    make(w, &child);
    remove(w, &child);
    remove(w, path);
    make(w, path);
    w.restore(&child);
    w.restore(path);
    look(w, &child);
}

/// Two deleted ones of a path whose directory is deleted too.
fn twice_below(w: &mut Writer, path: &[u8]) {
    let child = inside(path, "x");
    w.mkdir(path);
    for _ in 0..2 {
        make(w, &child);
        w.delete_keep(&child);
    }
    remove(w, path);
    w.restore(&child);
    w.restore(path);
    w.restore(&child);
}

fn deleted_again(w: &mut Writer, path: &[u8]) {
    make(w, path);
    for _ in 0..1 + w.rng.below(3) {
        remove(w, path);
        w.restore(path);
    }
    meanwhile(w);
    if w.rng.chance(60) {
        remove(w, path);
    }
    w.reclaim();
    w.restore(path);
    make_another(w);
    look(w, path);
}

/// Its neighbours' blocks are given back and taken by others.
fn between_others(w: &mut Writer, path: &[u8]) {
    let [left, right] = ["l", "r"].map(|end| [path, end.as_bytes()].concat());
    let block = block(w);
    let length = w.rng.pick(&[block, 2 * block, block + 3]);
    for one in [&left[..], path, &right] {
        w.mkfile(one, length);
    }
    for one in [&left[..], path, &right] {
        remove(w, one);
    }
    w.restore(path);
    w.reclaim();
    for _ in 0..3 {
        let other = path_somewhere(w, 0);
        w.mkfile(&other, length);
    }
    w.restore(&left);
    look(w, path);
}

/// With no block left, and perhaps no slot, a restore needs none.
fn on_a_full_volume(w: &mut Writer, path: &[u8]) {
    let length = free_blocks(w) * block(w);
    w.mkfile(path, length);
    remove(w, path);
    make_another(w);
    w.mkfile(b"one block", 1);
    w.restore(path);
    look(w, path);
    if w.rng.chance(60) {
        remove(w, path);
        w.reclaim();
    }
}

/// Deletes all that is live, the deepest first, and restores all that is deleted.
fn everything(w: &mut Writer, path: &[u8]) {
    make(w, path);
    let mut live = w.live();
    live.sort_by_key(|known| std::cmp::Reverse(known.path.len()));
    for known in live.iter().take(10) {
        remove(w, &known.path);
    }
    meanwhile(w);
    let mut deleted = w.deleted();
    if w.rng.chance(60) {
        deleted.sort_by_key(|known| known.path.len());
    }
    for Known { path, stamp, .. } in deleted.iter().take(12) {
        if w.rng.chance(50) {
            w.restore(path);
        } else {
            w.restore_at(path, *stamp);
        }
    }
}

fn reformatted(w: &mut Writer, path: &[u8]) {
    make(w, path);
    remove(w, path);
    if w.rng.chance(40) {
        let name = volume_name(&mut w.rng);
        w.format(512, 2, &name);
    }
    w.restore(path);
}

fn arguments(w: &mut Writer, path: &[u8]) {
    make(w, path);
    remove(w, path);
    for _ in 0..3 {
        let odd = odd_path(&mut w.rng);
        w.restore(&odd);
    }
    w.restore(path);
}

/// Paths that are nearly the deleted one.
fn relatives(w: &mut Writer, path: &[u8]) {
    make(w, path);
    remove(w, path);
    let shorter = path[..path.len().saturating_sub(1)].to_vec();
    let others = [shorter, [path, b"x"].concat(), inside(path, "x"), [path, b"/"].concat(), [path, b"\0"].concat()];
    for other in others {
        w.restore(&other);
    }
    w.restore(path);
    look(w, path);
}

/// Nothing comes back of what was wiped, and the path is free at once.
fn wiped(w: &mut Writer, path: &[u8]) {
    make(w, path);
    meanwhile(w);
    w.delete(path);
    w.restore(path);
    w.find(path);
    make(w, path);
    remove(w, path);
    w.restore(path);
    look(w, path);
}

/// What was kept of a path comes back when what was live later has been wiped.
fn wiped_and_kept(w: &mut Writer, path: &[u8]) {
    make(w, path);
    w.delete_keep(path);
    for _ in 0..1 + w.rng.below(2) {
        make(w, path);
        w.restore(path);
        meanwhile(w);
        w.delete(path);
    }
    w.restore(path);
    look(w, path);
    w.delete_either(path, 50);
    w.reclaim();
    w.restore(path);
}

/// A newer version, or entries marked deleted that no delete would have marked.
fn behind_the_calls(w: &mut Writer) {
    let (live, deleted) = (w.live(), w.deleted());
    let one = w.rng.pick(&live);
    if w.rng.chance(40) || one.path.is_empty() {
        let version = w.rng.pick(&[0x0F, 0x11, 0x12, 0x20, 0xFF]);
        w.poke(w.edition.super_field(VERSION), &[version]);
        if w.rng.chance(85) {
            w.refit(w.edition);
        }
    } else if let Some(geometry) = w.geometry() {
        let kind = if one.directory { DELETED_DIRECTORY } else { DELETED_FILE };
        let at = geometry.slot_offset(one.slot);
        w.poke(at, &[kind]);
        if w.rng.chance(50) {
            w.reseal(at);
        }
    }
    w.open();
    let gone = w.rng.pick(&deleted).path;
    let odd = odd_path(&mut w.rng);
    for path in [one.path, gone, odd] {
        w.restore(&path);
    }
}
