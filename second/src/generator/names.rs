//! Names alone: characters of every width and faults of every kind, as arguments and in stored names.

use super::{odd_path, text, volume_name, Writer};
use crate::index;
use crate::volume::Volume;

/// As edition 1.0 has them: the bytes a name has in its entry's slots up to the end of each, for files and for directories.
const FILE_ENDS: [usize; 4] = [30, 94, 158, 222];
const DIRECTORY_ENDS: [usize; 4] = [54, 118, 182, 246];
/// Around the lengths at which an entry takes a slot more, and the longest.
const LENGTHS: [usize; 16] = [1, 2, 3, 4, 29, 30, 31, 53, 54, 55, 93, 94, 117, 284, 285, 286];

pub fn scene(w: &mut Writer) {
    begin(w);
    let steps = 8 + w.rng.below(10);
    for _ in 0..steps {
        match w.rng.below(10) {
            0..=4 => allowed(w),
            5..=8 => refused(w),
            _ => near_known(w),
        }
    }
    w.list_each(8);
    w.listing();
    w.put("history".to_string());
    let whole = w.image().to_vec();
    for _ in 0..6 {
        stored(w);
        w.poke_back(&whole);
    }
}

/// A volume with room for many long names, after formats that its name may forbid.
fn begin(w: &mut Writer) {
    w.put("image 8192".to_string());
    for _ in 0..3 {
        let around = w.rng.below(40) as usize;
        let length = w.rng.pick(&[1, 2, 3, 4, 30, 50, 51, 51, 52]);
        let name = match w.rng.below(4) {
            0 | 1 => text::faulty(&mut w.rng, around),
            2 => text::cut_off(&mut w.rng, length),
            _ => text::of_length(&mut w.rng, length),
        };
        w.format(256, 2, &name);
        w.open();
    }
    let length = w.rng.pick(&[4, 9, 50, 51]);
    let name = if w.rng.chance(70) { text::of_length(&mut w.rng, length) } else { volume_name(&mut w.rng) };
    w.format(256, 2, &name);
    w.mkdir(b"\xc3\x80");
}

/// An allowed path: made, found, listed, and at times deleted, reclaimed, made again and brought back.
fn allowed(w: &mut Writer) {
    let path = allowed_path(w);
    let made = if w.rng.chance(60) { w.mkfile(&path, 3) } else { w.mkdir(&path) };
    w.find(&path);
    if made != 0 || w.rng.chance(50) {
        return;
    }
    w.delete_either(&path, 80);
    if w.rng.chance(30) {
        w.reclaim();
    }
    if w.rng.chance(50) {
        w.mkdir(&path);
        w.open();
    }
    if w.rng.chance(50) {
        w.restore(&path);
        w.find(&path);
    }
}

fn allowed_path(w: &mut Writer) -> Vec<u8> {
    let length = w.rng.pick(&LENGTHS);
    let length = w.edge(length);
    let width = 1 + w.rng.below(4) as usize;
    let file_end = w.rng.pick(&FILE_ENDS);
    let file_end = w.edge(file_end);
    let directory_end = w.rng.pick(&DIRECTORY_ENDS);
    let directory_end = w.edge(directory_end);
    let rng = &mut w.rng;
    match rng.below(8) {
        0 => text::character(rng, width),
        1 => text::few(rng),
        2 => [b"\xc3\x80/".to_vec(), text::few(rng)].concat(),
        3 => [b"\xc3\x80/".to_vec(), text::across(rng, file_end - 3)].concat(),
        4 => text::across(rng, file_end),
        5 => text::across(rng, directory_end),
        6 => text::of_length(rng, 285),
        _ => text::of_length(rng, length),
    }
}

/// A path with a fault at some place, in one call or another.
fn refused(w: &mut Writer) {
    let path = refused_path(w);
    w.any_call(&path);
}

fn refused_path(w: &mut Writer) -> Vec<u8> {
    let length = w.rng.pick(&LENGTHS);
    let short = w.rng.below(12) as usize;
    let long = w.rng.below(284) as usize;
    let rng = &mut w.rng;
    match rng.below(10) {
        0 => text::fault(rng),
        1..=3 => text::faulty(rng, short),
        4 => text::faulty(rng, long),
        5 => [b"\xc3\x80/".to_vec(), text::faulty(rng, short)].concat(),
        6 => [text::faulty(rng, short), b"/x".to_vec()].concat(),
        7 => text::cut_off(rng, length),
        8 => text::cut_off(rng, 285),
        _ => odd_path(rng),
    }
}

/// A live or deleted path with its last byte lost, one byte changed, or a tail too many.
fn near_known(w: &mut Writer) {
    let known = [w.live(), w.deleted()].concat();
    let mut path = w.rng.pick(&known).path;
    let places = text::wide_places(&path);
    let byte = w.rng.byte();
    match w.rng.below(3) {
        0 => path.truncate(path.len().saturating_sub(1)),
        1 => path.push(0x80 | byte),
        _ => path.iter_mut().skip(w.rng.pick(&places)).take(1).for_each(|old| *old = byte),
    }
    w.find(&path);
    w.restore(&path);
    w.mkfile(&path, 0);
}

/// Damages a stored name and looks at the volume. Not seldom it has become another allowed name.
fn stored(w: &mut Writer) {
    let names = stored_names(w);
    let (slot_at, at, name) = w.rng.pick(&names);
    if name.is_empty() {
        return;
    }
    w.damage_name(at, &name);
    if w.rng.chance(85) {
        w.reseal(slot_at);
    }
    w.open();
    match w.rng.below(7) {
        0 => w.find(&name),
        1 => w.listing(),
        2 => w.mkdir(b"new"),
        3 | 4 => w.restore(&name),
        5 => w.list_all(),
        _ => w.put("list 0 285".to_string()),
    };
}

/// Where the slots and the names in them lie, and what they are: the volume's and those of live and deleted entries.
fn stored_names(w: &Writer) -> Vec<(usize, usize, Vec<u8>)> {
    let Ok(volume) = Volume::judge(w.image()) else { return Vec::new() };
    let geometry = volume.super_block.geometry;
    let named = volume.index.entries.iter().filter_map(|entry| {
        let at = geometry.slot_offset(entry.slot);
        Some((at, at + index::name_at(geometry.edition, entry.kind)?, entry.path.to_vec()))
    });
    let identifier = geometry.slot_offset(geometry.slots() - 1);
    let volume_name = (identifier, identifier + index::VOLUME_NAME_AT, volume.index.volume_name.to_vec());
    // The volume's counts twice: a scene leaves several others.
    named.chain([volume_name.clone(), volume_name]).collect()
}
