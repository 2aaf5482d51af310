//! Where the editions part in what the calls do: histories that go from one to the other and back, and indexes in which
//! the order of entries decides where a new one goes.

use super::built::{slots_for, Builder};
use super::history::{begin, closing, format_other, steps};
use super::{least_reserved, path_of_length, volume_name, Writer};
use crate::index::DIRECTORY;
use crate::superblock::Geometry;

/// As edition 1.0 has them: lengths of names that take one slot to six.
const LENGTHS: [usize; 12] = [0, 0, 0, 29, 30, 93, 94, 157, 158, 222, 284, 285];
/// Directories, those that others lie in first.
const CHAINS: [&[&[u8]]; 3] =
    [&[b"a", b"a/b", b"a/b/c"], &[b"p", b"p/q", b"\xc3\xa9"], &[b"a", b"ab", b"a/b", b"ab/c", b"a/b/d", b"a/b/d/e"]];

pub fn scene(w: &mut Writer) {
    match w.rng.below(3) {
        0 => across(w),
        1 => order_by_calls(w),
        _ => order_by_hand(w),
    }
}

/// One history, formatted in either edition by turns.
fn across(w: &mut Writer) {
    let block = 256 << w.rng.below(5);
    begin(w, block);
    let turns = 2 + w.rng.below(3);
    for _ in 0..turns {
        let count = 3 + w.rng.below(10);
        steps(w, count, block);
        w.put("history".to_string());
        let name = volume_name(&mut w.rng);
        format_other(w, block, least_reserved(block), &name);
        w.open();
        w.list_all();
        w.put("history".to_string());
    }
    steps(w, 6, block);
    closing(w);
}

/// Directories and files by turns; then some files go, and the holes they leave lie before some directories and
/// behind others.
fn order_by_calls(w: &mut Writer) {
    let block = 256 << w.rng.below(3);
    let total = 48 + w.rng.below(24);
    w.put(format!("image {}", total * block));
    let name = volume_name(&mut w.rng);
    w.format(block, 2, &name);
    let chain = w.rng.pick(&CHAINS);
    for directory in chain {
        for _ in 0..w.rng.below(3) {
            new_entry(w, &[], 0);
        }
        w.mkdir(directory);
    }
    for known in w.live().iter().filter(|known| !known.directory) {
        if w.rng.chance(70) {
            w.delete_either(&known.path, 60);
        }
    }
    if w.rng.chance(50) {
        w.reclaim();
    }
    fill_in(w, chain);
    closing(w);
}

/// Directories in any order, with holes of up to seven slots between them.
fn order_by_hand(w: &mut Writer) {
    let block = 256 << w.rng.below(2);
    let reserved = least_reserved(block);
    let index = 64 * (12 + w.rng.below(30));
    let total = reserved + index.div_ceil(block) + 6 + w.rng.below(30);
    let geometry = Geometry { edition: w.edition, image: total * block, block, total, reserved, data: 0, index };
    let mut builder = Builder::with(geometry, 0, &mut w.rng);
    let chain = w.rng.pick(&CHAINS);
    let mut order = chain.to_vec();
    for place in (1..order.len()).rev() {
        order.swap(place, w.rng.below(place as u64 + 1) as usize);
    }
    let last = geometry.slots() - 1;
    let needed = order.len() as u64;
    for directory in order {
        let holes = w.rng.below(8).min((last - builder.slot).saturating_sub(needed));
        (0..holes).for_each(|_| builder.unused(&mut w.rng));
        let slots = slots_for(w.edition, DIRECTORY, directory.len() + 1);
        builder.run(DIRECTORY, slots, &[directory, b"\0"].concat(), (0, 0, 0));
    }
    while builder.slot < last {
        builder.unused(&mut w.rng);
    }
    w.put(format!("image {}", builder.image.len()));
    w.poke_back(&builder.image);
    w.open();
    fill_in(w, chain);
    w.list_each(12);
    w.listing();
}

/// Creates in the directories and outside them, and looks where the entries went.
fn fill_in(w: &mut Writer, chain: &[&[u8]]) {
    let creates = 5 + w.rng.below(8);
    for _ in 0..creates {
        let directory = if w.rng.chance(75) { w.rng.pick(chain).to_vec() } else { Vec::new() };
        let bytes = w.rng.pick(&[0, 0, 3, 300, 1_500]);
        new_entry(w, &directory, bytes);
        if w.rng.chance(15) {
            let live = w.live();
            let path = w.rng.pick(&live).path;
            w.delete_either(&path, 50);
        }
    }
}

fn new_entry(w: &mut Writer, directory: &[u8], bytes: u64) {
    let length = w.rng.pick(&LENGTHS);
    let length = w.edge(length);
    let serial = w.serial();
    let path = path_of_length(&mut w.rng, directory, length, serial);
    if w.rng.chance(70) {
        w.mkfile(&path, bytes);
    } else {
        w.mkdir(&path);
    }
    w.find(&path);
}
