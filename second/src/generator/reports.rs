//! Reports: the volumes of all the other families added up, sums that wrap, reports and outputs that are too short.

use super::built::{self, Builder};
use super::{crowded, damage, history, least_reserved, sums, tails, Writer};
use crate::edition::Edition;
use crate::report::{LEAST_ROOM, MOST_INPUT, NUMBERS};
use crate::script::REPORT_ROOM;
use crate::superblock::{Geometry, CHECKSUM, MAGIC};
use crate::xorshift::Xorshift;

/// Just the numbers of a report, some more that are not to be touched, or too few to count anything.
#[rustfmt::skip]
const LENGTHS: [usize; 16] = [
    NUMBERS, NUMBERS, NUMBERS, NUMBERS, NUMBERS, NUMBERS, NUMBERS, NUMBERS, NUMBERS, NUMBERS, 28, 28, REPORT_ROOM,
    REPORT_ROOM, 26, 0,
];
const ROOMS: [usize; 10] = [LEAST_ROOM, LEAST_ROOM, LEAST_ROOM, LEAST_ROOM, 1_025, 1_100, 1_100, 1_023, 1_023, 0];
/// The ends of the numbers, and those at which they get a digit more.
const STARTS: [u64; 9] =
    [u64::MAX, u64::MAX, u64::MAX - 1, u64::MAX - 999, 1 << 63, 9_999_999_999_999_999_999, u32::MAX as u64, 99_999, 9];

pub fn scene(w: &mut Writer) {
    begin(w);
    let volumes = 3 + w.rng.below(5);
    for _ in 0..volumes {
        // One report is over volumes of both editions.
        w.edition = w.rng.pick(&Edition::ALL);
        volume(w);
        if w.rng.chance(30) {
            fault(w);
            count(w);
        }
        if w.rng.chance(8) {
            begin(w);
        }
    }
    w.put(format!("reporttext {NUMBERS} {LEAST_ROOM}"));
}

/// A report without an image, or one whose numbers are soon at their end.
fn begin(w: &mut Writer) {
    w.put("reportnew".to_string());
    if w.rng.chance(50) {
        let numbers = 1 + w.rng.below(20);
        for _ in 0..numbers {
            let line = set(&mut w.rng);
            w.put(line);
        }
    }
}

/// Counts the image as it is, and at times looks at the text.
fn count(w: &mut Writer) {
    let line = add(&mut w.rng);
    w.put(line);
    if w.rng.chance(25) {
        let line = text(&mut w.rng);
        w.put(line);
    }
}

/// Report calls between those of another scene.
pub fn between(rng: &mut Xorshift) -> Vec<String> {
    match rng.below(10) {
        0 => vec!["reportnew".to_string(), add(rng)],
        1 => vec![set(rng), add(rng)],
        2 | 3 => vec![add(rng), text(rng)],
        _ => vec![add(rng)],
    }
}

fn add(rng: &mut Xorshift) -> String {
    format!("reportadd {}", rng.pick(&LENGTHS))
}

fn text(rng: &mut Xorshift) -> String {
    format!("reporttext {} {}", rng.pick(&LENGTHS), rng.pick(&ROOMS))
}

/// Another number at some place, at times behind those that are counted in.
fn set(rng: &mut Xorshift) -> String {
    let places = if rng.chance(90) { NUMBERS } else { REPORT_ROOM };
    let place = rng.below(places as u64);
    let any = rng.step() >> rng.below(64);
    let number = if rng.chance(60) { rng.pick(&STARTS) } else { any };
    format!("reportset {place} {number}")
}

/// A volume of one of the families, counted, and the same with what becomes of it.
fn volume(w: &mut Writer) {
    match w.rng.below(20) {
        0..=4 => laid(w, built::some_image),
        5 | 6 => laid(w, crowded::some_image),
        7 => laid(w, tails::some_image),
        8..=10 if w.edition == Edition::V1_10 => laid(w, sums::some_image),
        11 | 12 if w.edition == Edition::V1_10 => sums::damages(w, 5, count),
        8..=12 => damage::damages(w, 5, count),
        13 => laid(w, packed),
        14 | 15 => full(w),
        _ => used(w),
    }
}

/// An image made by hand, before and after calls that may rewrite some of it.
fn laid(w: &mut Writer, make: fn(&mut Writer) -> Vec<u8>) {
    let image = make(w);
    w.put(format!("image {}", image.len()));
    w.poke_back(&image);
    count(w);
    if w.rng.chance(40) {
        let deleted = w.deleted();
        let path = w.rng.pick(&deleted).path;
        w.restore(&path);
        if w.rng.chance(40) {
            let live = w.live();
            let path = w.rng.pick(&live).path;
            w.delete_either(&path, 50);
            count(w);
        }
        w.reclaim();
        count(w);
    }
}

/// The longest image, most of it an index with hundreds of entries.
fn packed(w: &mut Writer) -> Vec<u8> {
    let (edition, image) = (w.edition, MOST_INPUT as u64);
    let block = 256 << w.rng.below(2);
    let (reserved, index) = (least_reserved(block), 64 * (300 + w.rng.below(660)));
    let data = (image - index) / block - reserved;
    let geometry = Geometry { edition, image, block, total: image / block, reserved, data, index };
    let mut builder = Builder::with(geometry, 0, &mut w.rng);
    while builder.slot < geometry.slots() - 1 {
        builder.add(&mut w.rng);
    }
    builder.image
}

/// A volume as the calls leave it, from its format on.
fn used(w: &mut Writer) {
    let block = 256 << w.rng.below(5);
    history::begin(w, block);
    count(w);
    for _ in 0..3 {
        history::steps(w, 4, block);
        count(w);
    }
}

/// The longest image, or one that is a block longer and too long, with a file in it that leaves few blocks free.
fn full(w: &mut Writer) {
    let block = 256 << w.rng.below(5);
    let length = MOST_INPUT as u64 + w.rng.pick(&[0, 0, 0, block]);
    w.put(format!("image {length}"));
    w.format(block, least_reserved(block), b"full");
    let bytes = history::free_blocks(w) * block - w.rng.below(3 * block);
    w.mkfile(b"f", bytes);
    w.mkdir(b"d");
    count(w);
    w.delete_either(b"f", 60);
    count(w);
}

/// Refusals 1 to 5, whatever the index holds.
pub fn fault(w: &mut Writer) {
    let Some(edition) = Edition::of_image(w.image()) else { return };
    w.edition = edition;
    let field = |field| edition.super_field(field);
    match w.rng.below(5) {
        0 => {
            let (length, longest) = (w.length(), MOST_INPUT as u64);
            let other = w.rng.pick(&[0, 1, 511, 512, length / 2, length + 1, longest, longest + 1, longest + 4]);
            w.put(format!("truncate {other}"));
        }
        1 => {
            let place = w.rng.below(3) as usize;
            w.poke(field(MAGIC) + place, b"s");
        }
        2 => sums::version(w),
        3 => {
            let byte = w.image().get(field(CHECKSUM)).map_or(0, |byte| byte.wrapping_add(1));
            w.poke(field(CHECKSUM), &[byte]);
        }
        _ => sums::size(w),
    }
}
