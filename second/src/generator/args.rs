//! Bad and extreme arguments on a healthy small volume.

use super::{odd_path, text, volume_name, Writer};
use crate::script::hex;

pub fn scene(w: &mut Writer) {
    w.put("image 8192".to_string());
    let name = volume_name(&mut w.rng);
    w.format(512, 1, &name);
    w.mkdir(b"a");
    w.mkfile(b"a/b", 700);
    w.mkfile(b"\xc3\xa9", 3);
    gone(w);
    for _ in 0..16 {
        path_argument(w);
    }
    for _ in 0..4 {
        number_argument(w);
    }
    for _ in 0..3 {
        format_argument(w);
    }
    w.list_each(8);
    w.put("history".to_string());
}

/// Deleted entries: one of each kind, and at times a second one of the first path.
fn gone(w: &mut Writer) {
    w.mkfile(b"\xc3\xa8", 4);
    w.mkdir(b"a/old");
    w.delete_keep(b"\xc3\xa8");
    w.delete_keep(b"a/old");
    if w.rng.chance(30) {
        w.mkdir(b"\xc3\xa8");
        w.delete_either(b"\xc3\xa8", 80);
    }
}

fn path_argument(w: &mut Writer) {
    let path = match w.rng.below(11) {
        0..=6 => odd_path(&mut w.rng),
        7 | 8 => near_known(w),
        _ => w.rng.pick(&[b"a".as_slice(), b"a/b", b"\xc3\xa9", b"a/old", b"\xc3\xa8"]).to_vec(),
    };
    match w.rng.below(9) {
        0 => w.find(&path),
        1 => w.read(&path),
        2 => w.delete(&path),
        3 => w.mkdir(&path),
        4 => w.mkfile(&path, 9),
        5 | 6 => w.restore(&path),
        7 => w.delete_keep(&path),
        _ => w.put(format!("read {} 0", hex(&path))),
    };
}

/// A live or deleted path with one byte more, one less, or another.
fn near_known(w: &mut Writer) -> Vec<u8> {
    let known = [w.live(), w.deleted()].concat();
    let mut path = w.rng.pick(&known).path;
    let byte = w.rng.byte();
    match w.rng.below(3) {
        0 => path.push(byte),
        1 => path.truncate(path.len().saturating_sub(1)),
        _ => path.iter_mut().take(1).for_each(|first| *first = byte),
    }
    path
}

fn number_argument(w: &mut Writer) {
    let slot = w.rng.pick(&[0, 1, 2, 3, 4, 5, 6, 63, 64, u64::MAX, u64::MAX - 1, 1 << 32, 1 << 63]);
    let room = w.rng.pick(&[0, 1, 2, 3, 285]);
    w.put(format!("list {slot} {room}"));
    if w.rng.chance(40) {
        let live = w.live();
        w.list_all_from(slot, &live);
    }
    let stamp = w.rng.pick(&[i64::MIN, i64::MAX, 0, -1]);
    w.put(format!("reclaim {stamp}"));
}

fn format_argument(w: &mut Writer) {
    let blocks =
        [0, 1, 64, 128, 255, 256, 257, 512, 768, 1024, 2048, 4096, 8192, 1 << 32, (1 << 32) + 512, 1 << 63, u64::MAX];
    let block = w.rng.pick(&blocks);
    let total = w.length().checked_div(block).unwrap_or(0);
    let near =
        [0, 1, 2, 3, total, total.wrapping_sub(1), total.wrapping_sub(2), 1 << 32, (1 << 32) + 1, 1 << 55, u64::MAX];
    let reserved = w.rng.pick(&near);
    // With numbers that are good the name decides.
    let (block, reserved) = if w.rng.chance(35) { (512, 1) } else { (block, reserved) };
    let length = 50 + w.rng.below(3) as usize;
    let name = match w.rng.below(6) {
        0 => odd_path(&mut w.rng),
        1 => vec![b'n'; length],
        2 => text::of_length(&mut w.rng, length),
        3 => text::cut_off(&mut w.rng, length),
        _ => volume_name(&mut w.rng),
    };
    let version = version(w);
    w.format_as(version, block, reserved, &name);
}

/// Mostly that of the scene. The others are refused, or lay the other edition.
fn version(w: &mut Writer) -> u64 {
    let own = u64::from(w.edition.version());
    let others = [
        0,
        1,
        0x0F,
        0x10,
        0x10,
        0x11,
        0x19,
        0x1A,
        0x1A,
        0x1B,
        0x20,
        0xFF,
        0x110,
        0x1A00,
        (1 << 32) + 0x10,
        (1 << 32) + 0x1A,
        (1 << 63) + 0x1A,
        u64::MAX,
        u64::MAX - 0xE5,
    ];
    if w.rng.chance(55) {
        return own;
    }
    w.rng.pick(&others)
}
