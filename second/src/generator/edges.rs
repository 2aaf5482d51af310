//! Edge lengths of images and outputs.

use super::lists::{record, SHORT};
use super::{least_reserved, text, volume_name, Writer};
use crate::script::hex;

const LENGTHS: [u64; 22] = [
    0, 1, 64, 444, 445, 511, 512, 513, 768, 1023, 1024, 1024, 1025, 1280, 1536, 2048, 4096, 8192, 12_288, 65_536,
    65_536, 65_537,
];
const LARGE: u64 = 16_777_216;

pub fn scene(w: &mut Writer) {
    let length = if w.rng.chance(1) { LARGE + w.rng.below(2) } else { w.rng.pick(&LENGTHS) };
    if w.rng.chance(50) {
        w.put(format!("image {length}"));
    } else {
        let seed = w.rng.below(1000);
        w.put(format!("imagefill {length} {seed}"));
    }
    w.put("open 0".to_string());
    if length < LARGE && w.rng.chance(30) {
        w.restore(b"f");
    }
    let block = 256 << if w.rng.chance(50) { 0 } else { w.rng.below(5) };
    let total = length / block;
    let least = least_reserved(block);
    let reserved = w.rng.pick(&[least, least, least, total.saturating_sub(2), total.saturating_sub(1)]);
    if w.rng.chance(20) {
        let cut_off = text::cut_off(&mut w.rng, 51);
        w.format(block, reserved, &cut_off);
    }
    let name = volume_name(&mut w.rng);
    let refused = w.format(block, reserved, &name);
    if length >= LARGE {
        // Digests of such images are slow, so they get one call only.
        w.mkfile(b"f", 5000);
    } else if refused == 0 {
        outputs(w, name.len() as u64, block);
    }
    w.listing();
    w.put("history".to_string());
    if length < LARGE {
        cut(w, length);
    } else {
        w.put(format!("truncate {}", LARGE + 1));
        w.put("open 51".to_string());
        w.list_all();
    }
}

/// Outputs of no bytes, one short, just enough and one more.
fn outputs(w: &mut Writer, name: u64, block: u64) {
    around(w, "open", name);
    w.list_all();
    let length = w.rng.pick(&[0, 1, block - 1, block]);
    if w.mkfile(b"f", length) == 0 {
        around(w, &format!("read {}", hex(b"f")), length);
        w.delete_either(b"f", 88);
        w.restore(b"f");
    }
    let length = w.rng.pick(&[1, 29, 30, 93, 94, 285]);
    let length = w.edge(length);
    let path = if w.rng.chance(35) { vec![b'p'; length] } else { text::of_length(&mut w.rng, length) };
    let cut_off = text::cut_off(&mut w.rng, length);
    w.mkdir(&cut_off);
    if w.mkdir(&path) == 0 {
        around(w, "list 0", path.len() as u64);
        around(w, "list 2", path.len() as u64);
        records(w);
    }
    w.put("read 66 17000".to_string());
    w.delete_either(&path, 85);
    if w.rng.chance(50) {
        w.restore(&path);
    }
}

/// Outputs about the first record or about all of them, or too short for any.
fn records(w: &mut Writer) {
    let records: Vec<u64> = w.live().iter().map(record).collect();
    let needed = w.rng.pick(&[records.iter().take(1).sum(), records.iter().sum()]);
    if w.rng.chance(65) {
        return around(w, "listall 0", needed);
    }
    for room in SHORT {
        w.put(format!("listall 0 {room}"));
    }
}

fn around(w: &mut Writer, command: &str, needed: u64) {
    for room in [0, needed.saturating_sub(1), needed, needed + 1] {
        w.put(format!("{command} {room}"));
    }
}

/// The image cut or extended: its length no longer agrees with the super-block.
fn cut(w: &mut Writer, length: u64) {
    let other = w.rng.pick(&[length.saturating_sub(1), length + 1, length + 256, length / 2, 512, 0]);
    w.put(format!("truncate {other}"));
    w.open();
    w.find(b"f");
    w.delete_either(b"f", 50);
    w.restore(b"f");
    w.reclaim();
    w.put(format!("truncate {length}"));
    w.open();
    w.put("history".to_string());
    if w.rng.chance(40) {
        cut_short(w);
    }
}

/// Every call on less than an image has, with the magic of either edition still in it, that of 1.10 alone, or none.
pub fn cut_short(w: &mut Writer) {
    let length = w.rng.pick(&[511, 511, 511, 0x1AF, 0x1AE, 0x1A9, 0x1A8]);
    w.put(format!("truncate {length}"));
    w.open();
    w.find(b"f");
    w.put("list 0 285".to_string());
    w.list_all();
    w.read(b"f");
    w.mkfile(b"f", 1);
    w.mkdir(b"g");
    w.delete(b"f");
    w.delete_keep(b"f");
    w.restore(b"f");
    w.reclaim();
    w.listing();
    let version = w.rng.pick(&[0x0F, 0x10, 0x1A, 0x1B]);
    w.format_as(version, 256, 2, b"");
}
