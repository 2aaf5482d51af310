//! A healthy volume with one field damaged at a time; after a few calls it is made whole again. At times it is cut last.

use super::edges::cut_short;
use super::{least_reserved, regions, text, volume_name, Known, Writer};
use crate::index::{self, COUNT_AT, END_AT, LENGTH_AT, START_AT, UNUSABLE};
use crate::superblock::{Geometry, BLOCK_SIZE, CHECKSUM, DATA, INDEX, MAGIC, RESERVED, STAMP, TOTAL, VERSION};
use crate::volume::Volume;

/// The volume before any damage.
struct Healthy {
    image: Vec<u8>,
    geometry: Geometry,
    spots: Vec<Spot>,
    live: Vec<Known>,
    deleted: Vec<Known>,
    /// The first unused slot's byte offset.
    unused: Option<usize>,
    volume_name: Vec<u8>,
}

/// Where an entry lies.
#[derive(Clone, Debug, Default)]
struct Spot {
    at: usize,
    name_at: usize,
    bytes: usize,
    start: u64,
    end: u64,
    slot: u64,
    kind: u8,
    name: Vec<u8>,
}

pub fn scene(w: &mut Writer) {
    let block = 256 << w.rng.below(3);
    let Some(healthy) = volume(w, block) else { return };
    let rounds = 6 + w.rng.below(8);
    for _ in 0..rounds {
        damage(w, &healthy);
        probe(w, &healthy);
        w.poke_back(&healthy.image);
    }
    w.put("history".to_string());
    if w.rng.chance(25) {
        cut_short(w);
        return regions::close(w);
    }
    regions::close_after(w, |w| damage(w, &healthy));
}

/// A volume and so many damages of it, one at a time, each of them looked at so.
pub fn damages(w: &mut Writer, rounds: u64, look: fn(&mut Writer)) {
    let block = 256 << w.rng.below(3);
    let Some(healthy) = volume(w, block) else { return };
    look(w);
    for _ in 0..rounds {
        damage(w, &healthy);
        look(w);
        w.poke_back(&healthy.image);
    }
}

/// A volume with every kind of entry, among them an unusable one poked in.
fn volume(w: &mut Writer, block: u64) -> Option<Healthy> {
    let total = least_reserved(block) + 12 + w.rng.below(8);
    w.put(format!("image {}", total * block));
    let name = volume_name(&mut w.rng);
    w.format(block, least_reserved(block), &name);
    let gone = [b"gone".to_vec(), text::few(&mut w.rng)].concat();
    let old = [b"old".to_vec(), text::few(&mut w.rng)].concat();
    w.mkfile(&gone, 2 * block);
    w.mkdir(b"d");
    w.mkfile(b"d/f", block + 1);
    let (file_end, directory_end) = (w.edge(30), w.edge(52));
    let long = if w.rng.chance(40) { vec![b'g'; file_end] } else { text::across(&mut w.rng, file_end) };
    w.mkfile(&long, 3);
    w.mkfile(b"empty", 0);
    w.mkdir(&old);
    let long = if w.rng.chance(40) { vec![b'h'; directory_end] } else { text::across(&mut w.rng, directory_end) };
    w.mkdir(&[b"d/".to_vec(), long].concat());
    w.delete_keep(&gone);
    w.delete_keep(&old);
    if w.rng.chance(20) {
        w.mkdir(&gone);
        w.delete_keep(&gone);
    }
    if w.rng.chance(50) {
        unusable(w);
    }
    healthy(w)
}

/// Turns the deleted directory's slot into an unusable entry on the last block of the data area.
fn unusable(w: &mut Writer) {
    let Some(healthy) = healthy(w) else { return };
    let old = healthy.spots.iter().find(|spot| spot.name.starts_with(b"old")).map(|spot| spot.at);
    // Where nothing stays deleted it is the one unused slot of its own.
    let Some(at) = old.or(healthy.unused) else { return };
    unusable_at(w, &healthy.geometry, at);
}

/// Writes an unusable entry on one more block of the data area.
pub fn unusable_at(w: &mut Writer, geometry: &Geometry, at: usize) {
    let end = geometry.data_end();
    let data = geometry.data + 1;
    w.poke(geometry.edition.super_field(DATA), &data.to_le_bytes());
    let stored = geometry.edition.stored_end(end + 1);
    w.poke(at, &[&[UNUSABLE; 10][..], &end.to_le_bytes(), &stored.to_le_bytes()].concat());
    w.reseal(at);
}

fn healthy(w: &Writer) -> Option<Healthy> {
    let volume = Volume::judge(w.image()).ok()?;
    let geometry = volume.super_block.geometry;
    let spots = volume.index.entries.iter().map(|entry| Spot {
        at: geometry.slot_offset(entry.slot),
        name_at: index::name_at(geometry.edition, entry.kind).unwrap_or(34),
        bytes: entry.slots as usize * 64,
        start: entry.start,
        end: entry.end,
        slot: entry.slot,
        kind: entry.kind,
        name: entry.path.to_vec(),
    });
    Some(Healthy {
        image: w.image().to_vec(),
        geometry,
        spots: spots.collect(),
        live: w.live(),
        deleted: w.deleted(),
        unused: volume.index.unused.first().map(|slot| geometry.slot_offset(*slot)),
        volume_name: volume.index.volume_name.to_vec(),
    })
}

/// Damages one field. The sum that covers it is made right again more often than not.
fn damage(w: &mut Writer, healthy: &Healthy) {
    let spot = w.rng.pick(&healthy.spots);
    match w.rng.below(15) {
        0..=3 => super_field(w, healthy),
        4 => entry_type(w, &spot),
        5 => entry_count(w, healthy, &spot),
        6 | 7 => entry_number(w, healthy, &spot),
        8 | 9 => name(w, healthy, &spot),
        10 => marker(w, healthy),
        11 | 12 if !spot.name.is_empty() => w.damage_name(spot.at + spot.name_at, &spot.name),
        13 => volume_text(w, healthy),
        _ => anywhere(w, healthy),
    }
    if w.rng.chance(75) {
        let first = healthy.geometry.slot_offset(0);
        for at in [spot.at, first, healthy.image.len() - 64] {
            if w.image().get(at..at + 64) != healthy.image.get(at..at + 64) {
                w.reseal(at);
            }
        }
    }
}

/// Values around the boundaries a number of blocks or bytes may have.
fn boundary(w: &mut Writer, healthy: &Healthy, current: u64) -> u64 {
    let Geometry { image, block, total, reserved, index, .. } = healthy.geometry;
    let end = healthy.geometry.data_end();
    let ceiling = healthy.geometry.ceiling().unwrap_or(0);
    let centres = [
        0,
        current,
        current,
        current,
        total,
        reserved,
        end,
        ceiling,
        ceiling - reserved,
        index,
        image,
        block,
        u64::MAX,
        1 << 63,
        u64::MAX / block,
    ];
    let centre = w.rng.pick(&centres);
    match w.rng.below(4) {
        0 => centre,
        1 => centre.wrapping_add(1),
        2 => centre.wrapping_sub(1),
        _ => centre.wrapping_add(w.rng.pick(&[64, 128, 2, 0u64.wrapping_sub(64)])),
    }
}

/// One super-block field; the checksum is made right again more often than not.
fn super_field(w: &mut Writer, healthy: &Healthy) {
    let fields = [
        (STAMP, 8),
        (DATA, 8),
        (INDEX, 8),
        (TOTAL, 8),
        (RESERVED, 4),
        (VERSION, 1),
        (BLOCK_SIZE, 1),
        (MAGIC, 3),
        (CHECKSUM, 1),
    ];
    let (field, width) = w.rng.pick(&fields);
    let at = w.edition.super_field(field);
    let mut current = [0; 8];
    current[..width].copy_from_slice(&healthy.image[at..at + width]);
    let current = u64::from_le_bytes(current);
    let value = match field {
        VERSION => w.rng.pick(&[0, 1, 0x0F, 0x10, 0x11, 0x12, 0x19, 0x1A, 0x1B, 0x20, 0x7F, 0x80, 0xFF]),
        BLOCK_SIZE => w.rng.pick(&[0, 1, 2, 3, 4, 5, 6, 0x7F, 0x80, 0xFF, current + 1, current.wrapping_sub(1)]),
        _ => boundary(w, healthy, current),
    };
    w.poke(at, &value.to_le_bytes()[..width]);
    if field != CHECKSUM && w.rng.chance(70) {
        w.refit(w.edition);
    }
}

fn entry_type(w: &mut Writer, spot: &Spot) {
    let kind = if w.rng.chance(80) { w.rng.below(0x24) as u8 } else { w.rng.byte() };
    w.poke(spot.at, &[kind]);
}

/// The count of continuing slots: just up to the identifier, just past it, or the ends.
fn entry_count(w: &mut Writer, healthy: &Healthy, spot: &Spot) {
    let most = (healthy.geometry.slots() - 2 - spot.slot) as u8;
    let count = w.rng.pick(&[0, 1, 2, most, most.wrapping_add(1), most.wrapping_sub(1), 254, 255]);
    w.poke(spot.at + w.edition.entry_field(COUNT_AT), &[count]);
}

fn entry_number(w: &mut Writer, healthy: &Healthy, spot: &Spot) {
    let Geometry { block, edition, .. } = healthy.geometry;
    let past = edition.past(spot.end).unwrap_or(0);
    let room = (past.wrapping_sub(spot.start)).wrapping_mul(block);
    let place = w.rng.pick(&[START_AT, END_AT, LENGTH_AT]);
    let current = match place {
        START_AT => w.rng.pick(&[spot.start, spot.end]),
        END_AT => w.rng.pick(&[spot.end, spot.start]),
        _ => room,
    };
    let value = boundary(w, healthy, current);
    let at = |place| spot.at + if spot.kind == UNUSABLE { place } else { edition.entry_field(place) };
    w.poke(at(place), &value.to_le_bytes());
    if w.rng.chance(15) {
        w.poke(at(START_AT), &[0; 16]);
    }
}

/// The name: a bad byte, no zero, another entry's path, or a path whose directory is missing.
fn name(w: &mut Writer, healthy: &Healthy, spot: &Spot) {
    let at = spot.at + spot.name_at;
    let field = spot.bytes - spot.name_at;
    match w.rng.below(6) {
        0 | 1 => {
            let place = w.rng.below(spot.name.len() as u64 + 1) as usize;
            let byte =
                w.rng.pick(&[0, 1, 0x1F, 0x20, 0x7F, 0x80, 0xA0, 0xA1, b'/', b'.', b'"', b'*', b':', b'\\', 0xFF]);
            w.poke(at + place, &[byte]);
        }
        2 => {
            // Either no zero at all, or one in the very last byte.
            let filled = field - w.rng.below(2) as usize;
            w.poke(at, &vec![b'x'; filled]);
        }
        3 | 4 => {
            let live = w.rng.pick(&healthy.live).path;
            w.poke(at, &[live.as_slice(), b"\0"].concat()[..field.min(live.len() + 1)]);
        }
        _ => {
            let texts: [&[u8]; 10] = [b"m/n", b"/n", b"n/", b"n//m", b".", b"..", b"d/.", b"empty/x", b"d/f/x", b""];
            let text = w.rng.pick(&texts);
            w.poke(at, &[text, b"\0"].concat());
        }
    }
}

fn marker(w: &mut Writer, healthy: &Healthy) {
    let first = healthy.geometry.slot_offset(0);
    let last = healthy.geometry.slot_offset(healthy.geometry.slots() - 1);
    let byte = w.rng.pick(&[0, 1, 2, 3, 0x10, 0x11, 0x12, 0x20, 0xFF]);
    match w.rng.below(5) {
        0 => w.poke(first, &[byte]),
        1 => w.poke(last, &[byte]),
        // Spare bytes, which nobody judges but in a sum.
        2 => w.poke(first + 1, &[byte; 63]),
        3 => {
            let name = vec![b'V'; 51 + w.rng.below(2) as usize];
            w.poke(last + 12, &name);
        }
        _ => {
            let place = w.rng.below(52) as usize;
            let bad = w.rng.pick(&[b'/', 0x7F, 0xA0, 0x1F, b'?', b' ', 0xA1, 0]);
            w.poke(last + 12 + place, &[bad]);
        }
    }
}

/// The volume name: damaged as it stands, or another with a fault, or one that fills its field.
fn volume_text(w: &mut Writer, healthy: &Healthy) {
    let at = healthy.image.len() - 52;
    let length = 50 + w.rng.below(3) as usize;
    let text = match w.rng.below(5) {
        0 | 1 if !healthy.volume_name.is_empty() => return w.damage_name(at, &healthy.volume_name),
        0..=2 => text::faulty(&mut w.rng, 12),
        3 => text::of_length(&mut w.rng, length),
        _ => text::cut_off(&mut w.rng, length),
    };
    // Of 52 bytes the zero is beyond the image, where pokes are dropped.
    w.poke(at, &[text.as_slice(), b"\0"].concat());
}

/// A byte of the index area, or one that no answer may depend on.
fn anywhere(w: &mut Writer, healthy: &Healthy) {
    let byte = w.rng.byte();
    let area = healthy.geometry.slot_offset(0) as u64;
    let at =
        if w.rng.chance(60) { area + w.rng.below(healthy.geometry.index) } else { w.rng.below(healthy.geometry.image) };
    w.poke(at as usize, &[byte]);
}

/// A few calls of each sort on the damaged volume.
fn probe(w: &mut Writer, healthy: &Healthy) {
    w.open();
    let path = w.rng.pick(&healthy.live).path;
    let gone = w.rng.pick(&healthy.deleted).path;
    let serial = w.serial().to_string().into_bytes();
    for _ in 0..4 {
        match w.rng.below(14) {
            0 => w.find(&path),
            1 | 2 => w.read(&path),
            3 => w.mkfile(&serial, 1),
            4 => w.mkdir(&path),
            5 => w.delete(&path),
            6 => w.reclaim(),
            7 => w.listing(),
            8 => w.restore(&path),
            9 | 10 => w.restore(&gone),
            11 => w.list_all(),
            12 => w.delete_keep(&path),
            _ => {
                w.list_each(3);
                0
            }
        };
    }
}
