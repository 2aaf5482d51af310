//! Edition 1.10 by hand: sums right and wrong, deleted runs with other heads in them, long and short, stray slots, last
//! blocks at their bounds, and super-blocks that look like those of the other edition.

use super::built::{capacity, Builder};
use super::damage::unusable_at;
use super::{least_reserved, odd_path, path_of_length, right_sum, text, volume_name, Writer};
use crate::bytes::put;
use crate::edition::{Edition, SUM_AT};
use crate::index::{COUNT_AT, DELETED_DIRECTORY, DELETED_FILE, DIRECTORY, END_AT, FILE, IDENTIFIER, LENGTH_AT, MARKER};
use crate::index::{STAMP_AT, START_AT, UNUSABLE, UNUSED};
use crate::superblock::{
    Geometry, BLOCK_SIZE, CHECKSUM, DATA, INDEX, MAGIC, MAGIC_BYTES, MOST_INDEX, RESERVED, STAMP, TOTAL, VERSION,
};
use crate::volume::Volume;
use crate::xorshift::Xorshift;

/// Bytes a name may have in the runs of a file, and the longest path, which takes six slots.
const LENGTHS: [usize; 10] = [0, 0, 28, 29, 92, 93, 156, 157, 284, 285];

pub fn scene(w: &mut Writer) {
    match w.rng.below(100) {
        0..=44 => return tiled(w),
        45..=54 => return claimed(w),
        _ => {}
    }
    let Some(whole) = volume(w) else { return };
    let rounds = 8 + w.rng.below(8);
    for _ in 0..rounds {
        damage(w, &whole);
        probe(w);
        w.poke_back(&whole.image);
    }
}

/// A volume and so many damages of it, one at a time, each of them looked at so.
pub fn damages(w: &mut Writer, rounds: u64, look: fn(&mut Writer)) {
    let Some(whole) = volume(w) else { return };
    look(w);
    for _ in 0..rounds {
        damage(w, &whole);
        look(w);
        w.poke_back(&whole.image);
    }
}

/// A good volume, and where everything lies in it.
struct Whole {
    image: Vec<u8>,
    geometry: Geometry,
    /// Entries, at least one.
    spots: Vec<Spot>,
    /// The byte offsets of unused slots.
    unused: Vec<usize>,
}

#[derive(Clone, Debug, Default)]
struct Spot {
    at: usize,
    slot: u64,
    slots: u64,
    kind: u8,
    start: u64,
    /// The last block, as it is stored.
    end: u64,
}

impl Spot {
    /// Where a field of this entry lies.
    fn field(&self, edition: Edition, place: usize) -> usize {
        self.at + if self.is_named() { edition.entry_field(place) } else { place }
    }

    fn is_named(&self) -> bool {
        matches!(self.kind, FILE | DIRECTORY)
    }
}

impl Whole {
    /// The byte offsets of all that has a sum which is judged: markers and entries.
    fn summed(&self) -> Vec<usize> {
        let markers = [self.geometry.slot_offset(0), self.image.len() - 64];
        markers.into_iter().chain(self.spots.iter().map(|spot| spot.at)).collect()
    }

    /// Any slot between the markers.
    fn some_slot(&self, rng: &mut Xorshift) -> u64 {
        1 + rng.below(self.geometry.slots() - 2)
    }

    fn some_named(&self, rng: &mut Xorshift) -> Spot {
        let named: Vec<Spot> = self.spots.iter().filter(|spot| spot.is_named()).cloned().collect();
        rng.pick(&named)
    }

    /// A file with blocks, or the unusable entry, as likely as all of them.
    fn some_holder(&self, rng: &mut Xorshift) -> Spot {
        let holders = self.spots.iter().filter(|spot| spot.start > 0).cloned();
        let (files, unusable): (Vec<Spot>, Vec<Spot>) = holders.partition(Spot::is_named);
        let choices = if unusable.is_empty() || rng.chance(50) { files } else { unusable };
        rng.pick(&choices)
    }
}

/// A volume with entries of every kind and a few unused slots, as the calls leave it but for the unusable entry.
fn volume(w: &mut Writer) -> Option<Whole> {
    let block = 256 << w.rng.below(3);
    let total = least_reserved(block) + 22 + w.rng.below(8);
    w.put(format!("image {}", total * block));
    let name = volume_name(&mut w.rng);
    w.format(block, least_reserved(block), &name);
    w.mkfile(b"old", 2 * block);
    w.mkdir(b"gone");
    w.mkdir(b"d");
    w.mkfile(b"d/f", block + 1);
    let length = w.rng.pick(&LENGTHS);
    let serial = w.serial();
    let long = path_of_length(&mut w.rng, b"d", length, serial);
    w.mkfile(&long, block);
    w.mkfile(b"empty", 0);
    let end = w.rng.pick(&[29, 53, 93]);
    let across = text::across(&mut w.rng, end);
    w.mkdir(&across);
    w.mkfile(b"one", 3);
    w.delete_either(b"gone", 50);
    w.delete_either(b"old", 50);
    w.put("history".to_string());
    if w.rng.chance(75) {
        let at = whole(w)?.unused.first().copied()?;
        unusable_at(w, &w.geometry()?, at);
    }
    whole(w)
}

fn whole(w: &Writer) -> Option<Whole> {
    let volume = Volume::judge(w.image()).ok()?;
    let geometry = volume.super_block.geometry;
    let spots = volume.index.entries.iter().map(|entry| Spot {
        at: geometry.slot_offset(entry.slot),
        slot: entry.slot,
        slots: entry.slots,
        kind: entry.kind,
        start: entry.start,
        end: entry.end,
    });
    let spots = spots.collect();
    let unused = volume.index.unused.iter().map(|slot| geometry.slot_offset(*slot)).collect();
    Some(Whole { image: w.image().to_vec(), geometry, spots, unused })
}

fn damage(w: &mut Writer, whole: &Whole) {
    match w.rng.below(18) {
        0..=2 => wrong_sum(w, whole),
        3 | 4 => kept_sum(w, whole),
        5 | 6 => deleted_run(w, whole),
        7 | 8 => reaching(w, whole),
        9 => stray(w, whole),
        10 | 11 => heads_inside(w, whole),
        12 => magics(w),
        13 => version(w),
        14 => size(w),
        15 | 16 => last_block(w, whole),
        _ => no_blocks(w, whole),
    }
}

/// One byte of an entry or a marker is another, its sum byte or any but the type.
fn wrong_sum(w: &mut Writer, whole: &Whole) {
    let at = w.rng.pick(&whole.summed());
    let slots = whole.spots.iter().find(|spot| spot.at == at).map_or(1, |spot| spot.slots);
    let any = 1 + w.rng.below(64 * slots - 1) as usize;
    let place = if w.rng.chance(50) { SUM_AT } else { any };
    let byte = w.image()[at + place].wrapping_add(1 + w.rng.below(255) as u8);
    w.poke(at + place, &[byte]);
}

/// Two bytes are others and the sum is right as before; or one, and the sum byte with it.
fn kept_sum(w: &mut Writer, whole: &Whole) {
    let at = w.rng.pick(&whole.summed());
    let named = whole.spots.iter().any(|spot| spot.at == at && spot.is_named());
    // Of a named entry the stamp, else bytes that are spare.
    let place = at + if named { w.edition.entry_field(STAMP_AT) } else { 2 };
    let more = 1 + w.rng.below(255) as u8;
    let (one, other) = (w.image()[place].wrapping_add(more), w.image()[place + 1].wrapping_sub(more));
    if w.rng.chance(60) {
        return w.poke(place, &[one, other]);
    }
    w.poke(place, &[one]);
    w.reseal(at);
}

/// Makes the sum of the run that starts here right or wrong.
fn settle(w: &mut Writer, at: usize, right: bool) {
    let Some(byte) = right_sum(w.image(), w.edition, at) else { return };
    let more = if right { 0 } else { 1 + w.rng.below(255) as u8 };
    w.poke(at + SUM_AT, &[byte.wrapping_add(more)]);
}

/// A live entry is marked deleted, with a right sum or a wrong one. Its name and blocks no longer matter.
fn deleted_run(w: &mut Writer, whole: &Whole) {
    let spot = whole.some_named(&mut w.rng);
    let kind = w.rng.pick(&[DELETED_FILE, DELETED_DIRECTORY]);
    w.poke(spot.at, &[kind]);
    match w.rng.below(4) {
        0 => w.poke(spot.field(w.edition, 34), b"?//"),
        1 => w.poke(spot.field(w.edition, END_AT), &u64::MAX.to_le_bytes()),
        _ => {}
    }
    let right = w.rng.chance(60);
    settle(w, spot.at, right);
}

/// A count that brings the run's end just before the identifier, to it, or past it.
fn reaching(w: &mut Writer, whole: &Whole) {
    let spot = whole.some_named(&mut w.rng);
    let most = (whole.geometry.slots() - 2 - spot.slot) as u8;
    let count = w.rng.pick(&[most, most, most.wrapping_add(1), most.wrapping_add(1), most.wrapping_add(2), 255]);
    let kind = w.rng.pick(&[DELETED_FILE, DELETED_DIRECTORY, spot.kind]);
    w.poke(spot.at, &[kind]);
    w.poke(spot.field(w.edition, COUNT_AT), &[count]);
    // Right also where it takes in the identifier, which must not count.
    let right = w.rng.chance(70);
    settle(w, spot.at, right);
}

/// Text where no run is: a slot that was unused, or an entry's.
fn stray(w: &mut Writer, whole: &Whole) {
    let byte = w.rng.pick(&[0x20, 0x21, 0x41, 0x7F, 0x80, 0xFF]);
    let slot = whole.some_slot(&mut w.rng);
    let any = whole.geometry.slot_offset(slot);
    let at = if whole.unused.is_empty() || w.rng.chance(40) { any } else { w.rng.pick(&whole.unused) };
    w.poke(at, &[byte]);
    if w.rng.chance(50) {
        let rubbish = w.rng.byte();
        w.poke(at + 1, &[rubbish; 63]);
    }
}

/// A deleted head before other slots, mostly with a wrong sum: what stands in its run is judged then. At times the next
/// slot is given a type that may not stand there, or another deleted head.
fn heads_inside(w: &mut Writer, whole: &Whole) {
    let slot = whole.some_slot(&mut w.rng);
    let at = if whole.unused.is_empty() || w.rng.chance(30) {
        whole.geometry.slot_offset(slot)
    } else {
        w.rng.pick(&whole.unused)
    };
    let count = 1 + w.rng.below(6) as u8;
    let kind = w.rng.pick(&[DELETED_FILE, DELETED_DIRECTORY]);
    w.poke(at, &[kind, 0, count]);
    let next = at + 64;
    if next + 64 < whole.image.len() && w.rng.chance(50) {
        let kind =
            w.rng.pick(&[IDENTIFIER, MARKER, DELETED_FILE, DELETED_DIRECTORY, UNUSABLE, UNUSED, 0x41, DELETED_FILE]);
        w.poke(next, &[kind, 0, count - 1]);
        let right = w.rng.chance(60);
        settle(w, next, right);
    }
    let right = w.rng.chance(25);
    settle(w, at, right);
}

/// The other edition's magic besides, or instead. Then all goes by the super-block of 1.0, which cannot be good.
fn magics(w: &mut Writer) {
    let (old, new) = (Edition::V1_0.super_field(MAGIC), Edition::V1_10.super_field(MAGIC));
    match w.rng.below(6) {
        0 => w.poke(new, b"SFs"),
        1 => w.poke(old, &[MAGIC_BYTES, &[0]].concat()),
        2 => w.poke(old, &[MAGIC_BYTES, &[0x10]].concat()),
        3 => w.poke(old, &[MAGIC_BYTES, &[0x1A]].concat()),
        4 => {
            w.poke(old, MAGIC_BYTES);
            w.poke(new, &[0; 3]);
        }
        _ => return older_super_block(w, new),
    }
    for edition in Edition::ALL {
        if w.rng.chance(60) {
            w.refit(edition);
        }
    }
}

/// A super-block of 1.0 over the other one, all in order but for the magic that is put into its index size.
fn older_super_block(w: &mut Writer, magic: usize) {
    let Some(geometry) = w.geometry() else { return };
    let older = Edition::V1_0;
    for (field, value, width) in [
        (STAMP, 7, 8),
        (DATA, geometry.data, 8),
        (INDEX, geometry.index, 8),
        (TOTAL, geometry.total, 8),
        (RESERVED, geometry.reserved, 4),
        (BLOCK_SIZE, u64::from(geometry.block.trailing_zeros()) - 7, 1),
    ] {
        w.poke(older.super_field(field), &value.to_le_bytes()[..width]);
    }
    w.poke(older.super_field(MAGIC), &[MAGIC_BYTES, &[0x10]].concat());
    w.refit(older);
    if w.rng.chance(80) {
        w.poke(magic, MAGIC_BYTES);
    }
}

/// Any other version, or the right one, mostly with a right checksum.
pub fn version(w: &mut Writer) {
    let any = w.rng.byte();
    let version = w.rng.pick(&[0, 0, 0x0E, 0x0F, 0x0F, 0x10, 0x11, 0x19, 0x1A, 0x1B, 0x20, 0x9A, 0xFF, any]);
    w.poke(w.edition.super_field(VERSION), &[version]);
    if w.rng.chance(85) {
        w.refit(w.edition);
    }
}

/// A size of the super-block, or its checksum, a little too high or too low.
pub fn size(w: &mut Writer) {
    let fields = [(DATA, 8), (INDEX, 8), (TOTAL, 8), (RESERVED, 4), (BLOCK_SIZE, 1), (CHECKSUM, 1)];
    let (field, width) = w.rng.pick(&fields);
    let at = w.edition.super_field(field);
    let more = w.rng.pick(&[1, u64::MAX, 64, 0u64.wrapping_sub(64), 1 << 63]);
    let mut value = [0; 8];
    value[..width].copy_from_slice(&w.image()[at..at + width]);
    let value = u64::from_le_bytes(value).wrapping_add(more).to_le_bytes();
    w.poke(at, &value[..width]);
    if field != CHECKSUM && w.rng.chance(80) {
        w.refit(w.edition);
    }
}

/// A last block at its bound, one past it, or at the end of the numbers.
fn some_last(rng: &mut Xorshift, spot: &Spot, geometry: &Geometry) -> u64 {
    let Spot { start, end, .. } = *spot;
    let past = geometry.data_end();
    let ceiling = geometry.ceiling().unwrap_or(0);
    let near = [start, start, start - 1, start + 1, end + 1, past - 1, past - 1, past, past + 1, ceiling - 1, ceiling];
    let far = [0, u64::MAX, u64::MAX, u64::MAX, u64::MAX - 1];
    rng.pick(&[&near[..], &far].concat())
}

/// A start or a last block at its bound or past it, at times one block that is both; the sum is right.
fn last_block(w: &mut Writer, whole: &Whole) {
    let spot = whole.some_holder(&mut w.rng);
    let Geometry { reserved, .. } = whole.geometry;
    let past = whole.geometry.data_end();
    let Spot { start, end, .. } = spot;
    let last = some_last(&mut w.rng, &spot, &whole.geometry);
    let alone = w.rng.chance(20);
    if alone || w.rng.chance(70) {
        w.poke(spot.field(w.edition, END_AT), &last.to_le_bytes());
    }
    if alone || w.rng.chance(40) {
        let any = w.rng.pick(&[last, last, start - 1, reserved, reserved - 1, past - 1, past, u64::MAX, 0]);
        let first = if alone { last } else { any };
        w.poke(spot.field(w.edition, START_AT), &first.to_le_bytes());
    }
    if spot.kind == FILE && w.rng.chance(40) {
        let room = (end + 1 - start) * whole.geometry.block;
        let length = w.rng.pick(&[0, 0, 1, room, room + 1, room - 1, whole.geometry.block, whole.geometry.block + 1]);
        w.poke(spot.field(w.edition, LENGTH_AT), &length.to_le_bytes());
    }
    if w.rng.chance(40) {
        let data = w.rng.pick(&[past - reserved, past - reserved + 1, (past - reserved).saturating_sub(1), 0]);
        w.poke(w.edition.super_field(DATA), &data.to_le_bytes());
    }
    settle(w, spot.at, true);
}

/// All three numbers 0, or all but one of them: no fault in a file, and one in an unusable entry.
fn no_blocks(w: &mut Writer, whole: &Whole) {
    let holders: Vec<Spot> = whole.spots.iter().filter(|spot| matches!(spot.kind, FILE | UNUSABLE)).cloned().collect();
    let spot = w.rng.pick(&holders);
    let block = w.rng.pick(&[0, 1, whole.geometry.reserved, spot.end]);
    let numbers = w.rng.pick(&[[0, 0, 0], [0, 0, 0], [0, 0, 1], [0, block, 0], [block, 0, 0], [block, block, 0]]);
    w.poke(spot.field(w.edition, START_AT), &numbers.map(u64::to_le_bytes).concat());
    settle(w, spot.at, true);
}

/// A few calls of each sort. The first that is accepted and writes rewrites what has become unused.
fn probe(w: &mut Writer) {
    w.open();
    let calls = 2 + w.rng.below(4);
    for _ in 0..calls {
        let live = w.live();
        let mut path = if live.is_empty() { b"d/f".to_vec() } else { w.rng.pick(&live).path };
        if w.rng.chance(4) {
            path = odd_path(&mut w.rng);
        }
        match w.rng.below(14) {
            0 => w.find(&path),
            1 | 2 => w.read(&path),
            3 => w.delete(&path),
            4 => w.delete_keep(&path),
            5 | 6 => w.reclaim(),
            7 => w.restore(&path),
            8 => w.listing(),
            9 => {
                w.list_each(4);
                0
            }
            10 => w.mkdir(&path),
            _ => create(w),
        };
    }
}

/// A new file or directory, at times in a directory, of one slot or of several.
fn create(w: &mut Writer) -> u8 {
    let directories: Vec<Vec<u8>> = w
        .live()
        .into_iter()
        .filter(|known| known.directory && known.path.len() < 100)
        .map(|known| known.path)
        .collect();
    let directory = if w.rng.chance(50) { w.rng.pick(&directories) } else { Vec::new() };
    let length = w.rng.pick(&LENGTHS);
    let serial = w.serial();
    let path = path_of_length(&mut w.rng, &directory, length, serial);
    if w.rng.chance(30) {
        return w.mkdir(&path);
    }
    let block = w.geometry().map_or(256, |geometry| geometry.block);
    let bytes = w.rng.pick(&[0, 1, block, block + 1, 3 * block]);
    w.mkfile(&path, bytes)
}

/// An index laid slot by slot, with deleted heads whose runs take in whatever comes behind them.
pub fn some_image(w: &mut Writer) -> Vec<u8> {
    let mut builder = Builder::new(&mut w.rng, w.edition);
    let last = builder.geometry.slots() - 1;
    let mut heads = Vec::new();
    while builder.slot < last {
        match w.rng.below(20) {
            0..=5 => {
                let at = builder.geometry.slot_offset(builder.slot);
                deleted_head(&mut builder, &mut w.rng, last);
                heads.push(at);
            }
            6 if w.rng.chance(10) => forbidden(&mut builder, &mut w.rng),
            _ => builder.add(&mut w.rng),
        }
    }
    // Later heads first, as they may lie in the runs of earlier ones.
    for at in heads.into_iter().rev() {
        builder.seal(at);
        if w.rng.chance(65) {
            builder.break_sum(&mut w.rng, at);
        }
    }
    builder.image
}

fn tiled(w: &mut Writer) {
    let image = some_image(w);
    w.put(format!("image {}", image.len()));
    w.poke_back(&image);
    for _ in 0..3 {
        probe(w);
    }
    w.list_each(6);
    w.listing();
    w.reclaim();
    probe(w);
}

/// A deleted head that claims slots that are still to be laid, or are the identifier's or none.
fn deleted_head(builder: &mut Builder, rng: &mut Xorshift, last: u64) {
    let left = (last - builder.slot) as u8;
    let count = rng.pick(&[0, 0, 1, 1, 2, 3, 4, left - 1, left, left.wrapping_add(1), 255]);
    deleted_slot(builder, rng, count);
}

/// One slot with a deleted type and this count, which is given back.
fn deleted_slot(builder: &mut Builder, rng: &mut Xorshift, count: u8) -> u8 {
    let mut slot = [rng.pick(&[0, 0, 0x41, 0xFF]); 64];
    put(&mut slot, 0, &[rng.pick(&[DELETED_FILE, DELETED_DIRECTORY]), 0, count]);
    let at = builder.geometry.slot_offset(builder.slot);
    put(&mut builder.image, at, &slot);
    builder.slot += 1;
    count
}

/// A marker where none may be, unless it lies in a run.
fn forbidden(builder: &mut Builder, rng: &mut Xorshift) {
    let kind = rng.pick(&[IDENTIFIER, MARKER]);
    let at = builder.geometry.slot_offset(builder.slot);
    let slot = builder.geometry.edition.bare_slot(kind);
    put(&mut builder.image, at, &slot);
    builder.slot += 1;
}

/// An index of hundreds of slots that is claimed many times over: deleted heads with wrong sums and runs of up to 256
/// slots, and between them entries and deleted runs that are right.
fn claimed(w: &mut Writer) {
    let mut builder = long_index(&mut w.rng, w.edition);
    let last = builder.geometry.slots() - 1;
    let mut heads = Vec::new();
    while builder.slot < last {
        let at = builder.geometry.slot_offset(builder.slot);
        match w.rng.below(20) {
            0..=10 => heads.push((at, claim(&mut builder, &mut w.rng), false)),
            11 | 12 => {
                let count = w.rng.pick(&[0, 1, 1, 2, 3, 6]);
                heads.push((at, deleted_slot(&mut builder, &mut w.rng, count), true));
            }
            13 if w.rng.chance(5) => heads.push((at, claim(&mut builder, &mut w.rng), true)),
            14 | 15 => builder.unused(&mut w.rng),
            _ => live(&mut builder, &mut w.rng),
        }
    }
    // Later heads first, as they lie in the runs of earlier ones.
    for (at, count, right) in heads.into_iter().rev() {
        settle_claim(&mut builder, &mut w.rng, at, count, right);
    }
    w.put(format!("image {}", builder.image.len()));
    let rounds = if last > 1_000 { 1 } else { 2 + w.rng.below(2) };
    for _ in 0..rounds {
        w.poke_back(&builder.image);
        refused(w);
        probe(w);
    }
    w.list_each(4);
    w.listing();
    w.reclaim();
}

/// A writing call that is refused, and so leaves what is deleted as it is.
fn refused(w: &mut Writer) -> u8 {
    let length = w.length();
    match w.rng.below(4) {
        0 => w.mkfile(b"f", length),
        1 => w.mkfile(b"none/f", 3),
        2 => w.mkdir(b"none/d"),
        _ => w.delete_either(b"none", 50),
    }
}

/// An empty index in which the longest runs have room, at times the longest that there is.
fn long_index(rng: &mut Xorshift, edition: Edition) -> Builder {
    let slots = if rng.chance(4) { MOST_INDEX / 64 } else { 262 + rng.below(400) };
    let block = 256 << rng.below(2);
    let (reserved, index) = (least_reserved(block), 64 * slots);
    let total = reserved + index.div_ceil(block) + 8 + rng.below(24);
    let image = total * block;
    let data = (image - index) / block - reserved - rng.below(4);
    Builder::with(Geometry { edition, image, block, total, reserved, data, index }, 0, rng)
}

/// A deleted head with a long run, or one that goes to the identifier or a slot less far.
fn claim(builder: &mut Builder, rng: &mut Xorshift) -> u8 {
    let left = builder.geometry.slots() - 1 - builder.slot;
    let any = rng.byte();
    let to_the_end = [left - 1, left].map(|count| u8::try_from(count).unwrap_or(255));
    let count = rng.pick(&[255, 255, 254, any, any | 0xC0, to_the_end[0], to_the_end[1]]);
    deleted_slot(builder, rng, count)
}

/// The sum of a run that a head claims. A wrong one is at times right over a slot less or more, or up to the identifier.
fn settle_claim(builder: &mut Builder, rng: &mut Xorshift, at: usize, count: u8, right: bool) {
    let count = usize::from(count);
    let left = (builder.image.len() - at) / 64 - 1;
    builder.seal(at);
    if right {
        return;
    }
    let sealed = builder.image[at + SUM_AT];
    match rng.below(8) {
        0 => seal_over(builder, at, count),
        1 => seal_over(builder, at, count + 2),
        2 => seal_over(builder, at, left),
        _ => builder.break_sum(rng, at),
    }
    // The slot more or less may sum to 0 itself.
    if count < left && builder.image[at + SUM_AT] == sealed {
        builder.break_sum(rng, at);
    }
}

/// Makes so many slots from here sum to 0, one at least and as many as there are at most.
fn seal_over(builder: &mut Builder, at: usize, slots: usize) {
    let end = builder.image.len().min(at + 64 * slots.max(1));
    builder.geometry.edition.seal(&mut builder.image[at..end]);
}

/// A live entry in no directory, so that all stays good whatever the runs around it take in; what they leave of it is
/// unused slots or strays.
fn live(builder: &mut Builder, rng: &mut Xorshift) {
    let kind = rng.pick(&[FILE, FILE, DIRECTORY]);
    let left = builder.geometry.slots() - 1 - builder.slot;
    let slots = rng.pick(&[1, 1, 1, 2, 6]).min(left);
    let numbers = if kind == FILE && rng.chance(30) { builder.extent(rng) } else { (0, 0, 0) };
    let mut field = format!("n{}\0", builder.slot).into_bytes();
    field.resize(capacity(builder.geometry.edition, kind, slots), rng.pick(&[0, 0x41, 0xFF]));
    builder.run(kind, slots, &field, numbers);
}
