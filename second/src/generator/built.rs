//! Images built slot by slot, with what no call of ours would leave: unusable entries, odd unused
//! types, long names, runs longer than their names, gaps between regions, newer versions, deleted
//! entries of a path by the two and three or without their directory, stray slots and wrong sums.

use super::{least_reserved, odd_path, path_of_length, regions, right_sum, text, volume_name, Known, Writer};
use crate::bytes::put;
use crate::edition::{Edition, SUM_AT};
use crate::index::{self, DELETED_DIRECTORY, DELETED_FILE, DIRECTORY, DIRECTORY_NAME_AT, FILE, IDENTIFIER, MARKER};
use crate::index::{COUNT_AT, END_AT, FILE_NAME_AT, LENGTH_AT, STAMP_AT, START_AT, UNUSABLE, UNUSED};
use crate::superblock::{self, Geometry, CHECKSUM, MOST_INDEX, VERSION};
use crate::xorshift::Xorshift;

/// An image in the making.
pub struct Builder {
    pub image: Vec<u8>,
    pub geometry: Geometry,
    /// The next slot and block to give out.
    pub slot: u64,
    block: u64,
    serial: u64,
    /// The path given out last.
    path: Vec<u8>,
    /// What fills the bytes that nobody judges.
    rubbish: u8,
    directories: Vec<Vec<u8>>,
    /// Paths of deleted entries.
    deleted: Vec<Vec<u8>>,
}

pub fn scene(w: &mut Writer) {
    if w.rng.chance(10) {
        return nearly_full_index(w);
    }
    let image = some_image(w);
    w.put(format!("image {}", image.len()));
    w.poke_back(&image);
    probe(w);
}

/// A volume with entries of every kind, at times with a fault.
pub fn some_image(w: &mut Writer) -> Vec<u8> {
    let mut builder = Builder::new(&mut w.rng, w.edition);
    while builder.slot < builder.geometry.slots() - 1 {
        builder.add(&mut w.rng);
    }
    if w.rng.chance(25) {
        builder.spoil(&mut w.rng);
    }
    builder.image
}

/// An index area close to its largest size and full, so that only growth could help.
fn nearly_full_index(w: &mut Writer) {
    let block = 256 << w.rng.below(5);
    let image = 294_912;
    let index = MOST_INDEX - 64 * w.rng.below(7);
    let reserved = least_reserved(block) + w.rng.below(2);
    let geometry = Geometry { edition: w.edition, image, block, total: image / block, reserved, data: 0, index };
    let mut builder = Builder::with(geometry, VERSION_1_0_ONLY, &mut w.rng);
    // Keeps the pokes few: only the entries' first slots are not zeros.
    builder.rubbish = 0;
    while builder.slot < geometry.slots() - 1 {
        let slots = (geometry.slots() - 1 - builder.slot).min(256);
        let kind = w.rng.pick(&[FILE, DIRECTORY, DELETED_DIRECTORY, DELETED_FILE]);
        builder.entry(kind, slots, &[], (0, 0, 0));
    }
    w.put(format!("image {image}"));
    w.poke_back(&builder.image);
    bring_back(w);
    for _ in 0..5 {
        let length = w.rng.pick(&[1, 29, 30, 93, 94, 157, 158, 285]);
        let length = w.edge(length);
        let serial = w.serial();
        let path = path_of_length(&mut w.rng, b"z", length, serial).split_off(2);
        let room = w.rng.pick(&[0, 0, 1, block, 20_000]);
        w.mkfile(&path, room);
    }
    bring_back(w);
    w.reclaim();
    bring_back(w);
    w.list_each(2);
    regions::close(w);
}

const VERSION_1_0_ONLY: u64 = 0;
const SOME_NEWER: u64 = 15;

impl Builder {
    /// An empty index of some size, not always starting at a block.
    pub fn new(rng: &mut Xorshift, edition: Edition) -> Self {
        let block = 256 << rng.below(5);
        let reserved = least_reserved(block) + rng.below(3);
        let index = 64 * (2 + rng.below(28));
        let total = reserved + 2 + rng.below(20) + index.div_ceil(block);
        let image = total * block;
        let room = (image - index) / block - reserved;
        let data = if rng.chance(60) { room - rng.below(room.min(3)) } else { rng.below(room + 1) };
        Builder::with(Geometry { edition, image, block, total, reserved, data, index }, SOME_NEWER, rng)
    }

    /// An empty index of this geometry, of a newer version in about `newer` cases of a hundred; less often in the edition
    /// that no call reads then.
    pub fn with(geometry: Geometry, newer: u64, rng: &mut Xorshift) -> Self {
        let edition = geometry.edition;
        let newer = if edition == Edition::V1_0 { newer } else { newer / 4 };
        let mut image = vec![0; geometry.image as usize];
        superblock::write(&mut image, &geometry, rng.step() as i64 >> 8);
        if rng.chance(newer) {
            let version = 0x11 + rng.below(0xEF) as u8;
            put(&mut image, edition.super_field(VERSION), &[version]);
            let checksum = superblock::checksum(&image, edition);
            put(&mut image, edition.super_field(CHECKSUM), &[checksum]);
        }
        put(&mut image, geometry.slot_offset(0), &edition.bare_slot(MARKER));
        let identifier = geometry.slot_offset(geometry.slots() - 1);
        put(&mut image, identifier, &[IDENTIFIER, 0, 0, 0, 7]);
        put(&mut image, identifier + 12, &volume_name(rng));
        edition.seal(&mut image[identifier..]);
        let rubbish = rng.pick(&[0, 0, 1, 2, 0x12, 0x41, 0xFF]);
        Builder {
            image,
            geometry,
            slot: 1,
            block: geometry.reserved,
            serial: 0,
            path: b"0".to_vec(),
            rubbish,
            directories: vec![Vec::new()],
            deleted: Vec::new(),
        }
    }

    /// Adds one slot or run of some kind.
    pub fn add(&mut self, rng: &mut Xorshift) {
        match rng.below(10) {
            0..=2 => self.unused(rng),
            3 => {
                let (start, end) = self.region(rng);
                if start < end {
                    self.entry(UNUSABLE, 1, &[], (start, end, rng.step()));
                } else {
                    self.unused(rng);
                }
            }
            4 | 5 => self.named(rng, DIRECTORY),
            6 => self.named(rng, DELETED_DIRECTORY),
            7 => self.named(rng, DELETED_FILE),
            _ => self.named(rng, FILE),
        }
    }

    /// An unused slot of any such type, with rubbish behind it; a stray one where that is no fault.
    pub fn unused(&mut self, rng: &mut Xorshift) {
        let stray = self.geometry.edition.rewrites(0xFF) && rng.chance(25);
        let kind = if stray { 0x20 + rng.below(0xE0) as u8 } else { rng.below(0x20) as u8 };
        let used = matches!(kind, IDENTIFIER | MARKER | DIRECTORY | FILE | UNUSABLE | DELETED_DIRECTORY | DELETED_FILE);
        let mut slot = [rng.byte(); 64];
        slot[0] = if used { UNUSED } else { kind };
        put(&mut self.image, self.geometry.slot_offset(self.slot), &slot);
        self.slot += 1;
    }

    /// The next few blocks, at times after a gap; an empty region when none are left.
    fn region(&mut self, rng: &mut Xorshift) -> (u64, u64) {
        let start = self.block + if rng.chance(40) { rng.below(3) } else { 0 };
        let end = start + 1 + rng.below(3);
        if end > self.geometry.data_end() {
            return (0, 0);
        }
        self.block = end;
        (start, end)
    }

    /// A path of its own. A deleted entry may also have that of a live one or of other deleted ones, or lie where no
    /// directory is.
    fn choose_path(&mut self, rng: &mut Xorshift, deleted: bool) {
        match rng.below(20) {
            0..=2 if deleted => return,
            3..=6 if deleted && !self.deleted.is_empty() => {
                self.path = rng.pick(&self.deleted);
                return;
            }
            _ => {}
        }
        let missing = deleted && rng.chance(20);
        let directory = if missing { self.missing_directory(rng) } else { rng.pick(&self.directories) };
        self.serial += 1;
        let length = if rng.chance(70) { 0 } else { rng.pick(&[29, 30, 53, 54, 94, 285, 286, 300, 414, 700]) };
        self.path = path_of_length(rng, &directory, length, self.serial);
    }

    /// What is no live directory, though a restore may make it one.
    fn missing_directory(&self, rng: &mut Xorshift) -> Vec<u8> {
        let mut choices: Vec<Vec<u8>> = self.deleted.iter().filter(|path| path.len() < 120).cloned().collect();
        choices.push(b"missing".to_vec());
        rng.pick(&choices)
    }

    fn named(&mut self, rng: &mut Xorshift, kind: u8) {
        let deleted = matches!(kind, DELETED_FILE | DELETED_DIRECTORY);
        self.choose_path(rng, deleted);
        let path = self.path.clone();
        let is_file = matches!(kind, FILE | DELETED_FILE);
        let edition = self.geometry.edition;
        let needed = slots_for(edition, kind, path.len() + 1);
        let slots = needed + if rng.chance(if deleted { 25 } else { 15 }) { rng.below(3) } else { 0 };
        if self.slot + slots > self.geometry.slots() - 1 {
            return self.unused(rng);
        }
        let held = !deleted || edition.keeps_deleted();
        let numbers = match is_file && rng.chance(80) {
            true if held => self.extent(rng),
            true => (rng.below(9), rng.below(9), rng.below(9_999)),
            false => (0, 0, 0),
        };
        let at = self.geometry.slot_offset(self.slot);
        self.entry(kind, slots, &path, numbers);
        if !held && rng.chance(20) {
            self.break_sum(rng, at);
        }
        match kind {
            DIRECTORY if path.len() < 120 => self.directories.push(path),
            DELETED_FILE | DELETED_DIRECTORY => self.deleted.push(path),
            _ => {}
        }
    }

    /// Start, end and length of a file.
    pub fn extent(&mut self, rng: &mut Xorshift) -> (u64, u64, u64) {
        let (start, end) = self.region(rng);
        let room = (end - start) * self.geometry.block;
        let part = rng.below(room + 1);
        (start, end, rng.pick(&[room, room, room.saturating_sub(1), 0, part]))
    }

    /// Writes an entry's run. Without a path it gets a short one of its own.
    fn entry(&mut self, kind: u8, slots: u64, path: &[u8], numbers: (u64, u64, u64)) {
        let name = if path.is_empty() { format!("n{}", self.slot).into_bytes() } else { path.to_vec() };
        self.run(kind, slots, &[name.as_slice(), b"\0"].concat(), numbers);
    }

    /// Makes the sum of a run wrong.
    pub fn break_sum(&mut self, rng: &mut Xorshift, at: usize) {
        let byte = self.image[at + SUM_AT].wrapping_add(1 + rng.below(255) as u8);
        put(&mut self.image, at + SUM_AT, &[byte]);
    }

    /// Makes the sum of a run right, where the edition has sums.
    pub fn seal(&mut self, at: usize) {
        if let Some(byte) = right_sum(&self.image, self.geometry.edition, at) {
            put(&mut self.image, at + SUM_AT, &[byte]);
        }
    }

    /// Writes a run with these bytes, which fit it, from where its name starts. The numbers are the first block, the one
    /// past the last, and the length.
    pub fn run(&mut self, kind: u8, slots: u64, field: &[u8], numbers: (u64, u64, u64)) {
        let edition = self.geometry.edition;
        let at = |place| if kind == UNUSABLE { place } else { edition.entry_field(place) };
        let end = if numbers.1 == 0 { 0 } else { edition.stored_end(numbers.1) };
        let mut run = vec![self.rubbish; slots as usize * 64];
        put(&mut run, 0, &[kind]);
        if matches!(kind, FILE | DELETED_FILE | UNUSABLE) {
            put(&mut run, at(START_AT), &numbers.0.to_le_bytes());
            put(&mut run, at(END_AT), &end.to_le_bytes());
            put(&mut run, at(LENGTH_AT), &numbers.2.to_le_bytes());
        }
        if kind != UNUSABLE {
            put(&mut run, at(COUNT_AT), &[(slots - 1) as u8]);
            put(&mut run, at(STAMP_AT), &(self.slot as i64 - 9).to_le_bytes());
            put(&mut run, name_at(edition, kind), field);
        }
        edition.seal(&mut run);
        put(&mut self.image, self.geometry.slot_offset(self.slot), &run);
        self.slot += slots;
    }

    /// One fault: a type that may not stand where it is, a copied slot, which repeats a region or a
    /// path, or bad text in a name.
    fn spoil(&mut self, rng: &mut Xorshift) {
        let slot = 1 + rng.below(self.geometry.slots() - 2);
        let other = 1 + rng.below(self.geometry.slots() - 2);
        let at = self.geometry.slot_offset(slot);
        let from = self.geometry.slot_offset(other);
        let edition = self.geometry.edition;
        let field = |place| at + edition.entry_field(place);
        match rng.below(7) {
            4 => put(&mut self.image, field(START_AT), &(self.geometry.reserved + rng.below(4)).to_le_bytes()),
            0 => put(&mut self.image, at, &[rng.pick(&[0x01, 0x02, 0x20, 0x41, 0x7F, 0xFF])]),
            1 => put(&mut self.image, at, &[rng.below(0x20) as u8]),
            2 => put(&mut self.image, field(COUNT_AT), &[rng.byte()]),
            5 => put(&mut self.image, field(rng.pick(&[DIRECTORY_NAME_AT, FILE_NAME_AT, 50])), &text::fault(rng)),
            6 => put(&mut self.image, self.geometry.image as usize - 52, &text::faulty(rng, 10)),
            _ => self.image.copy_within(from..from + 64, at),
        }
        if rng.chance(70) {
            self.seal(at);
            self.seal(self.geometry.image as usize - 64);
        }
    }
}

/// Where the name starts. Only kinds that have one are asked about, so the fallback is never met.
pub fn name_at(edition: Edition, kind: u8) -> usize {
    index::name_at(edition, kind).unwrap_or(DIRECTORY_NAME_AT)
}

/// The bytes that the name and what stands behind it have in a run.
pub fn capacity(edition: Edition, kind: u8, slots: u64) -> usize {
    64 * slots as usize - name_at(edition, kind)
}

/// The fewest slots of a run that has at least so many bytes for a name.
pub fn slots_for(edition: Edition, kind: u8, bytes: usize) -> u64 {
    (bytes + name_at(edition, kind)).div_ceil(64) as u64
}

/// Looks at everything, then writes into the holes.
fn probe(w: &mut Writer) {
    w.open();
    w.list_each(6);
    w.listing();
    let steps = 8 + w.rng.below(12);
    for _ in 0..steps {
        let live = w.live();
        let mut known = w.rng.pick(&live);
        if w.rng.chance(5) {
            known.path.push(b'!');
        }
        match w.rng.below(18) {
            12 => w.mkdir(&known.path),
            13..=16 => bring_back(w),
            17 => w.restore(&known.path),
            0 => w.find(&known.path),
            1 | 2 => w.read(&known.path),
            3 => w.delete_either(&known.path, 50),
            4 => w.reclaim(),
            5 | 6 => create(w, true),
            7 => {
                let path = odd_path(&mut w.rng);
                w.mkfile(&path, 2)
            }
            _ => create(w, false),
        };
    }
    w.list_each(4);
    w.listing();
    w.put("history".to_string());
    regions::close(w);
}

/// Restores a deleted entry, or deletes a live one and undoes it to the byte where it was kept.
fn bring_back(w: &mut Writer) -> u8 {
    let deleted = w.deleted();
    if !deleted.is_empty() && w.rng.chance(75) {
        let Known { path, directory, .. } = w.rng.pick(&deleted);
        let refused = w.restore(&path);
        return if refused == 0 && !directory { w.read(&path) } else { refused };
    }
    let live = w.live();
    let Known { path, stamp, .. } = w.rng.pick(&live);
    w.delete_either(&path, 90);
    w.restore_at(&path, stamp)
}

fn create(w: &mut Writer, directory: bool) -> u8 {
    let parents: Vec<Vec<u8>> = w.live().into_iter().filter(|known| known.directory).map(|known| known.path).collect();
    let parent = if w.rng.chance(50) { w.rng.pick(&parents) } else { Vec::new() };
    let length = w.rng.pick(&[0, 0, 29, 30, 53, 54, 93, 94, 285]);
    let length = w.edge(length);
    let serial = w.serial();
    let mut path = path_of_length(&mut w.rng, &parent, length, serial);
    path.push(b'w');
    if directory {
        return w.mkdir(&path);
    }
    let block = w.geometry().map_or(256, |geometry| geometry.block);
    let bytes = w.rng.pick(&[0, 1, block - 1, block, block + 1, 2 * block, 3 * block + 7]);
    w.mkfile(&path, bytes)
}
