//! Names that are nearly the wanted one, in runs with more slots than they need. The bytes behind the zero are chosen,
//! so that the byte at the wanted path's last place is alike far more often than the path is.

use super::built::{capacity, name_at, slots_for, Builder};
use super::{least_reserved, text, Known, Writer};
use crate::bytes::put;
use crate::edition::Edition;
use crate::index::{DELETED_DIRECTORY, DELETED_FILE, DIRECTORY, FILE};
use crate::names;
use crate::superblock::Geometry;
use crate::xorshift::Xorshift;
use std::collections::BTreeMap;

/// Few characters, so that places are often alike by themselves; the wide ones share their last byte.
const ALIKE: [&str; 7] = ["a", "a", "b", "\u{e9}", "\u{a9}", "\u{5a69}", "\u{10a69}"];
/// As edition 1.0 has them: the name bytes of runs of one and two slots, of files and of directories, and of a file with the longest name that
/// create takes.
const CAPACITIES: [usize; 9] = [30, 54, 30, 54, 30, 54, 94, 118, 286];
/// Directories come besides from the paths below them.
const KINDS: [u8; 8] = [FILE, FILE, FILE, FILE, DIRECTORY, DIRECTORY, DELETED_FILE, DELETED_DIRECTORY];
const SOME_NEWER: u64 = 4;
/// The last place of a longer path is left out of reach, as too many slots would go there.
const MOST_REACH: usize = 310;

/// A name and the bytes behind its zero.
struct Stored {
    name: Vec<u8>,
    behind: Vec<u8>,
}

/// A volume in the making, for searches of certain paths.
struct Stage {
    builder: Builder,
    wanted: Vec<Vec<u8>>,
    /// The live paths so far, and whether they are directories.
    live: BTreeMap<Vec<u8>, bool>,
}

pub fn scene(w: &mut Writer) {
    let mut stage = Stage::new(&mut w.rng, w.edition);
    stage.fill(&mut w.rng);
    w.put(format!("image {}", stage.builder.image.len()));
    w.poke_back(&stage.builder.image);
    probe(w, &stage.wanted);
    let whole = w.image().to_vec();
    for _ in 0..2 {
        turn_behind_the_calls(w);
        w.poke_back(&whole);
    }
}

/// A volume of such names.
pub fn some_image(w: &mut Writer) -> Vec<u8> {
    let mut stage = Stage::new(&mut w.rng, w.edition);
    stage.fill(&mut w.rng);
    stage.builder.image
}

impl Stage {
    fn new(rng: &mut Xorshift, edition: Edition) -> Self {
        let block = 256 << rng.below(3);
        let reserved = least_reserved(block) + rng.below(2);
        let index = 64 * (40 + rng.below(50));
        let total = reserved + 10 + rng.below(12) + index.div_ceil(block);
        let image = total * block;
        let room = (image - index) / block - reserved;
        // The blocks left free are room for the index to grow.
        let data = room - rng.below(6);
        let geometry = Geometry { edition, image, block, total, reserved, data, index };
        let builder = Builder::with(geometry, SOME_NEWER, rng);
        Stage { builder, wanted: Vec::new(), live: BTreeMap::new() }
    }

    /// All slots but a few, which are left to the creates.
    fn fill(&mut self, rng: &mut Xorshift) {
        for _ in 0..3 + rng.below(3) {
            self.want(rng);
        }
        let last = self.builder.geometry.slots() - 1;
        let kept = last - rng.pick(&[0, 2, 6, 10]);
        while self.builder.slot < kept {
            let path = rng.pick(&self.wanted);
            self.add(rng, &path);
        }
        while self.builder.slot < last {
            let path = rng.pick(&self.wanted);
            self.decoy(rng, &path);
        }
    }

    /// One more path to search for: short, or about as long as the name bytes of some run; at times below another.
    fn want(&mut self, rng: &mut Xorshift) {
        // Where the fields lie later, there is less room for the name.
        let capacity = rng.pick(&CAPACITIES) - self.builder.geometry.edition.entry_field(0);
        let length = match rng.below(12) {
            0 | 1 => capacity,
            2 | 3 => capacity - 1,
            4 => capacity + 1,
            5 => capacity + 2 + rng.below(70) as usize,
            6 => return self.wanted.push(text::across(rng, capacity)),
            _ => 2 + rng.below(14) as usize,
        };
        let mut path = if rng.chance(40) { rng.pick(&self.wanted) } else { Vec::new() };
        if path.len() + 2 > length {
            path.clear();
        } else if !path.is_empty() {
            path.push(b'/');
        }
        path.extend(alike(rng, length - path.len()));
        self.wanted.push(path);
    }

    /// A run whose name, or what stands behind it, is like the path.
    fn add(&mut self, rng: &mut Xorshift, path: &[u8]) {
        if rng.chance(4) {
            return self.decoy(rng, path);
        }
        let kind = rng.pick(&KINDS);
        let stored = self.like(rng, kind, path);
        let live = !is_deleted(kind) && self.house(rng, &stored.name);
        let kind = if live { kind } else { deleted(kind) };
        if !self.place(rng, kind, &stored, path.len()) {
            self.decoy(rng, path);
        }
    }

    /// Whether the name may become live. Directories that it lacks are made.
    fn house(&mut self, rng: &mut Xorshift, name: &[u8]) -> bool {
        if self.live.contains_key(name) {
            return false;
        }
        let Some(parent) = names::parent(name) else { return true };
        if let Some(directory) = self.live.get(parent) {
            return *directory;
        }
        let behind = name[parent.len() + 1..].to_vec();
        let stored = Stored { name: parent.to_vec(), behind };
        self.house(rng, parent) && self.place(rng, DIRECTORY, &stored, name.len())
    }

    /// Writes a run if there is room for it.
    fn place(&mut self, rng: &mut Xorshift, kind: u8, stored: &Stored, reach: usize) -> bool {
        let Stored { name, behind } = stored;
        let edition = self.builder.geometry.edition;
        let slots = some_slots(rng, edition, kind, name.len() + 1, reach);
        if self.builder.slot + slots > self.builder.geometry.slots() - 1 {
            return false;
        }
        let mut field = [name.as_slice(), b"\0", behind].concat();
        field.truncate(capacity(edition, kind, slots));
        let numbers = self.some_blocks(rng, kind);
        self.builder.run(kind, slots, &field, numbers);
        if !is_deleted(kind) {
            self.live.insert(name.clone(), kind == DIRECTORY);
        }
        true
    }

    /// A file's start, end and length. Its blocks get bytes of their own, so that reading the wrong file shows.
    fn some_blocks(&mut self, rng: &mut Xorshift, kind: u8) -> (u64, u64, u64) {
        if !matches!(kind, FILE | DELETED_FILE) || rng.chance(20) {
            return (0, 0, 0);
        }
        let numbers = self.builder.extent(rng);
        if numbers.0 > 0 {
            let at = self.builder.geometry.block_offset(numbers.0);
            put(&mut self.builder.image, at, &[self.builder.slot as u8; 16]);
        }
        numbers
    }

    /// An unused slot, if there is one left, with the path where an entry's would be.
    fn decoy(&mut self, rng: &mut Xorshift, path: &[u8]) {
        if self.builder.slot >= self.builder.geometry.slots() - 1 {
            return;
        }
        let at = self.builder.geometry.slot_offset(self.builder.slot);
        self.builder.unused(rng);
        let mut name = [path, b"\0"].concat();
        name.truncate(30);
        put(&mut self.builder.image, at + self.builder.geometry.edition.entry_field(rng.pick(&[10, 34])), &name);
    }

    /// What an entry of this kind may hold that is like the path.
    fn like(&self, rng: &mut Xorshift, kind: u8, path: &[u8]) -> Stored {
        let middle = 1 + rng.below(path.len().saturating_sub(2) as u64) as usize;
        let name = match rng.below(20) {
            // Below what is no directory, though one like it may be.
            1..=4 if is_deleted(kind) => {
                let other = twist(rng, path, path.len() - 1);
                below(rng, &other)
            }
            0..=2 => path.to_vec(),
            3..=8 => return self.shorter(rng, path),
            9 | 10 => twist(rng, path, path.len() - 1),
            11 | 12 => twist(rng, path, 0),
            13 => twist(rng, path, middle),
            14 => longer(rng, path),
            15 => below(rng, path),
            16 | 17 => longest(rng, self.builder.geometry.edition, kind, path),
            18 => other_character(rng, path),
            _ => alike(rng, 1 + middle % 4),
        };
        Stored { name, behind: self.rest(rng) }
    }

    /// A name that ends before the path does; behind the zero the path may go on.
    fn shorter(&self, rng: &mut Xorshift, path: &[u8]) -> Stored {
        let prefixes: Vec<&[u8]> =
            (1..path.len()).map(|end| &path[..end]).filter(|name| names::path_allowed(name)).collect();
        // A path of one wide character has no prefix.
        let name = if prefixes.is_empty() { b"a".to_vec() } else { rng.pick(&prefixes).to_vec() };
        let goes_on = path.get(name.len() + 1..).unwrap_or_default();
        let behind = match rng.below(8) {
            0..=2 => goes_on.to_vec(),
            3 | 4 => spoilt(rng, goes_on),
            5 => last_only(rng, goes_on),
            6 => path[name.len()..].to_vec(),
            _ => self.rest(rng),
        };
        let more = if rng.chance(50) { self.rest(rng) } else { Vec::new() };
        let between: &[u8] = rng.pick(&[b"".as_slice(), b"\0", b"a"]);
        Stored { name, behind: [behind.as_slice(), between, &more].concat() }
    }

    /// What a longer name may have left behind: other entries' paths, in a row or with zeros between.
    fn rest(&self, rng: &mut Xorshift) -> Vec<u8> {
        let paths: Vec<&Vec<u8>> = self.live.keys().chain(&self.wanted).collect();
        let mut rest = Vec::new();
        for _ in 0..rng.below(5) {
            rest.extend_from_slice(paths[rng.below(paths.len() as u64) as usize]);
            rest.extend_from_slice(rng.pick(&[b"".as_slice(), b"\0", b"\0", b"\0\0", b"/"]));
        }
        rest
    }
}

/// The slots of a run whose name takes so many bytes. Most reach to the last place of a path of `reach` bytes, and no
/// further than they must.
fn some_slots(rng: &mut Xorshift, edition: Edition, kind: u8, bytes: usize, reach: usize) -> u64 {
    let needed = slots_for(edition, kind, bytes);
    let reaching = if reach > MOST_REACH { needed } else { needed.max(slots_for(edition, kind, reach)) };
    match rng.below(8) {
        0 => needed,
        1 => reaching + 1 + rng.below(2),
        _ => reaching,
    }
}

fn is_deleted(kind: u8) -> bool {
    kind == deleted(kind)
}

fn deleted(kind: u8) -> u8 {
    if matches!(kind, FILE | DELETED_FILE) {
        DELETED_FILE
    } else {
        DELETED_DIRECTORY
    }
}

/// Exactly `length` bytes of text, mostly of the few characters.
fn alike(rng: &mut Xorshift, length: usize) -> Vec<u8> {
    if rng.chance(10) {
        return text::of_length(rng, length);
    }
    let mut text = Vec::new();
    while text.len() < length {
        let fitting: Vec<&str> = ALIKE.iter().filter(|one| text.len() + one.len() <= length).copied().collect();
        text.extend_from_slice(rng.pick(&fitting).as_bytes());
    }
    text
}

/// The path with another byte, no slash, at this place; itself if no byte will do.
fn twist(rng: &mut Xorshift, path: &[u8], place: usize) -> Vec<u8> {
    let old = path[place];
    let first = if old < 0x80 { b'a' + rng.below(26) as u8 } else { 0x80 | rng.byte() };
    let mut other = path.to_vec();
    for step in 0..=u8::MAX {
        other[place] = first.wrapping_add(step);
        if other[place] != b'/' && other[place] != old && names::path_allowed(&other) {
            return other;
        }
    }
    path.to_vec()
}

/// These bytes with one that is wrong, the last one still right.
fn spoilt(rng: &mut Xorshift, bytes: &[u8]) -> Vec<u8> {
    let mut bytes = bytes.to_vec();
    let Some((_, others)) = bytes.split_last_mut() else { return bytes };
    let place = rng.below(others.len() as u64) as usize;
    let byte = rng.pick(&[0, b'/', b'c', 0xA9, 0xFF]);
    others.iter_mut().skip(place).take(1).for_each(|old| *old = byte);
    bytes
}

/// As many bytes, of which only the last is right.
fn last_only(rng: &mut Xorshift, bytes: &[u8]) -> Vec<u8> {
    let Some((last, others)) = bytes.split_last() else { return Vec::new() };
    let byte = rng.pick(&[0, b'c', 0xFF]);
    [vec![byte; others.len()], vec![*last]].concat()
}

/// The path and one more character, mostly of one byte.
fn longer(rng: &mut Xorshift, path: &[u8]) -> Vec<u8> {
    let width = rng.pick(&[1, 1, 1, 2]);
    [path.to_vec(), alike(rng, width)].concat()
}

/// A path below this one.
fn below(rng: &mut Xorshift, path: &[u8]) -> Vec<u8> {
    let length = 1 + rng.below(4) as usize;
    [path.to_vec(), b"/".to_vec(), alike(rng, length)].concat()
}

/// The longest name of some run: the path cut off or drawn out.
fn longest(rng: &mut Xorshift, edition: Edition, kind: u8, path: &[u8]) -> Vec<u8> {
    let near = slots_for(edition, kind, path.len());
    let slots = rng.pick(&[near, near, near.saturating_sub(1).max(1), near + 1, 1]);
    drawn_out(rng, path, capacity(edition, kind, slots) - 1)
}

/// A path of `length` bytes that starts with this one or as this one does.
fn drawn_out(rng: &mut Xorshift, path: &[u8], length: usize) -> Vec<u8> {
    let mut start = path[..path.len().min(length)].to_vec();
    while !start.is_empty() && !names::path_allowed(&start) {
        start.pop();
    }
    let more = alike(rng, length - start.len());
    [start, more].concat()
}

/// Another last character, of any width; the last bytes of all the wide ones are alike.
fn other_character(rng: &mut Xorshift, path: &[u8]) -> Vec<u8> {
    let start = path.iter().rposition(|byte| !(0x80..0xC0).contains(byte)).unwrap_or(0);
    let other = rng.pick(&ALIKE[3..]);
    [&path[..start], other.as_bytes()].concat()
}

/// Looks at everything, then asks for one path after the other, each by a few calls in a row.
fn probe(w: &mut Writer, wanted: &[Vec<u8>]) {
    w.open();
    w.list_each(5);
    w.listing();
    let rounds = 14 + w.rng.below(8);
    for _ in 0..rounds {
        let path = some_path(w, wanted);
        let calls = 2 + w.rng.below(4);
        for _ in 0..calls {
            call(w, &path);
        }
        if w.rng.chance(4) {
            w.reclaim();
        }
    }
    w.list_each(30);
    w.listing();
}

fn call(w: &mut Writer, path: &[u8]) {
    match w.rng.below(20) {
        0..=6 => w.find(path),
        7..=9 => w.read(path),
        10 | 11 => {
            let length = w.rng.pick(&[0, 0, 5, 300]);
            w.mkfile(path, length)
        }
        12 => w.mkdir(path),
        13 => w.delete(path),
        14 | 15 => w.delete_keep(path),
        16..=18 => w.restore(path),
        _ => {
            let slot = w.rng.below(80);
            w.put(format!("list {slot} 300"));
            w.list_all()
        }
    };
}

/// A wanted path, one from the index, or a relative of either.
fn some_path(w: &mut Writer, wanted: &[Vec<u8>]) -> Vec<u8> {
    let choice = w.rng.below(26);
    let known = match choice {
        16..=19 => stored_path(w, true),
        20..=23 => stored_path(w, false),
        24 | 25 => homeless(w),
        _ => Vec::new(),
    };
    let path = if known.is_empty() { w.rng.pick(wanted) } else { known };
    let place = w.rng.below(path.len() as u64) as usize;
    let rng = &mut w.rng;
    match choice {
        9 | 16 => path[..place].to_vec(),
        10 | 20 => longer(rng, &path),
        11 | 21 => below(rng, &path),
        12 => twist(rng, &path, place),
        13 => other_character(rng, &path),
        14 => no_path(rng, &path, place),
        15 => names::parent(&path).unwrap_or(&path).to_vec(),
        17 | 22 => past_its_run(w),
        _ => path,
    }
}

fn stored_path(w: &mut Writer, deleted: bool) -> Vec<u8> {
    let known = if deleted { w.deleted() } else { w.live() };
    w.rng.pick(&known).path
}

/// A deleted path whose directory is not live.
fn homeless(w: &mut Writer) -> Vec<u8> {
    let live = w.live();
    let served = |path: &[u8]| live.iter().any(|known| known.directory && known.path == path);
    let mut deleted = w.deleted();
    deleted.retain(|known| names::parent(&known.path).is_some_and(|parent| !served(parent)));
    w.rng.pick(&deleted).path
}

/// What cannot be a path: nothing at all, or bytes with a zero among them, as they may well stand in a run.
fn no_path(rng: &mut Xorshift, path: &[u8], place: usize) -> Vec<u8> {
    match rng.below(5) {
        0 => Vec::new(),
        1 => [path, b"\0"].concat(),
        2 => [b"\0", path].concat(),
        3 => [&path[..place], b"\0", &path[place..]].concat(),
        _ => [&path[..place], b"\0", &path[place + 1..]].concat(),
    }
}

/// Starts as a stored name does, and its last place lies behind that run: in another, or at the image's end or past it.
fn past_its_run(w: &mut Writer) -> Vec<u8> {
    let mut known = [w.live(), w.deleted()].concat();
    // From the last runs the end is near, which keeps most such paths short.
    known.sort_by_key(|known| known.slot);
    let early = if w.rng.chance(90) { known.len().saturating_sub(8) } else { 0 };
    let Known { path, directory, slot, .. } = w.rng.pick(&known[early..]);
    let Some(geometry) = w.geometry() else { return path };
    let kind = if directory { DIRECTORY } else { FILE };
    let at = geometry.slot_offset(slot) + name_at(geometry.edition, kind);
    let left = w.image().len() - at;
    let near = path.len() + w.rng.below(200) as usize;
    let length = w.rng.pick(&[near, near, left - 64, left, left, left + 1]);
    let mut path = drawn_out(&mut w.rng, &path, length);
    let there = w.image().get(at + length - 1).copied();
    if let (Some(last), Some(byte)) = (path.last_mut(), there.filter(u8::is_ascii_lowercase)) {
        *last = if last.is_ascii() { byte } else { *last };
    }
    path
}

/// An entry live that was deleted, or the other way round: paths come twice, or lose their directory.
fn turn_behind_the_calls(w: &mut Writer) {
    // Where nothing stays deleted, nothing can be turned back.
    let live = w.edition.keeps_deleted() && w.rng.chance(70);
    let known = if live { w.deleted() } else { w.live() };
    let Known { path, directory, slot, .. } = w.rng.pick(&known);
    let Some(geometry) = w.geometry().filter(|_| !path.is_empty()) else { return };
    let kind = if directory { DIRECTORY } else { FILE };
    let at = geometry.slot_offset(slot);
    w.poke(at, &[if live { kind } else { deleted(kind) }]);
    if w.rng.chance(60) {
        w.reseal(at);
    }
    w.open();
    w.find(&path);
    w.restore(&path);
}
