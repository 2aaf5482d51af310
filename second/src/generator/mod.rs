//! Seeded scripts. The writer carries every line out as it writes it, so that a scene can aim at
//! the edges of the volume as it stands. The same seed always gives the same script.

mod args;
mod built;
mod crowded;
mod damage;
mod edges;
mod editions;
mod history;
mod lists;
mod names;
mod regions;
mod reports;
mod restore;
mod spans;
mod sums;
mod tails;
mod text;
mod traces;
mod volumes;
mod wiping;

pub use volumes::Volumes;

use crate::edition::{Edition, SUM_AT};
use crate::index::{self, Entry, COUNT_AT};
use crate::script::{hex, Session};
use crate::superblock::{self, Geometry, CHECKSUM};
use crate::volume::Volume;
use crate::xorshift::Xorshift;

type Scene = fn(&mut Writer);

/// A family of scenes.
struct Family {
    name: &'static str,
    /// What it weighs in a mixed script.
    weight: u64,
    /// How many of a hundred scenes are of edition 1.10.
    newer: u64,
    scene: Scene,
}

const fn family(name: &'static str, weight: u64, newer: u64, scene: Scene) -> Family {
    Family { name, weight, newer, scene }
}

const FAMILIES: [Family; 14] = [
    family("history", 40, 35, history::scene),
    family("damage", 20, 35, damage::scene),
    family("built", 20, 35, built::scene),
    family("edges", 8, 35, edges::scene),
    family("args", 12, 35, args::scene),
    family("names", 12, 35, names::scene),
    // Nothing comes back in edition 1.10.
    family("restore", 20, 15, restore::scene),
    family("tails", 12, 25, tails::scene),
    family("crowded", 6, 35, crowded::scene),
    family("sums", 24, 100, sums::scene),
    family("editions", 16, 65, editions::scene),
    family("report", 10, 50, reports::scene),
    family("regions", 14, 40, regions::scene),
    family("wiping", 28, 45, wiping::scene),
];

/// In a hundred calls of a scene, how many have report calls behind them; and the longest image that is so counted, as
/// digests of longer ones are slow.
const REPORTED: u64 = 3;
const MOST_REPORTED: u64 = 1 << 22;

/// A script of about `count` calls, of one family or mixed; nothing when there is no such family.
pub fn script(seed: u64, count: u64, kind: Option<&str>) -> Option<String> {
    let known = kind.is_none_or(|kind| FAMILIES.iter().any(|family| family.name == kind));
    if !known {
        return None;
    }
    let mut writer = Writer::new(seed);
    while writer.calls() < count {
        let family = writer.choose(kind);
        writer.play(family);
    }
    Some(writer.script)
}

/// The script number `place` of a self-test: a history, and behind every second one another scene.
pub fn one(seed: u64, place: u64) -> String {
    let mut writer = Writer::new(seed.wrapping_mul(0x9E37_79B9_7F4A_7C15).wrapping_add(place.wrapping_mul(2) + 1));
    writer.play(&FAMILIES[0]);
    if place % 2 == 1 {
        let family = (place / 2) as usize % (FAMILIES.len() - 1) + 1;
        writer.play(&FAMILIES[family]);
    }
    writer.script
}

/// A live or deleted entry, owned.
#[derive(Clone, Debug, Default)]
pub struct Known {
    pub path: Vec<u8>,
    pub directory: bool,
    pub length: u64,
    pub slot: u64,
    pub stamp: i64,
}

/// Writes a script while following it.
pub struct Writer {
    pub rng: Xorshift,
    /// For the reports between the calls of a scene and the tables behind them, so that the scene is the same with and
    /// without them.
    aside: Xorshift,
    /// The edition of the scene: what its volumes are formatted in or built in.
    pub edition: Edition,
    session: Session,
    script: String,
    serial: u64,
}

impl Writer {
    fn new(seed: u64) -> Self {
        let mut rng = Xorshift::new(seed.wrapping_add(0x5851_F42D_4C95_7F2D));
        // Neighbouring seeds start alike; a few steps part them.
        for _ in 0..8 {
            rng.step();
        }
        let (aside, edition) = (Xorshift::new(rng.clone().step()), Edition::default());
        Writer { rng, aside, edition, session: Session::without_digests(), script: String::new(), serial: 0 }
    }

    fn choose(&mut self, kind: Option<&str>) -> &'static Family {
        let mut weight = self.rng.below(FAMILIES.iter().map(|family| family.weight).sum());
        for family in &FAMILIES {
            if kind == Some(family.name) || (kind.is_none() && weight < family.weight) {
                return family;
            }
            weight = weight.saturating_sub(family.weight);
        }
        &FAMILIES[0]
    }

    /// One scene of the family, in either edition.
    fn play(&mut self, family: &Family) {
        self.edition = if self.rng.chance(family.newer) { Edition::V1_10 } else { Edition::V1_0 };
        if self.rng.chance(4) {
            self.put("api".to_string());
        }
        (family.scene)(self);
    }

    fn calls(&self) -> u64 {
        self.session.calls
    }

    /// Adds a line, behind a call at times a report, and gives the refusal number of the last call so far.
    pub fn put(&mut self, line: String) -> u8 {
        let calls = self.calls();
        self.add(&line);
        if self.calls() > calls && self.length() <= MOST_REPORTED && self.aside.chance(REPORTED) {
            reports::between(&mut self.aside).iter().for_each(|line| self.add(line));
        }
        self.session.last
    }

    fn add(&mut self, line: &str) {
        // A line the interpreter cannot read stays in the script, where the tests find it.
        let _ = self.session.execute(line);
        self.script.push_str(line);
        self.script.push('\n');
    }

    pub fn image(&self) -> &[u8] {
        self.session.image()
    }

    pub fn length(&self) -> u64 {
        self.image().len() as u64
    }

    /// The stored geometry when it is good.
    pub fn geometry(&self) -> Option<Geometry> {
        let edition = Edition::of_image(self.image())?;
        Geometry::stored(self.image(), edition).filter(Geometry::is_good)
    }

    /// A length at the edge of a slot or around it, given for edition 1.0: the same edge in this edition. Lengths
    /// about the longest path are the same in both.
    pub fn edge(&self, length: usize) -> usize {
        match self.edition {
            Edition::V1_10 if (20..284).contains(&length) => length - 1,
            _ => length,
        }
    }

    /// The live entries in slot order, none if the image does not open.
    pub fn live(&self) -> Vec<Known> {
        self.entries(|entry| entry.is_live())
    }

    /// The deleted entries likewise.
    pub fn deleted(&self) -> Vec<Known> {
        self.entries(|entry| entry.is_deleted())
    }

    fn entries(&self, wanted: fn(&Entry) -> bool) -> Vec<Known> {
        let entries = Volume::judge(self.image()).map(|volume| volume.index.entries).unwrap_or_default();
        entries.iter().filter(|entry| wanted(entry)).map(known).collect()
    }

    /// A number not given before in this script.
    pub fn serial(&mut self) -> u64 {
        self.serial += 1;
        self.serial
    }

    pub fn stamp(&mut self) -> i64 {
        let edges = [0, -1, 1, 0x3C_0000, 0x5BA6_D89F_0000, i64::MIN, i64::MAX, 951_782_400 << 16];
        if self.rng.chance(30) {
            return self.rng.pick(&edges);
        }
        (self.rng.step() >> 8) as i64 - (1 << 55)
    }

    pub fn poke(&mut self, at: usize, bytes: &[u8]) {
        self.put(format!("poke {at} {}", hex(bytes)));
    }

    /// Makes the checksum of the super-block right again, where this edition has it.
    pub fn refit(&mut self, edition: Edition) {
        let checksum = superblock::checksum(self.image(), edition);
        self.poke(edition.super_field(CHECKSUM), &[checksum]);
    }

    /// Makes the sum of the run right that starts at this byte, where the edition has sums.
    pub fn reseal(&mut self, at: usize) {
        if let Some(byte) = right_sum(self.image(), self.edition, at) {
            self.poke(at + SUM_AT, &[byte]);
        }
    }

    /// Pokes until the image is `wanted`; both have one length.
    pub fn poke_back(&mut self, wanted: &[u8]) {
        for at in (0..wanted.len()).step_by(64) {
            let end = wanted.len().min(at + 64);
            if self.image().get(at..end) != wanted.get(at..end) {
                self.poke(at, &wanted[at..end]);
            }
        }
    }

    /// Damages a stored name, which starts at `at`: a byte of a character, a fault laid over some place, or
    /// other text of the same length. No byte past the name changes.
    pub fn damage_name(&mut self, at: usize, name: &[u8]) {
        let place = self.rng.below(name.len() as u64) as usize;
        match self.rng.below(5) {
            0..=2 => {
                let wide = text::wide_places(name);
                let place = if wide.is_empty() { place } else { self.rng.pick(&wide) };
                let byte = self.rng.pick(&CHARACTER_BYTES);
                self.poke(at + place, &[byte]);
            }
            3 => {
                let fault = text::fault(&mut self.rng);
                self.poke(at + place, &fault[..fault.len().min(name.len() - place)]);
            }
            _ => {
                let whole = self.rng.chance(50);
                let other = if whole { text::of_length } else { text::cut_off }(&mut self.rng, name.len());
                self.poke(at, &other);
            }
        }
    }

    /// One of the calls that take a path.
    pub fn any_call(&mut self, path: &[u8]) {
        match self.rng.below(7) {
            0 => self.find(path),
            1 => self.read(path),
            2 => self.mkdir(path),
            3 => self.delete(path),
            4 => self.delete_keep(path),
            5 => self.restore(path),
            _ => self.mkfile(path, 3),
        };
    }

    pub fn mkfile(&mut self, path: &[u8], length: u64) -> u8 {
        let stamp = self.stamp();
        let data = match length {
            0 => "-".to_string(),
            1..=8 => hex(&crate::xorshift::fill(length as usize, self.rng.step())),
            _ => format!("fill:{length}:{}", self.rng.below(1_000_000)),
        };
        self.put(format!("mkfile {} {stamp} {data}", hex(path)))
    }

    pub fn mkdir(&mut self, path: &[u8]) -> u8 {
        let stamp = self.stamp();
        self.put(format!("mkdir {} {stamp}", hex(path)))
    }

    pub fn delete(&mut self, path: &[u8]) -> u8 {
        let stamp = self.stamp();
        self.put(format!("delete {} {stamp}", hex(path)))
    }

    pub fn delete_keep(&mut self, path: &[u8]) -> u8 {
        let stamp = self.stamp();
        self.put(format!("deletekeep {} {stamp}", hex(path)))
    }

    /// One delete or the other: that which keeps in about `keeping` cases of a hundred.
    pub fn delete_either(&mut self, path: &[u8], keeping: u64) -> u8 {
        if self.rng.chance(keeping) {
            self.delete_keep(path)
        } else {
            self.delete(path)
        }
    }

    pub fn restore(&mut self, path: &[u8]) -> u8 {
        let stamp = self.stamp();
        self.restore_at(path, stamp)
    }

    /// With the stamp it had, a deleted entry is as before its delete.
    pub fn restore_at(&mut self, path: &[u8], stamp: i64) -> u8 {
        self.put(format!("restore {} {stamp}", hex(path)))
    }

    pub fn reclaim(&mut self) -> u8 {
        let stamp = self.stamp();
        self.put(format!("reclaim {stamp}"))
    }

    /// A format in the edition of the scene.
    pub fn format(&mut self, block: u64, reserved: u64, name: &[u8]) -> u8 {
        self.format_as(self.edition.version().into(), block, reserved, name)
    }

    pub fn format_as(&mut self, version: u64, block: u64, reserved: u64, name: &[u8]) -> u8 {
        let stamp = self.stamp();
        self.put(format!("format {version} {block} {reserved} {} {stamp}", hex(name)))
    }

    pub fn find(&mut self, path: &[u8]) -> u8 {
        self.put(format!("find {}", hex(path)))
    }

    /// An output length around the one needed: mostly enough, else nothing or one short.
    pub fn room(&mut self, needed: u64) -> u64 {
        match self.rng.below(8) {
            0 => 0,
            1 => needed.saturating_sub(1),
            2 => needed + 1,
            3 => needed + 40,
            _ => needed,
        }
    }

    pub fn open(&mut self) -> u8 {
        let name = Volume::judge(self.image()).map_or(51, |volume| volume.index.volume_name.len() as u64);
        let room = self.room(name);
        self.put(format!("open {room}"))
    }

    pub fn read(&mut self, path: &[u8]) -> u8 {
        let needed = self.live().iter().find(|known| known.path == path).map_or(9, |known| known.length);
        let room = self.room(needed.min(70_000));
        self.put(format!("read {} {room}", hex(path)))
    }
}

/// The sum byte that is right for the run that starts at this byte, if the edition has sums. A run that goes past the
/// image counts as far as the image goes.
pub fn right_sum(image: &[u8], edition: Edition, at: usize) -> Option<u8> {
    if !edition.has_sums() {
        return None;
    }
    let rest = image.get(at..).filter(|rest| rest.len() >= 64)?;
    let named = index::name_at(edition, rest[0]).is_some();
    let count = if named { rest[edition.entry_field(COUNT_AT)] } else { 0 };
    let mut run = rest[..rest.len().min(64 + 64 * usize::from(count))].to_vec();
    edition.seal(&mut run);
    Some(run[SUM_AT])
}

fn known(entry: &Entry) -> Known {
    let Entry { length, slot, stamp, .. } = *entry;
    Known { path: entry.path.to_vec(), directory: !entry.is_file(), length, slot, stamp }
}

/// Short path arguments that are refused, or look as if they should be.
#[rustfmt::skip]
const ODD_PATHS: [&[u8]; 36] = [
    b"", b"/", b".", b"..", b"a//b", b"/a", b"a/", b"a/./b", b"a/../b", b"./a", b"a/..", b"\0", b"a\0", b"a\x1f",
    b"\x7f", b"a\x80", b"\xa0", b"\xa1", b"\x20", b"a\"b", b"*", b":", b"<a", b"a>", b"?", b"a\\b", b"...", b".a",
    b"a.", b"..a", b"~", b"\xc3\xa4", b"\xff", b"a/\x01", b"a/b/c/d/e/f", b"no/such",
];

/// Zero, a separator, and the edges of leads and tails.
const CHARACTER_BYTES: [u8; 22] = [
    0, 0, 0, b'/', b'a', 0x7F, 0x80, 0x81, 0x8F, 0x90, 0x9F, 0xA0, 0xBF, 0xC0, 0xC1, 0xC2, 0xE0, 0xED, 0xF0, 0xF4,
    0xF5, 0xFF,
];

/// One of the odd paths, at times a long one or one with a fault in its text.
pub fn odd_path(rng: &mut Xorshift) -> Vec<u8> {
    let around = rng.below(12) as usize;
    match rng.below(40) {
        0 => vec![b'q'; 285],
        1 | 2 => vec![b'q'; 286],
        3 => vec![b'q'; 300 + rng.below(500) as usize],
        4 => text::of_length(rng, 285 + around / 6),
        5 => text::cut_off(rng, 285 + around / 6),
        6..=18 => text::faulty(rng, around),
        19 => text::few(rng),
        _ => rng.pick(&ODD_PATHS).to_vec(),
    }
}

/// A path of exactly `length` bytes below `directory`, if it is long enough to hold one. Most have characters of
/// several bytes; the number makes it a path of its own.
pub fn path_of_length(rng: &mut Xorshift, directory: &[u8], length: usize, serial: u64) -> Vec<u8> {
    let mut path = directory.to_vec();
    if !path.is_empty() {
        path.push(b'/');
    }
    let mixed = rng.chance(60);
    if mixed && (length == 0 || length > 20) {
        path.extend(text::few(rng));
    }
    path.extend_from_slice(serial.to_string().as_bytes());
    if mixed {
        let least = if length == 0 { rng.below(9) as usize } else { 0 };
        path.extend(text::of_length(rng, length.saturating_sub(path.len()).max(least)));
    }
    while path.len() < length {
        path.push(b'a' + (path.len() % 26) as u8);
    }
    path
}

/// An allowed volume name of some length, the edges among them.
pub fn volume_name(rng: &mut Xorshift) -> Vec<u8> {
    match rng.below(14) {
        0 => Vec::new(),
        1 => vec![b'N'; 51],
        2 => vec![b'N'; 50],
        3 => rng.pick(&[b".".as_slice(), b"..", b"\xc3\xa9t\xc3\xa9", b"a b", b"\xc3\x80 la page"]).to_vec(),
        4 | 5 => text::of_length(rng, 51),
        6 | 7 => text::few(rng),
        8 => {
            let length = rng.below(52) as usize;
            text::of_length(rng, length)
        }
        _ => format!("TERM{}", rng.below(100)).into_bytes(),
    }
}

/// The least number of reserved blocks for a block length.
pub fn least_reserved(block: u64) -> u64 {
    512u64.div_ceil(block)
}
