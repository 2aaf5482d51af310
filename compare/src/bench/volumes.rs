//! The volumes that the benchmark times: 16 MiB, blocks of 512, so many entries. All entries but two are made for the volume's sake; the
//! two are a file of 1 MiB, to read, and a deleted file, to restore and to reclaim. In edition 1.10 the deleted one is an unused slot that a
//! call that writes makes look so, and that a create takes.

use second::index::{COUNT_AT, DELETED_DIRECTORY, DELETED_FILE, DIRECTORY, DIRECTORY_NAME_AT, END_AT, FILE, FILE_NAME_AT, LENGTH_AT, MARKER, START_AT, UNUSABLE};
use second::edition::SUM_AT;
use second::superblock::{DATA, INDEX};
use second::xorshift::Xorshift;
use second::Edition;

pub const BYTES: usize = 16 << 20;
pub const MIB: usize = 1 << 20;
const BLOCK: usize = 512;
const SLOT: usize = 64;
/// The parts of a path that is 25 deep, but its last.
const CHAIN: usize = 24;
/// What names of two slots have alike.
const ALIKE: &str = "the session of a reader at terminal 7 of the reading room on the first floor, number ";
/// Names before all others, so that they are in order where the others are.
pub const BIG: &[u8] = b"a big file";
pub const GONE: &[u8] = b"a gone file";
/// Where the big file's bytes lie in the image.
pub const BIG_AT: usize = BLOCK;
/// The name of a deleted directory whose run is laid down at fault.
const BROKEN: &[u8] = b"broken";
/// The block past the two.
const TWO_END: usize = 1 + MIB / BLOCK + 1;
/// The most slots between the two ends of an index.
const MOST_SLOTS: usize = 4094;

/// An entry to be laid down; a directory has no blocks.
#[derive(Clone)]
struct Entry {
    kind: u8,
    path: Vec<u8>,
    start: usize,
    bytes: usize,
}

/// How a volume looks; `entries` are the most that an index of one-slot names has.
pub struct Kind {
    pub name: &'static str,
    pub edition: Edition,
    entries: fn(usize) -> Vec<Entry>,
    slots: usize,
}

/// A volume of edition 1.10 looks like the one of 1.0 whose name it begins with.
pub const KINDS: [Kind; 11] = [
    Kind { name: "in order", edition: Edition::V1_0, entries: in_order, slots: 1 },
    Kind { name: "shuffled", edition: Edition::V1_0, entries: shuffled, slots: 1 },
    Kind { name: "long names, shuffled", edition: Edition::V1_0, entries: long_shuffled, slots: 2 },
    Kind { name: "25 deep, the chain last", edition: Edition::V1_0, entries: deep, slots: 1 },
    Kind { name: "every second block", edition: Edition::V1_0, entries: every_second, slots: 1 },
    Kind { name: "25 deep, shuffled", edition: Edition::V1_0, entries: deep_shuffled, slots: 1 },
    Kind { name: "worst", edition: Edition::V1_0, entries: worst, slots: 1 },
    Kind { name: "in order, 1.10", edition: Edition::V1_10, entries: in_order, slots: 1 },
    Kind { name: "shuffled, 1.10", edition: Edition::V1_10, entries: shuffled, slots: 1 },
    Kind { name: "worst, 1.10", edition: Edition::V1_10, entries: worst_newer, slots: 1 },
    Kind { name: "left over, 1.10", edition: Edition::V1_10, entries: left_over, slots: 1 },
];

/// A volume and a path of its last slot.
pub struct Volume {
    pub image: Vec<u8>,
    pub last: Vec<u8>,
    pub index: usize,
}

impl Kind {
    /// As many entries as were asked for, if there is room for them.
    pub fn most(&self, entries: usize) -> usize {
        entries.min(MOST_SLOTS / self.slots)
    }

    /// In slot order.
    pub fn volume(&self, entries: usize) -> Result<Volume, String> {
        let entries = (self.entries)(entries);
        let timed = |entry: &&Entry| entry.kind == FILE && entry.path != BIG || entry.kind == DIRECTORY && !is_above(entry, &entries);
        let last = entries.iter().rfind(timed);
        let last = last.map(|entry| entry.path.clone()).ok_or("a volume without entries")?;
        let (image, index) = laid(&entries, self.edition)?;
        Ok(Volume { image, last, index })
    }
}

fn is_above(directory: &Entry, entries: &[Entry]) -> bool {
    let prefix = [directory.path.as_slice(), b"/"].concat();
    entries.iter().any(|entry| entry.path.starts_with(&prefix))
}

/// The two, and behind them files of a byte, each `step` blocks behind the one before it.
fn files(names: impl Iterator<Item = Vec<u8>>, step: usize) -> Vec<Entry> {
    let mut entries = two();
    entries.extend(names.enumerate().map(|(place, path)| Entry { kind: FILE, path, start: TWO_END + step * place, bytes: 1 }));
    entries
}

fn two() -> Vec<Entry> {
    vec![
        Entry { kind: FILE, path: BIG.to_vec(), start: 1, bytes: MIB },
        Entry { kind: DELETED_FILE, path: GONE.to_vec(), start: TWO_END - 1, bytes: 1 },
    ]
}

fn numbered(entries: usize) -> impl Iterator<Item = Vec<u8>> {
    (0..entries - 2).map(|place| format!("session-{place:05}").into_bytes())
}

/// Where a create on the volume in order puts a file's bytes.
pub fn new_at(entries: usize) -> usize {
    (TWO_END + entries - 2) * BLOCK
}

/// A create puts its run before the others, and its blocks behind theirs.
fn in_order(entries: usize) -> Vec<Entry> {
    let mut entries = files(numbered(entries), 1);
    entries.reverse();
    entries
}

fn shuffled(entries: usize) -> Vec<Entry> {
    shuffle(files(numbered(entries), 1))
}

fn long_shuffled(entries: usize) -> Vec<Entry> {
    shuffle(files((0..entries - 2).map(|place| format!("{ALIKE}{place:05}").into_bytes()), 1))
}

fn every_second(entries: usize) -> Vec<Entry> {
    let mut entries = files(numbered(entries), 2);
    entries.reverse();
    entries
}

fn deep(entries: usize) -> Vec<Entry> {
    let directory = |path: String| Entry { kind: DIRECTORY, path: path.into_bytes(), start: 0, bytes: 0 };
    let mut all = two();
    all.extend((1..=CHAIN).map(|parts| directory(["d"; CHAIN][..parts].join("/"))));
    let above = ["d"; CHAIN].join("/");
    all.extend((0..entries - 2 - CHAIN).map(|place| directory(format!("{above}/{place:04x}"))));
    all.reverse();
    all
}

fn deep_shuffled(entries: usize) -> Vec<Entry> {
    shuffle(deep(entries))
}

/// As many directories as each has entries, all names alike but for a few bytes far behind, shuffled. A path parts from any other at its directory's
/// number, so that numbers do not tell the entries of one directory apart.
fn worst(entries: usize) -> Vec<Entry> {
    rooms("the shelves of the long reading room", entries)
}

/// A slot holds a name of a byte less.
fn worst_newer(entries: usize) -> Vec<Entry> {
    rooms("the shelves of the old reading room", entries)
}

/// Behind every file a deleted head that claims 256 slots and whose sum is wrong: only its own slot is unused, so that a sum is asked for at each.
fn left_over(entries: usize) -> Vec<Entry> {
    let broken = Entry { kind: DELETED_DIRECTORY, path: BROKEN.to_vec(), start: 0, bytes: 0 };
    let files = in_order(entries / 2 + entries % 2);
    files.into_iter().flat_map(|file| [file, broken.clone()]).take(entries).collect()
}

fn rooms(alike: &str, entries: usize) -> Vec<Entry> {
    let directory = |path: String| Entry { kind: DIRECTORY, path: path.into_bytes(), start: 0, bytes: 0 };
    let many = (entries - 2).isqrt();
    let room = |place: usize| format!("{alike} {place:05}");
    let mut all = two();
    all.extend((0..many).map(|place| directory(room(place * 1000 % 99_991))));
    all.extend((0..entries - 2 - many).map(|place| directory(format!("{}/book {:05}", room(place % many * 1000 % 99_991), place / many))));
    shuffle(all)
}

/// Slots and regions, each in an order of its own.
fn shuffle(mut entries: Vec<Entry>) -> Vec<Entry> {
    let mut random = Xorshift::new(7);
    let mut small: Vec<usize> = entries.iter().filter(|entry| entry.bytes == 1 && entry.kind == FILE).map(|entry| entry.start).collect();
    permute(&mut small, &mut random);
    for entry in entries.iter_mut().filter(|entry| entry.bytes == 1 && entry.kind == FILE) {
        entry.start = small.pop().unwrap_or(entry.start);
    }
    permute(&mut entries, &mut random);
    entries
}

pub fn permute<T>(list: &mut [T], random: &mut Xorshift) {
    for place in (1..list.len()).rev() {
        list.swap(place, random.below(place as u64 + 1) as usize);
    }
}

/// Blocks from the first up to, not including, the second.
pub type Extent = (usize, usize);

/// A volume of edition 1.0 whose index has an entry for each region, in this order: live files, deleted files and unusable entries by turns; before them, if
/// it is wanted, a directory of the longest name that there is.
pub fn of_regions(extents: &[Extent], behind: bool) -> Result<Vec<u8>, String> {
    let mut entries = Vec::new();
    if behind {
        entries.push(Entry { kind: DIRECTORY, path: vec![b'd'; 256 * SLOT - DIRECTORY_NAME_AT - 1], start: 0, bytes: 0 });
    }
    entries.extend(extents.iter().enumerate().map(|(place, &(start, end))| {
        let kind = [FILE, DELETED_FILE, UNUSABLE][place % 3];
        let path = if kind == UNUSABLE { Vec::new() } else { format!("{place:05}").into_bytes() };
        Entry { kind, path, start, bytes: (end - start) * BLOCK }
    }));
    Ok(laid(&entries, Edition::V1_0)?.0)
}

/// The image whose index has these entries in their slots, one behind the other, and its index in bytes.
fn laid(entries: &[Entry], edition: Edition) -> Result<(Vec<u8>, usize), String> {
    let mut image = vec![0; BYTES];
    if second::format(&mut image, edition.version().into(), BLOCK as u64, 1, b"BENCH", 0).refusal != 0 {
        return Err("format was refused".to_string());
    }
    let runs: Vec<Vec<u8>> = entries.iter().map(|entry| run(entry, edition)).collect();
    let index = 2 * SLOT + runs.iter().map(Vec::len).sum::<usize>();
    let end = entries.iter().map(|entry| entry.start + entry.bytes.div_ceil(BLOCK)).max().unwrap_or(1);
    let (data, index_size) = (edition.super_field(DATA), edition.super_field(INDEX));
    image[data..data + 8].copy_from_slice(&(end as u64 - 1).to_le_bytes());
    image[index_size..index_size + 8].copy_from_slice(&(index as u64).to_le_bytes());
    image[BYTES - 2 * SLOT..BYTES - SLOT].fill(0);
    image[BYTES - index..][..SLOT].copy_from_slice(&edition.bare_slot(MARKER));
    let mut at = BYTES - index + SLOT;
    for run in runs {
        image[at..at + run.len()].copy_from_slice(&run);
        at += run.len();
    }
    Ok((image, index))
}

/// The slots of an entry.
fn run(entry: &Entry, edition: Edition) -> Vec<u8> {
    let at = |place| edition.entry_field(place);
    let name = at(if entry.kind == DIRECTORY { DIRECTORY_NAME_AT } else { FILE_NAME_AT });
    let slots = (name + entry.path.len() + 1).div_ceil(SLOT);
    let mut run = vec![0; slots * SLOT];
    run[0] = entry.kind;
    run[at(COUNT_AT)] = slots as u8 - 1;
    if entry.kind != DIRECTORY {
        let end = edition.stored_end((entry.start + entry.bytes.div_ceil(BLOCK)) as u64);
        for (place, number) in [(START_AT, entry.start as u64), (END_AT, end), (LENGTH_AT, entry.bytes as u64)] {
            run[at(place)..at(place) + 8].copy_from_slice(&number.to_le_bytes());
        }
    }
    run[name..name + entry.path.len()].copy_from_slice(&entry.path);
    edition.seal(&mut run);
    if entry.path == BROKEN {
        break_head(&mut run, edition);
    }
    run
}

/// A head that claims as many slots as it can. Its slot sums to 1, so that no 256 slots of which half are such heads sum to 0.
fn break_head(head: &mut [u8], edition: Edition) {
    head[edition.entry_field(COUNT_AT)] = 255;
    edition.seal(head);
    head[SUM_AT] = head[SUM_AT].wrapping_add(1);
}
