//! Volumes with many entries, up to an index without a free slot, in orders that make sorting and searching hard. Every
//! second one has a fault, between entries that lie near each other in the index or far apart.

use super::built::{capacity, slots_for, Builder};
use super::{least_reserved, text, volume_name, Known, Writer};
use crate::bytes::put;
use crate::edition::Edition;
use crate::index::{DELETED_DIRECTORY, DELETED_FILE, DIRECTORY, FILE, UNUSABLE, UNUSED};
use crate::names;
use crate::superblock::{Geometry, MOST_INDEX, SLOT};
use crate::volume::Volume;
use crate::xorshift::Xorshift;
use std::collections::BTreeSet;

/// The slots between the marker and the identifier of the largest index.
pub const MOST_SLOTS: u64 = MOST_INDEX / SLOT - 2;
/// From so many slots on a volume is large: its blocks are small and its calls few, as each costs time.
const LARGE: u64 = 400;
/// From so many on the blocks are not the largest, so that the image stays small.
const MIDDLE: u64 = 60;
/// Regions and index together stay below so many bytes, which leaves room for the rest in 2 MiB.
const MOST_HELD: u64 = (2 << 20) - 65_536;
/// What the listing program takes at most.
const LISTED: u64 = 65_536;
const MOST_DEPTH: u64 = 25;
const SOME_NEWER: u64 = 3;
/// Bytes below and above the slash, and letters.
const BESIDE: &[u8] = b" !#$%&'()+,-.0019aabZ~";
const FORBIDDEN: &[u8] = b"\"*:<>?\\\x01\x1f\x7f\xa0\xff";

/// How the names of a volume look.
#[derive(Clone, Copy, Debug, Default, PartialEq, Eq)]
enum Look {
    /// Short and of one length.
    #[default]
    Plain,
    /// Directories that fill their slots, whose records are the longest.
    Full,
    /// Of several slots, with a long common beginning.
    Long,
    /// Below the last of a chain of directories.
    Deep,
    /// In several directories, with bytes around the slash.
    Beside,
}

/// An entry, or unused slots.
#[derive(Clone, Debug, Default)]
struct Item {
    kind: u8,
    slots: u64,
    path: Vec<u8>,
    start: u64,
    end: u64,
    length: u64,
    /// Its first slot, known when it is laid.
    slot: u64,
}

pub fn scene(w: &mut Writer) {
    let (mut crowd, good) = Crowd::new(&mut w.rng, w.edition);
    if w.rng.chance(50) {
        crowd.plant(&mut w.rng);
    }
    let Geometry { image, block, reserved, .. } = crowd.builder.geometry;
    let seed = w.rng.below(1_000_000);
    w.put(format!("imagefill {image} {seed}"));
    let name = volume_name(&mut w.rng);
    w.format(block, reserved, &name);
    lay(w, &crowd.builder.image, &crowd.builder.geometry);
    look_around(w, &crowd);
    if is_good(w) {
        return work(w, &crowd);
    }
    let path = crowd.some_path(&mut w.rng);
    w.any_call(&path);
    w.reclaim();
    if w.rng.chance(40) {
        lay(w, &good, &crowd.builder.geometry);
        work(w, &crowd);
    }
}

/// Such a volume that is no longer than a listing or a report takes; every second one has a fault.
pub fn some_image(w: &mut Writer) -> Vec<u8> {
    loop {
        let (mut crowd, _) = Crowd::new(&mut w.rng, w.edition);
        if crowd.builder.geometry.image > LISTED {
            continue;
        }
        if w.rng.chance(50) {
            crowd.plant(&mut w.rng);
        }
        return crowd.builder.image;
    }
}

/// Pokes the super-block and the index area; the blocks between keep what they have.
pub fn lay(w: &mut Writer, from: &[u8], geometry: &Geometry) {
    let mut wanted = w.image().to_vec();
    for part in [0x180..0x1C0, geometry.slot_offset(0)..from.len()] {
        put(&mut wanted, part.start, &from[part]);
    }
    w.poke_back(&wanted);
}

fn is_good(w: &Writer) -> bool {
    Volume::judge(w.image()).is_ok()
}

/// Few slots, some, many or all. The sizes around powers of two are the edges of sorting by halves.
fn some_slots(rng: &mut Xorshift) -> u64 {
    let near = (2 << rng.below(10)) + rng.below(3) - 1;
    match rng.below(20) {
        0 | 1 => MOST_SLOTS,
        2..=8 => 2 + rng.below(40),
        9..=12 => near.max(2),
        13..=17 => 40 + rng.below(360),
        _ => 400 + rng.below(2_000),
    }
}

/// The names of one volume, given out one after the other.
#[derive(Debug, Default)]
struct Names {
    look: Look,
    beginning: Vec<u8>,
    /// Directories to give out before all else, the first of them last.
    chain: Vec<Vec<u8>>,
    /// The live directories that others are put into.
    directories: Vec<Vec<u8>>,
    given: BTreeSet<Vec<u8>>,
    serial: u64,
}

impl Names {
    fn new(rng: &mut Xorshift, edition: Edition, slots: u64) -> Self {
        let looks = [Look::Plain, Look::Plain, Look::Full, Look::Long, Look::Deep, Look::Beside, Look::Beside];
        let look = rng.pick(&looks);
        let mut names = Names { look, beginning: b"n".to_vec(), ..Names::default() };
        match look {
            Look::Plain => {}
            // The number and the zero take the rest.
            Look::Full => names.beginning = vec![b'n'; capacity(edition, DIRECTORY, 1) - 6],
            Look::Long => names.begin_long(rng),
            Look::Deep => names.chain = chain(rng, slots),
            Look::Beside => names.chain = vec![b"a".to_vec()],
        }
        names
    }

    /// A common beginning that makes names of two or three slots, at times in a directory.
    fn begin_long(&mut self, rng: &mut Xorshift) {
        let length = rng.pick(&[25, 40, 50, 87, 88, 89, 120, 150]);
        self.beginning = if rng.chance(50) { text::of_length(rng, length) } else { vec![b'n'; length] };
        if rng.chance(30) {
            self.chain.push(b"d".to_vec());
            self.beginning = below(b"d", &self.beginning);
        }
    }

    /// The kind and path of one more live entry.
    fn next(&mut self, rng: &mut Xorshift) -> (u8, Vec<u8>) {
        self.serial += 1;
        let chained = self.chain.pop();
        let holds = chained.is_some() || self.look == Look::Beside;
        let directory = chained.is_some() || self.look == Look::Full;
        let kind = if directory { DIRECTORY } else { rng.pick(&[FILE, FILE, FILE, DIRECTORY]) };
        let path = chained.unwrap_or_else(|| self.path(rng));
        if holds && kind == DIRECTORY {
            self.directories.push(path.clone());
        }
        self.given.insert(path.clone());
        (kind, path)
    }

    fn path(&self, rng: &mut Xorshift) -> Vec<u8> {
        let number = format!("{:05}", self.serial).into_bytes();
        match self.look {
            Look::Plain | Look::Full => [self.beginning.as_slice(), &number].concat(),
            Look::Long => [self.beginning.as_slice(), &number, rng.pick(&[b"".as_slice(), b"", b"n"])].concat(),
            Look::Deep => below(&self.deep_directory(rng), format!("{:x}", self.serial).as_bytes()),
            Look::Beside => self.beside(rng),
        }
    }

    /// Most often the last of the chain.
    fn deep_directory(&self, rng: &mut Xorshift) -> Vec<u8> {
        match self.directories.last() {
            Some(last) if rng.chance(85) => last.clone(),
            _ => rng.pick(&self.directories),
        }
    }

    /// A name not given yet; the more tries it takes, the longer it may be.
    fn beside(&self, rng: &mut Xorshift) -> Vec<u8> {
        let directory = if rng.chance(60) { rng.pick(&self.directories) } else { Vec::new() };
        // Deeper ones would not fit into one slot.
        let directory = if directory.len() < 12 { directory } else { Vec::new() };
        let mut most = 2;
        loop {
            let mut name = vec![rng.pick(b"aaab")];
            name.extend((0..rng.below(most)).map(|_| rng.pick(BESIDE)));
            let path = below(&directory, &name);
            if !self.given.contains(&path) {
                return path;
            }
            most += 1;
        }
    }
}

/// A path in a directory, or in none.
fn below(directory: &[u8], name: &[u8]) -> Vec<u8> {
    if directory.is_empty() {
        return name.to_vec();
    }
    [directory, b"/", name].concat()
}

/// Directories one below the other, the deepest first.
fn chain(rng: &mut Xorshift, slots: u64) -> Vec<Vec<u8>> {
    let most = MOST_DEPTH.min(slots / 2 + 1);
    let any = 1 + rng.below(most);
    let depth = rng.pick(&[most, most, most.min(12), any]);
    // Long parts take several slots for each directory.
    let widest = rng.pick(&[1, 1, 2, if slots > LARGE { 11 } else { 1 }]);
    let mut chain = vec![Vec::new()];
    for _ in 0..depth {
        let part = vec![rng.pick(b"ppq"); 1 + rng.below(widest) as usize];
        chain.push(below(&chain[chain.len() - 1], &part));
    }
    chain.remove(0);
    chain.reverse();
    chain
}

/// How often, in a hundred, a slot goes to something else than a live entry.
#[derive(Default)]
struct Shares {
    unused: u64,
    unusable: u64,
    deleted: u64,
}

impl Shares {
    /// At times none in the largest index, so that it has as many live entries as there can be.
    fn new(rng: &mut Xorshift, slots: u64) -> Self {
        if slots == MOST_SLOTS && rng.chance(60) {
            return Shares::default();
        }
        Shares {
            unused: rng.pick(&[0, 0, 0, 1, 10, 40]),
            unusable: rng.pick(&[0, 1, 1, 6]),
            deleted: rng.pick(&[0, 3, 3, 15, 30]),
        }
    }
}

/// The items of a volume in the order they come to mind: directories before what is in them.
struct Mix {
    edition: Edition,
    items: Vec<Item>,
    /// The slots they take, and those there are.
    used: u64,
    slots: u64,
    deleted: Vec<Vec<u8>>,
    /// How many items there were when the chain of directories was at its end.
    chained: usize,
}

impl Mix {
    fn new(rng: &mut Xorshift, edition: Edition, slots: u64, names: &mut Names) -> Self {
        let shares = Shares::new(rng, slots);
        let mut mix = Mix { edition, items: Vec::new(), used: 0, slots, deleted: Vec::new(), chained: 0 };
        while mix.used < slots {
            mix.add(rng, names, &shares);
            if mix.chained == 0 && names.chain.is_empty() {
                mix.chained = mix.items.len();
            }
        }
        mix
    }

    fn add(&mut self, rng: &mut Xorshift, names: &mut Names, shares: &Shares) {
        let roll = rng.below(100);
        let Shares { unused, unusable, deleted } = *shares;
        if roll < unused {
            self.push(UNUSED, Vec::new());
        } else if roll < unused + unusable {
            self.push(UNUSABLE, Vec::new());
        } else if roll < unused + unusable + deleted {
            let path = self.deleted_path(rng, names);
            self.push(rng.pick(&[DELETED_FILE, DELETED_FILE, DELETED_DIRECTORY]), path.clone());
            self.deleted.push(path);
        } else {
            let (kind, path) = names.next(rng);
            self.push(kind, path);
        }
    }

    /// The path of a live entry, of another deleted one, or its own, also where no directory is.
    fn deleted_path(&self, rng: &mut Xorshift, names: &Names) -> Vec<u8> {
        let own = format!("x{}", self.used).into_bytes();
        match rng.below(8) {
            0..=2 if !self.items.is_empty() => Some(rng.pick(&self.items).path).filter(|path| !path.is_empty()),
            3 | 4 if !self.deleted.is_empty() => Some(rng.pick(&self.deleted)),
            5 => Some(below(&rng.pick(&names.directories), &own)),
            6 => Some(below(b"gone", &own)),
            _ => None,
        }
        .unwrap_or(own)
    }

    /// What does not fit any more leaves the slots that are left unused.
    fn push(&mut self, kind: u8, path: Vec<u8>) {
        let named = !matches!(kind, UNUSED | UNUSABLE);
        let slots = if named { slots_for(self.edition, kind, path.len() + 1) } else { 1 };
        let left = self.slots - self.used;
        let item = if slots > left {
            Item { kind: UNUSED, slots: left, ..Item::default() }
        } else {
            Item { kind, slots, path, ..Item::default() }
        };
        self.used += item.slots;
        self.items.push(item);
    }

    /// As they came, the other way round, the first ones last, or shuffled.
    fn arrange(mut self, rng: &mut Xorshift, look: Look) -> Vec<Item> {
        let way = match look {
            Look::Plain | Look::Full => rng.pick(&[0, 1, 3, 3]),
            Look::Deep => rng.pick(&[0, 2, 3]),
            Look::Long | Look::Beside => 3,
        };
        match way {
            0 => {}
            1 => self.items.reverse(),
            2 => self.items.rotate_left(self.chained),
            _ => shuffle(rng, &mut self.items),
        }
        self.items
    }
}

pub fn shuffle<T>(rng: &mut Xorshift, items: &mut [T]) {
    for place in (1..items.len()).rev() {
        items.swap(place, rng.below(place as u64 + 1) as usize);
    }
}

fn is_file(kind: u8) -> bool {
    matches!(kind, FILE | DELETED_FILE)
}

/// Gives blocks from `from` up to `limit` to most of the files and to all unusable entries, and the end of the last.
/// An unusable entry without blocks becomes an unused slot.
fn give_blocks(rng: &mut Xorshift, items: &mut [Item], from: u64, limit: u64, block: u64) -> u64 {
    let mut order: Vec<usize> = (0..items.len()).filter(|place| wants_blocks(rng, items[*place].kind)).collect();
    match rng.below(4) {
        0 => order.reverse(),
        1 => {}
        _ => shuffle(rng, &mut order),
    }
    let style = rng.below(4);
    let mut end = from;
    for place in order {
        let (gap, length) = gap_and_length(rng, style);
        let item = &mut items[place];
        if end + gap + length <= limit {
            let room = length * block;
            (item.start, item.end) = (end + gap, end + gap + length);
            item.length = rng.pick(&[room, room - 1, room / 2, 1, 0]);
            end = item.end;
        }
    }
    for item in items.iter_mut().filter(|item| item.kind == UNUSABLE && item.end == 0) {
        item.kind = UNUSED;
    }
    end
}

fn wants_blocks(rng: &mut Xorshift, kind: u8) -> bool {
    kind == UNUSABLE || (is_file(kind) && rng.chance(90))
}

/// The blocks left free before a region, and its own: touching, every second block held, or at random.
fn gap_and_length(rng: &mut Xorshift, style: u64) -> (u64, u64) {
    match style {
        0 => (0, rng.pick(&[1, 1, 1, 2, 3])),
        1 => (1, 1),
        _ => (rng.pick(&[0, 0, 0, 1, 1, 2, 3, 6]), rng.pick(&[1, 1, 1, 1, 2, 3, 5])),
    }
}

/// Small blocks where there are many entries.
fn some_block(rng: &mut Xorshift, slots: u64) -> u64 {
    match slots {
        LARGE.. => rng.pick(&[256, 256, 256, 512]),
        MIDDLE.. => 256 << rng.below(3),
        _ => 256 << rng.below(5),
    }
}

/// A volume with its items in slot order.
struct Crowd {
    builder: Builder,
    items: Vec<Item>,
}

impl Crowd {
    /// A good volume, and its image.
    fn new(rng: &mut Xorshift, edition: Edition) -> (Self, Vec<u8>) {
        let slots = some_slots(rng);
        let mut names = Names::new(rng, edition, slots);
        let mut items = Mix::new(rng, edition, slots, &mut names).arrange(rng, names.look);
        let block = some_block(rng, slots);
        let reserved = least_reserved(block) + rng.below(3);
        let index = SLOT * (slots + 2);
        let end = give_blocks(rng, &mut items, reserved, reserved + (MOST_HELD - index) / block, block);
        let tail = rng.pick(&[0, 1, 2, 5, 30]);
        // The format that comes first wants two blocks behind the reserved ones.
        let tight = (end + tail + index.div_ceil(block)).max(reserved + 2);
        let total = if rng.chance(40) { tight.max(LISTED / block) } else { tight };
        let data = end - reserved + if rng.chance(30) { rng.below(tail + 1) } else { 0 };
        let geometry = Geometry { edition, image: total * block, block, total, reserved, data, index };
        let builder = Builder::with(geometry, SOME_NEWER, rng);
        let mut crowd = Crowd { builder, items };
        crowd.lay_all(rng);
        let image = crowd.builder.image.clone();
        (crowd, image)
    }

    fn lay_all(&mut self, rng: &mut Xorshift) {
        for place in 0..self.items.len() {
            self.items[place].slot = self.builder.slot;
            self.lay(rng, place);
        }
    }

    /// Writes an item where it belongs.
    fn lay(&mut self, rng: &mut Xorshift, place: usize) {
        let Item { kind, slots, ref path, start, end, length, slot } = self.items[place];
        self.builder.slot = slot;
        if kind == UNUSED {
            (0..slots).for_each(|_| self.builder.unused(rng));
        } else {
            self.builder.run(kind, slots, &[path.as_slice(), b"\0"].concat(), (start, end, length));
        }
    }

    fn places(&self, wanted: impl Fn(&Item) -> bool) -> Vec<usize> {
        (0..self.items.len()).filter(|place| wanted(&self.items[*place])).collect()
    }

    fn live(&self) -> Vec<usize> {
        self.places(|item| matches!(item.kind, FILE | DIRECTORY))
    }

    /// The path of some live entry, if there is one.
    fn some_path(&self, rng: &mut Xorshift) -> Vec<u8> {
        let live = self.live();
        if live.is_empty() {
            return b"none".to_vec();
        }
        self.items[rng.pick(&live)].path.clone()
    }

    /// Changes one entry, now and then a second one by a fault of another number.
    fn plant(&mut self, rng: &mut Xorshift) {
        let first = rng.below(9);
        self.fault(rng, first);
        if rng.chance(20) {
            self.fault(rng, first + 4);
        }
    }

    fn fault(&mut self, rng: &mut Xorshift, which: u64) {
        let changed = match which % 9 {
            0 | 1 => self.share(rng),
            2 => self.meet(rng),
            3 => self.pass_the_end(rng),
            4 => self.forbid(rng),
            5 | 6 => self.repeat(rng),
            7 => self.lose_directory(rng),
            _ => self.move_out(rng),
        };
        if let Some(place) = changed {
            self.lay(rng, place);
        }
    }

    /// Gives an entry other blocks, and a length that they hold.
    fn hold(&mut self, place: usize, start: u64, end: u64) -> Option<usize> {
        let room = end.saturating_sub(start) * self.builder.geometry.block;
        let item = &mut self.items[place];
        (item.start, item.end, item.length) = (start, end, item.length.min(room));
        Some(place)
    }

    /// Whether an item is judged at all: deleted ones are not where they are unused slots.
    fn judged(&self, item: &Item) -> bool {
        self.builder.geometry.edition.keeps_deleted() || !matches!(item.kind, DELETED_FILE | DELETED_DIRECTORY)
    }

    /// Entries with blocks, in the order of their slots or of their blocks.
    fn holders(&self, by_block: bool) -> Vec<usize> {
        let mut holders = self.places(|item| item.end > 0 && self.judged(item));
        if by_block {
            holders.sort_by_key(|place| self.items[*place].start);
        }
        holders
    }

    /// Refusal 7: two regions share one block, one lies in the other, or they are equal.
    fn share(&mut self, rng: &mut Xorshift) -> Option<usize> {
        let by_block = rng.chance(50);
        let (one, other) = pair(rng, &self.holders(by_block))?;
        let (a, b) = (&self.items[one], &self.items[other]);
        let (length, area) = (b.end - b.start, self.builder.geometry.data_end());
        let (start, end) = match rng.below(5) {
            0 => (a.start, a.end),
            // Its first block is the other's last, or its last the other's first.
            1 => (a.end - 1, (a.end - 1 + length).min(area)),
            2 => ((a.start + 1).saturating_sub(length).max(self.builder.geometry.reserved), a.start + 1),
            3 => {
                let start = a.start + rng.below(a.end - a.start);
                (start, start + 1)
            }
            _ => (a.start.min(b.start), a.end.max(b.end)),
        };
        self.hold(other, start, end)
    }

    /// A region goes on to the next one: no fault. One block further it is refusal 7.
    fn meet(&mut self, rng: &mut Xorshift) -> Option<usize> {
        let holders = self.holders(true);
        let place = rng.below(holders.len().saturating_sub(1) as u64) as usize;
        let (lower, upper) = (*holders.get(place)?, *holders.get(place + 1)?);
        let (start, end) = (self.items[lower].start, self.items[upper].start);
        self.hold(lower, start, end + rng.below(2))
    }

    /// The last region reaches to the end of the data area or, refusal 7, one block further. Or the first one begins
    /// one block too low.
    fn pass_the_end(&mut self, rng: &mut Xorshift) -> Option<usize> {
        let Geometry { reserved, .. } = self.builder.geometry;
        let holders = self.holders(true);
        let (first, last) = (*holders.first()?, *holders.last()?);
        match rng.below(5) {
            0 => self.hold(first, reserved - 1, self.items[first].end),
            1 => self.hold(last, self.items[last].start, self.builder.geometry.data_end()),
            _ => self.hold(last, self.items[last].start, self.builder.geometry.data_end() + 1),
        }
    }

    /// Refusal 6: a byte that no name may have, in the last name.
    fn forbid(&mut self, rng: &mut Xorshift) -> Option<usize> {
        let place = *self.places(|item| !item.path.is_empty() && self.judged(item)).last()?;
        let path = &mut self.items[place].path;
        let end = path.len() - 1;
        let any = rng.below(end as u64 + 1) as usize;
        let at = rng.pick(&[0, end, end, any]);
        path[at] = rng.pick(FORBIDDEN);
        Some(place)
    }

    /// Refusal 8: a live file gets the path of another live entry.
    fn repeat(&mut self, rng: &mut Xorshift) -> Option<usize> {
        let live = self.live();
        for _ in 0..20 {
            let (one, other) = pair(rng, &live)?;
            let path = self.items[one].path.clone();
            if self.items[other].kind == FILE && self.rename(other, path) {
                return Some(other);
            }
        }
        None
    }

    /// Gives an entry another path if its run has the room.
    fn rename(&mut self, place: usize, path: Vec<u8>) -> bool {
        let edition = self.builder.geometry.edition;
        let item = &mut self.items[place];
        let fits = slots_for(edition, item.kind, path.len() + 1) <= item.slots;
        if fits {
            item.path = path;
        }
        fits
    }

    /// Refusal 8: a directory with entries in it, or below those, is deleted, a file, another one, or gone.
    fn lose_directory(&mut self, rng: &mut Xorshift) -> Option<usize> {
        let live = self.live();
        let parents: BTreeSet<&[u8]> =
            live.iter().filter_map(|place| names::parent(&self.items[*place].path)).collect();
        let needed = self.places(|item| item.kind == DIRECTORY && parents.contains(item.path.as_slice()));
        if needed.is_empty() {
            return self.move_out(rng);
        }
        let place = rng.pick(&needed);
        let edition = self.builder.geometry.edition;
        let item = &mut self.items[place];
        match rng.below(4) {
            0 => item.kind = DELETED_DIRECTORY,
            1 if slots_for(edition, FILE, item.path.len() + 1) <= item.slots => item.kind = FILE,
            2 => item.path.iter_mut().last().into_iter().for_each(|byte| *byte = b'Q'),
            _ => item.kind = UNUSED,
        }
        Some(place)
    }

    /// Refusal 8: a live entry gets a path below what is no live directory: a file, a deleted entry, or nothing.
    fn move_out(&mut self, rng: &mut Xorshift) -> Option<usize> {
        let files = self.places(|item| item.kind == FILE);
        let others = match rng.below(3) {
            0 => files.clone(),
            1 => self.places(|item| item.kind == DELETED_DIRECTORY),
            _ => Vec::new(),
        };
        for _ in 0..20 {
            let place = rng.pick(&files);
            let missing = if others.is_empty() { b"none".to_vec() } else { self.items[rng.pick(&others)].path.clone() };
            let further = if rng.chance(30) { below(&missing, b"b") } else { missing };
            if files.contains(&place) && self.rename(place, below(&further, b"a")) {
                return Some(place);
            }
        }
        None
    }
}

/// Two of the places: side by side, the outermost, or any.
fn pair(rng: &mut Xorshift, places: &[usize]) -> Option<(usize, usize)> {
    let last = places.len().checked_sub(1).filter(|last| *last > 0)?;
    let first = rng.below(last as u64) as usize;
    let (one, other) = match rng.below(4) {
        0 | 1 => (first, first + 1),
        2 => (0, last),
        _ => (first, first + 1 + rng.below((last - first) as u64) as usize),
    };
    let (one, other) = (places[one], places[other]);
    Some(if rng.chance(50) { (one, other) } else { (other, one) })
}

/// Looks for entries at the ends and in the middle, and for what is not there.
fn look_around(w: &mut Writer, crowd: &Crowd) {
    w.open();
    let live = crowd.live();
    let path = |place: Option<&usize>| place.map_or(b"none".to_vec(), |place| crowd.items[*place].path.clone());
    let directories = crowd.places(|item| item.kind == DIRECTORY);
    let files = crowd.places(|item| item.kind == FILE);
    let directory = crowd.items.get(w.rng.pick(&directories)).map_or(Vec::new(), |item| item.path.clone());
    let middle = path(live.get(live.len() / 2));
    for known in [path(live.first()), path(live.last()), middle.clone(), directory] {
        w.find(&known);
    }
    w.find(&below(&path(files.last()), b"a"));
    let absent = nearly(&mut w.rng, &middle);
    w.find(&absent);
    for known in [path(files.first()), path(files.last()), crowd.some_path(&mut w.rng)] {
        w.read(&known);
    }
    list_some(w, crowd);
}

/// A path that is probably not there, though it is like one that is.
fn nearly(rng: &mut Xorshift, path: &[u8]) -> Vec<u8> {
    let mut other = path.to_vec();
    match rng.below(3) {
        0 => other.push(rng.pick(BESIDE)),
        1 if path.len() > 1 => other.truncate(path.len() - 1),
        _ => other.extend_from_slice(b"/a"),
    }
    other
}

fn list_some(w: &mut Writer, crowd: &Crowd) {
    let slots = crowd.builder.geometry.slots();
    let any = w.rng.below(slots);
    for slot in [0, any, any + 1, slots - 2, slots, u64::MAX] {
        let room = w.rng.pick(&[285, 285, 285, 6]);
        w.put(format!("list {slot} {room}"));
    }
    w.list_all();
    w.list_all();
    if w.length() <= LISTED {
        w.listing();
    }
}

/// Makes, deletes and brings back, then fills the widest gap and looks again.
fn work(w: &mut Writer, crowd: &Crowd) {
    let large = crowd.builder.geometry.slots() > LARGE;
    let steps = if large { 5 + w.rng.below(6) } else { 10 + w.rng.below(15) };
    for _ in 0..steps {
        step(w, crowd);
    }
    if w.rng.chance(70) {
        w.reclaim();
    }
    fill_widest(w, crowd);
    w.open();
    let path = crowd.some_path(&mut w.rng);
    w.find(&path);
    list_some(w, crowd);
}

fn step(w: &mut Writer, crowd: &Crowd) -> u8 {
    match w.rng.below(16) {
        0 => create(w, crowd, 0),
        1 | 2 => create(w, crowd, 1),
        3 | 4 => {
            let gaps = gaps(w);
            let blocks = w.rng.pick(&gaps) + w.rng.below(2);
            create(w, crowd, blocks)
        }
        5 => fill_widest(w, crowd),
        6 | 7 => {
            let path = new_path(w, crowd);
            w.mkdir(&path)
        }
        8..=10 => delete_one(w, crowd, false),
        11 | 12 => delete_one(w, crowd, true),
        13 | 14 => restore_one(w, crowd),
        _ => w.reclaim(),
    }
}

/// Deletes a file or a directory, and at times undoes it to the byte if it was kept.
fn delete_one(w: &mut Writer, crowd: &Crowd, directory: bool) -> u8 {
    let choices: Vec<Known> = w.live().into_iter().filter(|known| known.directory == directory).collect();
    if choices.is_empty() {
        let path = crowd.some_path(&mut w.rng);
        return w.delete_either(&path, 50);
    }
    let Known { path, stamp, .. } = w.rng.pick(&choices);
    let refused = w.delete_either(&path, 75);
    if refused == 0 && w.rng.chance(30) {
        return w.restore_at(&path, stamp);
    }
    refused
}

/// Restores a deleted entry, or tries what the volume began with.
fn restore_one(w: &mut Writer, crowd: &Crowd) -> u8 {
    let deleted = w.deleted();
    let other = deleted.is_empty() || w.rng.chance(10);
    let path = if other { crowd.some_path(&mut w.rng) } else { w.rng.pick(&deleted).path };
    w.restore(&path)
}

/// One block more than the widest gap has, then as many as it has.
fn fill_widest(w: &mut Writer, crowd: &Crowd) -> u8 {
    let widest = gaps(w).into_iter().max().unwrap_or(0);
    create(w, crowd, widest + 1);
    create(w, crowd, widest)
}

/// The lengths of the free runs of blocks, those of none left out.
fn gaps(w: &Writer) -> Vec<u64> {
    let Ok(volume) = Volume::judge(w.image()) else { return Vec::new() };
    let Geometry { reserved, .. } = volume.super_block.geometry;
    let ceiling = volume.super_block.geometry.ceiling().unwrap_or(reserved);
    let starts = volume.regions.iter().map(|region| region.start).chain([ceiling]);
    let ends = [reserved].into_iter().chain(volume.regions.iter().map(|region| region.end));
    starts.zip(ends).map(|(start, end)| start.saturating_sub(end)).filter(|gap| *gap > 0).collect()
}

/// A file that needs so many blocks.
fn create(w: &mut Writer, crowd: &Crowd, blocks: u64) -> u8 {
    let path = new_path(w, crowd);
    let bytes = (blocks * crowd.builder.geometry.block).saturating_sub(w.rng.below(2));
    w.mkfile(&path, bytes)
}

/// A path next to one that the volume began with, or in a directory of it.
fn new_path(w: &mut Writer, crowd: &Crowd) -> Vec<u8> {
    let serial = w.serial().to_string();
    let directories = crowd.places(|item| item.kind == DIRECTORY);
    let directory = crowd.items.get(w.rng.pick(&directories)).map_or(Vec::new(), |item| item.path.clone());
    let mut path = match w.rng.below(8) {
        0..=2 => return below(&directory, serial.as_bytes()),
        3 => return below(&crowd.some_path(&mut w.rng), b"a"),
        4 | 5 => crowd.some_path(&mut w.rng),
        _ => return format!("w{serial}").into_bytes(),
    };
    path.push(w.rng.pick(BESIDE));
    path
}

#[cfg(test)]
mod tests {
    use super::*;
    use crate::refusal::Refusal;

    fn answer(image: &[u8]) -> Refusal {
        Volume::judge(image).err().unwrap_or(0)
    }

    #[test]
    fn without_a_fault_all_is_good() {
        for (seed, edition) in (1..=400).flat_map(|seed| Edition::ALL.map(|edition| (seed, edition))) {
            let (crowd, good) = Crowd::new(&mut Writer::new(seed).rng, edition);
            let volume = Volume::judge(&good);
            let entries = volume.map(|volume| volume.index.entries.iter().map(|entry| entry.slot).collect::<Vec<_>>());
            let judged = crowd.items.iter().filter(|item| item.kind != UNUSED && crowd.judged(item));
            assert_eq!(entries, Ok(judged.map(|item| item.slot).collect()), "seed {seed}");
        }
    }

    /// How often each refusal number came of so many faults of one sort.
    fn answers(which: u64, edition: Edition) -> [u64; 9] {
        let mut counts = [0; 9];
        for seed in 1..=300 {
            let mut rng = Writer::new(1_000 * which + seed).rng;
            let (mut crowd, _) = Crowd::new(&mut rng, edition);
            crowd.fault(&mut rng, which);
            counts[usize::from(answer(&crowd.builder.image))] += 1;
        }
        counts
    }

    /// The smallest volumes have no room for some faults; two of the sorts are at times none.
    #[test]
    fn faults_have_their_number() {
        for edition in Edition::ALL {
            for (which, number) in [(0, 7), (1, 7), (2, 7), (3, 7), (4, 6), (5, 8), (6, 8), (7, 8), (8, 8)] {
                let counts = answers(which, edition);
                println!("{edition:?} fault {which}: {counts:?}");
                assert_eq!(counts[0] + counts[number], 300, "fault {which}: {counts:?}");
                assert!(counts[number] > 120, "fault {which}: {counts:?}");
            }
            assert!([2, 3].iter().all(|which| answers(*which, edition)[0] > 30));
        }
    }
}
