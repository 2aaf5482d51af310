//! Volumes laid by hand for their regions: how these lie to each other, in what order their entries come, and what
//! stands between them. Two may share a block, but each is good by itself.

use super::built::{capacity, Builder};
use super::crowded::{shuffle, MOST_SLOTS};
use super::least_reserved;
use crate::bytes::put;
use crate::edition::Edition;
use crate::index::{DELETED_DIRECTORY, DELETED_FILE, DIRECTORY, FILE, SLOT_LENGTH, UNUSABLE, UNUSED};
use crate::index::{END_AT, START_AT};
use crate::superblock::{Geometry, SLOT};
use crate::xorshift::Xorshift;

/// From so many regions on a volume is large: its blocks are small and its regions short, which keeps the image small.
pub const LARGE: u64 = 150;
const SOME_NEWER: u64 = 3;

/// The first block of a region and the one past its last.
type Span = (u64, u64);

/// What holds the regions of a volume. Deleted files hold none in 1.10.
const KINDS: [&[u8]; 12] = [
    &[UNUSABLE],
    &[UNUSABLE],
    &[FILE],
    &[FILE],
    &[FILE, UNUSABLE],
    &[FILE, UNUSABLE],
    &[FILE, UNUSABLE],
    &[FILE, UNUSABLE, DELETED_FILE],
    &[FILE, UNUSABLE, DELETED_FILE],
    &[FILE, FILE, UNUSABLE, UNUSABLE, DELETED_FILE],
    &[FILE, DELETED_FILE],
    &[DELETED_FILE],
];
/// What has none.
const FILLERS: [u8; 8] = [FILE, FILE, DIRECTORY, DIRECTORY, DELETED_DIRECTORY, DELETED_FILE, UNUSED, UNUSED];
/// Types of unused slots.
const UNUSED_TYPES: [u8; 6] = [0x00, 0x03, UNUSED, 0x17, 0x1B, 0x1F];

/// Few regions mostly, at times several hundred, and rarely as many as the largest index has slots. The numbers around
/// powers of two are the edges of sorting by halves.
fn some_count(rng: &mut Xorshift) -> u64 {
    let near = (2 << rng.below(6)) + rng.below(3) - 1;
    match rng.below(100) {
        0..=7 => rng.below(4),
        8..=69 => 4 + rng.below(36),
        70..=84 => near,
        85..=95 => 200 + rng.below(500),
        _ => MOST_SLOTS,
    }
}

/// Regions in a row that share no block: of one block each, touching, or with gaps.
fn row(rng: &mut Xorshift, count: u64) -> Vec<Span> {
    let long = [(1, 0), (1, 0), (1, 1), (2, 0)];
    let short = [(1, 0), (1, 0), (3, 0), (4, 0), (1, 2), (4, 3)];
    let (most, gap) = rng.pick(if count > LARGE { &long[..] } else { &short });
    let mut past = rng.below(3);
    let mut next = || {
        let start = past + rng.below(gap + 1);
        past = start + 1 + rng.below(most);
        (start, past)
    };
    (0..count).map(|_| next()).collect()
}

/// Two places of a row: the first ones, the last ones, the outermost, or any.
fn some_pair(rng: &mut Xorshift, last: usize) -> (usize, usize) {
    let first = rng.below(last as u64) as usize;
    let any = first + 1 + rng.below((last - first) as u64) as usize;
    match rng.below(6) {
        0 => (0, 1),
        1 => (last - 1, last),
        2 => (0, last),
        3 => (first, first + 1),
        _ => (first, any),
    }
}

/// Makes regions of a row share blocks.
fn twist(rng: &mut Xorshift, spans: &mut [Span]) {
    let Some(last) = spans.len().checked_sub(1).filter(|last| *last > 0) else { return };
    let (one, other) = some_pair(rng, last);
    let (lower, upper) = (spans[one], spans[other]);
    let between = &mut spans[one..=other];
    match rng.below(11) {
        // The last block of one is the first of the next, and they share no other.
        0..=2 => between[0].1 = between[1].0 + 1,
        3 => between[1].0 = lower.0,
        4 => spans[other] = lower,
        // It holds all that lie between.
        5 => between[0].1 = upper.1,
        6 => between.iter_mut().for_each(|span| span.0 = lower.0),
        7 => between.iter_mut().for_each(|span| span.1 = upper.1),
        8 => between.iter_mut().for_each(|span| *span = lower),
        9 => nest(between, lower.0, upper.1),
        _ => between.iter_mut().for_each(|span| *span = anywhere(rng, lower.0, upper.1)),
    }
}

/// Each lies in the one before it, as far as there are blocks for that.
fn nest(spans: &mut [Span], start: u64, end: u64) {
    for (depth, span) in (0..).zip(spans) {
        if start + depth < end - depth {
            *span = (start + depth, end - depth);
        }
    }
}

fn anywhere(rng: &mut Xorshift, start: u64, end: u64) -> Span {
    let first = start + rng.below(end - start);
    (first, first + 1 + rng.below((end - first).min(6)))
}

/// As they come, the other way round, nearly so, or shuffled.
fn arrange<T>(rng: &mut Xorshift, items: &mut [T]) {
    let place = rng.below(items.len() as u64 + 1) as usize;
    match rng.below(9) {
        0 | 1 => {}
        2 | 3 => items.reverse(),
        4 => items.rotate_left(place),
        5 => items.rotate_left(1.min(items.len())),
        6 => items[place..].reverse(),
        _ => shuffle(rng, items),
    }
}

/// An entry or an unused slot to lay. Its blocks count from the first that is not reserved; without blocks both numbers
/// are 0.
#[derive(Clone, Copy, Debug, Default)]
struct Item {
    kind: u8,
    slots: u64,
    span: Span,
}

/// The regions by entries of several kinds, and what has none between them.
fn some_items(rng: &mut Xorshift, count: u64) -> Vec<Item> {
    let mut spans = row(rng, count);
    if rng.chance(50) {
        twist(rng, &mut spans);
    }
    arrange(rng, &mut spans);
    let kinds = rng.pick(&KINDS);
    // The largest index has no slot for anything else.
    let (between, longer) = if count == MOST_SLOTS { (0, 0) } else { (rng.pick(&[0, 0, 10, 40]), 8) };
    let mut items = Vec::new();
    for span in spans {
        while rng.chance(between) {
            items.push(Item { kind: rng.pick(&FILLERS), slots: 1 + u64::from(rng.chance(longer)), span: (0, 0) });
        }
        items.push(Item { kind: rng.pick(kinds), slots: 1 + u64::from(rng.chance(longer)), span });
    }
    // Only a name continues.
    items.iter_mut().filter(|item| matches!(item.kind, UNUSABLE | UNUSED)).for_each(|item| item.slots = 1);
    items
}

/// Where an entry with a region lies, and its blocks, the end being the one past them.
#[derive(Clone, Copy, Debug, Default)]
pub struct Spot {
    pub at: usize,
    pub slot: u64,
    pub kind: u8,
    pub start: u64,
    pub end: u64,
}

impl Spot {
    /// Where a field of this entry lies.
    pub fn field(&self, edition: Edition, place: usize) -> usize {
        self.at + if self.kind == UNUSABLE { place } else { edition.entry_field(place) }
    }
}

/// A volume, and where the entries lie that hold its regions.
pub struct Laid {
    pub image: Vec<u8>,
    pub geometry: Geometry,
    pub spots: Vec<Spot>,
}

impl Laid {
    pub fn new(rng: &mut Xorshift, edition: Edition) -> Self {
        let count = some_count(rng);
        let items = some_items(rng, count);
        let geometry = some_geometry(rng, edition, &items);
        let mut builder = Builder::with(geometry, SOME_NEWER, rng);
        let mut spots = Vec::new();
        for item in &items {
            let spot = Spot {
                at: geometry.slot_offset(builder.slot),
                slot: builder.slot,
                kind: item.kind,
                start: geometry.reserved + item.span.0,
                end: geometry.reserved + item.span.1,
            };
            lay(&mut builder, rng, item, &items);
            if item.span.1 > 0 {
                spots.push(spot);
            }
        }
        Laid { image: builder.image, geometry, spots }
    }

    pub fn is_large(&self) -> bool {
        self.geometry.slots() > LARGE
    }
}

/// Just as many slots as are needed. The last region mostly ends where the data area does, and that at times at the
/// ceiling block.
fn some_geometry(rng: &mut Xorshift, edition: Edition, items: &[Item]) -> Geometry {
    let slots: u64 = items.iter().map(|item| item.slots).sum();
    let block = 256 << if slots > LARGE { 0 } else { rng.below(4) };
    let reserved = least_reserved(block) + rng.below(3);
    let index = SLOT * (slots + 2);
    let end = items.iter().map(|item| item.span.1).max().unwrap_or(0);
    let data = end + rng.pick(&[0, 0, 0, 1, 5]);
    let total = (reserved + data + rng.pick(&[0, 0, 1, 8]) + index.div_ceil(block)).max(reserved + 2);
    Geometry { edition, image: total * block, block, total, reserved, data, index }
}

fn lay(builder: &mut Builder, rng: &mut Xorshift, item: &Item, items: &[Item]) {
    let Item { kind, slots, span } = *item;
    let (edition, slot) = (builder.geometry.edition, builder.slot);
    if kind == UNUSED {
        return unused(builder, rng, items);
    }
    let mut field = format!("n{slot}\0").into_bytes();
    if slots > 1 && rng.chance(60) {
        // Behind the name's zero stands what would hold blocks if it were an entry.
        field.resize(capacity(edition, kind, 1), 0);
        field.extend(decoy(builder, rng, items, UNUSABLE));
    } else if slots > 1 {
        field = format!("n{slot}{}\0", "x".repeat(50)).into_bytes();
    }
    let room = (span.1 - span.0) * builder.geometry.block;
    let length = match kind {
        // Nobody judges what stands where a file has its length.
        UNUSABLE => rng.step(),
        _ => rng.pick(&[room, room, room.saturating_sub(1), room / 2, 0]),
    };
    let reserved = if span.1 > 0 { builder.geometry.reserved } else { 0 };
    builder.run(kind, slots, &field, (reserved + span.0, reserved + span.1, length));
}

/// An unused slot, at times with the numbers of a region in it.
fn unused(builder: &mut Builder, rng: &mut Xorshift, items: &[Item]) {
    if rng.chance(50) {
        return builder.unused(rng);
    }
    let kind = rng.pick(&UNUSED_TYPES);
    let slot = decoy(builder, rng, items, kind);
    let at = builder.geometry.slot_offset(builder.slot);
    put(&mut builder.image, at, &slot);
    builder.slot += 1;
}

/// A slot with the blocks of some other region, as an unusable entry has them.
fn decoy(builder: &Builder, rng: &mut Xorshift, items: &[Item], kind: u8) -> [u8; SLOT_LENGTH] {
    let Geometry { edition, reserved, .. } = builder.geometry;
    let (start, end) = rng.pick(items).span;
    let mut slot = edition.bare_slot(kind);
    put(&mut slot, START_AT, &(reserved + start).to_le_bytes());
    put(&mut slot, END_AT, &edition.stored_end(reserved + end).to_le_bytes());
    edition.seal(&mut slot);
    slot
}
