//! The walk of the index area: markers, runs of slots, sums, names (refusal 6).

use crate::bytes::{get_i64, get_u64, get_u8, put, sum, until_zero};
use crate::edition::Edition;
use crate::names;
use crate::refusal::{self, Refusal};
use crate::superblock::{Geometry, SLOT};

pub const IDENTIFIER: u8 = 0x01;
pub const MARKER: u8 = 0x02;
pub const UNUSED: u8 = 0x10;
pub const DIRECTORY: u8 = 0x11;
pub const FILE: u8 = 0x12;
pub const UNUSABLE: u8 = 0x18;
pub const DELETED_DIRECTORY: u8 = 0x19;
pub const DELETED_FILE: u8 = 0x1A;
/// First bytes from here on are text, which only a run starts a slot with; elsewhere they are strays.
pub const FIRST_TEXT: u8 = 0x20;

pub const SLOT_LENGTH: usize = SLOT as usize;
/// Offsets in an entry's first slot, as edition 1.0 has them; `Edition::entry_field` says where a directory or file does.
pub const COUNT_AT: usize = 1;
pub const STAMP_AT: usize = 2;
pub const START_AT: usize = 10;
pub const END_AT: usize = 18;
pub const LENGTH_AT: usize = 26;
pub const DIRECTORY_NAME_AT: usize = 10;
pub const FILE_NAME_AT: usize = 34;
/// Offsets in the volume identifier.
pub const VOLUME_STAMP_AT: usize = 4;
pub const VOLUME_NAME_AT: usize = 12;

/// One used run of slots. Directories have no region or length, unusable entries no path.
#[derive(Clone, Copy, Debug)]
pub struct Entry<'a> {
    /// Its first slot.
    pub slot: u64,
    /// Slots of the run, the first included.
    pub slots: u64,
    pub kind: u8,
    pub start: u64,
    pub end: u64,
    pub length: u64,
    pub stamp: i64,
    pub path: &'a [u8],
}

impl Entry<'_> {
    pub fn is_live(&self) -> bool {
        matches!(self.kind, DIRECTORY | FILE)
    }

    pub fn is_deleted(&self) -> bool {
        matches!(self.kind, DELETED_DIRECTORY | DELETED_FILE)
    }

    /// Whether it is a file, live or deleted.
    pub fn is_file(&self) -> bool {
        matches!(self.kind, FILE | DELETED_FILE)
    }
}

/// The index area after refusal 6 has been judged over all of it.
#[derive(Clone, Debug)]
pub struct Index<'a> {
    /// In slot order.
    pub entries: Vec<Entry<'a>>,
    /// Unused slots, ascending.
    pub unused: Vec<u64>,
    /// Those of them that a writing call rewrites before all else.
    pub stale: Vec<u64>,
    pub volume_stamp: i64,
    pub volume_name: &'a [u8],
}

/// Where the name starts in the first slot of an entry of this kind, if the kind has a name.
pub fn name_at(edition: Edition, kind: u8) -> Option<usize> {
    match kind {
        DIRECTORY | DELETED_DIRECTORY => Some(edition.entry_field(DIRECTORY_NAME_AT)),
        FILE | DELETED_FILE => Some(edition.entry_field(FILE_NAME_AT)),
        _ => None,
    }
}

/// Rewrites these slots as unused ones.
pub fn empty(image: &mut [u8], geometry: &Geometry, slots: &[u64]) {
    let unused = geometry.edition.bare_slot(UNUSED);
    slots.iter().for_each(|slot| put(image, geometry.slot_offset(*slot), &unused));
}

/// Walks the index area of an image whose geometry is good.
pub fn walk<'a>(image: &'a [u8], geometry: &Geometry) -> Result<Index<'a>, Refusal> {
    let bytes = image.get(geometry.slot_offset(0)..).ok_or(refusal::INDEX)?;
    let area = Area::new(bytes, geometry.edition);
    area.judge_marker(0, MARKER)?;
    area.judge_marker(area.last, IDENTIFIER)?;
    let identifier = area.run(area.last, 1);
    let mut index = Index {
        entries: Vec::new(),
        unused: Vec::new(),
        stale: Vec::new(),
        volume_stamp: get_i64(identifier, VOLUME_STAMP_AT),
        volume_name: volume_name(identifier)?,
    };
    let mut slot = 1;
    while slot < area.last {
        slot += match area.head(slot)? {
            Head::Entry(entry) => {
                index.entries.push(entry);
                entry.slots as usize
            }
            Head::Unused => {
                index.unused.push(slot as u64);
                1
            }
            Head::Stale(slots) => {
                let stale = slot as u64..(slot + slots) as u64;
                index.unused.extend(stale.clone());
                index.stale.extend(stale);
                slots
            }
        };
    }
    Ok(index)
}

fn volume_name(identifier: &[u8]) -> Result<&[u8], Refusal> {
    let field = identifier.get(VOLUME_NAME_AT..).unwrap_or(&[]);
    until_zero(field).filter(|name| names::volume_name_allowed(name)).ok_or(refusal::INDEX)
}

/// What starts at a slot outside any run.
enum Head<'a> {
    Entry(Entry<'a>),
    Unused,
    /// So many slots that count as unused without looking so.
    Stale(usize),
}

/// The bytes of an index area, and what the judging of its runs needs.
struct Area<'a> {
    bytes: &'a [u8],
    edition: Edition,
    /// The identifier's slot.
    last: usize,
    sums: Option<Sums>,
}

/// The sums of an index area, taken once: that of the first n slots stands at place n.
struct Sums(Vec<u8>);

impl Sums {
    fn new(area: &[u8]) -> Self {
        let mut upto = vec![0u8];
        for slot in area.chunks(SLOT_LENGTH) {
            upto.push(upto[upto.len() - 1].wrapping_add(sum(slot)));
        }
        Sums(upto)
    }

    /// Whether these slots sum to 0 modulo 256.
    fn is_right(&self, slot: usize, slots: usize) -> bool {
        self.0.get(slot) == self.0.get(slot + slots)
    }
}

impl<'a> Area<'a> {
    fn new(bytes: &'a [u8], edition: Edition) -> Self {
        let last = (bytes.len() / SLOT_LENGTH).saturating_sub(1);
        Area { bytes, edition, last, sums: edition.has_sums().then(|| Sums::new(bytes)) }
    }

    /// The bytes of so many slots.
    fn run(&self, slot: usize, slots: usize) -> &'a [u8] {
        self.bytes.get(slot * SLOT_LENGTH..(slot + slots) * SLOT_LENGTH).unwrap_or(&[])
    }

    fn kind(&self, slot: usize) -> u8 {
        get_u8(self.run(slot, 1), 0)
    }

    /// The slots of a named run, judged or not.
    fn slots(&self, slot: usize) -> usize {
        1 + usize::from(get_u8(self.run(slot, 1), self.edition.entry_field(COUNT_AT)))
    }

    fn sum_is_right(&self, slot: usize, slots: usize) -> bool {
        self.sums.as_ref().is_none_or(|sums| sums.is_right(slot, slots))
    }

    /// Whether a run of so many slots ends before the identifier and has a right sum.
    fn is_whole(&self, slot: usize, slots: usize) -> bool {
        slot + slots <= self.last && self.sum_is_right(slot, slots)
    }

    fn judge_marker(&self, slot: usize, kind: u8) -> Result<(), Refusal> {
        if self.kind(slot) == kind && self.sum_is_right(slot, 1) {
            Ok(())
        } else {
            Err(refusal::INDEX)
        }
    }

    fn head(&self, slot: usize) -> Result<Head<'a>, Refusal> {
        match self.kind(slot) {
            kind if self.edition.rewrites(kind) => Ok(Head::Stale(self.stale(slot))),
            DIRECTORY | FILE | DELETED_DIRECTORY | DELETED_FILE => self.named(slot).map(Head::Entry),
            UNUSABLE => self.unusable(slot).map(Head::Entry),
            IDENTIFIER | MARKER | FIRST_TEXT..=0xFF => Err(refusal::INDEX),
            _ => Ok(Head::Unused),
        }
    }

    /// The slots of a deleted run that is whole, else only the one.
    fn stale(&self, slot: usize) -> usize {
        let deleted = matches!(self.kind(slot), DELETED_DIRECTORY | DELETED_FILE);
        let slots = if deleted { self.slots(slot) } else { 1 };
        if self.is_whole(slot, slots) {
            slots
        } else {
            1
        }
    }

    /// An entry with a name, which lies in one piece, since continuing slots are nothing but name.
    fn named(&self, slot: usize) -> Result<Entry<'a>, Refusal> {
        let kind = self.kind(slot);
        let slots = self.slots(slot);
        if !self.is_whole(slot, slots) {
            return Err(refusal::INDEX);
        }
        let run = self.run(slot, slots);
        let field = name_at(self.edition, kind).and_then(|name| run.get(name..)).ok_or(refusal::INDEX)?;
        let path = until_zero(field).filter(|path| names::path_allowed(path)).ok_or(refusal::INDEX)?;
        let at = |place| self.edition.entry_field(place);
        let number = |place| if matches!(kind, FILE | DELETED_FILE) { get_u64(run, at(place)) } else { 0 };
        Ok(Entry {
            slot: slot as u64,
            slots: slots as u64,
            kind,
            start: number(START_AT),
            end: number(END_AT),
            length: number(LENGTH_AT),
            stamp: get_i64(run, at(STAMP_AT)),
            path,
        })
    }

    fn unusable(&self, slot: usize) -> Result<Entry<'a>, Refusal> {
        if !self.is_whole(slot, 1) {
            return Err(refusal::INDEX);
        }
        let run = self.run(slot, 1);
        Ok(Entry {
            slot: slot as u64,
            slots: 1,
            kind: UNUSABLE,
            start: get_u64(run, START_AT),
            end: get_u64(run, END_AT),
            length: 0,
            stamp: 0,
            path: &[],
        })
    }
}

impl Index<'_> {
    /// The first slot of the lowest `wanted` consecutive unused slots.
    pub fn lowest_free_run(&self, wanted: u64) -> Option<u64> {
        let mut first = 0;
        let mut held = 0;
        for slot in &self.unused {
            if held > 0 && first + held == *slot {
                held += 1;
            } else {
                first = *slot;
                held = 1;
            }
            if held >= wanted {
                return Some(first);
            }
        }
        None
    }
}
