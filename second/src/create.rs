//! Create: a new file with its bytes, or a new directory.

use crate::answer::Written;
use crate::bytes::put;
use crate::edition::Edition;
use crate::index::{
    self, COUNT_AT, DIRECTORY, DIRECTORY_NAME_AT, END_AT, FILE, FILE_NAME_AT, LENGTH_AT, MARKER, SLOT_LENGTH, STAMP_AT,
    START_AT,
};
use crate::names;
use crate::refusal::{self, Refusal};
use crate::regions::{self, Region};
use crate::superblock::{self, Geometry, MOST_INDEX, SLOT};
use crate::volume::Volume;

/// What to create.
#[derive(Clone, Copy, Debug, PartialEq, Eq)]
pub enum Content<'a> {
    File(&'a [u8]),
    Directory,
}

impl<'a> Content<'a> {
    fn bytes(&self) -> &'a [u8] {
        match self {
            Content::File(bytes) => bytes,
            Content::Directory => &[],
        }
    }

    fn name_at(&self, edition: Edition) -> usize {
        edition.entry_field(match self {
            Content::File(_) => FILE_NAME_AT,
            Content::Directory => DIRECTORY_NAME_AT,
        })
    }
}

/// Everything decided before the first byte is written.
struct Plan {
    old: Geometry,
    new: Geometry,
    /// Slots to make unused before all else, numbered as before any growth.
    stale: Vec<u64>,
    /// First slot of the run, numbered as after any growth.
    slot: u64,
    slots: u64,
    region: Option<Region>,
}

pub fn create_file(image: &mut [u8], path: &[u8], stamp: i64, bytes: &[u8]) -> Written {
    create(image, path, stamp, Content::File(bytes))
}

pub fn create_directory(image: &mut [u8], path: &[u8], stamp: i64) -> Written {
    create(image, path, stamp, Content::Directory)
}

/// Creates a live entry: refusals 1 to 10, 12, 13, 15 and 16.
pub fn create(image: &mut [u8], path: &[u8], stamp: i64, content: Content) -> Written {
    plan(image, path, content).map(|plan| carry_out(image, path, stamp, content, &plan)).into()
}

fn plan(image: &[u8], path: &[u8], content: Content) -> Result<Plan, Refusal> {
    let volume = Volume::judge(image)?;
    volume.judge_writable()?;
    if path.len() > names::MOST_PATH || !names::path_allowed(path) {
        return Err(refusal::BAD_NAME);
    }
    volume.judge_vacant(path)?;
    let old = volume.super_block.geometry;
    let slots = 1 + continuing(path.len(), content, old.edition);
    let (slot, grown) = take_slots(&volume, path, slots)?;
    let region = take_blocks(&volume, &grown, content.bytes().len())?;
    let end = region.map_or(0, |region| region.end);
    let data = grown.data.max(end.saturating_sub(grown.reserved));
    Ok(Plan { old, new: Geometry { data, ..grown }, stale: volume.index.stale, slot, slots, region })
}

/// The fewest slots beyond the first that hold the name and its zero.
fn continuing(name_length: usize, content: Content, edition: Edition) -> u64 {
    let first = SLOT_LENGTH - content.name_at(edition);
    let rest = (name_length + 1).saturating_sub(first);
    rest.div_ceil(SLOT_LENGTH) as u64
}

/// The first slot of the run and the geometry after any growth. Growth happens whole or not at
/// all: unused slots next to the old marker are not joined to the new ones.
fn take_slots(volume: &Volume, path: &[u8], wanted: u64) -> Result<(u64, Geometry), Refusal> {
    let old = volume.super_block.geometry;
    let limit = if old.edition.orders_entries() { volume.live.first_directory(path) } else { None };
    let lowest = volume.index.lowest_free_run(wanted);
    if let Some(slot) = lowest.filter(|slot| limit.is_none_or(|limit| *slot < limit)) {
        return Ok((slot, old));
    }
    let grown = Geometry { index: old.index + SLOT * wanted, ..old };
    let meets_data = grown.ceiling().is_none_or(|ceiling| ceiling < old.data_end());
    if grown.index > MOST_INDEX || meets_data {
        return Err(refusal::NO_SLOTS);
    }
    Ok((1, grown))
}

/// The region for a file of `length` bytes, judged against the ceiling after growth.
fn take_blocks(volume: &Volume, grown: &Geometry, length: usize) -> Result<Option<Region>, Refusal> {
    let wanted = (length as u64).div_ceil(grown.block);
    if wanted == 0 {
        return Ok(None);
    }
    let ceiling = grown.ceiling().unwrap_or(0);
    let start = regions::lowest_free_start(&volume.regions, grown.reserved, wanted, ceiling);
    let start = start.ok_or(refusal::NO_BLOCKS)?;
    Ok(Some(Region { start, end: start + wanted }))
}

fn carry_out(image: &mut [u8], path: &[u8], stamp: i64, content: Content, plan: &Plan) {
    index::empty(image, &plan.old, &plan.stale);
    if plan.new.index != plan.old.index {
        put(image, plan.new.slot_offset(0), &plan.new.edition.bare_slot(MARKER));
    }
    put(image, plan.new.slot_offset(plan.slot), &run(path, stamp, content, plan));
    if let Some(region) = plan.region {
        let start = plan.new.block_offset(region.start);
        let end = plan.new.block_offset(region.end);
        if let Some(blocks) = image.get_mut(start..end) {
            put(blocks, 0, content.bytes());
            blocks.iter_mut().skip(content.bytes().len()).for_each(|byte| *byte = 0);
        }
    }
    superblock::write_sizes(image, &plan.old, &plan.new, stamp);
}

/// The bytes of the new entry's slots.
fn run(path: &[u8], stamp: i64, content: Content, plan: &Plan) -> Vec<u8> {
    let edition = plan.new.edition;
    let at = |field| edition.entry_field(field);
    let mut run = vec![0; plan.slots as usize * SLOT_LENGTH];
    put(&mut run, at(COUNT_AT), &[(plan.slots - 1) as u8]);
    put(&mut run, at(STAMP_AT), &stamp.to_le_bytes());
    put(&mut run, content.name_at(edition), path);
    match content {
        Content::Directory => put(&mut run, 0, &[DIRECTORY]),
        Content::File(bytes) => {
            let (start, end) = plan.region.map_or((0, 0), |region| (region.start, edition.stored_end(region.end)));
            put(&mut run, 0, &[FILE]);
            put(&mut run, at(START_AT), &start.to_le_bytes());
            put(&mut run, at(END_AT), &end.to_le_bytes());
            put(&mut run, at(LENGTH_AT), &(bytes.len() as u64).to_le_bytes());
        }
    }
    edition.seal(&mut run);
    run
}
