//! Delete, which wipes, the delete that keeps, restore, which undoes the latter where the edition keeps what is deleted,
//! and reclaim, which gives slots and blocks back.

use crate::answer::Written;
use crate::bytes::put;
use crate::index::{self, Entry, DELETED_DIRECTORY, DELETED_FILE, DIRECTORY, FILE, STAMP_AT};
use crate::refusal::{self, Refusal};
use crate::regions::{self, Region};
use crate::superblock::{self, Geometry};
use crate::volume::Volume;

/// What is to happen to a volume: slots made unused, then at most one entry marked and one region wiped, and last its
/// sizes.
struct Change {
    old: Geometry,
    new: Geometry,
    emptied: Vec<u64>,
    mark: Option<Mark>,
    wiped: Option<Region>,
}

/// An entry's first slot and its new type.
struct Mark {
    slot: u64,
    kind: u8,
}

impl Change {
    /// One that changes neither size and no entry; what else is to happen is added to it.
    fn emptying(geometry: Geometry, emptied: Vec<u64>) -> Self {
        Change { old: geometry, new: geometry, emptied, mark: None, wiped: None }
    }

    fn write(&self, image: &mut [u8], stamp: i64) {
        index::empty(image, &self.old, &self.emptied);
        if let Some(mark) = &self.mark {
            mark.write(image, &self.old, stamp);
        }
        if let Some(region) = &self.wiped {
            wipe(image, &self.old, region);
        }
        superblock::write_sizes(image, &self.old, &self.new, stamp);
    }
}

impl Mark {
    /// All else in the entry stays, so that a deleted one can come back whole.
    fn write(&self, image: &mut [u8], geometry: &Geometry, stamp: i64) {
        let at = geometry.slot_offset(self.slot);
        put(image, at, &[self.kind]);
        put(image, at + geometry.edition.entry_field(STAMP_AT), &stamp.to_le_bytes());
    }
}

/// Zeros in every block of the region, as a file's bytes may have left traces behind its length.
fn wipe(image: &mut [u8], geometry: &Geometry, region: &Region) {
    let blocks = image.get_mut(geometry.block_offset(region.start)..geometry.block_offset(region.end));
    blocks.unwrap_or_default().fill(0);
}

fn slots_of(entry: &Entry) -> std::ops::Range<u64> {
    entry.slot..entry.slot + entry.slots
}

/// The geometry with the least data area for the entries that stay.
fn trimmed(volume: &Volume, stays: impl Fn(&Entry) -> bool) -> Geometry {
    let geometry = volume.super_block.geometry;
    let entries = volume.index.entries.iter().filter(|entry| stays(entry));
    let left: Vec<Region> = entries.filter_map(|entry| regions::held(entry, geometry.edition)).collect();
    Geometry { data: regions::covering(&left, geometry.reserved), ..geometry }
}

/// The slots to rewrite in any case, and with them those of these entries.
fn emptied<'a>(volume: &Volume, entries: impl Iterator<Item = &'a Entry<'a>>) -> Vec<u64> {
    volume.index.stale.iter().copied().chain(entries.flat_map(slots_of)).collect()
}

/// The live entry that a delete of either sort is to take away: refusals 9 to 11 and 14.
fn deletable<'v, 'a>(volume: &'v Volume<'a>, path: &[u8]) -> Result<&'v Entry<'a>, Refusal> {
    volume.judge_writable()?;
    let entry = volume.lookup(path)?;
    if entry.kind == DIRECTORY && volume.live.has_below(path) {
        return Err(refusal::NOT_EMPTY);
    }
    Ok(entry)
}

/// Deletes a live entry and keeps nothing of it: refusals 1 to 11 and 14.
pub fn delete(image: &mut [u8], path: &[u8], stamp: i64) -> Written {
    plan_delete(image, path).map(|change| change.write(image, stamp)).into()
}

/// Deleted entries that were kept stay, and with them the blocks they hold.
fn plan_delete(image: &[u8], path: &[u8]) -> Result<Change, Refusal> {
    let volume = Volume::judge(image)?;
    let entry = deletable(&volume, path)?;
    let geometry = volume.super_block.geometry;
    let new = trimmed(&volume, |other| other.slot != entry.slot);
    let wiped = regions::held(entry, geometry.edition);
    let emptied = emptied(&volume, std::iter::once(entry));
    Ok(Change { new, wiped, ..Change::emptying(geometry, emptied) })
}

/// Deletes a live entry and wipes nothing: refusals 1 to 11 and 14.
pub fn delete_keep(image: &mut [u8], path: &[u8], stamp: i64) -> Written {
    plan_delete_keep(image, path).map(|change| change.write(image, stamp)).into()
}

/// Where deleted entries are kept it is marked, else its slots become unused at once.
fn plan_delete_keep(image: &[u8], path: &[u8]) -> Result<Change, Refusal> {
    let volume = Volume::judge(image)?;
    let entry = deletable(&volume, path)?;
    let geometry = volume.super_block.geometry;
    if !geometry.edition.keeps_deleted() {
        return Ok(Change::emptying(geometry, emptied(&volume, std::iter::once(entry))));
    }
    let kind = if entry.is_file() { DELETED_FILE } else { DELETED_DIRECTORY };
    let mark = Some(Mark { slot: entry.slot, kind });
    Ok(Change { mark, ..Change::emptying(geometry, Vec::new()) })
}

/// Marks the one deleted entry of a path live again: refusals 1 to 13 and 19.
pub fn restore(image: &mut [u8], path: &[u8], stamp: i64) -> Written {
    plan_restore(image, path).map(|change| change.write(image, stamp)).into()
}

/// No slot or block is sought: the entry has kept its own.
fn plan_restore(image: &[u8], path: &[u8]) -> Result<Change, Refusal> {
    let volume = Volume::judge(image)?;
    volume.judge_writable()?;
    let deleted = volume.lookup_deleted(path)?;
    volume.judge_vacant(path)?;
    let [entry] = deleted.as_slice() else { return Err(refusal::SEVERAL_DELETED) };
    let kind = if entry.is_file() { FILE } else { DIRECTORY };
    let mark = Some(Mark { slot: entry.slot, kind });
    Ok(Change { mark, ..Change::emptying(volume.super_block.geometry, Vec::new()) })
}

/// Empties the runs of deleted entries and trims the data area: refusals 1 to 9.
pub fn reclaim(image: &mut [u8], stamp: i64) -> Written {
    plan_reclaim(image).map(|change| change.write(image, stamp)).into()
}

/// An edition has deleted entries or stale slots, and never both.
fn plan_reclaim(image: &[u8]) -> Result<Change, Refusal> {
    let volume = Volume::judge(image)?;
    volume.judge_writable()?;
    let deleted = volume.index.entries.iter().filter(|entry| entry.is_deleted());
    let new = trimmed(&volume, |entry| !entry.is_deleted());
    Ok(Change { new, ..Change::emptying(volume.super_block.geometry, emptied(&volume, deleted)) })
}
