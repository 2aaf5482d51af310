//! Regions of blocks: their bounds, that none share a block (refusal 7), and the search for a free
//! run of blocks.

use crate::edition::Edition;
use crate::index::{Entry, UNUSABLE};
use crate::refusal::{self, Refusal};
use crate::superblock::Geometry;

/// Blocks from `start` up to but without `end`; never empty.
#[derive(Clone, Copy, Debug, PartialEq, Eq, PartialOrd, Ord)]
pub struct Region {
    pub start: u64,
    pub end: u64,
}

impl Region {
    pub fn blocks(&self) -> u64 {
        self.end.saturating_sub(self.start)
    }

    /// Whether some block is in both.
    fn shares(&self, other: &Region) -> bool {
        self.start < other.end && other.start < self.end
    }
}

/// Judges the regions of all entries and gives them in order of their blocks.
pub fn judge(entries: &[Entry], geometry: &Geometry) -> Result<Vec<Region>, Refusal> {
    let mut regions = gather(entries, geometry)?;
    regions.sort_unstable();
    if neighbours_share(&regions) {
        return Err(refusal::REGIONS);
    }
    Ok(regions)
}

/// The regions of all entries in slot order, each judged by itself alone.
pub fn gather(entries: &[Entry], geometry: &Geometry) -> Result<Vec<Region>, Refusal> {
    let mut regions = Vec::new();
    for entry in entries {
        regions.extend(region(entry, geometry)?);
    }
    Ok(regions)
}

/// Whether two of these regions, sorted, share a block. None is empty, so any overlap shows between neighbours.
pub fn neighbours_share(sorted: &[Region]) -> bool {
    sorted.windows(2).any(|pair| pair[0].end > pair[1].start)
}

/// The same of regions in any order: each is compared with every other.
pub fn any_share(regions: &[Region]) -> bool {
    regions.iter().enumerate().any(|(place, one)| regions[place + 1..].iter().any(|other| one.shares(other)))
}

/// The region of one entry, if it holds any blocks.
fn region(entry: &Entry, geometry: &Geometry) -> Result<Option<Region>, Refusal> {
    let unusable = entry.kind == UNUSABLE;
    if !unusable && !entry.is_file() {
        return Ok(None);
    }
    let Entry { start, end, length, .. } = *entry;
    if !unusable && start == 0 && end == 0 && length == 0 {
        return Ok(None);
    }
    let end = geometry.edition.past(end).ok_or(refusal::REGIONS)?;
    let bounded = geometry.reserved <= start && start < end && end <= geometry.data_end();
    if !bounded {
        return Err(refusal::REGIONS);
    }
    let room = u128::from(end - start) * u128::from(geometry.block);
    if u128::from(length) > room {
        return Err(refusal::REGIONS);
    }
    Ok(Some(Region { start, end }))
}

/// The region of an entry that has been judged. Block 0 is always reserved, so a start of 0 says that there is none.
pub fn held(entry: &Entry, edition: Edition) -> Option<Region> {
    let end = edition.past(entry.end)?;
    (entry.start > 0).then_some(Region { start: entry.start, end })
}

/// The lowest start at or above `from` with `wanted` blocks that meet no region and end at or below
/// `ceiling`. The regions are sorted and lie below the ceiling.
pub fn lowest_free_start(regions: &[Region], from: u64, wanted: u64, ceiling: u64) -> Option<u64> {
    let mut start = from;
    for region in regions {
        if start.checked_add(wanted)? <= region.start {
            break;
        }
        start = start.max(region.end);
    }
    (start.checked_add(wanted)? <= ceiling).then_some(start)
}

/// The least data area that covers all the regions.
pub fn covering(regions: &[Region], reserved: u64) -> u64 {
    let end = regions.iter().map(|region| region.end).max();
    end.map_or(0, |end| end.saturating_sub(reserved))
}
