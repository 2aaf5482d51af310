//! The test for shared blocks, over a lent table of regions and without one. It judges an image no further than its
//! regions one by one: that two of them share a block is its answer and no refusal, and paths are not looked at.

use crate::answer::{Tabled, Written};
use crate::index;
use crate::refusal::{self, Refusal};
use crate::regions::{self, Region};
use crate::superblock;

/// A place of a lent table. The end is the block past the region, whatever the edition stores.
#[repr(C)]
#[derive(Clone, Copy, Debug, Default, PartialEq, Eq)]
pub struct TableRegion {
    pub start: u64,
    pub end: u64,
}

impl From<&Region> for TableRegion {
    fn from(region: &Region) -> Self {
        TableRegion { start: region.start, end: region.end }
    }
}

/// The regions of one block or more in slot order: refusals 1 to 6, and 7 of each region by itself.
fn gathered(image: &[u8]) -> Result<Vec<Region>, Refusal> {
    let geometry = superblock::judge(image)?.geometry;
    let index = index::walk(image, &geometry)?;
    regions::gather(&index.entries, &geometry)
}

/// The same by start, then end.
fn ordered(image: &[u8]) -> Result<Vec<Region>, Refusal> {
    let mut regions = gathered(image)?;
    regions.sort_unstable();
    Ok(regions)
}

/// How many regions an image has, none where it is refused.
pub fn count(image: &[u8]) -> usize {
    gathered(image).map_or(0, |regions| regions.len())
}

/// Puts the regions in order into the first places of `table`, and answers whether none share a block.
pub fn regions(image: &[u8], table: &mut [TableRegion]) -> Tabled {
    match put_into(table, image) {
        Ok(regions) => Tabled { answer: verdict(regions::neighbours_share(&regions)), regions: regions.len() as u64 },
        Err(refusal) => Tabled { answer: refusal, regions: 0 },
    }
}

fn put_into(table: &mut [TableRegion], image: &[u8]) -> Result<Vec<Region>, Refusal> {
    let regions = ordered(image)?;
    let places = table.get_mut(..regions.len()).ok_or(refusal::OUTPUT_SHORT)?;
    places.iter_mut().zip(&regions).for_each(|(place, region)| *place = region.into());
    Ok(regions)
}

/// The answer without a table, by order and neighbours.
pub fn sharing(image: &[u8]) -> Written {
    answer(ordered(image).map(|regions| regions::neighbours_share(&regions)))
}

/// The answer without a table, each region compared with every other.
pub fn sharing_plain(image: &[u8]) -> Written {
    answer(gathered(image).map(|regions| regions::any_share(&regions)))
}

fn answer(shared: Result<bool, Refusal>) -> Written {
    Written { refusal: shared.map_or_else(|refusal| refusal, verdict) }
}

fn verdict(shared: bool) -> Refusal {
    if shared {
        refusal::REGIONS
    } else {
        refusal::SUCCESS
    }
}
