//! A volume that has passed refusals 1 to 8.

use crate::index::{self, Entry, Index};
use crate::names;
use crate::paths::LivePaths;
use crate::refusal::{self, Refusal};
use crate::regions::{self, Region};
use crate::superblock::{self, SuperBlock};

#[derive(Clone, Debug)]
pub struct Volume<'a> {
    pub super_block: SuperBlock,
    pub index: Index<'a>,
    /// Regions of files, live and deleted, and of unusable entries, sorted.
    pub regions: Vec<Region>,
    pub live: LivePaths<'a>,
}

impl<'a> Volume<'a> {
    /// Judges the whole image; each of 6, 7 and 8 is a pass of its own.
    pub fn judge(image: &'a [u8]) -> Result<Self, Refusal> {
        let super_block = superblock::judge(image)?;
        let index = index::walk(image, &super_block.geometry)?;
        let regions = regions::judge(&index.entries, &super_block.geometry)?;
        let live = LivePaths::judge(&index.entries)?;
        Ok(Volume { super_block, index, regions, live })
    }

    /// Refusal 9: a call that may write meets a newer version, whatever it would do further on.
    pub fn judge_writable(&self) -> Result<(), Refusal> {
        let SuperBlock { version, geometry, .. } = self.super_block;
        if geometry.edition.writes(version) {
            Ok(())
        } else {
            Err(refusal::NEWER_VERSION)
        }
    }

    /// The live entry of a path argument: refusals 10 and 11.
    pub fn lookup(&self, path: &[u8]) -> Result<&Entry<'a>, Refusal> {
        judge_path(path)?;
        self.live.get(path).ok_or(refusal::NOT_LIVE)
    }

    /// The deleted entries of a path argument, one at least: refusals 10 and 11. An edition that keeps none always
    /// gives 11.
    pub fn lookup_deleted(&self, path: &[u8]) -> Result<Vec<&Entry<'a>>, Refusal> {
        judge_path(path)?;
        let deleted: Vec<&Entry> =
            self.index.entries.iter().filter(|entry| entry.is_deleted() && entry.path == path).collect();
        if deleted.is_empty() {
            return Err(refusal::NOT_LIVE);
        }
        Ok(deleted)
    }

    /// Whether an entry of this path may become live: refusals 12 and 13.
    pub fn judge_vacant(&self, path: &[u8]) -> Result<(), Refusal> {
        if self.live.get(path).is_some() {
            return Err(refusal::ALREADY_LIVE);
        }
        if !self.live.has_directory_for(path) {
            return Err(refusal::NO_DIRECTORY);
        }
        Ok(())
    }
}

/// Refusal 10 of a path that names an entry; only create bounds its length too.
fn judge_path(path: &[u8]) -> Result<(), Refusal> {
    if names::path_allowed(path) {
        Ok(())
    } else {
        Err(refusal::BAD_NAME)
    }
}
