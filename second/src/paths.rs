//! The live paths, sorted: lookups, and the judgement of refusal 8.

use crate::index::{Entry, DIRECTORY};
use crate::names;
use crate::refusal::{self, Refusal};

/// Live entries in order of their paths, which are all different.
#[derive(Clone, Debug)]
pub struct LivePaths<'a> {
    sorted: Vec<Entry<'a>>,
}

impl<'a> LivePaths<'a> {
    /// Judges refusal 8. It is enough to look at each nearest leading path: the longer chain of
    /// leading paths is that directory's own, judged in its turn.
    pub fn judge(entries: &[Entry<'a>]) -> Result<Self, Refusal> {
        let mut sorted: Vec<Entry> = entries.iter().filter(|entry| entry.is_live()).copied().collect();
        sorted.sort_unstable_by_key(|entry| entry.path);
        if sorted.windows(2).any(|pair| pair[0].path == pair[1].path) {
            return Err(refusal::PATHS);
        }
        let live = LivePaths { sorted };
        let housed = live.sorted.iter().all(|entry| live.has_directory_for(entry.path));
        if housed {
            Ok(live)
        } else {
            Err(refusal::PATHS)
        }
    }

    pub fn get(&self, path: &[u8]) -> Option<&Entry<'a>> {
        let place = self.sorted.binary_search_by_key(&path, |entry| entry.path).ok()?;
        self.sorted.get(place)
    }

    /// Whether the path's nearest leading path, if it has one, is a live directory.
    pub fn has_directory_for(&self, path: &[u8]) -> bool {
        match names::parent(path) {
            None => true,
            Some(parent) => self.get(parent).is_some_and(|entry| entry.kind == DIRECTORY),
        }
    }

    /// The lowest slot that an entry of the path's leading directories starts at, if it has any.
    pub fn first_directory(&self, path: &[u8]) -> Option<u64> {
        let leading = std::iter::successors(names::parent(path), |path| names::parent(path));
        leading.filter_map(|path| self.get(path)).map(|entry| entry.slot).min()
    }

    /// Whether any live path lies below this one.
    pub fn has_below(&self, path: &[u8]) -> bool {
        let prefix = [path, b"/"].concat();
        let place = self.sorted.partition_point(|entry| entry.path < prefix.as_slice());
        self.sorted.get(place).is_some_and(|entry| entry.path.starts_with(&prefix))
    }

    pub fn len(&self) -> usize {
        self.sorted.len()
    }

    pub fn is_empty(&self) -> bool {
        self.sorted.is_empty()
    }
}
