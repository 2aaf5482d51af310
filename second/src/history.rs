//! The history of a list of calls, and the check of the image the list leaves.
//!
//! The history hears arguments and whether a call was accepted, never the image. The check reads
//! the image by a walk of its own, so that a fault in the calls' planning cannot hide itself; only
//! the reads of live files go through the calls, because they are part of what is checked.

use crate::edition::Edition;
use crate::query;

const LIVE_DIRECTORY: u8 = 0x11;
const LIVE_FILE: u8 = 0x12;

/// One call, as far as the history cares for it.
#[derive(Clone, Copy, Debug)]
pub enum Told<'a> {
    Format {
        version: u64,
        block: u64,
    },
    File {
        path: &'a [u8],
        bytes: &'a [u8],
    },
    Directory {
        path: &'a [u8],
    },
    /// The plain delete, which keeps nothing.
    Delete {
        path: &'a [u8],
    },
    /// The delete that keeps where the edition does.
    DeleteKeep {
        path: &'a [u8],
    },
    Restore {
        path: &'a [u8],
    },
    Reclaim,
}

#[derive(Clone, Debug)]
struct Kept {
    path: Vec<u8>,
    kind: u8,
    bytes: Vec<u8>,
    blocks: u64,
    live: bool,
}

/// What an accepted list of calls should have left behind.
#[derive(Clone, Debug, Default)]
pub struct History {
    edition: Edition,
    block: u64,
    entries: Vec<Kept>,
    granted: u64,
    given_back: u64,
}

impl History {
    /// The history just after an accepted format.
    pub fn begin(version: u64, block: u64) -> Self {
        History { edition: Edition::of_version(version).unwrap_or_default(), block, ..History::default() }
    }

    /// Hears of one call; a refused one changes nothing.
    pub fn tell(&mut self, call: Told, accepted: bool) {
        if !accepted {
            return;
        }
        match call {
            Told::Format { version, block } => *self = History::begin(version, block),
            Told::File { path, bytes } => {
                let blocks = (bytes.len() as u64).div_ceil(self.block.max(1));
                self.add(path, LIVE_FILE, bytes, blocks);
            }
            Told::Directory { path } => self.add(path, LIVE_DIRECTORY, &[], 0),
            Told::DeleteKeep { path } if self.edition.keeps_deleted() => self.turn(path, false),
            // Other entries of the path that were kept before stay as they are.
            Told::Delete { path } | Told::DeleteKeep { path } => self.strike(|kept| kept.live && kept.path == path),
            Told::Restore { path } => self.turn(path, true),
            Told::Reclaim => self.strike(|kept| !kept.live),
        }
    }

    /// Strikes such entries and gives their blocks back.
    fn strike(&mut self, gone: impl Fn(&Kept) -> bool) {
        self.given_back += self.entries.iter().filter(|kept| gone(kept)).map(|kept| kept.blocks).sum::<u64>();
        self.entries.retain(|kept| !gone(kept));
    }

    /// Turns the path's live entry deleted, or its deleted one live. Its blocks stay granted either way, and an
    /// accepted restore leaves no choice: a path with two deleted entries is refused.
    fn turn(&mut self, path: &[u8], live: bool) {
        if let Some(kept) = self.entries.iter_mut().find(|kept| kept.live != live && kept.path == path) {
            kept.live = live;
        }
    }

    fn add(&mut self, path: &[u8], kind: u8, bytes: &[u8], blocks: u64) {
        self.granted += blocks;
        self.entries.push(Kept { path: path.to_vec(), kind, bytes: bytes.to_vec(), blocks, live: true });
    }

    /// Checks the image the list has left; the error says what is wrong.
    pub fn check(&self, image: &[u8]) -> Result<(), String> {
        let seen = walk(image, self.edition)?;
        self.check_blocks(image, &seen)?;
        self.check_live(&seen)?;
        self.entries.iter().filter(|kept| kept.live && kept.kind == LIVE_FILE).try_for_each(|kept| kept.check(image))
    }

    /// Blocks of files, live and deleted: none held twice, and as many as granted and not given back.
    fn check_blocks(&self, image: &[u8], seen: &[Seen]) -> Result<(), String> {
        let mut owned = vec![false; image.len() / self.block.max(1) as usize];
        let mut held = 0;
        for file in seen {
            for block in file.start..file.past {
                let owner = owned.get_mut(block as usize).ok_or("a block beyond the image")?;
                if std::mem::replace(owner, true) {
                    return Err(format!("block {block} is held twice"));
                }
                held += 1;
            }
        }
        let expected = self.granted.saturating_sub(self.given_back);
        if held != expected {
            return Err(format!("{held} blocks held, not {expected}"));
        }
        Ok(())
    }

    /// Live paths and kinds, as sorted lists.
    fn check_live(&self, seen: &[Seen]) -> Result<(), String> {
        let live = |kind: u8| kind == LIVE_FILE || kind == LIVE_DIRECTORY;
        let mut stored: Vec<_> = seen.iter().filter(|one| live(one.kind)).map(|one| (&one.path, one.kind)).collect();
        let mut kept: Vec<_> = self.entries.iter().filter(|one| one.live).map(|one| (&one.path, one.kind)).collect();
        stored.sort();
        kept.sort();
        if stored != kept {
            return Err(format!("{} live entries stored, {} kept, or other ones", stored.len(), kept.len()));
        }
        Ok(())
    }
}

impl Kept {
    /// Reads the file into outputs of just its length and of more; no byte past it may change.
    fn check(&self, image: &[u8]) -> Result<(), String> {
        for spare in [0, 5] {
            let mut output = vec![0x5A; self.bytes.len() + spare];
            let answer = query::read(image, &self.path, &mut output);
            if answer.refusal != 0 || answer.length != self.bytes.len() as u64 {
                return Err(format!("read answered {} and {}", answer.refusal, answer.length));
            }
            let (bytes, rest) = output.split_at(self.bytes.len());
            if bytes != self.bytes || rest.iter().any(|byte| *byte != 0x5A) {
                return Err("read gave other bytes".to_string());
            }
        }
        Ok(())
    }
}

/// A named entry as the image has it; directories have no blocks.
struct Seen {
    kind: u8,
    path: Vec<u8>,
    start: u64,
    /// The block behind its last one.
    past: u64,
}

fn number(bytes: &[u8]) -> u64 {
    bytes.iter().take(8).rev().fold(0, |sum, byte| sum << 8 | u64::from(*byte))
}

/// All named entries, by a plain walk over the slots.
fn walk(image: &[u8], edition: Edition) -> Result<Vec<Seen>, String> {
    let size_at = if edition == Edition::V1_10 { 0x19E } else { 0x1A4 };
    let size = number(image.get(size_at..).unwrap_or(&[]));
    let from = (image.len() as u64).checked_sub(size).ok_or("the index is larger than the image")?;
    let slots: Vec<&[u8]> = image[from as usize..].chunks(64).collect();
    let markers = [slots.first(), slots.last()];
    if edition == Edition::V1_10 && !markers.into_iter().flatten().all(|slot| sums_to_zero(slot)) {
        return Err("a marker has a wrong sum".to_string());
    }
    let mut seen = Vec::new();
    let mut at = 1;
    while at + 1 < slots.len() {
        let kind = slots[at][0];
        at += match edition {
            Edition::V1_10 if matches!(kind, 0x19 | 0x1A) => struck(&slots, at),
            Edition::V1_10 if kind >= 0x20 => 1,
            _ if matches!(kind, 0x11 | 0x12 | 0x19 | 0x1A) => {
                let run = run_at(&slots, at, edition)?;
                seen.push(seen_in(&run, edition)?);
                run.len() / 64
            }
            _ if matches!(kind, 0x01 | 0x02 | 0x20..) => return Err(format!("slot {at} has type {kind}")),
            _ => 1,
        };
    }
    Ok(seen)
}

/// The slots of a named run in one piece.
fn run_at(slots: &[&[u8]], at: usize, edition: Edition) -> Result<Vec<u8>, String> {
    let count_at = if edition == Edition::V1_10 { 2 } else { 1 };
    let next = at + 1 + usize::from(slots[at][count_at]);
    if next >= slots.len() {
        return Err(format!("the run of slot {at} meets the identifier"));
    }
    Ok(slots[at..next].concat())
}

fn sums_to_zero(run: &[u8]) -> bool {
    run.iter().map(|byte| u64::from(*byte)).sum::<u64>() % 256 == 0
}

/// How many unused slots a deleted head of edition 1.10 stands for.
fn struck(slots: &[&[u8]], at: usize) -> usize {
    run_at(slots, at, Edition::V1_10).ok().filter(|run| sums_to_zero(run)).map_or(1, |run| run.len() / 64)
}

/// What the run of a directory or file says.
fn seen_in(run: &[u8], edition: Edition) -> Result<Seen, String> {
    let later = usize::from(edition == Edition::V1_10);
    if edition == Edition::V1_10 && !sums_to_zero(run) {
        return Err("a run has a wrong sum".to_string());
    }
    let file = matches!(run[0], 0x12 | 0x1A);
    let name_at = if file { 34 } else { 10 } + later;
    let path: Vec<u8> = run[name_at..].iter().copied().take_while(|byte| *byte != 0).collect();
    let (start, end) = if file { (number(&run[10 + later..]), number(&run[18 + later..])) } else { (0, 0) };
    // The last block of 1.10 is the one before the end of 1.0; without blocks both numbers are 0.
    let past = if edition == Edition::V1_10 && start > 0 { end.saturating_add(1) } else { end };
    Ok(Seen { kind: run[0], path, start, past })
}
