//! The answers of the calls: the refusal number first, then the call's other numbers, all of which
//! are zero on a refusal.

use crate::index::Entry;
use crate::refusal::Refusal;

/// The answer of the calls that write: format, create, delete, restore and reclaim, and report_add; and of sharing,
/// where 7 also says that two regions share a block.
#[derive(Clone, Copy, Debug, Default, PartialEq, Eq)]
pub struct Written {
    pub refusal: Refusal,
}

/// The answer of open.
#[derive(Clone, Copy, Debug, Default, PartialEq, Eq)]
pub struct Opened {
    pub refusal: Refusal,
    pub version: u8,
    pub total: u64,
    pub reserved: u64,
    pub block_length: u64,
    /// The data area, in blocks.
    pub data_blocks: u64,
    /// The index area, in bytes.
    pub index_bytes: u64,
    /// When a size last changed.
    pub stamp: i64,
    pub volume_stamp: i64,
    pub name_length: u64,
    /// Its version byte stands for it: 0x10 or 0x1A.
    pub edition: u8,
}

/// The answer of find. Here and in a list the end is as the edition stores it.
#[derive(Clone, Copy, Debug, Default, PartialEq, Eq)]
pub struct Found {
    pub refusal: Refusal,
    pub slot: u64,
    pub kind: u8,
    pub start: u64,
    pub end: u64,
    pub length: u64,
    pub stamp: i64,
}

/// The answer of list; kind 0, without a refusal, says that no live entry is left.
#[derive(Clone, Copy, Debug, Default, PartialEq, Eq)]
pub struct Listed {
    pub refusal: Refusal,
    pub slot: u64,
    pub kind: u8,
    pub start: u64,
    pub end: u64,
    pub length: u64,
    pub stamp: i64,
    pub path_length: u64,
}

/// The answer of list_all; next is where to go on, and 0 says that no live entry is left.
#[derive(Clone, Copy, Debug, Default, PartialEq, Eq)]
pub struct Records {
    pub refusal: Refusal,
    pub count: u64,
    pub length: u64,
    pub next: u64,
}

/// The answer of read, listing and report_text.
#[derive(Clone, Copy, Debug, Default, PartialEq, Eq)]
pub struct Read {
    pub refusal: Refusal,
    pub length: u64,
}

/// The answer of regions. Unlike a refusal 7, a 7 that says that two regions share a block comes with their number.
#[derive(Clone, Copy, Debug, Default, PartialEq, Eq)]
pub struct Tabled {
    pub answer: Refusal,
    pub regions: u64,
}

impl From<Result<(), Refusal>> for Written {
    fn from(outcome: Result<(), Refusal>) -> Self {
        Written { refusal: outcome.err().unwrap_or(0) }
    }
}

impl Found {
    pub fn of(entry: &Entry) -> Self {
        Found {
            refusal: 0,
            slot: entry.slot,
            kind: entry.kind,
            start: entry.start,
            end: entry.end,
            length: entry.length,
            stamp: entry.stamp,
        }
    }
}

impl Listed {
    pub fn of(entry: &Entry) -> Self {
        Listed {
            refusal: 0,
            slot: entry.slot,
            kind: entry.kind,
            start: entry.start,
            end: entry.end,
            length: entry.length,
            stamp: entry.stamp,
            path_length: entry.path.len() as u64,
        }
    }
}
