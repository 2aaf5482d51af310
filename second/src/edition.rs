//! The two editions of the layout, and all in which they differ. The places of fields are named as edition 1.0 has
//! them; the methods here say where another edition puts them.

use crate::bytes::{put, sum};
use crate::index::{DELETED_DIRECTORY, DELETED_FILE, FIRST_TEXT, SLOT_LENGTH};
use crate::superblock::{MAGIC, MAGIC_BYTES};

/// The byte that makes an entry and its continuing slots sum to 0, where an edition has one.
pub const SUM_AT: usize = 1;
/// How far the super-block of 1.10 lies before that of 1.0.
const EARLIER: usize = 6;

#[derive(Clone, Copy, Debug, Default, PartialEq, Eq, PartialOrd, Ord)]
pub enum Edition {
    #[default]
    V1_0,
    V1_10,
}

impl Edition {
    /// In the order in which their magic is sought.
    pub const ALL: [Edition; 2] = [Edition::V1_0, Edition::V1_10];

    /// The version byte that format writes; it stands for the edition in arguments and answers too.
    pub fn version(self) -> u8 {
        match self {
            Edition::V1_0 => 0x10,
            Edition::V1_10 => 0x1A,
        }
    }

    pub fn name(self) -> &'static str {
        match self {
            Edition::V1_0 => "1.0",
            Edition::V1_10 => "1.10",
        }
    }

    /// The edition that a format with this version lays.
    pub fn of_version(version: u64) -> Option<Self> {
        Edition::ALL.into_iter().find(|edition| u64::from(edition.version()) == version)
    }

    /// The edition of an image goes by its magic alone; where both are, that of 1.0 decides.
    pub fn of_image(image: &[u8]) -> Option<Self> {
        Edition::ALL.into_iter().find(|edition| {
            let rest = image.get(edition.super_field(MAGIC)..).unwrap_or(&[]);
            rest.starts_with(MAGIC_BYTES)
        })
    }

    /// Whether a volume with this version byte can be read.
    pub fn reads(self, version: u8) -> bool {
        match self {
            Edition::V1_0 => version >= self.version(),
            Edition::V1_10 => version == self.version(),
        }
    }

    /// Whether one that can be read may be written too.
    pub fn writes(self, version: u8) -> bool {
        version == self.version()
    }

    /// Where a field of the super-block lies.
    pub fn super_field(self, place: usize) -> usize {
        match self {
            Edition::V1_0 => place,
            Edition::V1_10 => place - EARLIER,
        }
    }

    /// Where a field of a directory or file lies. Unusable entries and the identifier are alike in both editions.
    pub fn entry_field(self, place: usize) -> usize {
        match self {
            Edition::V1_0 => place,
            Edition::V1_10 => place + 1,
        }
    }

    /// The block past a region with this stored end; nothing when no number says it.
    pub fn past(self, end: u64) -> Option<u64> {
        match self {
            Edition::V1_0 => Some(end),
            Edition::V1_10 => end.checked_add(1),
        }
    }

    /// The end to store for a region that ends before this block.
    pub fn stored_end(self, past: u64) -> u64 {
        match self {
            Edition::V1_0 => past,
            Edition::V1_10 => past.wrapping_sub(1),
        }
    }

    pub fn has_sums(self) -> bool {
        self == Edition::V1_10
    }

    /// Whether deleted entries keep their slots and blocks until a reclaim.
    pub fn keeps_deleted(self) -> bool {
        self == Edition::V1_0
    }

    /// Whether a slot of this type outside a run is an unused one that writing calls make look so.
    pub fn rewrites(self, kind: u8) -> bool {
        !self.keeps_deleted() && matches!(kind, DELETED_DIRECTORY | DELETED_FILE | FIRST_TEXT..=0xFF)
    }

    /// Whether a new entry must lie before the entries of its directories.
    pub fn orders_entries(self) -> bool {
        self == Edition::V1_10
    }

    /// Makes the sum of a run right, the run being its first slot and those that continue it.
    pub fn seal(self, run: &mut [u8]) {
        if self.has_sums() {
            put(run, SUM_AT, &[0]);
            let rest = sum(run).wrapping_neg();
            put(run, SUM_AT, &[rest]);
        }
    }

    /// A slot of this type with nothing else in it.
    pub fn bare_slot(self, kind: u8) -> [u8; SLOT_LENGTH] {
        let mut slot = [0; SLOT_LENGTH];
        slot[0] = kind;
        self.seal(&mut slot);
        slot
    }
}
