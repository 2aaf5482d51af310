//! The super-block and the geometry it stores: refusals 1 to 5.

use crate::bytes::{get_i64, get_u32, get_u64, get_u8, put, sum};
use crate::edition::Edition;
use crate::refusal::{self, Refusal};

/// Where edition 1.0 has the fields; `Edition::super_field` says where they are.
pub const STAMP: usize = 0x194;
pub const DATA: usize = 0x19C;
pub const INDEX: usize = 0x1A4;
pub const MAGIC: usize = 0x1AC;
pub const VERSION: usize = 0x1AF;
pub const TOTAL: usize = 0x1B0;
pub const RESERVED: usize = 0x1B8;
pub const BLOCK_SIZE: usize = 0x1BC;
pub const CHECKSUM: usize = 0x1BD;

pub const MAGIC_BYTES: &[u8] = b"SFS";
pub const LEAST_IMAGE: usize = 512;
pub const MOST_IMAGE: usize = 16_777_216;
pub const LEAST_INDEX: u64 = 128;
pub const MOST_INDEX: u64 = 262_144;
pub const SLOT: u64 = 64;

/// The edition and the sizes of a volume. `image` and `index` are bytes, `block` is bytes per block, and
/// the other three are counts of blocks.
#[derive(Clone, Copy, Debug, PartialEq, Eq)]
pub struct Geometry {
    pub edition: Edition,
    pub image: u64,
    pub block: u64,
    pub total: u64,
    pub reserved: u64,
    pub data: u64,
    pub index: u64,
}

/// A super-block whose refusals 1 to 5 have been judged.
#[derive(Clone, Copy, Debug, PartialEq, Eq)]
pub struct SuperBlock {
    pub version: u8,
    pub stamp: i64,
    pub geometry: Geometry,
}

/// Bytes per block for a stored block size field.
pub fn block_length(field: u8) -> Option<u64> {
    (1..=5).contains(&field).then(|| 128 << field)
}

/// The block size field for a number of bytes per block.
pub fn block_field(length: u64) -> Option<u8> {
    (1..=5).find(|field| block_length(*field) == Some(length))
}

impl Geometry {
    /// Judges all the sizes together. The sums and products are made in 128 bits, where 64-bit
    /// fields cannot wrap.
    pub fn is_good(&self) -> bool {
        let [image, block, total, reserved, data, index] =
            [self.image, self.block, self.total, self.reserved, self.data, self.index].map(u128::from);
        let Some(ceiling) = self.ceiling() else { return false };
        block_field(self.block).is_some()
            && total * block == image
            && reserved * block >= 512
            && reserved + 2 <= total
            && (u128::from(LEAST_INDEX)..=u128::from(MOST_INDEX)).contains(&index)
            && index % u128::from(SLOT) == 0
            && reserved + data <= u128::from(ceiling)
    }

    /// The exclusive end of the blocks a region may use, or nothing when the index is larger than
    /// the image.
    pub fn ceiling(&self) -> Option<u64> {
        self.image.checked_sub(self.index)?.checked_div(self.block)
    }

    /// The exclusive end of the data area, as a block number.
    pub fn data_end(&self) -> u64 {
        self.reserved.saturating_add(self.data)
    }

    /// The byte offset of a block.
    pub fn block_offset(&self, block: u64) -> usize {
        usize::try_from(block.saturating_mul(self.block)).unwrap_or(usize::MAX)
    }

    /// The byte offset of a slot.
    pub fn slot_offset(&self, slot: u64) -> usize {
        let offset = self.image.saturating_sub(self.index).saturating_add(slot.saturating_mul(SLOT));
        usize::try_from(offset).unwrap_or(usize::MAX)
    }

    /// The number of slots of the index area.
    pub fn slots(&self) -> u64 {
        self.index / SLOT
    }

    /// The geometry the fields hold, good or not; nothing when the block size field is out of range.
    pub fn stored(image: &[u8], edition: Edition) -> Option<Geometry> {
        let at = |field| edition.super_field(field);
        Some(Geometry {
            edition,
            image: image.len() as u64,
            block: block_length(get_u8(image, at(BLOCK_SIZE)))?,
            total: get_u64(image, at(TOTAL)),
            reserved: u64::from(get_u32(image, at(RESERVED))),
            data: get_u64(image, at(DATA)),
            index: get_u64(image, at(INDEX)),
        })
    }
}

pub fn length_allowed(length: usize) -> bool {
    (LEAST_IMAGE..=MOST_IMAGE).contains(&length)
}

/// The checksum that is right for the other fields it covers.
pub fn checksum(image: &[u8], edition: Edition) -> u8 {
    let covered = edition.super_field(MAGIC)..edition.super_field(CHECKSUM);
    sum(image.get(covered).unwrap_or(&[])).wrapping_neg()
}

/// Judges refusals 1 to 5, in that order.
pub fn judge(image: &[u8]) -> Result<SuperBlock, Refusal> {
    if !length_allowed(image.len()) {
        return Err(refusal::IMAGE_LENGTH);
    }
    let edition = Edition::of_image(image).ok_or(refusal::MAGIC)?;
    let version = get_u8(image, edition.super_field(VERSION));
    if !edition.reads(version) {
        return Err(refusal::OTHER_VERSION);
    }
    if get_u8(image, edition.super_field(CHECKSUM)) != checksum(image, edition) {
        return Err(refusal::CHECKSUM);
    }
    let geometry = Geometry::stored(image, edition).filter(Geometry::is_good).ok_or(refusal::GEOMETRY)?;
    Ok(SuperBlock { version, stamp: get_i64(image, edition.super_field(STAMP)), geometry })
}

/// Writes every field of a super-block, the checksum last.
pub fn write(image: &mut [u8], geometry: &Geometry, stamp: i64) {
    let edition = geometry.edition;
    let at = |field| edition.super_field(field);
    let reserved = u32::try_from(geometry.reserved).unwrap_or(u32::MAX);
    put(image, at(STAMP), &stamp.to_le_bytes());
    put(image, at(DATA), &geometry.data.to_le_bytes());
    put(image, at(INDEX), &geometry.index.to_le_bytes());
    put(image, at(MAGIC), MAGIC_BYTES);
    put(image, at(VERSION), &[edition.version()]);
    put(image, at(TOTAL), &geometry.total.to_le_bytes());
    put(image, at(RESERVED), &reserved.to_le_bytes());
    put(image, at(BLOCK_SIZE), &[block_field(geometry.block).unwrap_or(0)]);
    let checksum = checksum(image, edition);
    put(image, at(CHECKSUM), &[checksum]);
}

/// Writes the two sizes that calls may change. The stamp tells of a change of size, so an equal
/// geometry leaves it alone; the checksum covers neither size.
pub fn write_sizes(image: &mut [u8], old: &Geometry, new: &Geometry, stamp: i64) {
    if old.data == new.data && old.index == new.index {
        return;
    }
    let at = |field| old.edition.super_field(field);
    put(image, at(STAMP), &stamp.to_le_bytes());
    put(image, at(DATA), &new.data.to_le_bytes());
    put(image, at(INDEX), &new.index.to_le_bytes());
}
