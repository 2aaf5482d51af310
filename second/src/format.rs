//! Format: lays an empty volume over an image without reading it.

use crate::answer::Written;
use crate::bytes::put;
use crate::edition::Edition;
use crate::index::{IDENTIFIER, MARKER, VOLUME_NAME_AT, VOLUME_STAMP_AT};
use crate::names;
use crate::refusal::{self, Refusal};
use crate::superblock::{self, Geometry, LEAST_INDEX};

/// Formats the image in the edition of this version: refusals 1, 5 and 10.
pub fn format(image: &mut [u8], version: u64, bytes_per_block: u64, reserved: u64, name: &[u8], stamp: i64) -> Written {
    plan(image.len(), version, bytes_per_block, reserved, name)
        .map(|geometry| carry_out(image, &geometry, name, stamp))
        .into()
}

fn plan(length: usize, version: u64, block: u64, reserved: u64, name: &[u8]) -> Result<Geometry, Refusal> {
    if !superblock::length_allowed(length) {
        return Err(refusal::IMAGE_LENGTH);
    }
    let edition = Edition::of_version(version).ok_or(refusal::GEOMETRY)?;
    let image = length as u64;
    let total = image.checked_div(block).ok_or(refusal::GEOMETRY)?;
    let geometry = Geometry { edition, image, block, total, reserved, data: 0, index: LEAST_INDEX };
    if !geometry.is_good() {
        return Err(refusal::GEOMETRY);
    }
    if !names::volume_name_allowed(name) {
        return Err(refusal::BAD_NAME);
    }
    Ok(geometry)
}

fn carry_out(image: &mut [u8], geometry: &Geometry, name: &[u8], stamp: i64) {
    superblock::write(image, geometry, stamp);
    let mut identifier = geometry.edition.bare_slot(IDENTIFIER);
    put(&mut identifier, VOLUME_STAMP_AT, &stamp.to_le_bytes());
    put(&mut identifier, VOLUME_NAME_AT, name);
    geometry.edition.seal(&mut identifier);
    put(image, geometry.slot_offset(0), &geometry.edition.bare_slot(MARKER));
    put(image, geometry.slot_offset(1), &identifier);
}
