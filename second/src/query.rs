//! The calls that only look: open, find, list, list_all and read.

use crate::answer::{Found, Listed, Opened, Read, Records};
use crate::bytes::put;
use crate::index::{Entry, FILE};
use crate::refusal::{self, Refusal};
use crate::volume::Volume;

/// Where the path starts in a record, behind seven numbers.
pub const RECORD_PATH: usize = 56;
/// Room for the records of any image. A largest index full of directories whose names fill their slots has the most, 446,246 bytes.
pub const RECORDS_ROOM: usize = 491_520;

/// Opens the image and puts the volume name at the start of `output`.
pub fn open(image: &[u8], output: &mut [u8]) -> Opened {
    match try_open(image, output) {
        Ok(opened) => opened,
        Err(refusal) => Opened { refusal, ..Opened::default() },
    }
}

fn try_open(image: &[u8], output: &mut [u8]) -> Result<Opened, Refusal> {
    let Volume { super_block, index, .. } = Volume::judge(image)?;
    let geometry = super_block.geometry;
    lend(output, index.volume_name)?;
    Ok(Opened {
        refusal: 0,
        version: super_block.version,
        total: geometry.total,
        reserved: geometry.reserved,
        block_length: geometry.block,
        data_blocks: geometry.data,
        index_bytes: geometry.index,
        stamp: super_block.stamp,
        volume_stamp: index.volume_stamp,
        name_length: index.volume_name.len() as u64,
        edition: geometry.edition.version(),
    })
}

/// Finds the live entry of a path.
pub fn find(image: &[u8], path: &[u8]) -> Found {
    let found = Volume::judge(image).and_then(|volume| volume.lookup(path).map(Found::of));
    found.unwrap_or_else(|refusal| Found { refusal, ..Found::default() })
}

/// The live entry with the lowest first slot at or above `slot`, its path at the start of `output`.
pub fn list(image: &[u8], slot: u64, output: &mut [u8]) -> Listed {
    match try_list(image, slot, output) {
        Ok(listed) => listed,
        Err(refusal) => Listed { refusal, ..Listed::default() },
    }
}

fn try_list(image: &[u8], slot: u64, output: &mut [u8]) -> Result<Listed, Refusal> {
    let volume = Volume::judge(image)?;
    let next = volume.index.entries.iter().find(|entry| entry.is_live() && entry.slot >= slot);
    let Some(entry) = next else { return Ok(Listed::default()) };
    lend(output, entry.path)?;
    Ok(Listed::of(entry))
}

/// A record for each live entry whose first slot is at or above `slot`, at the start of `output`: as many as fit.
pub fn list_all(image: &[u8], slot: u64, output: &mut [u8]) -> Records {
    match try_list_all(image, slot, output) {
        Ok(records) => records,
        Err(refusal) => Records { refusal, ..Records::default() },
    }
}

fn try_list_all(image: &[u8], slot: u64, output: &mut [u8]) -> Result<Records, Refusal> {
    let volume = Volume::judge(image)?;
    let mut records = Records::default();
    let mut rest = output;
    for entry in volume.index.entries.iter().filter(|entry| entry.is_live() && entry.slot >= slot) {
        let record = record(entry);
        match lend(rest, &record) {
            // Without a record there is nowhere to go on from.
            Err(short) if records.count == 0 => return Err(short),
            Err(_) => return Ok(records),
            Ok(()) => rest = &mut rest[record.len()..],
        }
        records.count += 1;
        records.length += record.len() as u64;
        records.next = entry.slot + 1;
    }
    Ok(Records { next: 0, ..records })
}

/// What a list answers of the entry, 8 bytes a number, and its path.
fn record(entry: &Entry) -> Vec<u8> {
    let Listed { slot, kind, start, end, length, stamp, path_length, .. } = Listed::of(entry);
    let numbers = [slot, kind.into(), start, end, length, stamp as u64, path_length];
    [&numbers.map(u64::to_le_bytes).concat(), entry.path].concat()
}

/// Copies a live file's bytes to the start of `output`.
pub fn read(image: &[u8], path: &[u8], output: &mut [u8]) -> Read {
    match try_read(image, path, output) {
        Ok(length) => Read { refusal: 0, length },
        Err(refusal) => Read { refusal, length: 0 },
    }
}

fn try_read(image: &[u8], path: &[u8], output: &mut [u8]) -> Result<u64, Refusal> {
    let volume = Volume::judge(image)?;
    let entry = volume.lookup(path)?;
    if entry.kind != FILE {
        return Err(refusal::NOT_A_FILE);
    }
    let start = volume.super_block.geometry.block_offset(entry.start);
    // The region was judged to lie in the image, so the bytes are there.
    let bytes = image.get(start..).and_then(|rest| rest.get(..entry.length as usize));
    lend(output, bytes.ok_or(refusal::REGIONS)?)?;
    Ok(entry.length)
}

/// Copies to the start of a lent output: refusal 18 when it is too short.
pub fn lend(output: &mut [u8], bytes: &[u8]) -> Result<(), Refusal> {
    if output.len() < bytes.len() {
        return Err(refusal::OUTPUT_SHORT);
    }
    put(output, 0, bytes);
    Ok(())
}
