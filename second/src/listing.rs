//! The text of the listing program.

use crate::answer::Read;
use crate::dates;
use crate::index::{Entry, FILE};
use crate::query;
use crate::refusal::{self, Refusal};
use crate::regions;
use crate::volume::Volume;

/// The most input the listing program takes, in bytes.
pub const MOST_INPUT: usize = 65_536;

/// Room for the text of any image; a lent output has so many bytes at least.
pub const LEAST_ROOM: usize = 131_072;

/// Puts the text of an image at the start of `output`, also that of one that is refused.
pub fn listing(image: &[u8], output: &mut [u8]) -> Read {
    if output.len() < LEAST_ROOM {
        return Read { refusal: refusal::OUTPUT_SHORT, length: 0 };
    }
    let text = listing_text(image);
    match query::lend(output, &text) {
        Ok(()) => Read { refusal: 0, length: text.len() as u64 },
        Err(refusal) => Read { refusal, length: 0 },
    }
}

/// The whole output for an image given as standard input.
pub fn listing_text(input: &[u8]) -> Vec<u8> {
    match accepted(input) {
        Ok(text) => text,
        Err(refusal) => format!("refused {refusal}\n").into_bytes(),
    }
}

fn accepted(input: &[u8]) -> Result<Vec<u8>, Refusal> {
    if input.len() > MOST_INPUT {
        return Err(refusal::IMAGE_LENGTH);
    }
    let volume = Volume::judge(input)?;
    let entries = &volume.index.entries;
    let mut text = [volume.index.volume_name, b"\n"].concat();
    for entry in entries.iter().filter(|entry| entry.is_live()) {
        line(&mut text, entry);
    }
    let edition = volume.super_block.geometry.edition;
    let files = entries.iter().filter(|entry| entry.is_file());
    let held: u64 = files.filter_map(|entry| regions::held(entry, edition)).map(|region| region.blocks()).sum();
    text.extend_from_slice(format!("live {} held {held}\n", volume.live.len()).as_bytes());
    Ok(text)
}

/// Paths are copied as they are stored: nothing in them is replaced or normalised.
fn line(text: &mut Vec<u8>, entry: &Entry) {
    let letter = if entry.kind == FILE { 'F' } else { 'D' };
    let stamp = dates::text(entry.stamp);
    text.extend_from_slice(format!("{letter} {} {stamp} ", entry.length).as_bytes());
    text.extend_from_slice(entry.path);
    text.push(b'\n');
}
