//! Helpers shared by the tests.
#![allow(dead_code)]

use second::superblock::{self, CHECKSUM, DATA, INDEX};
use second::Edition;
use second::{
    create_directory, create_file, delete, delete_keep, find, format, list, list_all, open, read, reclaim, restore,
    Found, Listed, Opened, Read, Records,
};

/// A freshly formatted image of zeros.
pub fn fresh(length: usize, block: u64, reserved: u64) -> Vec<u8> {
    let mut image = vec![0; length];
    assert_eq!(format(&mut image, 0x10, block, reserved, b"VOL", 7).refusal, 0);
    image
}

pub fn refit(image: &mut [u8]) {
    image[CHECKSUM] = superblock::checksum(image, Edition::V1_0);
}

pub fn put(image: &mut [u8], at: usize, bytes: &[u8]) {
    image[at..at + bytes.len()].copy_from_slice(bytes);
}

pub fn number(image: &[u8], at: usize) -> u64 {
    u64::from_le_bytes(image[at..at + 8].try_into().unwrap())
}

pub fn data_size(image: &[u8]) -> u64 {
    number(image, DATA)
}

pub fn index_size(image: &[u8]) -> u64 {
    number(image, INDEX)
}

/// The byte offset of a slot.
pub fn slot_at(image: &[u8], slot: usize) -> usize {
    image.len() - index_size(image) as usize + 64 * slot
}

/// The byte offset of the live entry of a path.
pub fn entry_at(image: &[u8], path: &[u8]) -> usize {
    let found = find(image, path);
    assert_eq!(found.refusal, 0);
    slot_at(image, found.slot as usize)
}

pub fn mkfile(image: &mut [u8], path: &[u8], bytes: &[u8]) -> u8 {
    create_file(image, path, 5, bytes).refusal
}

pub fn mkdir(image: &mut [u8], path: &[u8]) -> u8 {
    create_directory(image, path, 5).refusal
}

pub fn opens(image: &[u8]) -> u8 {
    open(image, &mut [0; 51]).refusal
}

/// The refusal numbers of open, find, list, read, both creates, delete, restore and reclaim, each called on
/// the image as it is. Asserts that a refusal gives zeros and writes nothing anywhere, that the two deletes
/// answer alike, and that list_all refuses the images that list refuses.
pub fn all_calls(image: &[u8], path: &[u8]) -> [u8; 9] {
    let opened = lend(|output| {
        let answer = open(image, output);
        (answer.refusal, answer == Opened { refusal: answer.refusal, ..Opened::default() })
    });
    let found = find(image, path);
    assert!(found.refusal == 0 || found == Found { refusal: found.refusal, ..Found::default() });
    let listed = lend(|output| {
        let answer = list(image, 0, output);
        (answer.refusal, answer == Listed { refusal: answer.refusal, ..Listed::default() })
    });
    let records = lend(|output| {
        let answer = list_all(image, 0, output);
        (answer.refusal, answer == Records { refusal: answer.refusal, ..Records::default() })
    });
    assert!(records == listed || (listed == 0 && records == 18));
    let got = lend(|output| {
        let answer = read(image, path, output);
        (answer.refusal, answer == Read { refusal: answer.refusal, length: 0 })
    });
    let file = write(image, |image| create_file(image, path, 9, b"xyz").refusal);
    let directory = write(image, |image| create_directory(image, path, 9).refusal);
    let deleted = write(image, |image| delete(image, path, 9).refusal);
    assert_eq!(write(image, |image| delete_keep(image, path, 9).refusal), deleted);
    let restored = write(image, |image| restore(image, path, 9).refusal);
    let reclaimed = write(image, |image| reclaim(image, 9).refusal);
    [opened, found.refusal, listed, got, file, directory, deleted, restored, reclaimed]
}

/// Makes a call with an output of its own.
fn lend(call: impl Fn(&mut [u8]) -> (u8, bool)) -> u8 {
    let mut output = vec![0xEE; 1100];
    let (refusal, zeros) = call(&mut output);
    let untouched = output.iter().all(|byte| *byte == 0xEE);
    assert!(refusal == 0 || (zeros && untouched), "refusal {refusal} gave more than its number");
    refusal
}

/// The byte offsets at which two images differ.
pub fn changed(before: &[u8], after: &[u8]) -> Vec<usize> {
    (0..before.len()).filter(|at| before[*at] != after[*at]).collect()
}

/// Makes a writing call on a copy.
fn write(image: &[u8], call: impl Fn(&mut [u8]) -> u8) -> u8 {
    let mut copy = image.to_vec();
    let refusal = call(&mut copy);
    assert!(refusal == 0 || copy == image, "refusal {refusal} wrote to the image");
    refusal
}
