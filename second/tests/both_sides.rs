//! The named cases, on both sides of each line.

mod common;

use common::*;
use second::superblock::CHECKSUM;
use second::{create_directory, create_file, delete, delete_keep, find, format, listing_text, read, reclaim};

#[test]
fn checksum_of_a_floppy() {
    let image = fresh(2_880 * 512, 512, 2);
    assert_eq!(image[CHECKSUM], 0xB5);
}

/// The count of continuing slots an accepted create stores, or the refusal number as an error.
fn continuing(length: usize, directory: bool) -> Result<u8, u8> {
    let mut image = fresh(65_536, 512, 2);
    let path = vec![b'n'; length];
    let refused = if directory { mkdir(&mut image, &path) } else { mkfile(&mut image, &path, b"") };
    if refused != 0 {
        return Err(refused);
    }
    assert_eq!(index_size(&image), 128 + 64 * (1 + u64::from(image[entry_at(&image, &path) + 1])));
    Ok(image[entry_at(&image, &path) + 1])
}

#[test]
fn continuing_slots() {
    for (length, count) in
        [(1, 0), (29, 0), (30, 1), (93, 1), (94, 2), (157, 2), (158, 3), (221, 3), (222, 4), (285, 4)]
    {
        assert_eq!(continuing(length, false), Ok(count), "file name of {length}");
    }
    for (length, count) in [(1, 0), (53, 0), (54, 1), (117, 1), (118, 2), (285, 4)] {
        assert_eq!(continuing(length, true), Ok(count), "directory name of {length}");
    }
    assert_eq!(continuing(286, false), Err(10));
    assert_eq!(continuing(286, true), Err(10));
}

#[test]
fn a_name_that_fills_its_slot() {
    // The continuing slot of a 30-byte name starts with its zero, which looks like an unused slot.
    let mut image = fresh(65_536, 512, 2);
    let long = vec![b'n'; 30];
    assert_eq!(mkfile(&mut image, &long, b"abc"), 0);
    let slot = entry_at(&image, &long);
    assert_eq!(image[slot + 64], 0);
    assert_eq!(mkfile(&mut image, b"short", b""), 0);
    assert_eq!(find(&image, &long).slot, 2);
    let mut output = [0; 3];
    assert_eq!(read(&image, &long, &mut output).refusal, 0);
    assert_eq!(&output, b"abc");
}

#[test]
fn the_largest_file() {
    let empty = fresh(65_536, 512, 2);
    let mut image = empty.clone();
    assert_eq!(mkfile(&mut image, b"f", &[1; 64_001]), 16);
    assert_eq!(image, empty);
    assert_eq!(mkfile(&mut image, b"f", &[1; 64_000]), 0);
    assert_eq!(data_size(&image), 125);
}

#[test]
fn the_sixth_empty_file() {
    let mut image = fresh(65_536, 512, 2);
    assert_eq!(mkfile(&mut image, b"big", &[1; 64_000]), 0);
    for path in [b"1", b"2", b"3", b"4", b"5"] {
        assert_eq!(mkfile(&mut image, path, b""), 0);
    }
    assert_eq!(mkfile(&mut image, b"6", b""), 15);
    // Accepted at once after a plain delete, and after one that keeps when it is reclaimed.
    let mut wiped = image.clone();
    assert_eq!(delete(&mut wiped, b"big", 8).refusal, 0);
    assert_eq!(mkfile(&mut wiped, b"6", b""), 0);
    assert_eq!(delete_keep(&mut image, b"big", 8).refusal, 0);
    assert_eq!(mkfile(&mut image, b"6", b""), 15);
    assert_eq!(reclaim(&mut image, 9).refusal, 0);
    assert_eq!(mkfile(&mut image, b"6", b""), 0);
}

#[test]
fn small_cases() {
    assert_eq!(format(&mut vec![0; 4096], 0x10, 256, 1, b"", 0).refusal, 5);
    assert_eq!(format(&mut vec![0; 4096], 0x10, 256, 2, b"", 0).refusal, 0);
    assert_eq!(all_calls(&[], b"f"), [1; 9]);
    assert_eq!(format(&mut [], 0x10, 512, 2, b"", 0).refusal, 1);
    let mut image = fresh(4096, 512, 1);
    mkfile(&mut image, b"f", b"");
    for call in [delete, delete_keep] {
        let mut image = image.clone();
        assert_eq!([call(&mut image, b"f", 0).refusal, call(&mut image, b"f", 0).refusal], [0, 11]);
    }
}

#[test]
fn listing_of_term7() {
    let mut image = vec![0; 65_536];
    assert_eq!(format(&mut image, 0x10, 512, 2, b"TERM7", 0).refusal, 0);
    assert_eq!(create_directory(&mut image, b"session", 0x3C_0000).refusal, 0);
    assert_eq!(create_file(&mut image, b"session/verified", -1, b"yes").refusal, 0);
    let expected =
        "TERM7\nF 3 1969-12-31T23:59:59Z session/verified\nD 0 1970-01-01T00:01:00Z session\nlive 2 held 1\n";
    assert_eq!(listing_text(&image), expected.as_bytes());
    image.push(0);
    assert_eq!(listing_text(&image), b"refused 1\n");
    assert_eq!(listing_text(&[0; 512]), b"refused 2\n");
    assert_eq!(listing_text(&[]), b"refused 1\n");
}

#[test]
fn listing_of_odd_volumes() {
    let mut image = vec![0; 4096];
    format(&mut image, 0x10, 512, 1, b"", 0);
    assert_eq!(listing_text(&image), b"\nlive 0 held 0\n");
    mkfile(&mut image, b"\xc3\xbf", &[0; 600]);
    mkfile(&mut image, b"g", &[0; 100]);
    delete_keep(&mut image, b"g", 0);
    assert_eq!(listing_text(&image), b"\nF 600 1970-01-01T00:00:00Z \xc3\xbf\nlive 1 held 3\n");
}
