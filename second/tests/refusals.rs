//! Every refusal number by hand, and its order against its neighbours.

mod common;

use common::*;
use second::superblock::{BLOCK_SIZE, CHECKSUM, DATA, INDEX, MAGIC, RESERVED, TOTAL, VERSION};
use second::{
    create_directory, create_file, delete, delete_keep, find, format, list, open, read, reclaim, Listed, Opened,
};

/// 16 blocks of 512 bytes with one directory and three files.
fn sample() -> Vec<u8> {
    let mut image = fresh(8192, 512, 1);
    assert_eq!(mkdir(&mut image, b"d"), 0);
    assert_eq!(mkfile(&mut image, b"d/f", &[1; 600]), 0);
    assert_eq!(mkfile(&mut image, b"g", &[2; 512]), 0);
    assert_eq!(mkfile(&mut image, b"empty", b""), 0);
    image
}

fn with(image: &[u8], at: usize, bytes: &[u8]) -> Vec<u8> {
    let mut copy = image.to_vec();
    put(&mut copy, at, bytes);
    copy
}

#[test]
fn faults_of_the_image_in_order() {
    let mut image = sample();
    let refused = |image: &[u8], number: u8| {
        assert_eq!(all_calls(image, b"g"), [number; 9]);
        assert_eq!(all_calls(image, b""), [number; 9]);
    };
    // Each fault is laid over the ones before, and comes ahead of them all.
    let file = entry_at(&image, b"d/f");
    let empty = entry_at(&image, b"empty");
    put(&mut image, file + 34, b"x/f\0");
    refused(&image, 8);
    put(&mut image, empty + 18, &[9]);
    refused(&image, 7);
    let last = image.len() - 64;
    put(&mut image, last, &[0x10]);
    refused(&image, 6);
    put(&mut image, TOTAL, &[17]);
    refit(&mut image);
    refused(&image, 5);
    image[CHECKSUM] ^= 1;
    refused(&image, 4);
    image[VERSION] = 0x0F;
    refused(&image, 3);
    image[MAGIC] = b's';
    refused(&image, 2);
    refused(&image[..511], 1);
    assert_eq!(opens(&image[..512]), 2);
    image.resize(16_777_217, 0);
    refused(&image, 1);
}

#[test]
fn newer_versions_are_only_read() {
    for version in [0x11, 0x20, 0x7F, 0x80, 0xFF] {
        let mut image = with(&sample(), VERSION, &[version]);
        refit(&mut image);
        assert_eq!(all_calls(&image, b"g"), [0, 0, 0, 0, 9, 9, 9, 9, 9]);
        assert_eq!(all_calls(&image, b""), [0, 10, 0, 10, 9, 9, 9, 9, 9]);
        let gone = entry_at(&image, b"d");
        assert_eq!(all_calls(&with(&image, gone, &[0x19]), b"g"), [8; 9]);
        assert_eq!(format(&mut image, 0x10, 512, 1, b"", 0).refusal, 0);
        assert_eq!(image[VERSION], 0x10);
    }
}

#[test]
fn refusals_of_the_arguments() {
    let image = sample();
    assert_eq!(all_calls(&image, b""), [0, 10, 0, 10, 10, 10, 10, 10, 0]);
    assert_eq!(all_calls(&image, b"no/../x"), [0, 10, 0, 10, 10, 10, 10, 10, 0]);
    assert_eq!(all_calls(&image, b"nope"), [0, 11, 0, 11, 0, 0, 11, 11, 0]);
    assert_eq!(all_calls(&image, b"no/x"), [0, 11, 0, 11, 13, 13, 11, 11, 0]);
    assert_eq!(all_calls(&image, b"g/x"), [0, 11, 0, 11, 13, 13, 11, 11, 0]);
    assert_eq!(all_calls(&image, b"d"), [0, 0, 0, 17, 12, 12, 14, 11, 0]);
    assert_eq!(all_calls(&image, b"g"), [0, 0, 0, 0, 12, 12, 0, 11, 0]);
    assert_eq!(all_calls(&image, &[b'x'; 286]), [0, 11, 0, 11, 10, 10, 11, 11, 0]);
    assert_eq!(all_calls(&image, &[b"no/".to_vec(), vec![b'x'; 283]].concat()), [0, 11, 0, 11, 10, 10, 11, 11, 0]);
}

#[test]
fn paths_allowed_and_not() {
    let image = sample();
    let bad: Vec<u8> = (0..=0xFF).filter(|byte| find(&image, &[*byte]).refusal == 10).collect();
    let mut expected: Vec<u8> = (0..0x20).collect();
    expected.extend(b"\"*./:<>?\\");
    // From 0x80 on no byte is a character by itself.
    expected.extend(0x7F..=0xFF);
    assert_eq!(bad, expected);
    for path in [b"/a".as_slice(), b"a/", b"a//b", b"..", b"a/.", b"a/../b", b"/", b"//", b"./a"] {
        assert_eq!(find(&image, path).refusal, 10);
    }
    for path in [b"...".as_slice(), b".a", b"a.", b"a/...", b"..a/b", b" ", b"a /b"] {
        assert_eq!(find(&image, path).refusal, 11);
    }
}

#[test]
fn slots_before_blocks() {
    let mut image = fresh(1024, 256, 2);
    assert_eq!(create_file(&mut image, b"big", 1, &[1; 257]).refusal, 16);
    assert_eq!(mkfile(&mut image, b"big", &[1; 256]), 0);
    assert_eq!(mkfile(&mut image, b"one", b""), 0);
    let full = image.clone();
    // Index and data area meet: no slot can be added, and no block is free either.
    assert_eq!(mkfile(&mut image, &[b'x'; 285], &[1; 5000]), 15);
    assert_eq!(mkfile(&mut image, b"y", b""), 15);
    assert_eq!(mkfile(&mut image, b"y", &[1]), 15);
    assert_eq!(mkfile(&mut image, b"one", &[1]), 12);
    assert_eq!(mkfile(&mut image, b"no/y", &[1]), 13);
    assert_eq!(mkfile(&mut image, b"no//y", &[1]), 10);
    assert_eq!(image, full);
}

#[test]
fn file_wanted_before_output_short() {
    let image = sample();
    assert_eq!(read(&image, b"d", &mut []).refusal, 17);
    assert_eq!(read(&image, b"no", &mut []).refusal, 11);
    assert_eq!(read(&image, b"", &mut []).refusal, 10);
    let mut output = [0xEE; 511];
    assert_eq!(read(&image, b"g", &mut output), second::Read { refusal: 18, length: 0 });
    assert_eq!(output, [0xEE; 511]);
    assert_eq!(read(&image, b"empty", &mut []), second::Read { refusal: 0, length: 0 });
}

#[test]
fn outputs_of_open_and_list() {
    let image = sample();
    assert_eq!(open(&image, &mut [0; 2]), Opened { refusal: 18, ..Opened::default() });
    let mut output = [0xEE; 4];
    assert_eq!(open(&image, &mut output).name_length, 3);
    assert_eq!(&output, b"VOL\xEE");
    assert_eq!(open(&image, &mut [0; 3]).refusal, 0);
    // Newest first, as the index grows downward: empty, g, d/f, d.
    let listed = list(&image, 3, &mut output);
    assert_eq!((listed.slot, listed.kind, listed.path_length), (3, 0x12, 3));
    assert_eq!(&output, b"d/f\xEE");
    assert_eq!(list(&image, 3, &mut [0; 2]), Listed { refusal: 18, ..Listed::default() });
    for slot in [5, 6, 1 << 32, u64::MAX] {
        assert_eq!(list(&image, slot, &mut output), Listed::default());
    }
    assert_eq!(&output, b"d/f\xEE");
}

#[test]
fn format_in_order() {
    let refused = |length: usize, block: u64, reserved: u64, name: &[u8]| {
        let mut image = vec![0xEE; length];
        let number = format(&mut image, 0x10, block, reserved, name, 3).refusal;
        assert!(number == 0 || image.iter().all(|byte| *byte == 0xEE));
        number
    };
    assert_eq!(refused(511, 0, 0, b"/"), 1);
    assert_eq!(refused(16_777_217, 512, 1, b""), 1);
    assert_eq!(refused(512, 256, 2, b"/"), 5);
    assert_eq!(refused(1024, 256, 2, b"/"), 10);
    assert_eq!(refused(1024, 256, 2, b""), 0);
    for block in [0, 1, 128, 255, 257, 768, 8192, (1 << 32) + 512, 1 << 63, u64::MAX] {
        assert_eq!(refused(12_288 * 2, block, 2, b""), 5);
    }
    for reserved in [0, 7, 8, 1 << 32, (1 << 32) + 1, 1 << 55, (1 << 55) + 1, u64::MAX] {
        assert_eq!(refused(4096, 512, reserved, b""), 5);
    }
    assert_eq!(refused(4096, 512, 6, b""), 0);
    assert_eq!(refused(4097, 512, 1, b""), 5);
    assert_eq!(refused(4096, 512, 1, &[b'n'; 51]), 0);
    assert_eq!(refused(4096, 512, 1, &[b'n'; 52]), 10);
    for name in [b"a/b".as_slice(), b"a\0", b"\x7f", b"?", b"\xa1", b"\xc2\xa0"] {
        assert_eq!(refused(4096, 512, 1, name), 10);
    }
    for name in [b".".as_slice(), b"..", b"", b"\xc2\xa1"] {
        assert_eq!(refused(4096, 512, 1, name), 0);
    }
}

#[test]
fn format_writes_its_bytes_only() {
    let mut image = vec![0xEE; 4096];
    assert_eq!(format(&mut image, 0x10, 1024, 2, b"ab", -2).refusal, 0);
    let untouched = image[..0x194].iter().chain(&image[0x1BE..4096 - 128]).all(|byte| *byte == 0xEE);
    assert!(untouched);
    assert_eq!(number(&image, 0x194), u64::MAX - 1);
    assert_eq!((data_size(&image), index_size(&image), number(&image, TOTAL)), (0, 128, 4));
    assert_eq!(&image[0x1AC..0x1B0], b"SFS\x10");
    assert_eq!(&image[RESERVED..CHECKSUM], [2, 0, 0, 0, 3]);
    let mut expected = [0; 128];
    expected[0] = 2;
    put(&mut expected[64..], 0, &[1, 0, 0, 0, 0xFE, 255, 255, 255, 255, 255, 255, 255, b'a', b'b']);
    assert_eq!(image[4096 - 128..], expected);
}

#[test]
fn geometry_at_its_boundaries() {
    let image = sample();
    let judged = |at: usize, bytes: &[u8]| {
        let mut copy = with(&image, at, bytes);
        refit(&mut copy);
        opens(&copy)
    };
    let wide = |at: usize, value: u64| judged(at, &value.to_le_bytes());
    // 16 blocks, index 384 bytes, so the ceiling block is 15 and the data area at most 14.
    for (value, expected) in [(3, 0), (14, 0), (15, 5), (u64::MAX, 5), (u64::MAX - 1, 5)] {
        assert_eq!(wide(DATA, value), expected, "data {value}");
    }
    for value in [0, 1, 2, 15, 17, 1 << 55, (1 << 55) + 16, u64::MAX] {
        assert_eq!(wide(TOTAL, value), 5, "total {value}");
    }
    for value in [0, 64, 127, 385, 8193, 8256, 262_208, u64::MAX, u64::MAX - 63, 1 << 63] {
        assert_eq!(wide(INDEX, value), 5, "index {value}");
    }
    // Good sizes whose first slot is no marker.
    for value in [128, 320, 448] {
        assert_eq!(wide(INDEX, value), 6, "index {value}");
    }
    for (value, expected) in [(0, 5), (2, 7), (12, 7), (13, 5), (14, 5), (15, 5), (u32::MAX, 5)] {
        assert_eq!(judged(RESERVED, &value.to_le_bytes()), expected, "reserved {value}");
    }
    for value in [0, 1, 3, 6, 7, 0x40, 0x80, 0xFF] {
        assert_eq!(judged(BLOCK_SIZE, &[value]), 5, "block size {value}");
    }
}

#[test]
fn index_faults() {
    let image = sample();
    let file = entry_at(&image, b"d/f");
    let directory = entry_at(&image, b"d");
    let identifier = image.len() - 64;
    let six = |at: usize, bytes: &[u8]| assert_eq!(opens(&with(&image, at, bytes)), 6, "{at} {bytes:?}");
    for kind in [0x01, 0x02, 0x20, 0x41, 0x7F, 0x80, 0xFF] {
        six(file, &[kind]);
    }
    six(slot_at(&image, 0), &[0x10]);
    six(identifier, &[0x02]);
    six(identifier + 12, &[b'v'; 52]);
    six(identifier + 12, b"a/b\0");
    // The directory's slot is the last before the identifier.
    six(directory + 1, &[1]);
    six(file + 1, &[2]);
    six(file + 1, &[255]);
    six(file + 34, &[b'f'; 30]);
    six(file + 34, &[0]);
    for name in [b"/f\0".as_slice(), b"d/\0", b"d//f\0", b".\0", b"d/..\0", b"d\x1F\0", b"\xFF\0", b":\0"] {
        six(file + 34, name);
    }
    // A deleted entry's name is judged too.
    six(file, &[&[0x1A], &image[file + 1..file + 34], b"?\0"].concat());
}

#[test]
fn index_without_fault() {
    let image = sample();
    let file = entry_at(&image, b"d/f");
    let identifier = image.len() - 64;
    let good = |at: usize, bytes: &[u8]| assert_eq!(opens(&with(&image, at, bytes)), 0, "{at} {bytes:?}");
    for kind in (0x00..0x20).filter(|kind| ![0x01, 0x02, 0x11, 0x12, 0x18, 0x19, 0x1A].contains(kind)) {
        good(file, &[kind]);
        assert_eq!(find(&with(&image, file, &[kind]), b"d/f").refusal, 11);
    }
    good(slot_at(&image, 0) + 1, &[0xFF; 63]);
    good(identifier + 1, &[0xFF; 11]);
    good(identifier + 12, &[b'v'; 51]);
    good(identifier + 12, b"..\0/");
    good(file + 38, &[0xFF; 26]);
    // The run of `d/f` swallows `d`, whose bytes are name then; but the path loses its directory.
    assert_eq!(opens(&with(&image, file + 1, &[1])), 8);
    let mut swallowed = with(&image, file + 1, &[1]);
    put(&mut swallowed, file + 34, b"f\0");
    assert_eq!(opens(&swallowed), 0);
    assert_eq!(find(&swallowed, b"d").refusal, 11);
}

#[test]
fn region_faults() {
    let image = sample();
    let file = entry_at(&image, b"d/f");
    // `d/f` has blocks 1 and 2, `g` block 3; the data area ends at 4.
    let judged = |entry: usize, start: u64, end: u64, length: u64| {
        let numbers = [start, end, length].map(u64::to_le_bytes).concat();
        [0x12, 0x1A].map(|kind| opens(&with(&with(&image, entry, &[kind]), entry + 10, &numbers)))
    };
    assert_eq!(judged(file, 1, 3, 1024), [0, 0]);
    assert_eq!(judged(file, 1, 3, 0), [0, 0]);
    assert_eq!(judged(file, 0, 0, 0), [0, 0]);
    let bad = [
        (1, 3, 1025),
        (0, 3, 600),
        (0, 0, 1),
        (1, 1, 0),
        (2, 1, 0),
        (0, 1, 0),
        (1, 4, 600),
        (3, 4, 0),
        (4, 5, 0),
        (1, u64::MAX, 0),
        (u64::MAX, 1, 0),
        (1, 3, u64::MAX),
        (4, 4, 0),
        (1, 0, 0),
    ];
    for (start, end, length) in bad {
        assert_eq!(judged(file, start, end, length), [7, 7], "{start} {end} {length}");
    }
}

#[test]
fn unusable_regions() {
    let image = sample();
    let empty = entry_at(&image, b"empty");
    // Unusable entries: no empty form, no shared block, byte 1 is no count, length not judged.
    let unusable = |start: u64, end: u64| {
        let slot =
            [&[0x18, 255, 1, 2, 3, 4, 5, 6, 7, 8], &start.to_le_bytes()[..], &end.to_le_bytes(), &[0xFF; 38]].concat();
        let mut copy = with(&image, DATA, &5u64.to_le_bytes());
        put(&mut copy, empty, &slot);
        opens(&copy)
    };
    assert_eq!([unusable(4, 5), unusable(4, 6), unusable(5, 6)], [0, 0, 0]);
    assert_eq!([unusable(0, 0), unusable(4, 4), unusable(3, 4), unusable(0, 1), unusable(5, 7)], [7; 5]);
}

#[test]
fn path_faults() {
    let image = sample();
    let rename = |from: &[u8], to: &[u8]| {
        let entry = entry_at(&image, from);
        opens(&with(&image, entry + 34, &[to, b"\0"].concat()))
    };
    assert_eq!([rename(b"g", b"empty"), rename(b"g", b"d"), rename(b"g", b"d/f")], [8; 3]);
    assert_eq!([rename(b"g", b"x/g"), rename(b"g", b"empty/g"), rename(b"g", b"d/f/g")], [8; 3]);
    assert_eq!([rename(b"g", b"d/g"), rename(b"g", b"dd"), rename(b"g", b"D")], [0; 3]);
    let directory = entry_at(&image, b"d");
    assert_eq!([0x19, 0x10].map(|kind| opens(&with(&image, directory, &[kind]))), [8; 2]);
    // Deleted entries count for nothing here.
    let mut copy = image.clone();
    let entry = entry_at(&copy, b"g");
    put(&mut copy, entry + 34, b"no/where\0");
    put(&mut copy, entry, &[0x1A]);
    assert_eq!(opens(&copy), 0);
    put(&mut copy, entry + 34, b"d/f\0");
    assert_eq!(opens(&copy), 0);
}

#[test]
fn directories_that_are_not_empty() {
    let mut image = sample();
    assert_eq!(mkdir(&mut image, b"d-"), 0);
    assert_eq!(mkdir(&mut image, b"d/e"), 0);
    for call in [delete, delete_keep] {
        let mut image = image.clone();
        for (path, refusal) in [(b"d".as_slice(), 14), (b"d/f", 0), (b"d", 14), (b"d/e", 0), (b"d", 0)] {
            assert_eq!(call(&mut image, path, 1).refusal, refusal);
        }
        assert_eq!(create_file(&mut image, b"d/f", 1, b"").refusal, 13);
        assert_eq!(create_directory(&mut image, b"d", 1).refusal, 0);
        assert_eq!(reclaim(&mut image, 1).refusal, 0);
    }
}
