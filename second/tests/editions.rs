//! Edition 1.10 on small images worked out by hand, and both sides of each line between the editions.

mod common;

use common::{changed, put};
use second::history::{History, Told};
use second::{
    create_directory, create_file, delete, delete_keep, find, format, list, listing_text, open, read, reclaim, restore,
};
use second::{Edition, Found, Listed, Opened};

const OLD: u64 = 0x10;
const NEW: u64 = 0x1A;

/// A slot that starts with these bytes; the rest is zeros.
fn slot(bytes: &[u8]) -> [u8; 64] {
    let mut slot = [0; 64];
    slot[..bytes.len()].copy_from_slice(bytes);
    slot
}

/// A run whose byte 1 makes it sum to 0, worked out anew.
fn sealed(run: &[u8]) -> Vec<u8> {
    let mut run = run.to_vec();
    run[1] = 0;
    let sum: u32 = run.iter().map(|byte| u32::from(*byte)).sum();
    run[1] = ((256 - sum % 256) % 256) as u8;
    run
}

const UNUSED: [u8; 2] = [0x10, 0xF0];

fn fresh(length: usize, block: u64, reserved: u64) -> Vec<u8> {
    let mut image = vec![0; length];
    assert_eq!(format(&mut image, NEW, block, reserved, b"VOL", 7).refusal, 0);
    image
}

fn number(image: &[u8], at: usize) -> u64 {
    u64::from_le_bytes(image[at..at + 8].try_into().unwrap())
}

fn stamp(image: &[u8]) -> u64 {
    number(image, 0x18E)
}

fn data_size(image: &[u8]) -> u64 {
    number(image, 0x196)
}

fn index_size(image: &[u8]) -> u64 {
    number(image, 0x19E)
}

fn at_slot(image: &[u8], slot: u64) -> usize {
    image.len() - index_size(image) as usize + 64 * slot as usize
}

fn slot_of(image: &[u8], path: &[u8]) -> u64 {
    let found = find(image, path);
    assert_eq!(found.refusal, 0, "{path:x?}");
    found.slot
}

fn entry_at(image: &[u8], path: &[u8]) -> usize {
    at_slot(image, slot_of(image, path))
}

fn opens(image: &[u8]) -> u8 {
    let answer = open(image, &mut [0; 51]);
    assert!(answer.refusal == 0 || answer == Opened { refusal: answer.refusal, ..Opened::default() });
    answer.refusal
}

fn with(image: &[u8], at: usize, bytes: &[u8]) -> Vec<u8> {
    let mut copy = image.to_vec();
    put(&mut copy, at, bytes);
    copy
}

/// With these bytes, and the run that starts at `run` sealed anew.
fn resealed(image: &[u8], run: usize, at: usize, bytes: &[u8]) -> Vec<u8> {
    let mut copy = with(image, at, bytes);
    let count = if matches!(copy[run], 0x11 | 0x12 | 0x19 | 0x1A) { usize::from(copy[run + 2]) } else { 0 };
    let end = run + 64 * (1 + count);
    let bytes = sealed(&copy[run..end]);
    put(&mut copy, run, &bytes);
    copy
}

/// The checksum made right.
fn refit(image: &mut [u8]) {
    let sum: u32 = image[0x1A6..0x1B7].iter().map(|byte| u32::from(*byte)).sum();
    image[0x1B7] = ((256 - sum % 256) % 256) as u8;
}

fn mkfile(image: &mut [u8], path: &[u8], bytes: &[u8]) -> u8 {
    create_file(image, path, 5, bytes).refusal
}

fn mkdir(image: &mut [u8], path: &[u8]) -> u8 {
    create_directory(image, path, 5).refusal
}

/// An index of these slots between the markers, on 16 blocks of 512 bytes with one reserved and `data` of them used.
fn indexed(data: u64, slots: &[[u8; 64]]) -> Vec<u8> {
    let mut image = fresh(8192, 512, 1);
    let index = 128 + 64 * slots.len() as u64;
    put(&mut image, 0x196, &data.to_le_bytes());
    put(&mut image, 0x19E, &index.to_le_bytes());
    let area = at_slot(&image, 0);
    let bytes: Vec<u8> = std::iter::once(slot(&[2, 0xFE])).chain(slots.iter().copied()).flatten().collect();
    put(&mut image, area, &bytes);
    image
}

/// The slots of a sealed run.
fn run_of(run: &[u8]) -> Vec<[u8; 64]> {
    sealed(run).chunks(64).map(|part| part.try_into().unwrap()).collect()
}

fn file(start: u64, end: u64, length: u64, name: &[u8]) -> [u8; 64] {
    let numbers = [start, end, length].map(u64::to_le_bytes).concat();
    run_of(&slot(&[&[0x12, 0, 0, 9, 0, 0, 0, 0, 0, 0, 0], numbers.as_slice(), name].concat()))[0]
}

fn directory(name: &[u8]) -> [u8; 64] {
    run_of(&slot(&[&[0x11, 0, 0, 9, 0, 0, 0, 0, 0, 0, 0], name].concat()))[0]
}

fn unusable(start: u64, end: u64) -> [u8; 64] {
    run_of(&slot(&[&[0x18, 0, 1, 2, 3, 4, 5, 6, 7, 8], &start.to_le_bytes()[..], &end.to_le_bytes()].concat()))[0]
}

/// A deleted head that claims so many slots behind it, its sum still to be made.
fn deleted(count: u8) -> [u8; 64] {
    slot(&[0x1A, 0, count, 1, 2, 3])
}

#[test]
fn format_writes_its_bytes_only() {
    let mut image = vec![0xEE; 4096];
    assert_eq!(format(&mut image, NEW, 1024, 2, b"ab", -2).refusal, 0);
    let mut expected = vec![0xEE; 4096];
    #[rustfmt::skip]
    let super_block = [
        0xFE, 0xFF, 0xFF, 0xFF, 0xFF, 0xFF, 0xFF, 0xFF, // stamp
        0, 0, 0, 0, 0, 0, 0, 0, // data
        128, 0, 0, 0, 0, 0, 0, 0, // index
        0x53, 0x46, 0x53, 0x1A,
        4, 0, 0, 0, 0, 0, 0, 0, // total
        2, 0, 0, 0, // reserved
        3,
        // 0x53 + 0x46 + 0x53 + 0x1A + 4 + 2 + 3 = 0x10F
        0xF1,
    ];
    put(&mut expected, 0x18E, &super_block);
    put(&mut expected, 4096 - 128, &slot(&[0x02, 0xFE]));
    // 1 + 0xFE + 7 × 0xFF + 0x61 + 0x62 = 0x8BB
    let identifier = [1, 0x45, 0, 0, 0xFE, 0xFF, 0xFF, 0xFF, 0xFF, 0xFF, 0xFF, 0xFF, b'a', b'b'];
    put(&mut expected, 4096 - 64, &slot(&identifier));
    assert_eq!(image, expected);
}

#[test]
fn checksum_of_a_floppy() {
    // The example of document 004, and the same volume in edition 1.0.
    for (version, at, checksum) in [(NEW, 0x1B7, 0xAB), (OLD, 0x1BD, 0xB5)] {
        let mut image = vec![0; 2_880 * 512];
        assert_eq!(format(&mut image, version, 512, 2, b"", 0).refusal, 0);
        assert_eq!(image[at], checksum);
    }
}

#[test]
fn the_file_entry_of_document_004() {
    #[rustfmt::skip]
    let entry = [
        0x12, 0x18, 0x00, 0x00, 0x00, 0x9F, 0xD8, 0xA6, 0x5B, 0x00, 0x00, 0xA0, 0x03, 0x00, 0x00, 0x00,
        0x00, 0x00, 0x00, 0x35, 0x04, 0x00, 0x00, 0x00, 0x00, 0x00, 0x00, 0x9C, 0x2A, 0x01, 0x00, 0x00,
        0x00, 0x00, 0x00, 0x73, 0x79, 0x73, 0x74, 0x65, 0x6D, 0x2F, 0x62, 0x6F, 0x6F, 0x74, 0x2F, 0x6C,
        0x6F, 0x61, 0x64, 0x65, 0x72, 0x2E, 0x73, 0x79, 0x73, 0x00, 0x00, 0x00, 0x00, 0x00, 0x00, 0x00,
    ];
    let mut image = fresh(2_880 * 512, 512, 2);
    put(&mut image, 0x196, &0xA8Cu64.to_le_bytes());
    put(&mut image, 0x19E, &320u64.to_le_bytes());
    let area = at_slot(&image, 0);
    let slots = [slot(&[2, 0xFE]), entry, directory(b"system/boot"), directory(b"system")];
    put(&mut image, area, &slots.concat());
    let expected = Found {
        refusal: 0,
        slot: 1,
        kind: 0x12,
        start: 0x3A0,
        end: 0x435,
        length: 76_444,
        stamp: 0x0000_5BA6_D89F_0000,
    };
    assert_eq!(find(&image, b"system/boot/loader.sys"), expected);
    image[area + 65] ^= 1;
    assert_eq!(opens(&image), 6);
}

/// 65,536 bytes named TERM7, a directory and a file of three bytes in it.
fn term7() -> Vec<u8> {
    let mut image = vec![0; 65_536];
    assert_eq!(format(&mut image, NEW, 512, 2, b"TERM7", 0).refusal, 0);
    assert_eq!(create_directory(&mut image, b"session", 0x3C_0000).refusal, 0);
    assert_eq!(create_file(&mut image, b"session/verified", -1, b"yes").refusal, 0);
    image
}

#[test]
fn a_file_of_three_bytes_in_a_directory() {
    let mut expected = vec![0; 65_536];
    #[rustfmt::skip]
    let super_block = [
        0xFF, 0xFF, 0xFF, 0xFF, 0xFF, 0xFF, 0xFF, 0xFF, // the stamp of the last change of size
        1, 0, 0, 0, 0, 0, 0, 0, // data
        0, 1, 0, 0, 0, 0, 0, 0, // index
        0x53, 0x46, 0x53, 0x1A,
        128, 0, 0, 0, 0, 0, 0, 0, // total
        2, 0, 0, 0, // reserved
        2, 0x76,
    ];
    put(&mut expected, 0x18E, &super_block);
    put(&mut expected, 1024, b"yes");
    #[rustfmt::skip]
    let file = [
        &[0x12, 0x6E, 0, 0xFF, 0xFF, 0xFF, 0xFF, 0xFF, 0xFF, 0xFF, 0xFF][..],
        &[2, 0, 0, 0, 0, 0, 0, 0], // start
        &[2, 0, 0, 0, 0, 0, 0, 0], // its last block
        &[3, 0, 0, 0, 0, 0, 0, 0], // length
        b"session/verified",
    ].concat();
    let directory = [&[0x11, 0xAF, 0, 0, 0, 0x3C, 0, 0, 0, 0, 0][..], b"session"].concat();
    let identifier = [&[0x01, 0x90, 0, 0, 0, 0, 0, 0, 0, 0, 0, 0][..], b"TERM7"].concat();
    let slots = [slot(&[2, 0xFE]), slot(&file), slot(&directory), slot(&identifier)].concat();
    put(&mut expected, 65_536 - 256, &slots);
    let image = term7();
    assert_eq!(changed(&expected, &image), []);
    let text = "TERM7\nF 3 1969-12-31T23:59:59Z session/verified\nD 0 1970-01-01T00:01:00Z session\nlive 2 held 1\n";
    assert_eq!(listing_text(&image), text.as_bytes());
    let opened = Opened {
        refusal: 0,
        version: 0x1A,
        total: 128,
        reserved: 2,
        block_length: 512,
        data_blocks: 1,
        index_bytes: 256,
        stamp: -1,
        volume_stamp: 0,
        name_length: 5,
        edition: 0x1A,
    };
    let mut output = [0xEE; 6];
    assert_eq!(open(&image, &mut output), opened);
    assert_eq!(&output, b"TERM7\xEE");
    let found = Found { refusal: 0, slot: 1, kind: 0x12, start: 2, end: 2, length: 3, stamp: -1 };
    assert_eq!(find(&image, b"session/verified"), found);
    let mut output = [0xEE; 16];
    let Found { slot, kind, start, end, length, stamp, .. } = found;
    let listed = Listed { refusal: 0, slot, kind, start, end, length, stamp, path_length: 16 };
    assert_eq!(list(&image, 0, &mut output), listed);
    assert_eq!(&output, b"session/verified");
    let mut output = [0xEE; 4];
    assert_eq!(read(&image, b"session/verified", &mut output).length, 3);
    assert_eq!(&output, b"yes\xEE");
}

#[test]
fn delete_keep_empties_the_slots_and_no_more() {
    let mut image = term7();
    assert_eq!(delete_keep(&mut image, b"session", 9).refusal, 14);
    for path in [b"session/verified".as_slice(), b"session"] {
        let entry = entry_at(&image, path);
        let expected = with(&image, entry, &slot(&UNUSED));
        assert_eq!(delete_keep(&mut image, path, 9).refusal, 0);
        assert_eq!(changed(&expected, &image), []);
        assert_eq!(delete_keep(&mut image, path, 9).refusal, 11);
        assert_eq!(restore(&mut image, path, 9).refusal, 11);
        assert_eq!(changed(&expected, &image), []);
    }
    assert_eq!(listing_text(&image), b"TERM7\nlive 0 held 0\n");
    // The data area is as it was until a reclaim, which trims it and stamps the super-block.
    let before = image.clone();
    assert_eq!((data_size(&image), reclaim(&mut image, 77).refusal), (1, 0));
    assert_eq!((data_size(&image), stamp(&image), index_size(&image)), (0, 77, 256));
    assert!(changed(&before, &image).into_iter().all(|at| (0x18E..0x19E).contains(&at)));
    let before = image.clone();
    assert_eq!(reclaim(&mut image, 78).refusal, 0);
    assert_eq!(changed(&before, &image), []);
}

#[test]
fn blocks_come_back_at_a_delete_that_keeps() {
    let mut image = fresh(65_536, 512, 2);
    assert_eq!(mkfile(&mut image, b"big", &[1; 64_001]), 16);
    assert_eq!(mkfile(&mut image, b"big", &[1; 64_000]), 0);
    assert_eq!((find(&image, b"big").start, find(&image, b"big").end, data_size(&image)), (2, 126, 125));
    for path in [b"1", b"2", b"3", b"4", b"5"] {
        assert_eq!(mkfile(&mut image, path, b""), 0);
    }
    assert_eq!(mkfile(&mut image, b"6", b""), 15);
    assert_eq!(delete_keep(&mut image, b"big", 8).refusal, 0);
    // Its slot is free, and so are its blocks, though the data area still covers them.
    assert_eq!((mkfile(&mut image, b"6", &[2; 64_000]), slot_of(&image, b"6")), (0, 6));
    assert_eq!(mkfile(&mut image, b"7", b""), 15);
    assert_eq!(delete_keep(&mut image, b"6", 8).refusal, 0);
    assert_eq!(mkfile(&mut image, &[b'7'; 29], b""), 15);
    assert_eq!(reclaim(&mut image, 9).refusal, 0);
    assert_eq!(mkfile(&mut image, &[b'7'; 29], b""), 0);
}

#[test]
fn continuing_slots() {
    let made = |length: usize, is_file: bool, version: u64| {
        let mut image = vec![0; 8192];
        assert_eq!(format(&mut image, version, 512, 1, b"", 0).refusal, 0);
        let path = vec![b'n'; length];
        assert_eq!(if is_file { mkfile(&mut image, &path, b"") } else { mkdir(&mut image, &path) }, 0);
        assert_eq!(find(&image, &path).slot, 1);
        let size = number(&image, if version == NEW { 0x19E } else { 0x1A4 });
        let entry = 8192 - size as usize + 64;
        let count = image[entry + if version == NEW { 2 } else { 1 }];
        assert_eq!(size, 192 + 64 * u64::from(count));
        count
    };
    let files = [(1, 0), (28, 0), (29, 1), (92, 1), (93, 2), (156, 2), (157, 3), (284, 4), (285, 5)];
    for (length, count) in files {
        assert_eq!(made(length, true, NEW), count, "file name of {length}");
    }
    for (length, count) in [(1, 0), (52, 0), (53, 1), (116, 1), (117, 2), (244, 3), (245, 4), (285, 4)] {
        assert_eq!(made(length, false, NEW), count, "directory name of {length}");
    }
    assert_eq!([made(29, true, OLD), made(285, true, OLD), made(53, false, OLD)], [0, 4, 0]);
    let mut image = fresh(8192, 512, 1);
    assert_eq!([mkfile(&mut image, &[b'n'; 286], b""), mkdir(&mut image, &[b'n'; 286])], [10, 10]);
}

#[test]
fn a_run_of_six_slots() {
    let mut image = fresh(8192, 512, 1);
    let path = vec![b'n'; 285];
    assert_eq!(create_file(&mut image, &path, -3, b"abc").refusal, 0);
    assert_eq!(index_size(&image), 512);
    let mut run = vec![0; 384];
    put(&mut run, 0, &[0x12, 0, 5, 0xFD, 255, 255, 255, 255, 255, 255, 255, 1]);
    put(&mut run, 19, &[1]);
    put(&mut run, 27, &[3]);
    put(&mut run, 35, &path);
    // The name fills the first five slots; its zero is all that the sixth is for.
    assert_eq!(run[319], b'n');
    let area = at_slot(&image, 0);
    assert_eq!(image[area..area + 64], slot(&[2, 0xFE]));
    assert_eq!(image[area + 64..area + 448], sealed(&run));
    assert_eq!(delete_keep(&mut image, &path, 1).refusal, 0);
    assert_eq!(image[area + 64..area + 448], slot(&UNUSED).repeat(6));
    // All six serve again.
    assert_eq!(mkdir(&mut image, &path), 0);
    assert_eq!((slot_of(&image, &path), index_size(&image)), (1, 512));
}

#[test]
fn versions_of_a_format() {
    let refused = |length: usize, version: u64, block: u64, name: &[u8]| {
        let mut image = vec![0xEE; length];
        let number = format(&mut image, version, block, 2, name, 3).refusal;
        assert!(number == 0 || image.iter().all(|byte| *byte == 0xEE));
        number
    };
    for version in [OLD, NEW] {
        assert_eq!(refused(4096, version, 512, b"a"), 0);
        assert_eq!(refused(4096, version, 512, b"/"), 10);
        assert_eq!(refused(4096, version, 500, b"/"), 5);
        assert_eq!(refused(511, version, 500, b"/"), 1);
        assert_eq!(refused(1024, version, 256, b""), 0);
    }
    let others =
        [0, 1, 0x0F, 0x11, 0x19, 0x1B, 0x20, 0xFF, 0x110, 0x11A, 0x1_0000_0010, 0x1_0000_001A, 1 << 63, u64::MAX];
    for version in others {
        assert_eq!(refused(4096, version, 512, b"a"), 5, "{version:x}");
        assert_eq!(refused(4096, version, 512, b"/"), 5, "{version:x}");
        assert_eq!(refused(511, version, 512, b"/"), 1, "{version:x}");
    }
}

#[test]
fn formats_from_one_edition_to_the_other() {
    let mut image = vec![0xEE; 8192];
    for version in [OLD, NEW, OLD, NEW, NEW, OLD, OLD] {
        assert_eq!(format(&mut image, version, 512, 1, b"x", 4).refusal, 0);
        let opened = open(&image, &mut [0; 1]);
        assert_eq!((opened.refusal, u64::from(opened.edition), u64::from(opened.version)), (0, version, version));
        assert_eq!((opened.total, opened.reserved, opened.data_blocks, opened.index_bytes), (16, 1, 0, 128));
        assert_eq!(mkfile(&mut image, b"f", &[1; 600]), 0);
        let found = find(&image, b"f");
        assert_eq!((found.start, found.end), if version == NEW { (1, 2) } else { (1, 3) });
    }
}

#[test]
fn versions_of_an_image() {
    let image = term7();
    for version in (0..=0xFF).filter(|version| *version != 0x1A) {
        let mut copy = with(&image, 0x1A9, &[version]);
        // Before the checksum, which is wrong at first.
        assert_eq!(opens(&copy), 3);
        refit(&mut copy);
        assert_eq!(opens(&copy), 3);
        assert_eq!(mkfile(&mut copy, b"x", b""), 3);
    }
    // In the place of edition 1.0 it is a higher version.
    let mut old = vec![0; 8192];
    format(&mut old, OLD, 512, 1, b"", 0);
    old[0x1AF] = 0x1A;
    old[0x1BD] = old[0x1BD].wrapping_sub(0x0A);
    let opened = open(&old, &mut []);
    assert_eq!((opened.refusal, opened.version, opened.edition), (0, 0x1A, 0x10));
    assert_eq!(mkfile(&mut old, b"x", b""), 9);
}

#[test]
fn magic_decides() {
    let image = term7();
    assert_eq!(opens(&with(&image, 0x1A6, b"SFs")), 2);
    // With the magic of 1.0 it is 1.0, whose version, the sixth byte of the total here, is too low.
    let both = with(&image, 0x1AC, b"SFS");
    assert_eq!(opens(&both), 3);
    // Were it sought first, 1.10 would be refused too: the total is too large.
    let mut both_refitted = both.clone();
    refit(&mut both_refitted);
    assert_eq!(opens(&both_refitted), 3);
    assert_eq!(opens(&with(&both_refitted, 0x1AC, &[0, 0, 0])), 4);
    // A whole super-block of 1.0 with the other magic in its index size.
    let mut old = vec![0; 8192];
    format(&mut old, OLD, 512, 1, b"", 0);
    assert_eq!(opens(&with(&old, 0x1A6, b"SFS")), 5);
    assert_eq!(opens(&with(&with(&old, 0x1A6, b"SFS"), 0x1BD, &[0])), 4);
    assert_eq!(opens(&with(&with(&old, 0x1A6, b"SFS"), 0x1AC, b"sfs")), 3);
    assert_eq!(opens(&with(&old, 0x1AC, b"sfs")), 2);
    // Nothing but the magic: the other place is not tried.
    let mut bare = with(&image, 0x1AC, b"SFS\x10");
    bare[0x1BD] = 0;
    let sum: u32 = bare[0x1AC..0x1BD].iter().map(|byte| u32::from(*byte)).sum();
    bare[0x1BD] = ((256 - sum % 256) % 256) as u8;
    assert_eq!(opens(&bare), 5);
    bare[0x1BD] ^= 1;
    assert_eq!(opens(&bare), 4);
}

#[test]
fn faults_of_the_image_in_order() {
    let mut image = term7();
    assert_eq!(mkfile(&mut image, b"g", b""), 0);
    let refused = |image: &[u8], number: u8| {
        assert_eq!(opens(image), number);
        for path in [b"g".as_slice(), b""] {
            let mut copy = image.to_vec();
            assert_eq!([find(image, path).refusal, read(image, path, &mut []).refusal], [number; 2]);
            assert_eq!([mkfile(&mut copy, path, b""), mkdir(&mut copy, path)], [number; 2]);
            let deletes = [delete(&mut copy, path, 1), delete_keep(&mut copy, path, 1)];
            assert_eq!(deletes.map(|answer| answer.refusal), [number; 2]);
            let changes = [restore(&mut copy, path, 1), reclaim(&mut copy, 1)];
            assert_eq!(changes.map(|answer| answer.refusal), [number; 2]);
            assert_eq!(changed(&copy, image), []);
        }
    };
    let (housed, empty) = (entry_at(&image, b"session/verified"), entry_at(&image, b"g"));
    image = resealed(&image, housed, housed + 35, b"x");
    refused(&image, 8);
    image = resealed(&image, empty, empty + 27, &[1]);
    refused(&image, 7);
    let identifier = image.len() - 64;
    image[identifier + 1] ^= 1;
    refused(&image, 6);
    image[0x1AA] = 129;
    refit(&mut image);
    refused(&image, 5);
    image[0x1B7] ^= 1;
    refused(&image, 4);
    image[0x1A9] = 0x10;
    refused(&image, 3);
    image[0x1A6] = b's';
    refused(&image, 2);
    refused(&image[..511], 1);
}

#[test]
fn a_wrong_sum_of_every_kind() {
    let long = run_of(&[&slot(&[&[0x12, 0, 1][..], &[0; 32], &[b'n'; 29]].concat())[..], &slot(b"nn")].concat());
    let slots = [file(1, 1, 3, b"f"), directory(b"d"), unusable(2, 3), long[0], long[1], slot(&UNUSED)];
    let image = indexed(3, &slots);
    assert_eq!(opens(&image), 0);
    assert_eq!(find(&image, &[b'n'; 31]).slot, 4);
    let area = at_slot(&image, 0);
    // Marker, file, directory, unusable entry, both slots of a name, identifier; the unused slot's is not judged.
    for (slot, refusal) in [(0, 6), (1, 6), (2, 6), (3, 6), (4, 6), (5, 6), (6, 0), (7, 6)] {
        for place in [1, 62, 63] {
            for more in [1, 0x80, 0xFF] {
                let at = area + 64 * slot + place;
                assert_eq!(opens(&with(&image, at, &[image[at].wrapping_add(more)])), refusal, "{slot} {place}");
            }
        }
    }
    // With a right sum spare bytes and those behind a name's zero are not judged.
    for (slot, place) in [(0, 2), (0, 63), (1, 63), (2, 63), (3, 9), (3, 63), (7, 2), (7, 63)] {
        let run = area + 64 * slot;
        assert_eq!(opens(&resealed(&image, run, run + place, &[0x77])), 0, "{slot} {place}");
    }
    // All bytes count, also the last of a run.
    let run = area + 64 * 4;
    assert_eq!(opens(&resealed(&image, run, run + 127, &[0x77])), 0);
}

/// Asserts what a volume with these slots is to `find` and to a reclaim: the entries' slots, and which slots the call
/// rewrites.
fn judged(slots: &[[u8; 64]], found: &[(&[u8], u64)], rewritten: &[u64]) {
    let image = indexed(4, slots);
    assert_eq!(opens(&image), 0);
    for (path, slot) in found {
        assert_eq!(find(&image, path).slot, *slot, "{path:x?}");
    }
    let mut expected = image.clone();
    for one in rewritten {
        let at = at_slot(&image, *one);
        put(&mut expected, at, &slot(&UNUSED));
    }
    let mut after = image.clone();
    // A file at the end of the data area, where there is one, keeps the trim away.
    assert_eq!(reclaim(&mut after, 1).refusal, 0);
    put(&mut after, 0x18E, &image[0x18E..0x19E]);
    assert_eq!(changed(&expected, &after), []);
    assert_eq!(opens(&after), 0);
}

#[test]
fn deleted_runs_and_strays() {
    let live = file(4, 4, 9, b"f");
    let wrong = |mut run: Vec<[u8; 64]>| {
        run[0][1] ^= 0x40;
        run
    };
    let two = run_of(&[deleted(1), slot(b"text")].concat());
    // A right run is unused slots, all of them.
    judged(&[two[0], two[1], live], &[(b"f", 3)], &[1, 2]);
    // Of a wrong one only the first is; the text in the other is a stray slot, which is unused as well.
    let other = wrong(two.clone());
    judged(&[other[0], other[1], live], &[(b"f", 3)], &[1, 2]);
    // Behind a wrong head a live entry, an unusable one, an unused slot, which stays as it is.
    judged(&[wrong(run_of(&[deleted(2), live, unusable(2, 3)].concat()))[0], live, unusable(2, 3)], &[(b"f", 2)], &[1]);
    let odd = slot(&[0x13, 7, 7, 7]);
    judged(&[wrong(run_of(&[deleted(1), odd].concat()))[0], odd, live], &[(b"f", 3)], &[1]);
    // A right one swallows the live entry.
    let swallowing = run_of(&[deleted(1), live].concat());
    judged(&[swallowing[0], live], &[(b"f", 0)], &[1, 2]);
    // A right head behind a wrong one, and a wrong one behind a wrong one.
    let head = wrong(run_of(&[deleted(2), two[0], two[1]].concat()))[0];
    judged(&[head, two[0], two[1], live], &[(b"f", 4)], &[1, 2, 3]);
    let head = wrong(run_of(&[deleted(3), other[0], live].concat()))[0];
    judged(&[head, other[0], live, slot(&UNUSED)], &[(b"f", 3)], &[1, 2]);
    // Strays, and what only looks like one.
    judged(&[slot(&[0x20]), slot(&[0xFF; 64]), slot(&[0x1F; 64]), live], &[(b"f", 4)], &[1, 2]);
    // Names and regions of deleted runs are not judged.
    let mut bad = slot(&[&[0x1A, 0, 0][..], &[0; 8], &[0xFF; 24], b"?//"].concat());
    bad[1] = sealed(&bad)[1];
    judged(&[bad, live], &[(b"f", 2)], &[1]);
}

#[test]
fn deleted_runs_that_reach_the_identifier() {
    let live = file(4, 4, 9, b"f");
    // Slots 1 to 3 and the identifier at 4. Up to slot 3 the run may go.
    let whole = run_of(&[deleted(2), live, slot(&UNUSED)].concat());
    judged(&[whole[0], live, slot(&UNUSED)], &[(b"f", 0)], &[1, 2, 3]);
    let identifier = &fresh(8192, 512, 1)[8128..];
    for count in [3, 4, 254, 255] {
        // The sum is right when the identifier is taken in, and is of no use.
        let mut slots = [deleted(count), live, slot(&UNUSED)];
        slots[0][1] = sealed(&[&slots.concat()[..], identifier].concat())[1];
        judged(&slots, &[(b"f", 2)], &[1]);
    }
    // A live run that reaches it is refused, with any sum.
    let mut reaching = directory(b"d");
    for sum in 0..=0xFF {
        reaching[..3].copy_from_slice(&[0x11, sum, 1]);
        assert_eq!(opens(&indexed(4, &[live, reaching])), 6);
    }
}

#[test]
fn markers_inside_deleted_runs() {
    for kind in [0x01, 0x02] {
        let marker = run_of(&slot(&[kind]))[0];
        let right = run_of(&[deleted(1), marker].concat());
        assert_eq!(opens(&indexed(0, &[right[0], marker])), 0);
        let mut wrong = right.clone();
        wrong[0][1] ^= 1;
        assert_eq!(opens(&indexed(0, &[wrong[0], marker])), 6);
        assert_eq!(opens(&indexed(0, &[slot(&UNUSED), marker])), 6);
        assert_eq!(opens(&indexed(0, &[slot(&[0x41]), marker])), 6);
    }
}

#[test]
fn rewriting_comes_with_every_accepted_writing_call() {
    let two = run_of(&[deleted(1), slot(b"text")].concat());
    let image = indexed(4, &[two[0], two[1], slot(&[0x41; 64]), file(4, 4, 9, b"f"), directory(b"d")]);
    let area = at_slot(&image, 0);
    let tidy = with(&image, area + 64, &slot(&UNUSED).repeat(3));
    let mut output = [0; 99];
    assert_eq!([opens(&image), find(&image, b"f").refusal, read(&image, b"f", &mut output).refusal], [0; 3]);
    assert_eq!(list(&image, 0, &mut output).slot, 4);
    // Refused: as it was.
    let mut copy = image.clone();
    assert_eq!(
        [mkfile(&mut copy, b"", b""), mkfile(&mut copy, b"f", b""), mkfile(&mut copy, b"x/f", b"")],
        [10, 12, 13]
    );
    assert_eq!(mkfile(&mut copy, b"x", &[0; 9_999]), 16);
    let refused = [delete(&mut copy, b"x", 1), delete_keep(&mut copy, b"x", 1), restore(&mut copy, b"f", 1)];
    assert_eq!(refused.map(|answer| answer.refusal), [11; 3]);
    assert_eq!(restore(&mut copy, b"?", 1).refusal, 10);
    assert_eq!(changed(&copy, &image), []);
    // A reclaim that has nothing else to do, the deletes, and a create into the first of the slots.
    assert_eq!((reclaim(&mut copy, 1).refusal, changed(&copy, &tidy)), (0, vec![]));
    for call in [delete, delete_keep] {
        let mut copy = image.clone();
        assert_eq!(call(&mut copy, b"d", 1).refusal, 0);
        assert_eq!(changed(&copy, &with(&tidy, area + 320, &slot(&UNUSED))), []);
    }
    let mut copy = image.clone();
    assert_eq!(create_directory(&mut copy, b"e", 9).refusal, 0);
    assert_eq!(changed(&copy, &with(&tidy, area + 64, &directory(b"e"))), []);
    // Three slots do not hold six, so the index grows; they are rewritten all the same.
    let mut copy = image.clone();
    assert_eq!(mkfile(&mut copy, &[b'n'; 285], b""), 0);
    assert_eq!((index_size(&copy), slot_of(&copy, b"f")), (7 * 64 + 6 * 64, 10));
    assert_eq!(copy[area + 64..area + 256], tidy[area + 64..area + 256]);
    // A format rewrites nothing.
    let mut copy = image.clone();
    assert_eq!(format(&mut copy, NEW, 512, 1, b"", 0).refusal, 0);
    assert_eq!(copy[..8192 - 128][area..], image[..8192 - 128][area..]);
}

#[test]
fn last_blocks() {
    // 16 blocks, one reserved, a data area of four: blocks 1 to 4.
    let answer = |slots: &[[u8; 64]]| opens(&indexed(4, slots));
    let alone = |start: u64, end: u64, length: u64| answer(&[file(start, end, length, b"f")]);
    for (start, end, length) in [(1, 1, 512), (1, 1, 0), (1, 4, 2048), (4, 4, 1), (0, 0, 0)] {
        assert_eq!(alone(start, end, length), 0, "{start} {end} {length}");
    }
    let bad = [
        (1, 1, 513),
        (1, 4, 2049),
        (1, 5, 1),
        (5, 5, 0),
        (0, 0, 1),
        (0, 1, 0),
        (1, 0, 0),
        (2, 1, 0),
        (1, u64::MAX, 0),
        (u64::MAX, u64::MAX, 0),
        (0, u64::MAX, 0),
        (1, u64::MAX - 1, 0),
        (1, 4, u64::MAX),
    ];
    for (start, end, length) in bad {
        assert_eq!(alone(start, end, length), 7, "{start} {end} {length}");
    }
    let unusable_alone = |start: u64, end: u64| answer(&[unusable(start, end)]);
    assert_eq!([unusable_alone(1, 1), unusable_alone(1, 4), unusable_alone(4, 4)], [0; 3]);
    assert_eq!([unusable_alone(0, 0), unusable_alone(4, 5), unusable_alone(2, 1), unusable_alone(1, u64::MAX)], [7; 4]);
    // Touching is fine, one shared block is not.
    assert_eq!(answer(&[file(1, 2, 9, b"f"), unusable(3, 4)]), 0);
    assert_eq!(answer(&[file(1, 3, 9, b"f"), unusable(3, 4)]), 7);
    assert_eq!(answer(&[file(1, 2, 9, b"f"), file(2, 2, 9, b"g")]), 7);
    assert_eq!(answer(&[unusable(2, 2), unusable(2, 2)]), 7);
    // An empty data area leaves room for none but empty files.
    assert_eq!(opens(&indexed(0, &[file(0, 0, 0, b"f")])), 0);
    assert_eq!(opens(&indexed(0, &[file(1, 1, 0, b"f")])), 7);
}

#[test]
fn a_create_between_held_blocks() {
    let mut image =
        indexed(8, &[slot(&UNUSED), slot(&UNUSED), file(1, 2, 9, b"f"), unusable(4, 5), file(8, 8, 0, b"g")]);
    assert_eq!(mkfile(&mut image, b"two", &[1; 1024]), 0);
    assert_eq!((find(&image, b"two").start, find(&image, b"two").end), (6, 7));
    assert_eq!(mkfile(&mut image, b"one", &[1; 512]), 0);
    assert_eq!((find(&image, b"one").start, find(&image, b"one").end, data_size(&image)), (3, 3, 8));
    assert_eq!(mkfile(&mut image, b"next", &[1; 513]), 0);
    assert_eq!((find(&image, b"next").start, find(&image, b"next").end, data_size(&image)), (9, 10, 10));
    assert_eq!(listing_text(&image).split(|byte| *byte == b'\n').rev().nth(1), Some(b"live 5 held 8".as_slice()));
    assert_eq!(delete_keep(&mut image, b"next", 1).refusal, 0);
    assert_eq!((data_size(&image), reclaim(&mut image, 1).refusal, data_size(&image)), (10, 0, 8));
}

#[test]
fn before_the_entries_of_all_its_directories() {
    let unused = slot(&UNUSED);
    // Slot 1 holds `p`, 2 none, 3 `a/b`, 4 none, 5 `a`, 6 none.
    let slots = [directory(b"p"), unused, directory(b"a/b"), unused, directory(b"a"), unused];
    let image = indexed(0, &slots);
    let made = |path: &[u8]| {
        let mut copy = image.clone();
        assert_eq!(mkdir(&mut copy, path), 0);
        (slot_of(&copy, path), index_size(&copy) - index_size(&image))
    };
    assert_eq!(made(b"x"), (2, 0));
    assert_eq!(made(b"a/x"), (2, 0));
    assert_eq!(made(b"a/b/x"), (2, 0));
    // Only slot 1 would lie before `p`.
    assert_eq!(made(b"p/x"), (1, 64));
    // The order of the leading ones among themselves does not matter: the first of them counts.
    let slots = [unused, directory(b"a"), unused, unused, directory(b"a/b")];
    let image = indexed(0, &slots);
    assert_eq!(opens(&image), 0);
    let mut copy = image.clone();
    assert_eq!([mkdir(&mut copy, b"a/b/x"), mkdir(&mut copy, b"a/b/y"), mkdir(&mut copy, b"z")], [0; 3]);
    assert_eq!((slot_of(&copy, b"a/b/x"), slot_of(&copy, b"a/b/y"), slot_of(&copy, b"z")), (2, 1, 4));
    // Two slots are there, but behind the directory.
    let mut copy = image.clone();
    let path = [&b"a/"[..], &[b'n'; 60]].concat();
    assert_eq!(mkdir(&mut copy, &path), 0);
    assert_eq!((slot_of(&copy, &path), index_size(&copy)), (1, index_size(&image) + 128));
    assert_eq!(mkdir(&mut copy, &[b'n'; 60]), 0);
    assert_eq!(slot_of(&copy, &[b'n'; 60]), 5);
    // Edition 1.0 takes the lowest, wherever the directory is.
    let mut old = vec![0; 8192];
    format(&mut old, OLD, 512, 1, b"", 0);
    for path in [b"f", b"g", b"d"] {
        assert_eq!(mkdir(&mut old, path), 0);
    }
    assert_eq!([delete_keep(&mut old, b"g", 1).refusal, reclaim(&mut old, 1).refusal], [0; 2]);
    assert_eq!(mkdir(&mut old, b"d/x"), 0);
    assert_eq!((find(&old, b"d/x").slot, find(&old, b"d").slot), (2, 1));
}

#[test]
fn no_slot_before_a_directory_on_a_full_volume() {
    let mut image = fresh(1024, 256, 2);
    assert_eq!([mkdir(&mut image, b"f"), mkdir(&mut image, b"d")], [0; 2]);
    assert_eq!(delete_keep(&mut image, b"f", 1).refusal, 0);
    assert_eq!(mkfile(&mut image, b"x", &[1; 256]), 0);
    assert_eq!(delete_keep(&mut image, b"x", 1).refusal, 0);
    // A slot is free behind `d`, and the data area still leaves no room for another before it.
    assert_eq!((index_size(&image), data_size(&image)), (256, 1));
    assert_eq!([mkdir(&mut image, b"d/x"), mkfile(&mut image, b"d/x", &[1; 999])], [15; 2]);
    assert_eq!(mkfile(&mut image, b"e", &[1; 999]), 16);
    assert_eq!(mkdir(&mut image, b"e"), 0);
    assert_eq!(reclaim(&mut image, 1).refusal, 0);
    assert_eq!(mkfile(&mut image, b"d/x", &[1]), 16);
    assert_eq!(mkdir(&mut image, b"d/x"), 0);
}

#[test]
fn histories_of_both_editions() {
    let mut image = fresh(8192, 512, 1);
    let mut history = History::begin(NEW, 512);
    for path in [b"a", b"b"] {
        assert_eq!(create_file(&mut image, path, 0, &[1; 600]).refusal, 0);
        history.tell(Told::File { path, bytes: &[1; 600] }, true);
    }
    assert_eq!(history.check(&image), Ok(()));
    // A changed byte, another type, a shorter region, a wrong sum, a marker's too.
    let entry = entry_at(&image, b"b");
    let marker = at_slot(&image, 0);
    for (at, byte) in [(513, 9), (entry, 0x1A), (entry + 19, 3), (entry + 1, 0), (entry + 35, b'c'), (marker + 2, 1)] {
        assert!(history.check(&with(&image, at, &[byte])).is_err(), "{at}");
    }
    assert!(history.check(&resealed(&image, entry, entry + 19, &[3])).is_err());
    assert!(history.check(&resealed(&image, entry, entry + 35, b"c")).is_err());
    // Struck and given back at the delete; a reclaim gives nothing more.
    history.tell(Told::DeleteKeep { path: b"a" }, false);
    assert_eq!(history.check(&image), Ok(()));
    history.tell(Told::DeleteKeep { path: b"a" }, true);
    assert!(history.check(&image).is_err());
    assert_eq!(delete_keep(&mut image, b"a", 1).refusal, 0);
    assert_eq!(history.check(&image), Ok(()));
    history.tell(Told::Reclaim, true);
    assert_eq!(history.check(&image), Ok(()));
    history.tell(Told::Restore { path: b"a" }, false);
    assert_eq!(history.check(&image), Ok(()));
    // In edition 1.0 the same call keeps them.
    for (version, kept) in [(OLD, true), (NEW, false)] {
        assert_eq!(format(&mut image, version, 512, 1, b"", 0).refusal, 0);
        history.tell(Told::Format { version, block: 512 }, true);
        assert_eq!(history.check(&image), Ok(()));
        assert_eq!(mkfile(&mut image, b"a", &[1; 600]), 0);
        history.tell(Told::File { path: b"a", bytes: &[1; 600] }, true);
        assert_eq!(delete_keep(&mut image, b"a", 1).refusal, 0);
        history.tell(Told::DeleteKeep { path: b"a" }, true);
        assert_eq!(history.check(&image), Ok(()));
        assert_eq!(restore(&mut image, b"a", 1).refusal, if kept { 0 } else { 11 });
        history.tell(Told::Restore { path: b"a" }, kept);
        assert_eq!(history.check(&image), Ok(()));
    }
}

#[test]
fn editions_by_number() {
    for (edition, version) in [(Edition::V1_0, 0x10), (Edition::V1_10, 0x1A)] {
        assert_eq!((Edition::of_version(version), u64::from(edition.version())), (Some(edition), version));
        assert_eq!(
            [edition.past(3), edition.past(u64::MAX - 1)].map(|past| past.map(|past| edition.stored_end(past))),
            [Some(3), Some(u64::MAX - 1)]
        );
    }
    assert_eq!((Edition::V1_0.past(u64::MAX), Edition::V1_10.past(u64::MAX)), (Some(u64::MAX), None));
    assert_eq!(Edition::V1_10.bare_slot(0x10), slot(&UNUSED));
    assert_eq!(Edition::V1_10.bare_slot(0x02), slot(&[0x02, 0xFE]));
    assert_eq!(Edition::V1_0.bare_slot(0x10), slot(&[0x10]));
    assert_eq!(Edition::V1_0.bare_slot(0x02), slot(&[0x02]));
}

#[test]
fn a_full_index() {
    // As many deleted heads as there are slots, each with a wrong sum and the longest run.
    let mut image = vec![0; 294_912];
    format(&mut image, NEW, 512, 1, b"", 0);
    put(&mut image, 0x19E, &262_144u64.to_le_bytes());
    let area = at_slot(&image, 0);
    put(&mut image, area, &slot(&[2, 0xFE]));
    for one in 1..4095 {
        put(&mut image, area + 64 * one, &slot(&[0x1A, 0x01, 255]));
    }
    let begun = std::time::Instant::now();
    assert_eq!(opens(&image), 0);
    println!("open with 4,094 wrong deleted runs: {:?}", begun.elapsed());
    assert_eq!(mkfile(&mut image, b"f", b""), 0);
    assert_eq!(image[area + 128..area + 64 * 4095], slot(&UNUSED).repeat(4093));
    // The same with empty files.
    for one in 1..4095 {
        put(&mut image, area + 64 * one, &file(0, 0, 0, format!("n{one}").as_bytes()));
    }
    let begun = std::time::Instant::now();
    assert_eq!(opens(&image), 0);
    println!("open with 4,094 files: {:?}", begun.elapsed());
    assert_eq!(mkfile(&mut image, b"f", b""), 15);
    assert_eq!(delete_keep(&mut image, b"n9", 1).refusal, 0);
    assert_eq!(mkfile(&mut image, b"f", b""), 0);
    assert_eq!(slot_of(&image, b"f"), 9);
}
