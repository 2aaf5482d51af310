//! What the writing calls put where, byte by byte.

mod common;

use common::*;
use second::superblock::{DATA, STAMP};
use second::{create_directory, create_file, delete, delete_keep, find, format, list, open, read, reclaim};

#[test]
fn growth_moves_the_marker() {
    let mut image = vec![0xEE; 8192];
    format(&mut image, 0x10, 512, 1, b"", 7);
    assert_eq!(create_file(&mut image, &[b'n'; 40], -3, b"abc").refusal, 0);
    assert_eq!(index_size(&image), 256);
    assert_eq!((number(&image, STAMP), data_size(&image)), (-3i64 as u64, 1));
    let marker = slot_at(&image, 0);
    assert_eq!(image[marker], 2);
    assert!(image[marker + 1..marker + 64].iter().all(|byte| *byte == 0));
    let mut run = [0; 128];
    put(&mut run, 0, &[0x12, 1]);
    put(&mut run, 2, &(-3i64).to_le_bytes());
    put(&mut run, 10, &[1]);
    put(&mut run, 18, &[2]);
    put(&mut run, 26, &[3]);
    put(&mut run, 34, &[b'n'; 40]);
    assert_eq!(image[marker + 64..marker + 192], run);
    assert_eq!(&image[512..515], b"abc");
    assert!(image[515..1024].iter().all(|byte| *byte == 0));
    assert!(image[1024..marker].iter().all(|byte| *byte == 0xEE));
}

#[test]
fn first_fit_of_slots() {
    let mut image = fresh(8192, 512, 1);
    for path in [b"a", b"b", b"c", b"d", b"e"] {
        mkfile(&mut image, path, b"");
    }
    // Slots 1 to 5 hold e, d, c, b, a.
    for path in [b"e", b"c", b"b"] {
        delete_keep(&mut image, path, 1);
    }
    let stamp = number(&image, STAMP);
    assert_eq!(mkdir(&mut image, b"early"), 0);
    assert_eq!(find(&image, b"early").slot, 1);
    assert_eq!(number(&image, STAMP), 5);
    assert_eq!(stamp, 5);
    assert_eq!(reclaim(&mut image, 99).refusal, 0);
    // No size changed: the reclaim's stamp is nowhere.
    assert_eq!(number(&image, STAMP), 5);
    // Slot 2 alone is too small for two; 4 and 5 hold them.
    assert_eq!(mkfile(&mut image, &[b'w'; 30], b""), 0);
    assert_eq!(find(&image, &[b'w'; 30]).slot, 4);
    assert_eq!(mkfile(&mut image, b"x", b""), 0);
    assert_eq!(find(&image, b"x").slot, 2);
}

#[test]
fn growth_does_not_join_the_unused_slot() {
    let mut image = fresh(8192, 512, 1);
    mkfile(&mut image, b"a", b"");
    mkfile(&mut image, b"b", b"");
    delete_keep(&mut image, b"b", 1);
    reclaim(&mut image, 1);
    assert_eq!(index_size(&image), 256);
    // Slot 1 is unused, yet the index grows by both slots.
    assert_eq!(mkfile(&mut image, &[b'w'; 30], b""), 0);
    assert_eq!(index_size(&image), 384);
    assert_eq!(image[slot_at(&image, 3)], 0x10);
}

#[test]
fn first_fit_of_blocks() {
    let mut image = fresh(16_384, 512, 1);
    mkfile(&mut image, b"a", &[1; 1024]);
    mkfile(&mut image, b"b", &[2; 512]);
    mkfile(&mut image, b"c", &[3; 512]);
    delete_keep(&mut image, b"a", 1);
    // A deleted file's blocks are not free.
    mkfile(&mut image, b"d", &[4; 512]);
    assert_eq!((find(&image, b"d").start, data_size(&image)), (5, 5));
    reclaim(&mut image, 1);
    mkfile(&mut image, b"e", &[5; 1025]);
    assert_eq!((find(&image, b"e").start, data_size(&image)), (6, 8));
    mkfile(&mut image, b"f", &[6; 1]);
    assert_eq!((find(&image, b"f").start, data_size(&image)), (1, 8));
    mkfile(&mut image, b"g", &[7; 512]);
    assert_eq!((find(&image, b"g").start, data_size(&image)), (2, 8));
    // A gap at the end of the data area and the free area beyond it serve together.
    put(&mut image, DATA, &[9]);
    mkfile(&mut image, b"h", &[8; 1024]);
    assert_eq!((find(&image, b"h").start, data_size(&image)), (9, 10));
}

#[test]
fn stamp_only_with_a_size() {
    let mut image = fresh(16_384, 512, 1);
    create_file(&mut image, b"a", 100, &[1; 512]);
    assert_eq!(number(&image, STAMP), 100);
    delete_keep(&mut image, b"a", 200);
    assert_eq!(number(&image, STAMP), 100);
    reclaim(&mut image, 300);
    assert_eq!((number(&image, STAMP), data_size(&image)), (300, 0));
    create_directory(&mut image, b"a", 400);
    assert_eq!(number(&image, STAMP), 300);
    delete_keep(&mut image, b"a", 450);
    reclaim(&mut image, 500);
    assert_eq!(number(&image, STAMP), 300);
    create_file(&mut image, b"b", 600, &[1]);
    assert_eq!((number(&image, STAMP), index_size(&image)), (600, 192));
}

#[test]
fn delete_keep_changes_nine_bytes() {
    let mut image = fresh(8192, 512, 1);
    create_directory(&mut image, b"d", 0);
    create_file(&mut image, b"d/f", 0, b"abc");
    for (path, kind) in [(b"d/f".as_slice(), 0x1A), (b"d", 0x19)] {
        let entry = entry_at(&image, path);
        let before = image.clone();
        assert_eq!(delete_keep(&mut image, path, -1).refusal, 0);
        let nine: Vec<usize> = std::iter::once(entry).chain(entry + 2..entry + 10).collect();
        assert_eq!(changed(&before, &image), nine);
        assert_eq!(image[entry], kind);
    }
}

#[test]
fn reclaim_empties_deleted_runs_only() {
    let mut image = fresh(8192, 512, 1);
    mkfile(&mut image, b"keep", &[1; 600]);
    mkfile(&mut image, &[b'l'; 30], &[1; 600]);
    mkdir(&mut image, b"odd");
    let odd = entry_at(&image, b"odd");
    put(&mut image, odd, &[0x1F, 0xFF, 0xFF]);
    let run = entry_at(&image, &[b'l'; 30]);
    delete_keep(&mut image, &[b'l'; 30], 1);
    let before = image.clone();
    assert_eq!(reclaim(&mut image, 77).refusal, 0);
    let mut unused = [0; 128];
    unused[0] = 0x10;
    unused[64] = 0x10;
    assert_eq!(image[run..run + 128], unused);
    assert_eq!((data_size(&image), number(&image, STAMP), index_size(&image)), (2, 77, index_size(&before)));
    let elsewhere = changed(&before, &image).into_iter().filter(|at| !(run..run + 128).contains(at));
    assert!(elsewhere.into_iter().all(|at| (STAMP..DATA + 8).contains(&at)));
    // With nothing deleted it still trims.
    put(&mut image, DATA, &[9]);
    assert_eq!(reclaim(&mut image, 78).refusal, 0);
    assert_eq!((data_size(&image), number(&image, STAMP)), (2, 78));
}

#[test]
fn index_at_its_largest() {
    // One entry of 256 slots after another leaves no unused slot; `spare` slots may still be added.
    let build = |spare: u64| {
        let mut image = fresh(294_912, 512, 1);
        let index = 262_144 - 64 * spare;
        put(&mut image, 0x1A4, &index.to_le_bytes());
        put(&mut image, 294_912 - 128, &[0; 64]);
        let slots = index as usize / 64;
        let area = slot_at(&image, 0);
        put(&mut image, area, &[2]);
        let mut slot = 1;
        while slot < slots - 1 {
            let count = (slots - 2 - slot).min(255);
            put(&mut image, area + slot * 64, &[0x11, count as u8]);
            put(&mut image, area + slot * 64 + 10, format!("n{slot}").as_bytes());
            slot += count + 1;
        }
        assert_eq!(opens(&image), 0);
        image
    };
    assert_eq!(mkfile(&mut build(0), b"f", b""), 15);
    assert_eq!(mkfile(&mut build(1), b"f", b"x"), 0);
    assert_eq!(mkfile(&mut build(1), &[b'f'; 30], b""), 15);
    assert_eq!(mkfile(&mut build(4), &[b'f'; 285], b""), 15);
    let mut image = build(5);
    assert_eq!(mkfile(&mut image, &[b'f'; 285], b""), 0);
    assert_eq!(index_size(&image), 262_144);
}

#[test]
fn a_full_large_volume() {
    let mut image = fresh(16_777_216, 4096, 1);
    put(&mut image, 16_777_216 - 128, &[0; 64]);
    put(&mut image, 0x1A4, &262_144u64.to_le_bytes());
    put(&mut image, DATA, &4030u64.to_le_bytes());
    let area = slot_at(&image, 0);
    put(&mut image, area, &[2]);
    for slot in 1..4095u64 {
        let at = area + slot as usize * 64;
        // Fewer blocks than entries: the last files are empty.
        let numbers = if slot <= 4030 { [slot, slot + 1, 4096] } else { [0; 3] };
        put(&mut image, at, &[0x12]);
        put(&mut image, at + 10, &numbers.map(u64::to_le_bytes).concat());
        put(&mut image, at + 34, format!("file{}", slot * 7919 % 4095).as_bytes());
    }
    let begun = std::time::Instant::now();
    assert_eq!(open(&image, &mut [0; 3]).refusal, 0);
    println!("open with 4,094 live entries: {:?}", begun.elapsed());
    assert_eq!(list(&image, 4094, &mut [0; 20]).slot, 4094);
    assert_eq!(mkfile(&mut image, b"more", b""), 15);
    assert_eq!(delete_keep(&mut image, b"file7919", 1).refusal, 11);
    let mut wiped = image.clone();
    assert_eq!([delete(&mut wiped, b"file7919", 1).refusal, delete(&mut wiped, b"file1", 1).refusal], [11, 0]);
    assert_eq!([mkfile(&mut wiped, b"more", &[9; 4097]), mkfile(&mut wiped, b"more", &[9; 4096])], [16, 0]);
    assert_eq!(delete_keep(&mut image, b"file1", 1).refusal, 0);
    assert_eq!(reclaim(&mut image, 1).refusal, 0);
    assert_eq!(mkfile(&mut image, b"more", &[9; 4097]), 16);
    assert_eq!(mkfile(&mut image, b"more", &[9; 4096]), 0);
}

#[test]
fn answers_depend_on_the_named_parts_only() {
    let mut image = fresh(16_384, 512, 2);
    mkdir(&mut image, b"d");
    mkfile(&mut image, b"d/f", &[3; 700]);
    mkfile(&mut image, b"gone", &[4; 700]);
    delete_keep(&mut image, b"gone", 1);
    let area = slot_at(&image, 0);
    let found = find(&image, b"d/f");
    let file = found.start as usize * 512..found.end as usize * 512;
    let mut other = image.clone();
    for at in (0..area).filter(|at| !(0x194..0x1BE).contains(at) && !file.contains(at)) {
        other[at] ^= 0x5A;
    }
    for path in [b"d".as_slice(), b"d/f", b"gone", b""] {
        let (mut one, mut two) = ([0; 700], [0; 700]);
        assert_eq!(find(&image, path), find(&other, path));
        assert_eq!(read(&image, path, &mut one), read(&other, path, &mut two));
        assert_eq!(one, two);
    }
    for slot in 0..8 {
        let (mut one, mut two) = ([0; 9], [0; 9]);
        assert_eq!(list(&image, slot, &mut one), list(&other, slot, &mut two));
        assert_eq!(one, two);
    }
}
