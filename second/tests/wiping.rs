//! The two deletes: what the plain one wipes and trims, what the other keeps, and that they refuse alike. Expected bytes
//! are written by hand, for both editions.

mod common;

use common::{changed, put};
use second::generator;
use second::history::{History, Told};
use second::index::{Entry, DELETED_FILE, UNUSABLE};
use second::refusal::{Counts, OF_DELETE};
use second::script::Session;
use second::selftest;
use second::superblock::Geometry;
use second::volume::Volume;
use second::{create_directory, create_file, delete, delete_keep, find, format, open, read, reclaim, restore, Edition};
use std::collections::BTreeMap;
use std::ops::Range;

const OLD: Edition = Edition::V1_0;
const NEW: Edition = Edition::V1_10;

/// What no field needs has this byte, so that a write where none belongs shows.
const FULL: u8 = 0xEE;
/// A stamp, and its bytes.
const STAMP: i64 = -0x0102_0304_0506_0708;
const STAMP_BYTES: [u8; 8] = [0xF8, 0xF8, 0xF9, 0xFA, 0xFB, 0xFC, 0xFD, 0xFE];

/// Where the super-block has its stamp, data area and index area.
fn places(edition: Edition) -> [usize; 3] {
    match edition {
        OLD => [0x194, 0x19C, 0x1A4],
        NEW => [0x18E, 0x196, 0x19E],
    }
}

fn number(image: &[u8], at: usize) -> u64 {
    u64::from_le_bytes(image[at..at + 8].try_into().unwrap())
}

/// The data area, and the stamp of the super-block.
fn sizes(image: &[u8], edition: Edition) -> (u64, i64) {
    let [stamp, data, _] = places(edition);
    (number(image, data), number(image, stamp) as i64)
}

/// Makes a run sum to 0 where the edition has sums.
fn summed(edition: Edition, mut run: Vec<u8>) -> Vec<u8> {
    if edition == NEW {
        run[1] = 0;
        run[1] = run.iter().fold(0u8, |sum, byte| sum.wrapping_add(*byte)).wrapping_neg();
    }
    run
}

/// A run of so many slots: a file, live or deleted, with its first block, the one past its last, and its length; or a
/// directory. Behind the name's zero stands what no one judges.
fn run(edition: Edition, kind: u8, slots: usize, name: &[u8], numbers: [u64; 3]) -> Vec<u8> {
    let later = usize::from(edition == NEW);
    let is_file = matches!(kind, 0x12 | 0x1A);
    let name_at = later + if is_file { 34 } else { 10 };
    let [start, past, length] = numbers;
    let end = if edition == NEW && past > 0 { past - 1 } else { past };
    let mut run = vec![0xAB; 64 * slots];
    run[0] = kind;
    run[1 + later] = slots as u8 - 1;
    put(&mut run, 2 + later, &[9; 8]);
    if is_file {
        put(&mut run, 10 + later, &[start, end, length].map(u64::to_le_bytes).concat());
    }
    put(&mut run, name_at, &[name, b"\0"].concat());
    summed(edition, run)
}

fn file(edition: Edition, name: &[u8], numbers: [u64; 3]) -> Vec<u8> {
    run(edition, 0x12, 1, name, numbers)
}

fn directory(edition: Edition, name: &[u8]) -> Vec<u8> {
    run(edition, 0x11, 1, name, [0; 3])
}

fn gone(edition: Edition, name: &[u8], numbers: [u64; 3]) -> Vec<u8> {
    run(edition, 0x1A, 1, name, numbers)
}

fn unusable(edition: Edition, start: u64, past: u64) -> Vec<u8> {
    let end = if edition == NEW { past - 1 } else { past };
    let mut slot = vec![0xAB; 64];
    slot[0] = 0x18;
    put(&mut slot, 10, &[start, end].map(u64::to_le_bytes).concat());
    summed(edition, slot)
}

/// Unused slots as calls write them.
fn unused(edition: Edition, slots: usize) -> Vec<u8> {
    let mut slot = [0; 64];
    slot[0] = 0x10;
    slot[1] = if edition == NEW { 0xF0 } else { 0 };
    slot.repeat(slots)
}

/// A volume of 16 blocks of 512 bytes, one of them reserved, with this data area and these runs between the markers.
fn laid(edition: Edition, data: u64, runs: &[Vec<u8>]) -> Vec<u8> {
    let mut image = vec![FULL; 8192];
    assert_eq!(format(&mut image, edition.version().into(), 512, 1, b"V", 7).refusal, 0);
    let slots = runs.concat();
    let [_, data_at, index_at] = places(edition);
    put(&mut image, data_at, &data.to_le_bytes());
    put(&mut image, index_at, &(128 + slots.len() as u64).to_le_bytes());
    let marker = 8192 - 128 - slots.len();
    put(&mut image, marker, &[0; 64]);
    put(&mut image, marker, if edition == NEW { &[2, 0xFE] } else { &[2, 0] });
    put(&mut image, marker + 64, &slots);
    assert_eq!(open(&image, &mut [0; 1]).refusal, 0);
    image
}

/// The byte offset of a slot between the markers, the first being 1.
fn slot_at(image: &[u8], edition: Edition, slot: usize) -> usize {
    image.len() - number(image, places(edition)[2]) as usize + 64 * slot
}

/// The image with zeros in these blocks, unused slots from this one on, and at last the sizes of a changed data area.
fn wiped(image: &[u8], edition: Edition, blocks: [usize; 2], slots: [usize; 2], data: Option<u64>) -> Vec<u8> {
    let mut image = image.to_vec();
    image[512 * blocks[0]..512 * blocks[1]].fill(0);
    let at = slot_at(&image, edition, slots[0]);
    put(&mut image, at, &unused(edition, slots[1]));
    if let Some(data) = data {
        let [stamp_at, data_at, _] = places(edition);
        put(&mut image, stamp_at, &STAMP_BYTES);
        put(&mut image, data_at, &data.to_le_bytes());
    }
    image
}

/// Deletes on a copy, asserts that it is then as expected, and gives the copy.
fn deleted(image: &[u8], path: &[u8], expected: &[u8]) -> Vec<u8> {
    let mut copy = image.to_vec();
    assert_eq!(delete(&mut copy, path, STAMP).refusal, 0);
    assert_eq!(changed(expected, &copy), [], "{path:x?}");
    assert_eq!((find(&copy, path).refusal, restore(&mut copy.clone(), path, 1).refusal), (11, 11));
    copy
}

#[test]
fn the_whole_region_and_the_whole_run() {
    for edition in Edition::ALL {
        // Three blocks for three bytes, and a run two slots longer than its name.
        let long = run(edition, 0x12, 3, b"f", [2, 5, 3]);
        let image = laid(edition, 4, &[directory(edition, b"d"), long, file(edition, b"g", [1, 2, 512])]);
        assert_eq!(image[1024..2560], [FULL; 1536]);
        let expected = wiped(&image, edition, [2, 5], [2, 3], Some(1));
        deleted(&image, b"f", &expected);
        // Before and behind it nothing changed.
        assert_eq!((expected[1023], expected[1024], expected[2559], expected[2560]), (FULL, 0, 0, FULL));
    }
}

#[test]
fn a_file_without_bytes_may_have_blocks() {
    for edition in Edition::ALL {
        let image = laid(edition, 3, &[file(edition, b"f", [2, 4, 0]), file(edition, b"g", [1, 2, 1])]);
        let copy = deleted(&image, b"f", &wiped(&image, edition, [2, 4], [1, 1], Some(1)));
        deleted(&copy, b"g", &wiped(&copy, edition, [1, 2], [2, 1], Some(0)));
    }
}

#[test]
fn the_stamp_only_with_a_size() {
    for edition in Edition::ALL {
        let runs = [file(edition, b"f", [1, 3, 600]), file(edition, b"e", [0; 3]), file(edition, b"l", [3, 4, 9])];
        let image = laid(edition, 3, &[&runs[..], &[directory(edition, b"d")]].concat());
        // In the middle, an empty file and a directory: the data area stays, and with it the stamp.
        for (path, blocks, slot) in [(b"f", [1, 3], 1), (b"e", [0, 0], 2), (b"d", [0, 0], 4)] {
            let copy = deleted(&image, path, &wiped(&image, edition, blocks, [slot, 1], None));
            assert_eq!(sizes(&copy, edition), (3, 7));
        }
        // The last one: up to the end of the one before it.
        let copy = deleted(&image, b"l", &wiped(&image, edition, [3, 4], [3, 1], Some(2)));
        assert_eq!(sizes(&copy, edition), (2, STAMP));
        // The one before it last: nothing is left.
        deleted(&copy, b"f", &wiped(&copy, edition, [1, 3], [1, 1], Some(0)));
        // The first one first: then the gap before the last goes with it.
        let copy = deleted(&image, b"f", &wiped(&image, edition, [1, 3], [1, 1], None));
        deleted(&copy, b"l", &wiped(&copy, edition, [3, 4], [3, 1], Some(0)));
    }
}

#[test]
fn every_plain_delete_trims() {
    for edition in Edition::ALL {
        let runs = [file(edition, b"f", [1, 3, 600]), file(edition, b"e", [0; 3]), directory(edition, b"d")];
        let image = laid(edition, 9, &runs);
        deleted(&image, b"f", &wiped(&image, edition, [1, 3], [1, 1], Some(0)));
        deleted(&image, b"e", &wiped(&image, edition, [0, 0], [2, 1], Some(2)));
        deleted(&image, b"d", &wiped(&image, edition, [0, 0], [3, 1], Some(2)));
    }
}

#[test]
fn kept_files_stay_and_hold_their_blocks() {
    // Behind what goes, and before it.
    let runs =
        |edition| [file(edition, b"f", [2, 3, 5]), gone(edition, b"k", [3, 5, 5]), gone(edition, b"b", [1, 2, 5])];
    let image = laid(OLD, 4, &runs(OLD));
    deleted(&image, b"f", &wiped(&image, OLD, [2, 3], [1, 1], None));
    let runs = [file(OLD, b"f", [4, 5, 5]), gone(OLD, b"k", [2, 3, 5]), gone(OLD, b"b", [1, 2, 5])];
    let image = laid(OLD, 4, &runs);
    let copy = deleted(&image, b"f", &wiped(&image, OLD, [4, 5], [1, 1], Some(2)));
    // They come back as they were.
    let mut copy = copy.clone();
    assert_eq!([restore(&mut copy, b"k", 1).refusal, restore(&mut copy, b"b", 1).refusal], [0; 2]);
    let mut output = [0; 5];
    assert_eq!((read(&copy, b"k", &mut output).length, output), (5, [FULL; 5]));
    // A directory that was kept holds none.
    let image = laid(OLD, 4, &[file(OLD, b"f", [4, 5, 5]), run(OLD, 0x19, 1, b"k", [0; 3])]);
    deleted(&image, b"f", &wiped(&image, OLD, [4, 5], [1, 1], Some(0)));
}

#[test]
fn left_over_runs_hold_nothing_in_1_10() {
    // A deleted run that is right, one that is wrong with a live head next, and a stray slot.
    let mut wrong = gone(NEW, b"w", [5, 6, 5]);
    wrong[1] ^= 1;
    let stray = vec![0x41; 64];
    let right = run(NEW, 0x1A, 2, b"k", [3, 5, 5]);
    let runs = [right, wrong, file(NEW, b"f", [2, 3, 5]), stray, file(NEW, b"g", [1, 2, 5])];
    let image = laid(NEW, 5, &runs);
    let mut tidy = image.clone();
    for (slot, slots) in [(1, 3), (5, 1)] {
        put(&mut tidy, slot_at(&image, NEW, slot), &unused(NEW, slots));
    }
    // Their blocks are neither held nor wiped.
    deleted(&image, b"f", &wiped(&tidy, NEW, [2, 3], [4, 1], Some(1)));
    deleted(&image, b"g", &wiped(&tidy, NEW, [1, 2], [6, 1], Some(2)));
    // A refused call leaves them.
    let mut copy = image.clone();
    assert_eq!([delete(&mut copy, b"k", 1).refusal, delete_keep(&mut copy, b"k", 1).refusal], [11; 2]);
    assert_eq!(changed(&image, &copy), []);
}

#[test]
fn unusable_entries_hold_the_data_area() {
    for edition in Edition::ALL {
        let image = laid(edition, 4, &[file(edition, b"f", [2, 3, 5]), unusable(edition, 3, 5)]);
        deleted(&image, b"f", &wiped(&image, edition, [2, 3], [1, 1], None));
        let image = laid(edition, 6, &[unusable(edition, 3, 5), file(edition, b"f", [5, 6, 5])]);
        deleted(&image, b"f", &wiped(&image, edition, [5, 6], [2, 1], Some(4)));
    }
}

#[test]
fn every_stamp() {
    for (edition, stamp) in
        Edition::ALL.into_iter().flat_map(|edition| [i64::MIN, -1, 0, i64::MAX].map(|s| (edition, s)))
    {
        let mut image = laid(edition, 4, &[file(edition, b"f", [2, 3, 5])]);
        assert_eq!(delete(&mut image, b"f", stamp).refusal, 0);
        assert_eq!(sizes(&image, edition), (0, stamp));
    }
}

#[test]
fn keeping_in_1_0_changes_nine_bytes() {
    let image = laid(OLD, 9, &[run(OLD, 0x12, 2, b"f", [2, 4, 5]), directory(OLD, b"d"), gone(OLD, b"k", [1, 2, 5])]);
    for (path, slot, kind) in [(b"f", 1, 0x1A), (b"d", 3, 0x19)] {
        let (mut copy, mut expected) = (image.clone(), image.clone());
        let at = slot_at(&image, OLD, slot);
        expected[at] = kind;
        put(&mut expected, at + 2, &STAMP_BYTES);
        assert_eq!(delete_keep(&mut copy, path, STAMP).refusal, 0);
        assert_eq!((changed(&expected, &copy), changed(&image, &copy).len()), (vec![], 9));
    }
}

#[test]
fn keeping_in_1_10_empties_the_slots_and_no_more() {
    let stray = vec![0x41; 64];
    let image = laid(NEW, 9, &[run(NEW, 0x12, 2, b"f", [2, 4, 5]), directory(NEW, b"d"), stray]);
    let mut tidy = image.clone();
    put(&mut tidy, slot_at(&image, NEW, 4), &unused(NEW, 1));
    for (path, slots) in [(b"f", [1, 2]), (b"d", [3, 1])] {
        let mut copy = image.clone();
        assert_eq!(delete_keep(&mut copy, path, STAMP).refusal, 0);
        // Neither wiped nor trimmed, and no stamp.
        assert_eq!(changed(&wiped(&tidy, NEW, [0, 0], slots, None), &copy), []);
        assert_eq!((sizes(&copy, NEW), restore(&mut copy, path, 1).refusal), ((9, 7), 11));
    }
}

/// Both deletes on copies: the number they answer alike. A refusal writes nothing.
fn both(image: &[u8], path: &[u8]) -> u8 {
    let [wiping, keeping] = [delete, delete_keep].map(|call| {
        let mut copy = image.to_vec();
        let refusal = call(&mut copy, path, STAMP).refusal;
        assert_eq!(refusal == 0, copy != image, "{path:x?}");
        refusal
    });
    assert_eq!(wiping, keeping, "{path:x?}");
    wiping
}

/// The image with these bytes, the checksum of the super-block made right.
fn with(image: &[u8], edition: Edition, at: usize, bytes: &[u8]) -> Vec<u8> {
    let mut image = image.to_vec();
    put(&mut image, at, bytes);
    let checksum = second::superblock::checksum(&image, edition);
    image[if edition == NEW { 0x1B7 } else { 0x1BD }] = checksum;
    image
}

#[test]
fn both_calls_refuse_alike() {
    for edition in Edition::ALL {
        let runs = [file(edition, b"d/f", [2, 3, 5]), directory(edition, b"d"), gone(edition, b"k", [1, 2, 5])];
        let image = laid(edition, 4, &runs);
        for (path, number) in [(b"d".as_slice(), 14), (b"k", 11), (b"x", 11), (b"d/f/x", 11), (b"", 10), (b"d/", 10)] {
            assert_eq!(both(&image, path), number, "{path:x?}");
        }
        assert_eq!([both(&image, &[b'n'; 286]), both(&image, b"\xc3"), both(&image, b"d/f")], [11, 10, 0]);
        let (version, newer) = if edition == OLD { (0x1AF, 9) } else { (0x1A9, 3) };
        for path in [b"d".as_slice(), b"x", b"", b"d/f"] {
            let other = |at, bytes: &[u8]| both(&with(&image, edition, at, bytes), path);
            assert_eq!([other(version, &[0x11]), other(version, &[0x0F]), other(version - 3, b"s")], [newer, 3, 2]);
            assert_eq!([other(version + 1, &[17]), other(8192 - 64, &[2])], [5, 6]);
            assert_eq!(both(&[&image[..511], &[][..]].concat(), path), 1);
            let mut sum = image.clone();
            sum[version + 14] ^= 1;
            assert_eq!(both(&sum, path), 4);
            let [shared, homeless] = [
                [file(edition, b"d/f", [2, 3, 5]), unusable(edition, 2, 4)],
                [file(edition, b"d/f", [2, 3, 5]), file(edition, b"d", [0; 3])],
            ]
            .map(|runs| unjudged(edition, &runs));
            assert_eq!([both(&shared, path), both(&homeless, path)], [7, 8]);
        }
    }
}

/// As `laid`, of a volume that does not open.
fn unjudged(edition: Edition, runs: &[Vec<u8>]) -> Vec<u8> {
    let mut image = laid(edition, 4, &[unused(edition, runs.len())]);
    let at = slot_at(&image, edition, 1);
    put(&mut image, at, &runs.concat());
    image
}

#[test]
fn the_sixth_empty_file_of_1_10() {
    // Here the slot is free after either call, but room in the index comes with the trimming alone.
    let mut image = vec![0; 65_536];
    assert_eq!(format(&mut image, 0x1A, 512, 2, b"", 0).refusal, 0);
    assert_eq!(create_file(&mut image, b"big", 1, &[1; 64_000]).refusal, 0);
    for path in [b"1", b"2", b"3", b"4", b"5"] {
        assert_eq!(create_file(&mut image, path, 1, b"").refusal, 0);
    }
    assert_eq!(create_file(&mut image, b"6", 1, b"").refusal, 15);
    for (call, seventh) in [(delete as fn(&mut [u8], &[u8], i64) -> _, 0), (delete_keep, 15)] {
        let mut copy = image.clone();
        assert_eq!([call(&mut copy, b"big", 8).refusal, create_file(&mut copy, b"6", 1, b"").refusal], [0; 2]);
        assert_eq!(create_file(&mut copy, b"7", 1, b"").refusal, seventh);
        assert_eq!([reclaim(&mut copy, 1).refusal, create_file(&mut copy, b"8", 1, b"").refusal], [0; 2]);
    }
}

#[test]
fn made_and_wiped_at_every_block_length() {
    for (edition, block) in
        Edition::ALL.into_iter().flat_map(|edition| [256, 512, 1024, 2048, 4096].map(|b| (edition, b)))
    {
        let mut image = vec![FULL; 16 * block];
        let reserved = 512usize.div_ceil(block);
        assert_eq!(format(&mut image, edition.version().into(), block as u64, reserved as u64, b"", 7).refusal, 0);
        assert_eq!(create_directory(&mut image, b"d", 1).refusal, 0);
        let before = image.clone();
        assert_eq!(create_file(&mut image, b"f", 2, &vec![1; 2 * block + 1]).refusal, 0);
        assert_eq!(sizes(&image, edition), (3, 2));
        assert_eq!(delete(&mut image, b"f", STAMP).refusal, 0);
        // The index has grown by a slot, which is unused now.
        let mut expected = before.clone();
        let [stamp_at, _, index_at] = places(edition);
        put(&mut expected, stamp_at, &STAMP_BYTES);
        put(&mut expected, index_at, &256u64.to_le_bytes());
        let marker = before[before.len() - 192..before.len() - 128].to_vec();
        put(&mut expected, before.len() - 256, &marker);
        put(&mut expected, before.len() - 192, &unused(edition, 1));
        expected[reserved * block..(reserved + 3) * block].fill(0);
        assert_eq!(changed(&expected, &image), [], "{block}");
    }
}

#[test]
fn one_path_kept_and_live() {
    let mut image = laid(OLD, 0, &[unused(OLD, 4)]);
    for (byte, call) in [(1, delete_keep as fn(&mut [u8], &[u8], i64) -> _), (2, delete), (3, delete)] {
        assert_eq!(create_file(&mut image, b"p", 1, &[byte; 600]).refusal, 0);
        assert_eq!((find(&image, b"p").start, call(&mut image, b"p", 2).refusal), (if byte == 1 { 1 } else { 3 }, 0));
    }
    // Only the first was kept.
    assert_eq!((sizes(&image, OLD).0, restore(&mut image, b"p", 3).refusal), (2, 0));
    let mut output = [0; 600];
    assert_eq!((read(&image, b"p", &mut output).length, output), (600, [1; 600]));
    // Two that are kept, and a live one that goes.
    for call in [delete_keep as fn(&mut [u8], &[u8], i64) -> _, delete_keep, delete] {
        assert_eq!(call(&mut image, b"p", 4).refusal, 0);
        assert_eq!(create_file(&mut image, b"p", 5, b"").refusal, 0);
    }
    assert_eq!(delete(&mut image, b"p", 6).refusal, 0);
    assert_eq!((restore(&mut image, b"p", 7).refusal, delete(&mut image, b"p", 7).refusal), (19, 11));
}

/// Runs lines and asserts what each of them prints.
fn plays(story: &[(&str, &str)]) {
    let mut session = Session::without_digests();
    for (line, text) in story {
        let printed = session.execute(line).unwrap().unwrap_or_default();
        assert_eq!(printed, *text, "{line}");
    }
}

#[test]
fn histories_over_stories() {
    let story = |version: u64, restored: &'static str, read: &'static str, data: [&'static str; 2]| {
        let format = format!("format {version} 512 1 - 0");
        plays(&[
            ("image 8192", ""),
            (&format, "format 0"),
            ("mkfile 61 1 fill:600:1", "mkfile 0"),
            ("mkfile 62 1 fill:700:2", "mkfile 0"),
            ("deletekeep 61 2", "deletekeep 0"),
            ("history", "history ok"),
            ("delete 62 3", "delete 0"),
            ("history", "history ok"),
            ("open 0", data[0]),
            ("restore 62 4", "restore 11"),
            ("restore 61 4", restored),
            ("read 61 600", read),
            ("history", "history ok"),
            ("delete 61 5", if restored == "restore 0" { "delete 0" } else { "delete 11" }),
            ("deletekeep 61 5", "deletekeep 11"),
            ("history", "history ok"),
            ("open 0", data[1]),
            ("reclaim 6", "reclaim 0"),
            ("history", "history ok"),
            ("open 0", data[1]),
        ]);
    };
    let kept = ["open 0 16 16 1 512 2 256 3 0 0 16", "open 0 16 16 1 512 0 256 5 0 0 16"];
    story(16, "restore 0", "read 0 600", kept);
    let gone = "open 0 26 16 1 512 0 256 3 0 0 26";
    story(26, "restore 11", "read 11 0", [gone, gone]);
}

#[test]
fn histories_of_both_calls() {
    for edition in Edition::ALL {
        let mut image = laid(edition, 0, &[unused(edition, 4)]);
        let mut history = History::begin(edition.version().into(), 512);
        let made = |image: &mut Vec<u8>, history: &mut History, path: &[u8]| {
            assert_eq!(create_file(image, path, 1, &[1; 600]).refusal, 0);
            history.tell(Told::File { path, bytes: &[1; 600] }, true);
        };
        made(&mut image, &mut history, b"a");
        assert_eq!(delete_keep(&mut image, b"a", 2).refusal, 0);
        history.tell(Told::DeleteKeep { path: b"a" }, true);
        made(&mut image, &mut history, b"a");
        made(&mut image, &mut history, b"b");
        assert_eq!(history.check(&image), Ok(()));
        // A refused one changes nothing; an accepted one strikes the live entry and no other.
        history.tell(Told::Delete { path: b"a" }, false);
        assert_eq!(history.check(&image), Ok(()));
        history.tell(Told::Delete { path: b"a" }, true);
        assert!(history.check(&image).is_err());
        assert_eq!(delete(&mut image, b"a", 2).refusal, 0);
        assert_eq!(history.check(&image), Ok(()));
        let kept = edition == OLD;
        assert_eq!(restore(&mut image, b"a", 2).refusal, if kept { 0 } else { 11 });
        history.tell(Told::Restore { path: b"a" }, kept);
        assert_eq!(history.check(&image), Ok(()));
        // Nothing is left for a reclaim.
        history.tell(Told::Reclaim, true);
        assert_eq!(history.check(&image), Ok(()));
    }
}

#[test]
fn lines_that_cannot_be_read() {
    for word in ["delete", "deletekeep"] {
        for rest in ["", "61", "61 x", "61 1 2", "6 1", "61 fill:1:1"] {
            assert!(Session::default().execute(&format!("{word} {rest}")).is_err(), "{word} {rest}");
        }
    }
    assert!(Session::default().execute("delete_keep 61 1").is_err());
}

/// An accepted plain delete of a generated script: the image before it, what the entry holds, and what the others do.
struct Met<'a> {
    before: &'a [u8],
    volume: Volume<'a>,
    entry: Entry<'a>,
    blocks: Range<usize>,
    /// The end of the last region that is left.
    end: u64,
}

fn unhex(word: &str) -> Vec<u8> {
    let digits = if word == "-" { "" } else { word };
    (0..digits.len()).step_by(2).map(|at| u8::from_str_radix(&digits[at..at + 2], 16).unwrap()).collect()
}

fn past(edition: Edition, end: u64) -> u64 {
    if edition == NEW {
        end + 1
    } else {
        end
    }
}

impl<'a> Met<'a> {
    fn new(before: &'a [u8], path: &[u8]) -> Self {
        let volume = Volume::judge(before).unwrap();
        let Geometry { edition, reserved, .. } = volume.super_block.geometry;
        let entry = *volume.live.get(path).unwrap();
        let blocks = if entry.start > 0 { entry.start..past(edition, entry.end) } else { 0..0 };
        let others = volume.index.entries.iter().filter(|other| other.slot != entry.slot && other.start > 0);
        let end = others.map(|other| past(edition, other.end)).max().unwrap_or(reserved);
        Met { before, volume, entry, blocks: blocks.start as usize..blocks.end as usize, end }
    }

    fn geometry(&self) -> Geometry {
        self.volume.super_block.geometry
    }

    /// The image after it, by the rule.
    fn expected(&self, stamp: i64) -> Vec<u8> {
        let Geometry { edition, block, reserved, data, .. } = self.geometry();
        let mut expected = self.before.to_vec();
        expected[block as usize * self.blocks.start..block as usize * self.blocks.end].fill(0);
        let run = self.entry.slot..self.entry.slot + self.entry.slots;
        for slot in self.volume.index.stale.iter().copied().chain(run) {
            put(&mut expected, slot_at(self.before, edition, slot as usize), &unused(edition, 1));
        }
        if self.end - reserved != data {
            let [stamp_at, data_at, _] = places(edition);
            put(&mut expected, stamp_at, &stamp.to_le_bytes());
            put(&mut expected, data_at, &(self.end - reserved).to_le_bytes());
        }
        expected
    }

    /// Whether an entry of this type has its blocks behind the file's.
    fn behind(&self, kind: u8) -> bool {
        let mut others = self.volume.index.entries.iter().filter(|other| other.kind == kind);
        !self.blocks.is_empty() && others.any(|other| other.start as usize >= self.blocks.end)
    }

    /// What its region has behind its length.
    fn rest(&self) -> &[u8] {
        let block = self.geometry().block as usize;
        let length = self.entry.length as usize;
        &self.before[block * self.blocks.start..block * self.blocks.end][length..]
    }

    fn kept_of_its_path(&self) -> usize {
        self.volume.index.entries.iter().filter(|other| other.is_deleted() && other.path == self.entry.path).count()
    }

    fn has_spare_slots(&self) -> bool {
        let name_at = second::index::name_at(self.geometry().edition, self.entry.kind).unwrap();
        self.entry.slots as usize > (name_at + self.entry.path.len() + 1).div_ceil(64)
    }

    fn facts(&self) -> impl Iterator<Item = &'static str> {
        let Geometry { block, reserved, data, .. } = self.geometry();
        let (trimmed, holds, is_file) = (self.end != reserved + data, !self.blocks.is_empty(), self.entry.is_file());
        let facts = [
            ("trimmed", trimmed && holds),
            ("not trimmed", !trimmed && holds),
            ("trimmed to nothing", trimmed && self.end == reserved),
            ("directory", !is_file && !trimmed),
            ("directory, trimmed", !is_file && trimmed),
            ("empty file", is_file && !holds && !trimmed),
            ("empty file, trimmed", is_file && !holds && trimmed),
            ("a larger data area", holds && reserved + data > self.end.max(self.blocks.end as u64)),
            ("a block more than needed", self.rest().len() as u64 >= block),
            ("bytes behind the length", self.rest().iter().any(|byte| *byte != 0)),
            ("an unusable entry behind", self.behind(UNUSABLE)),
            ("a run longer than its name", self.has_spare_slots()),
            ("a run of several slots", self.entry.slots > 1),
            ("a kept file behind", self.behind(DELETED_FILE)),
            ("kept of the same path", self.kept_of_its_path() == 1),
            ("several kept of the same path", self.kept_of_its_path() > 1),
            ("left-over slots", !self.volume.index.stale.is_empty()),
        ];
        facts.into_iter().filter(|(_, holds)| *holds).map(|(name, _)| name)
    }
}

/// The facts that only volumes of one edition can have.
fn impossible(edition: Edition) -> &'static [&'static str] {
    match edition {
        OLD => &["left-over slots"],
        NEW => &["a kept file behind", "kept of the same path", "several kept of the same path"],
    }
}

#[test]
fn generated_deletes_go_by_the_rule() {
    let (mut counts, mut lengths) = (BTreeMap::new(), BTreeMap::new());
    for (kind, calls) in [(Some("wiping"), 40_000), (None, 20_000)] {
        let mut session = Session::without_digests();
        for line in generator::script(71, calls, kind).unwrap_or_default().lines() {
            let words: Vec<&str> = line.split(' ').collect();
            let before = session.image().to_vec();
            session.execute(line).unwrap();
            if words[0] == "delete" && session.last == 0 {
                let path = unhex(words[1]);
                let met = Met::new(&before, &path);
                assert_eq!(changed(&met.expected(words[2].parse().unwrap()), session.image()), [], "{line}");
                let Geometry { edition, block, .. } = met.geometry();
                met.facts().for_each(|fact| *counts.entry((edition, fact)).or_insert(0) += 1);
                *lengths.entry((edition, block)).or_insert(0) += 1;
            }
        }
    }
    println!("{counts:?} {lengths:?}");
    let [old, new] = [OLD, NEW].map(|edition| counts.keys().filter(|(of, _)| *of == edition).count());
    assert_eq!((old, new), (17 - impossible(OLD).len(), 17 - impossible(NEW).len()), "{counts:?}");
    assert!(counts.values().all(|count| *count > 10), "{counts:?}");
    assert!(lengths.len() == 10 && lengths.values().all(|count| *count > 20), "{lengths:?}");
}

#[test]
fn generated_answers_of_both_calls() {
    let mut session = Session::without_digests();
    let mut checks = 0;
    for line in generator::script(72, 20_000, Some("wiping")).unwrap_or_default().lines() {
        let text = session.execute(line).unwrap().unwrap_or_default();
        assert!(!text.contains("FAILED"), "{text}");
        checks += u64::from(text == "history ok");
    }
    assert!(checks > 1_000, "{checks}");
    for word in ["delete", "deletekeep"] {
        let counts: Counts = session.answers(word);
        println!("{}", selftest::delete_table(word, &counts));
        for (number, met) in counts.iter().enumerate() {
            assert_eq!(*met > 2, OF_DELETE.contains(&(number as u8)), "{word} {number} {met}");
        }
    }
    let restores = session.answers("restore");
    assert!([0, 11, 12, 13, 19].iter().all(|number| restores[*number] > 10), "{restores:?}");
    assert!(session.answers("reclaim")[0] > 50);
}

#[test]
fn every_family_meets_both_calls() {
    #[rustfmt::skip]
    let kinds = [
        "history", "damage", "built", "edges", "args", "names", "restore", "tails", "crowded", "editions", "report",
        "regions", "wiping",
    ];
    for kind in kinds {
        let mut session = Session::without_digests();
        for line in generator::script(73, 4_000, Some(kind)).unwrap_or_default().lines() {
            session.execute(line).unwrap();
        }
        for (word, edition) in ["delete", "deletekeep"].into_iter().flat_map(|word| [(word, OLD), (word, NEW)]) {
            let counts = session.by_call().get(&(word.to_string(), Some(edition))).copied().unwrap_or_default();
            assert!(counts[0] > 3, "{kind} {word} {edition:?}: {counts:?}");
        }
    }
}
