//! list_all: its records to the byte, that it answers as list does one entry after the other, and what the generated
//! calls of it meet. The listing's lent output and the number of the interface besides.

mod common;

use common::*;
use second::generator;
use second::index::{Entry, Index, DIRECTORY, FILE, UNUSABLE};
use second::listing::LEAST_ROOM;
use second::query::{RECORDS_ROOM, RECORD_PATH};
use second::script::{lent, Session};
use second::store::{Own, Store};
use second::volume::Volume;
use second::xorshift::Xorshift;
use second::{
    create_directory, create_file, delete_keep, format, list, list_all, listing, listing_text, Edition, Listed,
};
use second::{Records, API};
use std::collections::{BTreeMap, BTreeSet};

#[rustfmt::skip]
const KINDS: [&str; 12] = [
    "history", "damage", "built", "edges", "args", "names", "restore", "tails", "crowded", "sums", "editions", "wiping",
];

/// list_all in the words of its rule: what list answers one after the other.
fn by_list(image: &[u8], slot: u64, output: &mut [u8]) -> Records {
    let mut records = Records { next: slot, ..Records::default() };
    let mut rest = output;
    loop {
        let behind = rest.len().min(RECORD_PATH);
        let listed = list(image, records.next, &mut rest[behind..]);
        match listed {
            Listed { refusal: 0, kind: 0, .. } => return Records { next: 0, ..records },
            Listed { refusal: 0, .. } => {}
            _ if records.count > 0 => return records,
            Listed { refusal, .. } => return Records { refusal, ..Records::default() },
        }
        let Listed { slot, kind, start, end, length, stamp, path_length, .. } = listed;
        put(rest, 0, &[slot, kind.into(), start, end, length].map(u64::to_le_bytes).concat());
        put(rest, 40, &stamp.to_le_bytes());
        put(rest, 48, &path_length.to_le_bytes());
        let bytes = RECORD_PATH + path_length as usize;
        rest = &mut rest[bytes..];
        let (count, length) = (records.count + 1, records.length + bytes as u64);
        records = Records { refusal: 0, count, length, next: slot + 1 };
    }
}

/// Both ways, with outputs of their own; gives the answer.
fn both(image: &[u8], slot: u64, room: usize) -> Records {
    let (mut output, mut expected) = (lent(room), lent(room));
    let records = list_all(image, slot, &mut output);
    assert_eq!(records, by_list(image, slot, &mut expected), "slot {slot} room {room}");
    assert!(output == expected, "slot {slot} room {room}");
    records
}

/// The bytes of the records of all live entries from a slot on, none if the image does not open.
fn sizes(image: &[u8], slot: u64) -> Vec<usize> {
    let entries = Volume::judge(image).map(|volume| volume.index.entries).unwrap_or_default();
    let listed = entries.iter().filter(|entry| entry.is_live() && entry.slot >= slot);
    listed.map(|entry| RECORD_PATH + entry.path.len()).collect()
}

/// Rooms about the end of the first record, of some and of all, and about where the next one's path would start. Lists of
/// very many entries take long, and are left out.
fn rooms(rng: &mut Xorshift, sizes: &[usize]) -> BTreeSet<usize> {
    let some = rng.below(sizes.len() as u64 + 1) as usize;
    let ends = [0, 1, some, sizes.len()].map(|count| sizes.iter().take(count).sum::<usize>());
    let near = |end: usize| [end.saturating_sub(1), end, end + 1, end + 55, end + 56, end + 57, end + 300];
    ends.into_iter().flat_map(near).filter(|room| *room < 12_000).collect()
}

/// The answer from a slot into each of the rooms, in a word.
fn hold_against_list(rng: &mut Xorshift, image: &[u8], slot: u64) -> Vec<&'static str> {
    let rooms = rooms(rng, &sizes(image, slot));
    let words = rooms.into_iter().map(|room| match both(image, slot, room) {
        Records { refusal: 18, .. } => "too short",
        Records { refusal: 0, count: 0, .. } => "none left",
        Records { refusal: 0, next: 0, .. } => "all",
        Records { refusal: 0, .. } => "some",
        _ => "refused image",
    });
    words.collect()
}

/// Shows some of the images that a generated script leaves after its calls, but for long ones, which are slow to judge.
fn some_images(kind: &str, rng: &mut Xorshift, mut show: impl FnMut(&mut Xorshift, &[u8])) {
    let mut session = Session::without_digests();
    for line in generator::script(61, 1_200, Some(kind)).unwrap_or_default().lines() {
        let calls = session.calls;
        session.execute(line).unwrap();
        if session.calls > calls && session.image().len() < 300_000 && rng.chance(25) {
            show(rng, session.image());
        }
    }
}

#[test]
fn as_list_one_after_the_other() {
    let mut rng = Xorshift::new(7);
    let mut met = BTreeMap::<_, u64>::new();
    let mut images = 0;
    for kind in KINDS {
        some_images(kind, &mut rng, |rng, image| {
            images += 1;
            let slots = [0, rng.below(20), rng.below(4_100), u64::MAX];
            let words = slots.into_iter().flat_map(|slot| hold_against_list(rng, image, slot));
            words.for_each(|word| *met.entry(word).or_default() += 1);
        });
    }
    println!("{images} images: {met:?}");
    assert!(images > 2_000 && met.len() == 5 && met.values().all(|count| *count > 5_000), "{images} {met:?}");
}

/// A volume as full as it can be: directories whose names fill their slots.
fn full(edition: Edition) -> Vec<u8> {
    let mut image = vec![0; 1 << 20];
    assert_eq!(format(&mut image, edition.version().into(), 512, 1, b"", 0).refusal, 0);
    let index = 262_144;
    put(&mut image, edition.super_field(0x1A4), &(index as u64).to_le_bytes());
    let first = image.len() - index;
    put(&mut image, first, &edition.bare_slot(0x02));
    let name = edition.entry_field(10);
    for slot in 1..=4_094 {
        let mut bytes = [b'n'; 64];
        bytes[0] = DIRECTORY;
        bytes[edition.entry_field(1)] = 0;
        bytes[63] = 0;
        put(&mut bytes, name, format!("{slot:04}").as_bytes());
        edition.seal(&mut bytes);
        put(&mut image, first + 64 * slot, &bytes);
    }
    image
}

#[test]
fn the_most_records() {
    for (edition, length) in [(Edition::V1_0, 4_094 * 109), (Edition::V1_10, 4_094 * 108)] {
        let image = full(edition);
        let mut output = lent(RECORDS_ROOM);
        let all = Records { refusal: 0, count: 4_094, length, next: 0 };
        assert_eq!(list_all(&image, 0, &mut output), all);
        assert!(output[length as usize..] == lent(RECORDS_ROOM)[length as usize..]);
        let mut shorter = lent(length as usize - 1);
        let size = length / 4_094;
        let but_one = Records { refusal: 0, count: 4_093, length: length - size, next: 4_094 };
        assert_eq!(list_all(&image, 0, &mut shorter), but_one);
        assert!(shorter[..but_one.length as usize] == output[..but_one.length as usize]);
        // One pass by list is enough to see that all records are right.
        both(&image, 0, length as usize);
    }
}

/// Going on from next until it is 0 gives all records, whatever the output.
#[test]
fn going_on_from_next() {
    let image = full(Edition::V1_10);
    let mut whole = lent(RECORDS_ROOM);
    let all = list_all(&image, 0, &mut whole);
    for room in [1_079, 1_080, 1_081, 5_000, 100_000, RECORDS_ROOM] {
        let (mut gathered, mut slot, mut count) = (Vec::new(), 0, 0);
        loop {
            let mut output = lent(room);
            let records = list_all(&image, slot, &mut output);
            assert_eq!(records.refusal, 0);
            gathered.extend_from_slice(&output[..records.length as usize]);
            (slot, count) = (records.next, count + records.count);
            if slot == 0 {
                break;
            }
        }
        assert_eq!((count, gathered.len() as u64), (all.count, all.length));
        assert!(gathered == whole[..all.length as usize]);
    }
}

/// A record as it is laid out.
fn record(slot: u64, kind: u8, region: [u64; 3], stamp: i64, path: &[u8]) -> Vec<u8> {
    let [start, end, length] = region;
    let mut numbers = [slot, kind.into(), start, end, length, 0, path.len() as u64].map(u64::to_le_bytes);
    numbers[5] = stamp.to_le_bytes();
    [numbers.concat().as_slice(), path].concat()
}

/// A volume whose index has, from slot 1 on: a file, a deleted or unused slot, an unusable entry, a directory with a name
/// of two slots, and a file.
fn mixed(edition: Edition) -> (Vec<u8>, Vec<u8>) {
    let mut image = vec![0; 16_384];
    let long = vec![b'l'; 60];
    assert_eq!(format(&mut image, edition.version().into(), 512, 1, b"", 0).refusal, 0);
    assert_eq!(create_file(&mut image, b"a", i64::MIN, b"abc").refusal, 0);
    assert_eq!(create_directory(&mut image, &long, -1).refusal, 0);
    for path in [b"u", b"g", b"e"] {
        assert_eq!(create_file(&mut image, path, 5, if path == b"e" { b"" } else { b"x" }).refusal, 0);
    }
    assert_eq!(delete_keep(&mut image, b"g", 9).refusal, 0);
    let at = |image: &[u8], slot: usize| image.len() - number(image, edition.super_field(0x1A4)) as usize + 64 * slot;
    let unusable = second::find(&image, b"u");
    let slot = at(&image, unusable.slot as usize);
    let region = [unusable.start, unusable.end].map(u64::to_le_bytes).concat();
    image[slot..slot + 64].fill(0);
    image[slot] = UNUSABLE;
    put(&mut image, slot + 10, &region);
    edition.seal(&mut image[slot..slot + 64]);
    (image, long)
}

#[test]
fn records_to_the_byte() {
    for (edition, end) in [(Edition::V1_0, 2), (Edition::V1_10, 1)] {
        let (image, long) = mixed(edition);
        let records = [
            record(1, FILE, [0, 0, 0], 5, b"e"),
            record(4, DIRECTORY, [0, 0, 0], -1, &long),
            record(6, FILE, [1, end, 3], i64::MIN, b"a"),
        ];
        let ends = [57, 57 + 116, 57 + 116 + 57];
        for room in 0..=ends[2] + 60 {
            let count = ends.iter().filter(|end| **end <= room).count();
            let next = [0, 2, 5, 0][count];
            let expected = match count {
                0 => Records { refusal: 18, ..Records::default() },
                _ => Records { refusal: 0, count: count as u64, length: ends[count - 1] as u64, next },
            };
            assert_eq!(both(&image, 0, room), expected, "{edition:?} {room}");
            let mut output = lent(room);
            list_all(&image, 0, &mut output);
            let length = expected.length as usize;
            assert_eq!(output[..length], records.concat()[..length]);
            assert_eq!(output[length..], lent(room)[length..]);
        }
        for (slot, count) in [(0, 3), (1, 3), (2, 2), (4, 2), (5, 1), (6, 1), (7, 0), (8, 0), (u64::MAX, 0)] {
            assert_eq!(both(&image, slot, 999).count, count, "{edition:?} {slot}");
        }
    }
}

#[test]
fn no_entry_and_no_volume() {
    for edition in Edition::ALL {
        let mut image = vec![0; 1024];
        format(&mut image, edition.version().into(), 256, 2, b"", 0);
        for (slot, room) in [(0, 0), (0, 999), (1, 55), (u64::MAX, 56)] {
            assert_eq!(both(&image, slot, room), Records::default());
        }
        assert_eq!(both(&image[..511], 0, 999), Records { refusal: 1, ..Records::default() });
        image[edition.super_field(0x1BD)] ^= 1;
        assert_eq!(both(&image, 0, 999), Records { refusal: 4, ..Records::default() });
        assert_eq!(both(&[0; 512], u64::MAX, 0), Records { refusal: 2, ..Records::default() });
    }
}

/// How many live entries a volume has.
fn crowd(entries: &[Entry]) -> &'static str {
    match entries.iter().filter(|entry| entry.is_live()).count() {
        0 => "no entry",
        1 => "one",
        2..=9 => "few",
        10..=199 => "tens",
        200..=4_093 => "many",
        _ => "the most",
    }
}

/// What a generated call asks of a good volume.
struct Asked<'a> {
    slot: u64,
    room: usize,
    index: Index<'a>,
    /// The first slot of the last live entry, 0 if there is none.
    last: u64,
    /// Where the records end that there are from the slot on.
    ends: Vec<usize>,
    /// The first of these ends and the last, 0 if there is none.
    first: usize,
    all: usize,
}

impl<'a> Asked<'a> {
    fn new(image: &'a [u8], slot: u64, room: usize) -> Option<Self> {
        let index = Volume::judge(image).ok()?.index;
        let last = index.entries.iter().filter(|entry| entry.is_live()).map(|entry| entry.slot).max().unwrap_or(0);
        let sizes = sizes(image, slot);
        let ends: Vec<usize> =
            sizes.iter().scan(0, |end, size| Some(*end + size).inspect(|next| *end = *next)).collect();
        let (first, all) = (ends.first().copied().unwrap_or(0), ends.last().copied().unwrap_or(0));
        Some(Asked { slot, room, index, last, ends, first, all })
    }

    /// Whether there is a record, and the output is so long.
    fn room_is(&self, room: usize) -> bool {
        self.all > 0 && self.room == room
    }

    /// Whether the output ends so many bytes behind a record that is neither the first nor the last.
    fn past_some(&self, bytes: usize) -> bool {
        let end = self.room.checked_sub(bytes);
        end.is_some_and(|end| self.first < end && end < self.all && self.ends.binary_search(&end).is_ok())
    }

    /// Whether such an entry stands before the last of several.
    fn between(&self, wanted: impl Fn(&Entry) -> bool) -> bool {
        let mut entries = self.index.entries.iter();
        self.ends.len() > 1 && entries.any(|entry| wanted(entry) && (self.slot..self.last).contains(&entry.slot))
    }

    fn has_long(&self) -> bool {
        self.index.entries.iter().any(|entry| entry.is_live() && entry.slots > 1 && entry.slot >= self.slot)
    }
}

type Situation = fn(&Asked) -> bool;

const SITUATIONS: [(&str, Situation); 25] = [
    ("from 0", |asked| asked.slot == 0),
    ("from a slot between", |asked| asked.slot > 0 && asked.all > 0),
    ("past the last", |asked| (asked.last + 1..4_096).contains(&asked.slot)),
    ("from the greatest slot", |asked| asked.slot == u64::MAX),
    ("no room", |asked| asked.room_is(0)),
    ("1 byte", |asked| asked.room_is(1)),
    ("55 bytes", |asked| asked.room_is(55)),
    ("56 bytes", |asked| asked.room_is(56)),
    ("57 bytes", |asked| asked.room_is(57)),
    ("the first less a byte", |asked| asked.room + 1 == asked.first),
    ("the first", |asked| asked.room_is(asked.first)),
    ("the first and a byte", |asked| asked.room_is(asked.first + 1)),
    ("some less a byte", |asked| {
        let end = asked.room + 1;
        asked.first < end && end < asked.all && asked.ends.contains(&end)
    }),
    ("some", |asked| asked.past_some(0)),
    ("some and a byte", |asked| asked.past_some(1)),
    ("some and 55 bytes", |asked| asked.past_some(55)),
    ("some and 56 bytes", |asked| asked.past_some(56)),
    ("all less a byte", |asked| asked.room + 1 == asked.all),
    ("all", |asked| asked.room_is(asked.all)),
    ("all and a byte", |asked| asked.room_is(asked.all + 1)),
    ("room for any", |asked| asked.room_is(RECORDS_ROOM)),
    ("long names", |asked| asked.has_long()),
    ("deleted between", |asked| asked.between(|entry| entry.is_deleted())),
    ("unusable between", |asked| asked.between(|entry| entry.kind == UNUSABLE)),
    ("left over", |asked| asked.all > 0 && !asked.index.stale.is_empty()),
];

fn situations(image: &[u8], slot: u64, room: usize) -> Vec<&'static str> {
    let Some(asked) = Asked::new(image, slot, room) else { return Vec::new() };
    let met = SITUATIONS.iter().filter(|(_, holds)| holds(&asked)).map(|(name, _)| *name);
    met.chain([crowd(&asked.index.entries)]).collect()
}

/// What generated calls of one family or all meet, by edition.
fn count_situations(kind: Option<&str>, seed: u64, calls: u64, counts: &mut BTreeMap<(Edition, &str), u64>) {
    let mut session = Session::without_digests();
    for line in generator::script(seed, calls, kind).unwrap_or_default().lines() {
        if let Some(words) = line.strip_prefix("listall ") {
            let (slot, room) = words.split_once(' ').unwrap();
            let met = situations(session.image(), slot.parse().unwrap(), room.parse().unwrap());
            let edition = Edition::of_image(session.image()).unwrap_or_default();
            met.into_iter().for_each(|name| *counts.entry((edition, name)).or_default() += 1);
        }
        session.execute(line).unwrap();
    }
}

#[test]
fn generated_in_every_situation() {
    let mut counts = BTreeMap::new();
    count_situations(None, 71, 60_000, &mut counts);
    (1..=8).for_each(|seed| count_situations(Some("crowded"), seed, 1_500, &mut counts));
    for ((edition, name), count) in &counts {
        println!("{} {name}: {count}", edition.name());
    }
    // Left over is nothing in 1.0, and deleted nothing in 1.10.
    assert_eq!(counts.len(), 2 * (SITUATIONS.len() + 6) - 2);
    assert!(counts.values().all(|count| *count > 2), "{counts:?}");
}

#[test]
fn every_family_lists_all() {
    for kind in KINDS {
        let mut session = Session::without_digests();
        for line in generator::script(5, 3_000, Some(kind)).unwrap_or_default().lines() {
            session.execute(line).unwrap();
        }
        let answers = session.answers("listall");
        println!("{kind}: {answers:?}");
        assert!(answers[0] > 20 && answers[18] > 2, "{kind}: {answers:?}");
    }
}

#[test]
fn listing_wants_its_room() {
    let (image, _) = mixed(Edition::V1_0);
    for image in [&image[..], &image[..600], &[], &vec![0; 65_537]] {
        let text = listing_text(image);
        for room in [0, 1, LEAST_ROOM - 1, LEAST_ROOM, LEAST_ROOM + 1] {
            let mut output = lent(room);
            let answer = listing(image, &mut output);
            let length = if room < LEAST_ROOM { 0 } else { text.len() };
            assert_eq!((answer.refusal, answer.length), (if length == 0 { 18 } else { 0 }, length as u64));
            assert_eq!(output[..length], text[..length]);
            assert!(output[length..] == lent(room)[length..]);
        }
    }
}

#[test]
fn one_number_of_the_interface() {
    assert_eq!((Own.api(), API), (2, 2));
}
