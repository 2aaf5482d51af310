//! What the families `sums` and `editions` meet, and that every family comes in both editions.

use second::generator;
use second::refusal::{Counts, OF_1_10};
use second::script::Session;
use second::selftest;
use second::Edition;
use std::collections::BTreeMap;

const NEWER: Edition = Edition::V1_10;

/// A slot and its place, as a walk of edition 1.10 steps on it.
struct Step<'a> {
    slot: usize,
    /// The identifier's slot.
    last: usize,
    /// All slots of the index area.
    slots: &'a [&'a [u8]],
    /// Their sums up to each of them.
    upto: &'a [u64],
}

impl Step<'_> {
    fn kind(&self) -> u8 {
        self.slots[self.slot][0]
    }

    fn is_live(&self) -> bool {
        matches!(self.kind(), 0x11 | 0x12)
    }

    fn is_deleted(&self) -> bool {
        matches!(self.kind(), 0x19 | 0x1A)
    }

    fn is_unused(&self) -> bool {
        self.slot > 0 && matches!(self.kind(), 0x00 | 0x03..=0x10 | 0x13..=0x17 | 0x1B..=0x1F)
    }

    /// The slots that a named run claims besides its first.
    fn count(&self) -> usize {
        usize::from(self.slots[self.slot][2])
    }

    /// The slot that a named run ends at.
    fn end(&self) -> usize {
        self.slot + self.count()
    }

    /// Whether the slots from this one to `end`, as far as there are any, sum to 0.
    fn sums_up_to(&self, end: usize) -> bool {
        (self.upto[self.slots.len().min(end + 1)] - self.upto[self.slot]).is_multiple_of(256)
    }

    fn sum_is_right(&self) -> bool {
        self.sums_up_to(if self.is_live() || self.is_deleted() { self.end() } else { self.slot })
    }

    fn is_whole(&self) -> bool {
        self.end() < self.last && self.sum_is_right()
    }

    /// A deleted head that is judged wrong, with a slot of its run before the identifier.
    fn is_wrong_deleted(&self) -> bool {
        self.is_deleted() && !self.is_whole() && self.count() > 0 && self.slot + 1 < self.last
    }

    /// One that nothing but its sum makes wrong.
    fn is_wrong_by_sum(&self) -> bool {
        self.is_wrong_deleted() && self.end() < self.last
    }

    fn is_right_run(&self) -> bool {
        self.is_deleted() && self.count() > 0 && self.is_whole()
    }

    fn behind(&self) -> u8 {
        self.slots[self.slot + 1][0]
    }

    /// The slots to the next step.
    fn length(&self) -> usize {
        let run = (self.is_live() || self.is_deleted()) && self.is_whole();
        if run {
            1 + self.count()
        } else {
            1
        }
    }
}

type Fact = fn(&Step) -> bool;

/// What a step of a walk may meet.
const FACTS: [(&str, Fact); 37] = [
    ("marker, wrong sum", |step| step.slot == 0 && !step.sum_is_right()),
    ("marker, right sum, spare bytes", |step| step.slot == 0 && step.sum_is_right() && step.slots[0][2] > 0),
    ("identifier, wrong sum", |step| step.slot == step.last && !step.sum_is_right()),
    ("identifier, right sum, spare bytes", |step| {
        step.slot == step.last && step.sum_is_right() && step.slots[step.slot][2] > 0
    }),
    ("file, wrong sum", |step| step.kind() == 0x12 && step.end() < step.last && !step.sum_is_right()),
    ("file of several slots, wrong sum", |step| {
        step.kind() == 0x12 && step.end() > step.slot && step.end() < step.last && !step.sum_is_right()
    }),
    ("directory, wrong sum", |step| step.kind() == 0x11 && step.end() < step.last && !step.sum_is_right()),
    ("directory of several slots, wrong sum", |step| {
        step.kind() == 0x11 && step.end() > step.slot && step.end() < step.last && !step.sum_is_right()
    }),
    ("file of several slots, right sum", |step| step.kind() == 0x12 && step.end() > step.slot && step.is_whole()),
    ("directory of several slots, right sum", |step| step.kind() == 0x11 && step.end() > step.slot && step.is_whole()),
    ("unused, wrong sum", |step| step.is_unused() && !step.sum_is_right()),
    ("unused, right sum", |step| step.is_unused() && step.sum_is_right()),
    ("unusable, wrong sum", |step| step.kind() == 0x18 && !step.sum_is_right()),
    ("unusable, right sum", |step| step.kind() == 0x18 && step.sum_is_right()),
    ("live, reaching the identifier", |step| matches!(step.kind(), 0x11 | 0x12) && step.end() == step.last),
    ("live, just before the identifier", |step| {
        matches!(step.kind(), 0x11 | 0x12) && step.end() == step.last - 1 && step.end() > step.slot && step.is_whole()
    }),
    ("deleted, right, of one slot", |step| step.is_deleted() && step.end() == step.slot && step.is_whole()),
    ("deleted, right, of several slots", |step| step.is_deleted() && step.end() > step.slot && step.is_whole()),
    ("deleted, wrong, of one slot", |step| step.is_deleted() && step.end() == step.slot && !step.is_whole()),
    ("deleted, just before the identifier", |step| {
        step.is_deleted() && step.end() == step.last - 1 && step.end() > step.slot && step.is_whole()
    }),
    ("deleted, at the identifier, right sum", |step| {
        step.is_deleted() && step.end() == step.last && step.sum_is_right()
    }),
    ("deleted, past the identifier, right sum up to it", |step| {
        step.is_deleted() && step.end() > step.last && step.sum_is_right()
    }),
    ("deleted, past the identifier", |step| step.is_deleted() && step.end() > step.last),
    ("deleted, swallowing a live head", |step| {
        step.is_deleted() && step.end() > step.slot && step.is_whole() && matches!(step.behind(), 0x11 | 0x12)
    }),
    ("wrong, then live", |step| step.is_wrong_deleted() && matches!(step.behind(), 0x11 | 0x12)),
    ("wrong, then unusable", |step| step.is_wrong_deleted() && step.behind() == 0x18),
    ("wrong, then a marker", |step| step.is_wrong_deleted() && matches!(step.behind(), 0x01 | 0x02)),
    ("wrong, then deleted", |step| step.is_wrong_deleted() && matches!(step.behind(), 0x19 | 0x1A)),
    ("wrong, then stray", |step| step.is_wrong_deleted() && step.behind() >= 0x20),
    ("wrong, then unused", |step| step.is_wrong_deleted() && matches!(step.behind(), 0x00 | 0x10)),
    ("wrong, a live head further in", |step| {
        step.is_wrong_by_sum() && (step.slot + 2..=step.end()).any(|slot| matches!(step.slots[slot][0], 0x11 | 0x12))
    }),
    ("wrong, claiming 200 slots", |step| step.is_wrong_by_sum() && step.count() >= 200),
    ("wrong, claiming 255 slots", |step| step.is_wrong_by_sum() && step.count() == 255),
    ("wrong, but right over a slot less", |step| step.is_wrong_by_sum() && step.sums_up_to(step.end() - 1)),
    ("wrong, but right over a slot more", |step| step.is_wrong_by_sum() && step.sums_up_to(step.end() + 1)),
    ("deleted, right, of 200 slots", |step| step.is_right_run() && step.count() >= 200),
    ("stray", |step| step.slot > 0 && step.slot < step.last && step.kind() >= 0x20),
];

/// Shows the steps of a walk over the image, to the last slot whatever is judged on the way; none of another edition.
fn each_step(image: &[u8], mut show: impl FnMut(&Step)) {
    let size = image.get(0x19E..0x1A6).map_or(0, |size| u64::from_le_bytes(size.try_into().unwrap()));
    if Edition::of_image(image) != Some(NEWER) || size > image.len() as u64 || size < 128 || size % 64 > 0 {
        return;
    }
    let slots: Vec<&[u8]> = image[image.len() - size as usize..].chunks(64).collect();
    let mut upto = vec![0];
    for slot in &slots {
        upto.push(upto[upto.len() - 1] + slot.iter().map(|byte| u64::from(*byte)).sum::<u64>());
    }
    let mut slot = 0;
    while slot < slots.len() {
        let step = Step { slot, last: slots.len() - 1, slots: &slots, upto: &upto };
        show(&step);
        slot += step.length();
    }
}

/// The facts that a walk over the image meets.
fn facts(image: &[u8]) -> Vec<&'static str> {
    let mut met = Vec::new();
    each_step(image, |step| met.extend(FACTS.iter().filter(|(_, fact)| fact(step)).map(|(name, _)| *name)));
    met
}

/// Runs a script of one family; before and after each call `show` sees the image, and the line and the answer with it.
fn each_call(kind: &str, count: u64, mut show: impl FnMut(&str, &[u8], &[u8], u8)) -> Session {
    let mut session = Session::without_digests();
    for line in generator::script(41, count, Some(kind)).unwrap_or_default().lines() {
        let before = session.image().to_vec();
        let calls = session.calls;
        session.execute(line).unwrap();
        if session.calls > calls {
            show(line, &before, session.image(), session.last);
        }
    }
    session
}

fn assert_all<T: std::fmt::Debug + Ord>(counts: &BTreeMap<T, u64>, kinds: usize, floor: u64) {
    for (name, count) in counts {
        println!("{count} {name:?}");
    }
    assert!(counts.len() == kinds && counts.values().all(|count| *count > floor), "{counts:?}");
}

#[test]
fn facts_of_every_sort() {
    let mut counts = BTreeMap::new();
    each_call("sums", 30_000, |line, before, _, _| {
        if line.starts_with("open") && before.len() >= 512 {
            facts(before).into_iter().for_each(|name| *counts.entry(name).or_default() += 1);
        }
    });
    assert_all(&counts, FACTS.len(), 10);
}

/// What an index has that is claimed many times over: how many wrong heads with long runs, and whether deleted runs and
/// live entries that are right lie between them.
#[derive(Default)]
struct Claims {
    wrong: u64,
    right_runs: u64,
    live: u64,
}

fn claims(image: &[u8]) -> Claims {
    let mut claims = Claims::default();
    let (mut right_runs, mut live) = (0, 0);
    each_step(image, |step| {
        right_runs += u64::from(step.is_right_run());
        live += u64::from(step.is_live() && step.is_whole());
        if step.is_wrong_by_sum() && step.count() >= 100 {
            claims.wrong += 1;
            // Only what another such head follows lies between.
            (claims.right_runs, claims.live) = (right_runs, live);
        }
    });
    claims
}

#[test]
fn indexes_claimed_many_times_over() {
    let mut counts = BTreeMap::new();
    each_call("sums", 50_000, |line, before, _, answer| {
        let Claims { wrong, right_runs, live } = claims(before);
        if answer == 0 && wrong >= 30 && right_runs >= 5 && live >= 10 {
            let word = line.split(' ').next().unwrap_or_default();
            *counts.entry(word.to_string()).or_default() += 1;
        }
    });
    // These leave the answer of the call before them.
    for word in ["listing", "api", "reportadd", "reporttext"] {
        counts.remove(word);
    }
    // Every other call accepted on such an index, but for restore, which never is, and format.
    assert_all(&counts, 10, 5);
}

/// The first and last block of a file or unusable entry, and the bounds of the data area: its first block, and the one
/// past its last.
struct Held {
    start: u64,
    end: u64,
    reserved: u64,
    past: u64,
}

type Bound = fn(&Held) -> bool;

/// Where blocks may lie, and whether that can be good.
const BOUNDS: [(&str, bool, Bound); 11] = [
    ("one block", true, |held| held.start == held.end && held.start > 0),
    ("first of the data area", true, |held| held.start == held.reserved),
    ("last of the data area", true, |held| held.end == held.past - 1),
    ("all of the data area", true, |held| held.start == held.reserved && held.end == held.past - 1),
    ("one before the data area", false, |held| held.start == held.reserved - 1 && held.end > 0),
    ("one past the data area", false, |held| held.end == held.past),
    ("nothing but the one past it", false, |held| held.start == held.past && held.end == held.past),
    ("last before first", false, |held| held.end.checked_add(1) == Some(held.start)),
    ("up to 2^64 - 2", false, |held| held.end == u64::MAX - 1),
    ("up to 2^64 - 1", false, |held| held.end == u64::MAX),
    ("nothing but 2^64 - 1", false, |held| held.start == u64::MAX && held.end == u64::MAX),
];

/// The bounds that the blocks of files and of unusable entries have.
fn bounds(image: &[u8]) -> Vec<(&'static str, &'static str, bool)> {
    let number = |bytes: &[u8], at: usize| u64::from_le_bytes(bytes[at..at + 8].try_into().unwrap());
    let mut met = Vec::new();
    each_step(image, |step| {
        let (name, at) = match step.kind() {
            0x12 => ("file", 11),
            0x18 => ("unusable", 10),
            _ => return,
        };
        let bytes = step.slots[step.slot];
        let reserved = number(image, 0x1B2) & 0xFFFF_FFFF;
        let past = reserved + number(image, 0x196);
        let held = Held { start: number(bytes, at), end: number(bytes, at + 8), reserved, past };
        met.extend(BOUNDS.iter().filter(|(_, _, bound)| bound(&held)).map(|(bound, good, _)| (name, *bound, *good)));
    });
    met
}

#[test]
fn last_blocks_at_their_bounds() {
    let mut counts = BTreeMap::new();
    each_call("sums", 40_000, |line, before, _, answer| {
        // These two have judged all that comes before the regions.
        if line.starts_with("open") && [0, 7].contains(&answer) {
            for (name, bound, good) in bounds(before) {
                assert!(good || answer == 7, "{name}: {bound}");
                *counts.entry((name, bound, answer)).or_default() += 1;
            }
        }
    });
    let good = |bound: &str| BOUNDS.iter().any(|(name, good, _)| *name == bound && *good);
    counts.retain(|(_, bound, answer), _| good(bound) == (*answer == 0));
    assert_all(&counts, 2 * BOUNDS.len(), 2);
}

#[test]
fn rewriting_by_every_call() {
    let rewritten = ["deleted, right, of several slots", "wrong, then live", "wrong, claiming 200 slots", "stray"];
    let mut counts = BTreeMap::new();
    each_call("sums", 24_000, |line, before, after, answer| {
        let word = line.split(' ').next().unwrap_or_default().to_string();
        let writes = matches!(word.as_str(), "mkfile" | "mkdir" | "delete" | "deletekeep" | "reclaim");
        if !writes || Edition::of_image(before) != Some(NEWER) {
            return;
        }
        let met = facts(before);
        for name in rewritten.into_iter().filter(|name| met.contains(name)) {
            *counts.entry((word.clone(), name, answer == 0)).or_default() += 1;
            // Accepted, none of it is left; refused, all is as it was.
            assert!(if answer == 0 { !facts(after).contains(&name) } else { before == after }, "{line}");
        }
    });
    // A reclaim is refused with the whole volume only, and then most walks do not get far.
    counts.retain(|(word, _, accepted), _| *accepted || word != "reclaim");
    assert_all(&counts, 5 * 4 + 4 * 4, 3);
}

/// The numbers of all calls of a family on images of edition 1.10.
fn answers(kind: Option<&str>, count: u64) -> Counts {
    let mut session = Session::without_digests();
    for line in generator::script(43, count, kind).unwrap_or_default().lines() {
        session.execute(line).unwrap();
    }
    session.answers_in(NEWER)
}

#[test]
fn answers_of_every_sort() {
    for kind in [None, Some("sums")] {
        let counts = answers(kind, 30_000);
        println!("{}", selftest::newer_table(&counts));
        assert!(OF_1_10.iter().all(|number| counts[usize::from(*number)] > 5), "{kind:?}: {counts:?}");
        // Neither by the version nor by deleted entries.
        assert_eq!((counts[9], counts[19]), (0, 0));
    }
}

/// What a call can answer on an image with a magic besides 0 and the numbers of the whole volume, in 1.0 and in 1.10.
#[rustfmt::skip]
const OF_CALLS: [(&str, &[u8], &[u8]); 14] = [
    ("open", &[18], &[18]),
    ("find", &[10, 11], &[10, 11]),
    ("list", &[18], &[18]),
    ("listall", &[18], &[18]),
    ("read", &[10, 11, 17, 18], &[10, 11, 17, 18]),
    ("mkfile", &[9, 10, 12, 13, 15, 16], &[10, 12, 13, 15, 16]),
    ("mkdir", &[9, 10, 12, 13, 15], &[10, 12, 13, 15]),
    ("delete", &[9, 10, 11, 14], &[10, 11, 14]),
    ("deletekeep", &[9, 10, 11, 14], &[10, 11, 14]),
    ("restore", &[9, 10, 11, 12, 13, 19], &[10, 11]),
    ("reclaim", &[9], &[]),
    ("listing", &[18], &[18]),
    ("reportadd", &[18], &[18]),
    ("regions", &[18], &[18]),
];

/// All that a call can answer, by the edition of the image, or for a format of its version.
fn answerable(word: &str, edition: Option<Edition>) -> Vec<u8> {
    match (word, edition) {
        ("format", Some(_)) => return vec![0, 1, 5, 10],
        ("format", None) => return vec![1, 5],
        ("listing" | "reportadd", None) => return vec![1, 2, 18],
        ("reporttext", None) => return vec![0, 18],
        (_, None) => return vec![1, 2],
        _ => {}
    }
    let of_call = OF_CALLS.iter().find(|(call, ..)| *call == word);
    let own = of_call.map_or(&[][..], |(_, old, new)| if edition == Some(NEWER) { new } else { old });
    // Nothing is ever restored in 1.10.
    let accepted = if (word, edition) == ("restore", Some(NEWER)) { &[][..] } else { &[0] };
    // The test for shared blocks does not judge paths.
    let paths = if matches!(word, "regions" | "sharing") { &[][..] } else { &[8] };
    [accepted, &[1, 3, 4, 5, 6, 7], paths, own].concat()
}

#[test]
fn every_answer_of_every_call_in_both_editions() {
    let mut met = BTreeMap::<_, Counts>::new();
    for seed in 2_001..=2_020 {
        let mut session = Session::without_digests();
        for line in generator::script(seed, 10_000, None).unwrap_or_default().lines() {
            session.execute(line).unwrap();
        }
        for (called, counts) in session.by_call() {
            let sums = met.entry(called.clone()).or_default();
            sums.iter_mut().zip(counts).for_each(|(sum, count)| *sum += count);
        }
    }
    println!("{}", selftest::call_table(&met));
    // The text of a report goes by no image.
    assert_eq!(met.len(), 16 * 3 + 1);
    for ((word, edition), counts) in &met {
        let numbers: Vec<u8> = (0..).zip(counts).filter(|(_, count)| **count > 0).map(|(number, _)| number).collect();
        assert_eq!(numbers, answerable(word, *edition), "{word} {edition:?}");
    }
}

#[test]
fn every_family_in_both_editions() {
    #[rustfmt::skip]
    let kinds = [
        "history", "damage", "built", "edges", "args", "names", "restore", "tails", "crowded", "editions", "regions",
        "wiping",
    ];
    for kind in kinds {
        let mut read = BTreeMap::new();
        let mut writes = BTreeMap::new();
        each_call(kind, 3_000, |line, before, after, answer| {
            let (word, _) = line.split_once(' ').unwrap_or((line, ""));
            let edition = Edition::of_image(before).filter(|_| answer == 0);
            match word {
                "open" | "find" | "list" | "listall" | "read" => *read.entry(edition).or_insert(0) += 1,
                "mkfile" | "mkdir" if before != after => *writes.entry(edition).or_insert(0) += 1,
                _ => {}
            }
        });
        println!("{kind}: read {read:?} created {writes:?}");
        for edition in Edition::ALL {
            assert!(read.get(&Some(edition)).is_some_and(|count| *count > 15), "{kind}: {read:?}");
            assert!(writes.get(&Some(edition)).is_some_and(|count| *count > 10), "{kind}: {writes:?}");
        }
    }
}

#[test]
fn images_with_both_magics() {
    let mut counts = BTreeMap::new();
    each_call("sums", 20_000, |line, before, _, answer| {
        let has = |at: usize| before.get(at..at + 3) == Some(b"SFS");
        if line.starts_with("open") && has(0x1AC) {
            *counts.entry((has(0x1A6), answer)).or_default() += 1;
        }
    });
    counts.retain(|(both, _), _| *both);
    // Versions too low, checksums and geometries, as edition 1.0 judges them; never another number.
    assert_all(&counts, 3, 5);
    assert!(counts.keys().all(|(_, answer)| [3, 4, 5].contains(answer)));
}

/// The most unused slots in a row, by the looks of a volume that the calls alone have made.
fn unused_in_a_row(image: &[u8]) -> usize {
    let volume = second::volume::Volume::judge(image).unwrap();
    let unused = &volume.index.unused;
    let (mut most, mut held) = (0, 0);
    for (place, slot) in unused.iter().enumerate() {
        held = if place > 0 && unused[place - 1] + 1 == *slot { held + 1 } else { 1 };
        most = most.max(held);
    }
    most
}

#[test]
fn growth_with_unused_slots_left() {
    let mut counts = BTreeMap::new();
    let index = |image: &[u8]| second::open(image, &mut [0; 51]).index_bytes;
    each_call("editions", 12_000, |line, before, after, answer| {
        if !line.starts_with("mk") || answer != 0 || Edition::of_image(before) != Some(NEWER) {
            return;
        }
        let words: Vec<&str> = line.split(' ').collect();
        let first = if words[0] == "mkdir" { 11 } else { 35 };
        let slots = 1 + (words[1].len() / 2 + first) / 64;
        let grown = index(after) > index(before);
        let left = unused_in_a_row(before) >= slots;
        let fact = match (grown, left) {
            (true, true) => "grown with slots left",
            (true, false) => "grown for want of slots",
            (false, true) => "into unused slots",
            (false, false) => "impossible",
        };
        *counts.entry(fact.to_string()).or_default() += 1;
        if left && grown {
            *counts.entry(format!("grown with slots left by {slots}")).or_default() += 1;
        }
        if slots == 6 {
            *counts.entry("six slots".to_string()).or_default() += 1;
        }
    });
    assert_all(&counts, 10, 3);
}

#[test]
fn histories_across_editions() {
    let mut counts = BTreeMap::new();
    for kind in ["editions", "history"] {
        let mut session = Session::without_digests();
        let mut last = None;
        for line in generator::script(47, 40_000, Some(kind)).unwrap_or_default().lines() {
            let answer = session.execute(line).unwrap();
            let words: Vec<&str> = line.split(' ').collect();
            match words[0] {
                "image" | "imagefill" | "imagehex" | "poke" | "truncate" => last = None,
                "format" if session.last == 0 => {
                    let turn = last.map(|last| (kind, last, words[1].to_string()));
                    turn.into_iter().for_each(|turn| *counts.entry(turn).or_default() += 1);
                    last = Some(words[1].to_string());
                }
                "history" => assert!(answer.is_some_and(|text| !text.contains("FAILED"))),
                _ => {}
            }
        }
    }
    // From each edition to itself and to the other, in both families.
    assert_all(&counts, 8, 1);
}
