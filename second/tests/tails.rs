//! What the family `tails` meets: answers of every sort, and stored names that are nearly the wanted path.

use second::generator;
use second::index::{self, Entry};
use second::refusal::Counts;
use second::script::Session;
use second::superblock::Geometry;
use second::volume::Volume;
use std::collections::BTreeMap;

/// So many that every floor below is passed several times over.
const CALLS: u64 = 40_000;
/// What every case and every mistake must be met more often than. Fewer calls search for deleted entries.
const LIVE_FLOOR: u64 = 20;
const DELETED_FLOOR: u64 = 5;

/// A named run: its name and all the bytes it has for one.
struct Run {
    name: Vec<u8>,
    field: Vec<u8>,
    /// The bytes of the field that lie in the first slot.
    first: usize,
    /// The bytes from the start of the field to the image's end.
    left: usize,
    live: bool,
}

impl Run {
    fn capacity(&self) -> usize {
        self.field.len()
    }

    /// Whether the run has the path's last place, with the path's last byte.
    fn alike(&self, path: &[u8]) -> bool {
        path.last() == self.field.get(path.len() - 1)
    }

    fn longest(&self) -> bool {
        self.name.len() == self.capacity() - 1
    }

    /// What stands behind the zero, up to the path's last place.
    fn behind(&self, path: &[u8]) -> Option<&[u8]> {
        self.field.get(self.name.len() + 1..path.len()).filter(|behind| !behind.is_empty())
    }

    /// How many bytes there are not the path's, if the name is a prefix of it and the last byte is right.
    fn wrong_behind(&self, path: &[u8]) -> Option<usize> {
        let behind = self.behind(path).filter(|_| path.starts_with(&self.name) && self.alike(path))?;
        Some(differences(behind, &path[self.name.len() + 1..]).len())
    }

    /// The only place at which name and path, of one length, differ.
    fn only_difference(&self, path: &[u8]) -> Option<usize> {
        let differences = differences(&self.name, path);
        (self.name.len() == path.len() && differences.len() == 1).then(|| differences[0])
    }

    /// Whether these bytes lie behind the name, its zero among them.
    fn holds(&self, bytes: &[u8]) -> bool {
        self.field[self.name.len()..].windows(bytes.len()).any(|part| part == bytes)
    }
}

fn differences(one: &[u8], other: &[u8]) -> Vec<usize> {
    (0..one.len().min(other.len())).filter(|place| one[*place] != other[*place]).collect()
}

fn run_of(image: &[u8], geometry: &Geometry, entry: &Entry) -> Option<Run> {
    let name_at = index::name_at(geometry.edition, entry.kind)?;
    let at = geometry.slot_offset(entry.slot);
    let end = at + 64 * entry.slots as usize;
    let field = image[at + name_at..end].to_vec();
    let left = image.len() - at - name_at;
    Some(Run { name: entry.path.to_vec(), field, first: 64 - name_at, left, live: entry.is_live() })
}

/// The named runs in slot order, none if the image does not open.
fn runs(image: &[u8]) -> Vec<Run> {
    let Ok(volume) = Volume::judge(image) else { return Vec::new() };
    let geometry = volume.super_block.geometry;
    volume.index.entries.iter().filter_map(|entry| run_of(image, &geometry, entry)).collect()
}

fn unhex(word: &str) -> Vec<u8> {
    let digits = if word == "-" { "" } else { word };
    (0..digits.len()).step_by(2).map(|at| u8::from_str_radix(&digits[at..at + 2], 16).unwrap()).collect()
}

/// Runs a script and shows every call that searched: whether for a live entry or for a deleted one, the path, the runs
/// before the call, and the answer. Refusals 1 to 10 come before any search.
fn each_search(seed: u64, mut show: impl FnMut(bool, &[u8], &[Run], u8)) -> Session {
    let mut session = Session::without_digests();
    for line in generator::script(seed, CALLS, Some("tails")).unwrap_or_default().lines() {
        let words: Vec<&str> = line.split(' ').collect();
        let has_path = matches!(words[0], "find" | "read" | "mkfile" | "mkdir" | "delete" | "deletekeep" | "restore");
        let before = if has_path { runs(session.image()) } else { Vec::new() };
        session.execute(line).unwrap();
        if has_path && !(1..=10).contains(&session.last) {
            show(words[0] != "restore", &unhex(words[1]), &before, session.last);
        }
    }
    session
}

#[test]
fn answers_of_every_sort() {
    let session = each_search(21, |_, _, _, _| {});
    let created = sum(session.answers("mkfile"), session.answers("mkdir"));
    for (word, counts, numbers) in [
        ("open", session.answers("open"), &[0][..]),
        ("find", session.answers("find"), &[0, 10, 11]),
        ("read", session.answers("read"), &[0, 10, 11, 17]),
        ("delete", session.answers("delete"), &[0, 10, 11, 14]),
        ("deletekeep", session.answers("deletekeep"), &[0, 10, 11, 14]),
        ("restore", session.answers("restore"), &[0, 10, 11, 12, 13, 19]),
        ("create", created, &[0, 10, 12, 13]),
        ("reclaim", session.answers("reclaim"), &[0]),
    ] {
        println!("{word} {counts:?}");
        assert!(numbers.iter().all(|number| counts[*number] > 20), "{word}: {counts:?}");
    }
    // Most images open, so the searches are reached.
    let refused: u64 = session.met[1..9].iter().sum();
    assert!(refused * 10 < session.calls, "{refused} of {}", session.calls);
}

fn sum(one: Counts, other: Counts) -> Counts {
    std::array::from_fn(|number| one[number] + other[number])
}

/// What a run is to a wanted path.
type Case = fn(&Run, &[u8]) -> bool;

const CASES: [(&str, Case); 24] = [
    ("itself", |run, path| run.name == path),
    ("alike, another name", |run, path| run.alike(path) && run.name != path),
    ("prefix, then wholly", |run, path| run.wrong_behind(path) == Some(0)),
    ("prefix, then one wrong", |run, path| run.wrong_behind(path) == Some(1)),
    ("prefix, then only the last", |run, path| {
        let behind = run.behind(path).map_or(0, <[u8]>::len);
        behind > 2 && run.wrong_behind(path) == Some(behind - 1)
    }),
    ("prefix, zero at the last place", |run, path| path[..path.len() - 1] == run.name),
    ("prefix, going on after the zero", |run, path| {
        path.strip_prefix(&run.name[..])
            .is_some_and(|more| more.len() > 1 && run.field[run.name.len() + 1..].starts_with(more))
    }),
    ("other last byte", |run, path| run.only_difference(path).is_some_and(|place| place == path.len() - 1)),
    ("other first byte", |run, path| path.len() > 1 && run.only_difference(path) == Some(0)),
    ("other middle byte", |run, path| {
        run.only_difference(path).is_some_and(|place| place > 0 && place < path.len() - 1)
    }),
    ("one byte more", |run, path| run.name.len() == path.len() + 1 && run.name.starts_with(path)),
    ("slash and more", |run, path| run.name.strip_prefix(path).is_some_and(|more| more.starts_with(b"/"))),
    ("longest, itself", |run, path| run.longest() && run.name == path),
    ("longest, as long", |run, path| run.longest() && path.len() == run.capacity() - 1 && run.name != path),
    ("longest, at capacity", |run, path| run.longest() && path.len() == run.capacity()),
    ("longest, one past", |run, path| run.longest() && path.len() == run.capacity() + 1),
    ("longest, far past", |run, path| run.longest() && path.len() > run.capacity() + 64),
    ("at capacity, alike", |run, path| path.len() == run.capacity() && run.alike(path)),
    ("spare slots, itself", |run, path| run.name == path && run.capacity() > path.len() + 64),
    ("last character alike in its last byte", |run, path| {
        let wide = path[path.len() - 1] >= 0x80 && run.alike(path);
        wide && run.name.len() >= path.len() && last_character(&run.field[..path.len()]) != last_character(path)
    }),
    ("in a continuing slot", |run, path| path.len() > run.first && run.name == path),
    ("in a continuing slot, another name", |run, path| path.len() > run.first && run.alike(path) && run.name != path),
    ("prefix, last place at the image's end", |run, path| path.len() == run.left && path.starts_with(&run.name)),
    ("prefix, last place past the image", |run, path| path.len() > run.left && path.starts_with(&run.name)),
];

fn last_character(text: &[u8]) -> &[u8] {
    let start = text.iter().rposition(|byte| !(0x80..0xC0).contains(byte));
    &text[start.unwrap_or(0)..]
}

/// Counts by name, those of searches for live entries apart from those for deleted ones.
type Tally = BTreeMap<(&'static str, bool), u64>;

fn assert_floors(tally: &Tally, names: usize, what: &str) {
    for ((name, live), count) in tally {
        println!("{count} {} {name}", if *live { "live" } else { "deleted" });
    }
    assert_eq!(tally.len(), 2 * names);
    let floor = |live| if live { LIVE_FLOOR } else { DELETED_FLOOR };
    let few: Vec<_> = tally.iter().filter(|((_, live), count)| **count <= floor(*live)).collect();
    assert!(few.is_empty(), "{what} too seldom: {few:?}");
}

/// How often a search met each of the cases among the runs that it looks at, the live or the deleted ones.
#[test]
fn cases_of_every_sort() {
    let mut counts = Tally::new();
    each_search(22, |live, path, runs, _| {
        for (name, case) in CASES {
            let met = runs.iter().any(|run| run.live == live && case(run, path));
            *counts.entry((name, live)).or_default() += u64::from(met);
        }
    });
    assert_floors(&counts, CASES.len(), "met");
}

/// What the runs together are to a wanted path.
type Company = fn(&[Run], &[u8]) -> bool;

const COMPANIES: [(&str, Company); 8] = [
    ("behind another's zero", |runs, path| has(runs, path, true) && runs.iter().any(|run| run.holds(path))),
    ("between another's zeros", |runs, path| {
        has(runs, path, true) && runs.iter().any(|run| run.holds(&[b"\0", path, b"\0"].concat()))
    }),
    ("live and deleted", |runs, path| has(runs, path, true) && has(runs, path, false)),
    ("deleted twice", |runs, path| named(runs, path, false) > 1),
    ("deleted twice and live", |runs, path| named(runs, path, false) > 1 && has(runs, path, true)),
    ("live, and a prefix goes on so", |runs, path| has(runs, path, true) && goes_on(runs, path)),
    ("deleted, and a prefix goes on so", |runs, path| {
        has(runs, path, false) && !has(runs, path, true) && goes_on(runs, path)
    }),
    ("deleted twice, and a prefix goes on so", |runs, path| named(runs, path, false) > 1 && goes_on(runs, path)),
];

fn named(runs: &[Run], path: &[u8], live: bool) -> usize {
    runs.iter().filter(|run| run.live == live && run.name == path).count()
}

fn has(runs: &[Run], path: &[u8], live: bool) -> bool {
    named(runs, path, live) > 0
}

fn goes_on(runs: &[Run], path: &[u8]) -> bool {
    runs.iter().any(|run| run.wrong_behind(path) == Some(0))
}

#[test]
fn companies_of_every_sort() {
    let mut counts = [0; COMPANIES.len()];
    each_search(23, |_, path, runs, _| {
        for (count, (_, company)) in counts.iter_mut().zip(COMPANIES) {
            *count += u64::from(company(runs, path));
        }
    });
    for (count, (name, _)) in counts.iter().zip(COMPANIES) {
        println!("{count} {name}");
        assert!(*count > 50, "{name}: {count}");
    }
}

/// A comparison, right or wrong, of a stored name with a wanted path.
type Same = fn(&Run, &[u8]) -> bool;

const MISTAKES: [(&str, Same); 12] = [
    ("looks at the last place alone", |run, path| run.alike(path)),
    ("looks at the last place and the length", |run, path| run.alike(path) && run.name.len() == path.len()),
    ("looks at the ends and the length", |run, path| {
        run.alike(path) && run.name[0] == path[0] && run.name.len() == path.len()
    }),
    ("is content at the name's zero", |run, path| run.alike(path) && path.starts_with(&run.name)),
    ("is content at the path's end", |run, path| run.field.starts_with(path)),
    ("takes the zero for any byte", |run, path| {
        run.alike(path) && path.iter().zip(&run.field).all(|(wanted, byte)| [*wanted, 0].contains(byte))
    }),
    ("passes over the zero", |run, path| [&run.name, &run.field[run.name.len() + 1..]].concat().starts_with(path)),
    ("begins with the second byte", |run, path| run.name.len() == path.len() && run.name[1..] == path[1..]),
    ("leaves out the last byte but one", |run, path| {
        let place = path.len().wrapping_sub(2);
        run.name == path || (run.name.len() == path.len() && differences(&run.name, path) == [place])
    }),
    ("has one place too few", |run, path| run.name == path && path.len() < run.capacity() - 1),
    ("knows only the first slot", |run, path| run.name == path && path.len() <= run.first),
    ("gives a directory the places of a file", |run, path| {
        run.name == path && path.len() <= run.capacity() + 30 - run.first
    }),
];

/// The place of the run that a search gives, among those it looks at.
fn searched(runs: &[&Run], path: &[u8], same: Same) -> Option<usize> {
    runs.iter().position(|run| same(run, path))
}

/// A search that takes the first run that is alike for the only one.
fn searched_once(runs: &[&Run], path: &[u8]) -> Option<usize> {
    let first = searched(runs, path, Run::alike);
    first.filter(|place| runs[*place].name == path)
}

/// A search with any of these mistakes would find another entry, none counted as one, and not once but often.
#[test]
fn mistakes_show() {
    let mut counts = Tally::new();
    each_search(24, |live, path, runs, answer| {
        let looked_at: Vec<&Run> = runs.iter().filter(|run| run.live == live).collect();
        let right = searched(&looked_at, path, |run, path| run.name == path);
        assert!(answer != 11 || right.is_none());
        let wrong = MISTAKES.map(|(name, same)| (name, searched(&looked_at, path, same)));
        for (name, found) in wrong.into_iter().chain([("gives up too early", searched_once(&looked_at, path))]) {
            *counts.entry((name, live)).or_default() += u64::from(found != right);
        }
    });
    assert_floors(&counts, MISTAKES.len() + 1, "would find another entry");
}
