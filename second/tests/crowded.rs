//! What the family `crowded` meets: answers of every sort, and volumes of every size and look.

use second::generator;
use second::index::{Entry, UNUSABLE};
use second::script::Session;
use second::volume::Volume;
use std::collections::{BTreeMap, BTreeSet};

const SEEDS: u64 = 10;
const CALLS: u64 = 1_000;

/// Runs the scripts of all seeds and shows every good volume as it is when it has just been laid.
fn each_volume(mut show: impl FnMut(&Volume)) -> Session {
    let mut session = Session::without_digests();
    for seed in 1..=SEEDS {
        let mut laid = false;
        for line in generator::script(seed, CALLS, Some("crowded")).unwrap_or_default().lines() {
            if laid && !line.starts_with("poke") {
                Volume::judge(session.image()).iter().for_each(&mut show);
            }
            laid = line.starts_with("poke");
            session.execute(line).unwrap();
        }
    }
    session
}

#[test]
fn answers_of_every_sort() {
    let session = each_volume(|_| {});
    for (word, numbers) in [
        ("open", &[0, 6, 7, 8, 18][..]),
        ("find", &[0, 6, 7, 8, 11]),
        ("list", &[0, 6, 7, 8, 18]),
        ("listall", &[0, 6, 7, 8, 18]),
        ("read", &[0, 6, 7, 8, 17, 18]),
        ("mkfile", &[0, 7, 8, 12, 13, 15, 16]),
        ("mkdir", &[0, 12, 13, 15]),
        ("delete", &[0, 8, 11, 14]),
        ("deletekeep", &[0, 8, 11, 14]),
        ("restore", &[0, 11, 12, 13, 19]),
        ("reclaim", &[0, 6, 7, 8, 9]),
    ] {
        let counts = session.answers(word);
        println!("{word} {counts:?}");
        assert!(numbers.iter().all(|number| counts[*number] > 0), "{word}: {counts:?}");
    }
    assert!([0, 7, 8, 16].iter().all(|number| session.met[*number] > 100), "{:?}", session.met);
}

#[test]
fn volumes_of_every_size() {
    let mut sizes = BTreeMap::new();
    each_volume(|volume| {
        let size = match volume.index.entries.len() {
            0..=10 => "few",
            11..=100 => "some",
            101..=1_000 => "many",
            1_001..=4_000 => "a great many",
            _ => "nearly all",
        };
        *sizes.entry(size).or_insert(0) += 1;
    });
    println!("{sizes:?}");
    assert!(sizes.len() == 5 && sizes.values().all(|count| *count > 1), "{sizes:?}");
}

/// What a volume may look like.
type Look = fn(&Volume) -> bool;

const LOOKS: [(&str, Look); 13] = [
    ("ascending", |volume| paths(volume, Entry::is_live).windows(2).all(|pair| pair[0] < pair[1])),
    ("descending", |volume| paths(volume, Entry::is_live).windows(2).all(|pair| pair[0] > pair[1])),
    ("regions descending", |volume| {
        let starts: Vec<u64> =
            volume.index.entries.iter().map(|entry| entry.start).filter(|start| *start > 0).collect();
        starts.len() > 5 && starts.windows(2).all(|pair| pair[0] > pair[1])
    }),
    ("long common beginnings", |volume| {
        let paths = paths(volume, Entry::is_live);
        let first = paths.iter().find_map(|path| path.get(..80));
        paths.iter().filter(|path| first.is_some() && path.get(..80) == first).count() > 5
    }),
    ("deep", |volume| paths(volume, Entry::is_live).iter().filter(|path| depth(path) >= 25).count() > 5),
    ("beside the slash", |volume| {
        let live: BTreeSet<&[u8]> = paths(volume, Entry::is_live).into_iter().collect();
        let between = |low: &[u8], high: &[u8]| low < high && live.range(low..high).next().is_some();
        live.contains(b"a".as_slice()) && between(b"a ", b"a/") && between(b"a/", b"a0") && between(b"a0", b"a1")
    }),
    ("every second block", |volume| {
        volume.regions.len() > 10
            && volume.regions.iter().all(|region| region.end == region.start + 1)
            && volume.regions.windows(2).all(|pair| pair[1].start == pair[0].end + 1)
    }),
    ("all touch", |volume| {
        volume.regions.len() > 10 && volume.regions.windows(2).all(|pair| pair[1].start == pair[0].end)
    }),
    ("deleted and live", |volume| paths(volume, Entry::is_deleted).iter().any(|path| volume.live.get(path).is_some())),
    ("deleted twice", |volume| {
        let deleted = paths(volume, Entry::is_deleted);
        deleted.iter().collect::<BTreeSet<_>>().len() < deleted.len()
    }),
    ("unusable", |volume| volume.index.entries.iter().any(|entry| entry.kind == UNUSABLE)),
    ("unused between", |volume| {
        let last = volume.index.entries.last().map_or(0, |entry| entry.slot);
        volume.index.unused.iter().any(|slot| *slot < last)
    }),
    ("no slot left", |volume| volume.index.unused.is_empty() && volume.super_block.geometry.slots() == 4_096),
];

fn paths<'a>(volume: &Volume<'a>, wanted: fn(&Entry<'a>) -> bool) -> Vec<&'a [u8]> {
    volume.index.entries.iter().filter(|entry| wanted(entry)).map(|entry| entry.path).collect()
}

/// The directories that the path lies in.
fn depth(path: &[u8]) -> usize {
    path.iter().filter(|byte| **byte == b'/').count()
}

#[test]
fn looks_of_every_sort() {
    let mut counts = [0; LOOKS.len()];
    each_volume(|volume| {
        for (count, (_, look)) in counts.iter_mut().zip(LOOKS) {
            *count += u64::from(volume.live.len() > 5 && look(volume));
        }
    });
    for (count, (name, _)) in counts.iter().zip(LOOKS) {
        println!("{count} {name}");
    }
    assert!(counts.iter().all(|count| *count > 1), "{counts:?}");
}
