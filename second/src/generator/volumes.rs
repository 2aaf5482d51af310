//! Volumes for files: images that generated scripts add to their reports, by how they are answered.

use super::script;
use crate::edition::Edition;
use crate::refusal::{self, Refusal};
use crate::report::MOST_INPUT;
use crate::script::{digest, Session};
use crate::volume::Volume;
use crate::xorshift::Xorshift;
use std::collections::{BTreeMap, BTreeSet, VecDeque};

/// The most bytes of a volume, a few too many for a report.
pub const MOST_BYTES: usize = MOST_INPUT + 4;
/// The calls of a script that volumes are taken from, and the volumes of one sort that wait at most.
const CALLS: u64 = 400;
const MOST_WAITING: usize = 40;
/// The kinds of the scripts, and the entries of a volume that is not crowded at most. Crowded ones are rare.
const KINDS: [Option<&str>; 5] = [None, None, Some("report"), Some("report"), Some("crowded")];
const MOST_ENTRIES: usize = 100;
/// Lengths that are refusal 1.
const LENGTHS: [usize; 12] =
    [0, 0, 0, 1, 256, 430, 511, MOST_INPUT + 1, MOST_INPUT + 1, MOST_INPUT + 2, 65_539, MOST_BYTES];

/// The answer to an image, and the edition of one that opens.
type Sort = (Refusal, Option<Edition>);

const OLDER: Sort = (refusal::SUCCESS, Some(Edition::V1_0));
const NEWER: Sort = (refusal::SUCCESS, Some(Edition::V1_10));

/// The sorts one after the other: half of the volumes open, of each edition as many.
#[rustfmt::skip]
const SORTS: [Sort; 20] = [
    OLDER, NEWER, (1, None), (6, None), OLDER, NEWER, (2, None), (7, None), OLDER, NEWER,
    (1, None), (3, None), OLDER, NEWER, (4, None), (8, None), OLDER, NEWER, (5, None), (6, None),
];

/// Gives out volumes; the same seed always gives the same ones.
pub struct Volumes {
    rng: Xorshift,
    seed: u64,
    given: usize,
    waiting: BTreeMap<Sort, VecDeque<Vec<u8>>>,
    /// The digests of all that were kept, as none waits twice. Of a wrong length, the empty image above all, the same
    /// may be given more than once.
    met: BTreeSet<u64>,
}

impl Volumes {
    pub fn new(seed: u64) -> Self {
        let seed = seed.wrapping_mul(0x9E37_79B9_7F4A_7C15);
        let (waiting, met) = Default::default();
        Volumes { rng: Xorshift::new(seed), seed, given: 0, waiting, met }
    }

    fn of_sort(&mut self, sort: Sort) -> Vec<u8> {
        loop {
            if let Some(image) = self.waiting.get_mut(&sort).and_then(VecDeque::pop_front) {
                return image;
            }
            self.gather();
        }
    }

    /// Takes in the volumes of one more script.
    fn gather(&mut self) {
        self.seed = self.seed.wrapping_add(1);
        let kind = self.rng.pick(&KINDS);
        let mut session = Session::without_digests();
        for line in script(self.seed, CALLS, kind).unwrap_or_default().lines() {
            // A line that cannot be read is found by the tests of the scripts.
            let _ = session.execute(line);
            if line.starts_with("reportadd") && session.image().len() <= MOST_BYTES {
                self.keep(session.image());
            }
        }
    }

    /// Crowded ones are given before all others of their sort.
    fn keep(&mut self, image: &[u8]) {
        let crowded = Volume::judge(image).is_ok_and(|volume| volume.index.entries.len() > MOST_ENTRIES);
        let waiting = self.waiting.entry(sort(image)).or_default();
        if (crowded || waiting.len() < MOST_WAITING) && self.met.insert(digest(image)) {
            if crowded {
                waiting.push_front(image.to_vec());
            } else {
                waiting.push_back(image.to_vec());
            }
        }
    }
}

impl Iterator for Volumes {
    type Item = Vec<u8>;

    /// Never ends. Those of a wrong length are others that were cut or drawn out.
    fn next(&mut self) -> Option<Vec<u8>> {
        let sort = SORTS[self.given % SORTS.len()];
        self.given += 1;
        if sort.0 != refusal::IMAGE_LENGTH {
            return Some(self.of_sort(sort));
        }
        let mut image = self.of_sort(OLDER);
        // Every tenth volume or so is such a one, so that all the lengths come by turns.
        image.resize(LENGTHS[self.given / 10 % LENGTHS.len()], 0);
        Some(image)
    }
}

fn sort(image: &[u8]) -> Sort {
    match Volume::judge(image) {
        _ if image.len() > MOST_INPUT => (refusal::IMAGE_LENGTH, None),
        Ok(volume) => (refusal::SUCCESS, Some(volume.super_block.geometry.edition)),
        Err(refusal) => (refusal, None),
    }
}
