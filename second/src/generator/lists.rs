//! The calls that list: from which slot, and into how long an output.

use super::{Known, Writer};
use crate::listing::LEAST_ROOM;
use crate::query::{RECORDS_ROOM, RECORD_PATH};
use crate::xorshift::Xorshift;

/// Lengths about that of a record without its path.
pub const SHORT: [u64; 5] = [0, 1, 55, 56, 57];
/// Slots at the end of the largest index, and past that of any.
const FAR: [u64; 6] = [4_094, 4_095, 1 << 32, 1 << 63, u64::MAX - 1, u64::MAX];

impl Writer {
    /// Lists from slot to slot to the end, over at most `most` entries; then several at once.
    pub fn list_each(&mut self, most: usize) {
        let mut from = 0;
        for known in self.live().iter().take(most) {
            let room = self.room(known.path.len() as u64);
            self.put(format!("list {from} {room}"));
            from = known.slot + 1;
        }
        self.put(format!("list {from} 285"));
        self.list_all();
    }

    /// The records from some slot on.
    pub fn list_all(&mut self) -> u8 {
        let live = self.live();
        let slot = self.first_listed(&live);
        self.list_all_from(slot, &live)
    }

    /// The records from this slot on, into an output for none of them, some or all.
    pub fn list_all_from(&mut self, slot: u64, live: &[Known]) -> u8 {
        let records: Vec<u64> = live.iter().filter(|known| known.slot >= slot).map(record).collect();
        let room = records_room(&mut self.rng, &records);
        self.put(format!("listall {slot} {room}"))
    }

    /// Mostly 0; else that of an entry or the one behind it, where a list goes on, or one past the end.
    fn first_listed(&mut self, live: &[Known]) -> u64 {
        let some = self.rng.pick(live).slot;
        let middle = live.get(live.len() / 2).map_or(1, |known| known.slot);
        let last = live.last().map_or(1, |known| known.slot);
        let end = self.geometry().map_or(2, |geometry| geometry.slots());
        match self.rng.below(16) {
            0..=6 => 0,
            7 | 8 => some,
            9 | 10 => some + 1,
            11 => middle,
            12 => last,
            13 => last + 1,
            14 => end - 1 + self.rng.below(3),
            _ => self.rng.pick(&FAR),
        }
    }

    /// The listing's text, into an output that is mostly just long enough for any.
    pub fn listing(&mut self) -> u8 {
        let least = LEAST_ROOM as u64;
        let room = match self.rng.below(20) {
            0 => 0,
            1 => least - 1,
            2 => self.rng.below(least),
            3 => least + 1,
            4 => least + self.rng.below(5_000),
            _ => least,
        };
        self.put(format!("listing {room}"))
    }
}

/// The bytes of an entry's record.
pub fn record(known: &Known) -> u64 {
    (RECORD_PATH + known.path.len()) as u64
}

/// An output for so long records: about what the first, some or all of them take, or what would do for any image.
fn records_room(rng: &mut Xorshift, records: &[u64]) -> u64 {
    let any = RECORDS_ROOM as u64;
    if records.is_empty() {
        return rng.pick(&[0, 1, 55, 56, 57, 58, 341, 4_096, any]);
    }
    let count = 1 + rng.below(records.len() as u64) as usize;
    let some = records.iter().take(count).sum();
    let all = records.iter().sum();
    match rng.below(20) {
        0 | 1 => rng.pick(&SHORT),
        2..=4 => around(rng, records[0]),
        5..=7 => around(rng, some),
        // Too little for the next one, if only for its path.
        8 | 9 => some + rng.pick(&SHORT),
        10..=13 => around(rng, all),
        14 => any,
        15 => all + rng.below(5_000),
        _ => all,
    }
}

/// One byte less, just as many, or one more.
fn around(rng: &mut Xorshift, needed: u64) -> u64 {
    needed - 1 + rng.below(3)
}
