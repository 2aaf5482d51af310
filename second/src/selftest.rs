//! Generated histories, run and checked in one go.

use crate::edition::Edition;
use crate::generator;
use crate::refusal::{Counts, Refusal, OF_1_10, OF_DELETE, OF_REGIONS, OF_REPORT, OF_RESTORE};
use crate::script::{Called, Session};
use std::collections::BTreeMap;
use std::fmt;

/// What a run of generated scripts met.
#[derive(Clone, Debug, Default)]
pub struct Tally {
    pub scripts: u64,
    pub calls: u64,
    /// Histories whose check said `history ok`.
    pub histories: u64,
    /// How often each refusal number was answered.
    pub met: Counts,
    /// The same for the restores alone.
    pub restores: Counts,
    /// The same for the deletes that wipe, and for those that keep.
    pub deletes: Counts,
    pub keeping_deletes: Counts,
    /// The same for the calls on images of edition 1.10 alone; formats, listings, reports and tests for shared blocks
    /// left out.
    pub newer: Counts,
    /// The same for the images added to reports.
    pub reports: Counts,
    /// The same for the tables of regions.
    pub regions: Counts,
    pub failures: Vec<String>,
}

/// Runs `scripts` scripts. Each has one history with its check, and every second one a scene of
/// another family behind it, since histories alone never meet refusals 2 to 9.
pub fn run(seed: u64, scripts: u64) -> Tally {
    let mut tally = Tally::default();
    for place in 0..scripts {
        run_one(generator::one(seed, place), place, &mut tally);
    }
    tally
}

fn run_one(script: String, place: u64, tally: &mut Tally) {
    let mut session = Session::default();
    let mut checked = false;
    for line in script.lines() {
        match session.execute(line) {
            Ok(Some(text)) if text == "history ok" => {
                checked = true;
                tally.histories += 1;
            }
            Ok(Some(text)) if text.starts_with("history FAILED") || engines_differ(&text) => {
                tally.failures.push(format!("script {place}: {text}"))
            }
            Ok(_) => {}
            Err(reason) => tally.failures.push(format!("script {place}: {reason}: {line:.60}")),
        }
    }
    if !checked {
        tally.failures.push(format!("script {place}: no history was checked"));
    }
    tally.scripts += 1;
    tally.calls += session.calls;
    add(&mut tally.met, &session.met);
    add(&mut tally.restores, &session.answers("restore"));
    add(&mut tally.deletes, &session.answers("delete"));
    add(&mut tally.keeping_deletes, &session.answers("deletekeep"));
    add(&mut tally.newer, &session.answers_in(Edition::V1_10));
    add(&mut tally.reports, &session.answers("reportadd"));
    add(&mut tally.regions, &session.answers("regions"));
}

/// Whether this line says that one engine found a shared block, or a refusal, where the other did not.
fn engines_differ(text: &str) -> bool {
    let mut words = text.split(' ');
    words.next() == Some("sharing") && words.next() != words.next()
}

fn add(sums: &mut Counts, more: &Counts) {
    sums.iter_mut().zip(more).for_each(|(sum, count)| *sum += count);
}

/// A line for each number that restore can answer.
pub fn restore_table(counts: &Counts) -> String {
    table("restore", &OF_RESTORE, counts)
}

/// A line for each number that a delete can answer; the word says which of the two it is.
pub fn delete_table(word: &str, counts: &Counts) -> String {
    table(word, &OF_DELETE, counts)
}

/// A line for each number that a call on a volume of edition 1.10 can answer.
pub fn newer_table(counts: &Counts) -> String {
    table("edition 1.10", &OF_1_10, counts)
}

/// A line for each number that adding an image to a report can answer.
pub fn report_table(counts: &Counts) -> String {
    table("reportadd", &OF_REPORT, counts)
}

/// A line for each number that a table of regions can be answered with.
pub fn region_table(counts: &Counts) -> String {
    table("regions", &OF_REGIONS, counts)
}

/// A line for each call, edition and number that was met: word, edition, number, how often.
pub fn call_table(met: &BTreeMap<Called, Counts>) -> String {
    let lines = met.iter().flat_map(|((word, edition), counts)| {
        let edition = edition.map_or("none", Edition::name);
        let met = counts.iter().enumerate().filter(|(_, count)| **count > 0);
        met.map(move |(number, count)| format!("{word} {edition} {number} {count}\n"))
    });
    lines.collect()
}

fn table(what: &str, numbers: &[Refusal], counts: &Counts) -> String {
    numbers.iter().map(|number| format!("{what} {number} met {}\n", counts[usize::from(*number)])).collect()
}

impl fmt::Display for Tally {
    fn fmt(&self, text: &mut fmt::Formatter) -> fmt::Result {
        writeln!(text, "histories {} failures {}", self.histories, self.failures.len())?;
        for (number, met) in self.met.iter().enumerate() {
            writeln!(text, "refusal {number} met {met}")?;
        }
        text.write_str(&restore_table(&self.restores))?;
        text.write_str(&delete_table("delete", &self.deletes))?;
        text.write_str(&delete_table("deletekeep", &self.keeping_deletes))?;
        text.write_str(&newer_table(&self.newer))?;
        text.write_str(&report_table(&self.reports))?;
        text.write_str(&region_table(&self.regions))?;
        writeln!(text, "scripts {} calls {}", self.scripts, self.calls)
    }
}
