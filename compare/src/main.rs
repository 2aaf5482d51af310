//! `compare SEED CALLS [KIND]`: a generated script on both stores, line by line, over both editions. The first difference ends the run
//! and prints a script that shows it; without one it says how often restore gave each answer, how often calls on volumes of edition
//! 1.10 did, how often adding an image to a report did, and how often tables of regions were answered so. `compare counts SEED CALLS
//! [KIND]`: the same, but it says how often each call gave each answer in each edition. `compare bench`: the calls on 16 MiB volumes of
//! several looks and sizes (those alone whose names begin with VOLUMES, if it is given), and the engines for shared blocks, all programs in
//! one run; `compare regions`: these engines alone. `compare names`: the name rule by both programs and by Rust's own reading of UTF-8, on
//! every short string.

#[cfg(before)]
#[allow(dead_code)]
mod before {
    include!(concat!(env!("OUT_DIR"), "/before.rs"));
}
mod bench;
mod engines;
mod library;
mod names;

use library::Library;
use second::generator;
use second::script::{Session, REPORT_ROOM};
use second::selftest::{call_table, newer_table, region_table, report_table, restore_table};
use second::Edition;
use std::process::ExitCode;

const USAGE: &str = "usage: compare [counts] SEED CALLS [history|damage|built|edges|args|names|restore|tails|crowded|sums|editions|report|regions|wiping]
       compare bench [VOLUMES]
       compare regions
       compare names";

fn main() -> ExitCode {
    let words: Vec<String> = std::env::args().skip(1).collect();
    let words: Vec<&str> = words.iter().map(String::as_str).collect();
    let outcome = match words.as_slice() {
        ["bench"] => bench::run(""),
        ["bench", volumes] => bench::run(volumes),
        ["names"] => names::run(),
        ["regions"] => bench::of_regions(),
        ["counts", seed, calls] => compare(seed, calls, None, counts),
        ["counts", seed, calls, kind] => compare(seed, calls, Some(kind), counts),
        [seed, calls] => compare(seed, calls, None, tables),
        [seed, calls, kind] => compare(seed, calls, Some(kind), tables),
        _ => Err(USAGE.to_string()),
    };
    match outcome {
        Ok(text) => {
            println!("{text}");
            ExitCode::SUCCESS
        }
        Err(text) => {
            eprintln!("{text}");
            ExitCode::FAILURE
        }
    }
}

/// What is said of the answers besides that they were alike.
type Told = fn(&Session) -> String;

fn tables(own: &Session) -> String {
    let newer = newer_table(&own.answers_in(Edition::V1_10));
    restore_table(&own.answers("restore")) + &newer + &report_table(&own.answers("reportadd")) + &region_table(&own.answers("regions"))
}

fn counts(own: &Session) -> String {
    call_table(own.by_call())
}

fn compare(seed: &str, calls: &str, kind: Option<&str>, told: Told) -> Result<String, String> {
    let seed: u64 = seed.parse().map_err(|_| USAGE)?;
    let calls: u64 = calls.parse().map_err(|_| USAGE)?;
    let script = generator::script(seed, calls, kind).ok_or(USAGE)?;
    let mut own = Session::default();
    let mut library = Session::over(Library);
    let lines: Vec<&str> = script.lines().collect();
    let mut histories = 0u64;
    for (place, line) in lines.iter().enumerate() {
        let report = *own.report();
        let wanted = own.execute(line)?;
        let got = library.execute(line)?;
        let alike = wanted == got && own.image() == library.image() && own.report() == library.report();
        let failed = wanted.as_deref().is_some_and(|text| text.starts_with("history FAILED"));
        if failed || !alike {
            return Err(difference(&lines[..=place], &report, &wanted, &got));
        }
        histories += u64::from(wanted.as_deref() == Some("history ok"));
    }
    Ok(format!("{}seed {seed}: {} calls alike, {histories} histories held", told(&own), own.calls))
}

/// The lines since the image was last made anew, which are enough to show a difference once the report, which is kept from image to
/// image, is what it was before the last of them.
fn difference(lines: &[&str], report: &[u64; REPORT_ROOM], wanted: &Option<String>, got: &Option<String>) -> String {
    let start = lines.iter().rposition(|line| line.starts_with("image")).unwrap_or(0);
    let mut script: Vec<String> = lines[start..].iter().map(|line| line.to_string()).collect();
    let last = script.pop().unwrap_or_default();
    if last.starts_with("report") {
        script.extend(report.iter().enumerate().map(|(place, number)| format!("reportset {place} {number}")));
    }
    format!("{}\n# second: {}\n# library: {}", [script, vec![last]].concat().join("\n"), show(wanted), show(got))
}

fn show(line: &Option<String>) -> &str {
    line.as_deref().unwrap_or("nothing")
}
