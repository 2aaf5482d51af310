//! The command line: `second run`, `gen`, `selftest`, `listing`, `report` and `volumes`.
#![forbid(unsafe_code)]

use second::script::Session;
use second::{generator, listing, report, selftest};
use std::fs;
use std::io::{self, BufRead, BufWriter, Read, Write};
use std::path::Path;
use std::process::ExitCode;

const USAGE: &str = "usage: second run < SCRIPT
       second gen SEED COUNT [history|damage|built|edges|args|names|restore|tails|crowded|sums|editions|report|regions|
                              wiping]
       second selftest SEED SCRIPTS
       second listing < IMAGE
       second report < NAMES
       second volumes SEED COUNT DIRECTORY > NAMES";

fn main() -> ExitCode {
    let arguments: Vec<String> = std::env::args().skip(1).collect();
    let words: Vec<&str> = arguments.iter().map(String::as_str).collect();
    let outcome = match words.as_slice() {
        ["run"] => run(),
        ["gen", seed, count] => generate(seed, count, None),
        ["gen", seed, count, kind] => generate(seed, count, Some(kind)),
        ["selftest", seed, scripts] => test_self(seed, scripts),
        ["listing"] => list_input(),
        ["report"] => report_input(),
        ["volumes", seed, count, directory] => write_volumes(seed, count, directory),
        _ => Err(USAGE.to_string()),
    };
    match outcome {
        Ok(()) => ExitCode::SUCCESS,
        Err(reason) => {
            eprintln!("{reason}");
            ExitCode::from(2)
        }
    }
}

fn number(word: &str) -> Result<u64, String> {
    word.parse().map_err(|_| format!("not a number: {word}"))
}

fn told(error: io::Error) -> String {
    error.to_string()
}

fn run() -> Result<(), String> {
    let mut session = Session::default();
    let mut output = BufWriter::new(io::stdout().lock());
    for (place, line) in io::stdin().lock().lines().enumerate() {
        match session.execute(&line.map_err(told)?) {
            Ok(Some(text)) => writeln!(output, "{text}").map_err(told)?,
            Ok(None) => {}
            Err(reason) => {
                output.flush().map_err(told)?;
                return Err(format!("line {}: {reason}", place + 1));
            }
        }
    }
    output.flush().map_err(told)
}

fn generate(seed: &str, count: &str, kind: Option<&str>) -> Result<(), String> {
    let script = generator::script(number(seed)?, number(count)?, kind).ok_or(USAGE)?;
    io::stdout().lock().write_all(script.as_bytes()).map_err(told)
}

fn test_self(seed: &str, scripts: &str) -> Result<(), String> {
    let tally = selftest::run(number(seed)?, number(scripts)?);
    print!("{tally}");
    if tally.failures.is_empty() {
        Ok(())
    } else {
        Err(tally.failures.join("\n"))
    }
}

fn list_input() -> Result<(), String> {
    let mut input = Vec::new();
    // One byte past the limit is enough to refuse longer input.
    io::stdin().lock().take(listing::MOST_INPUT as u64 + 1).read_to_end(&mut input).map_err(told)?;
    io::stdout().lock().write_all(&listing::listing_text(&input)).map_err(told)
}

fn report_input() -> Result<(), String> {
    io::stdout().lock().write_all(&report::report_of(io::stdin().lock())).map_err(told)
}

/// Writes volumes into files of the directory, which is made if there is none, and prints the names.
fn write_volumes(seed: &str, count: &str, directory: &str) -> Result<(), String> {
    let (volumes, count) = (generator::Volumes::new(number(seed)?), number(count)?);
    fs::create_dir_all(directory).map_err(told)?;
    let mut output = BufWriter::new(io::stdout().lock());
    for (place, image) in (1..=count).zip(volumes) {
        let path = Path::new(directory).join(format!("v{place:04}.img"));
        fs::write(&path, image).map_err(told)?;
        writeln!(output, "{}", path.display()).map_err(told)?;
    }
    output.flush().map_err(told)
}
