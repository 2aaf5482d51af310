//! The script interpreter. `SCRIPT.md` is the exact description of what it reads and prints.

use crate::answer::{Found, Listed, Opened, Read, Records, Tabled};
use crate::bytes::get_u64;
use crate::edition::Edition;
use crate::history::{History, Told};
use crate::refusal::{Counts, Refusal};
use crate::report;
use crate::sharing::{self, TableRegion};
use crate::store::{Own, Store};
use crate::xorshift::fill;
use std::collections::BTreeMap;

/// The most bytes a script may ask for in one piece.
pub const MOST_BYTES: u64 = 17_000_000;

/// The numbers that a script keeps for its report. Calls are lent the first of them: a write behind those shows.
pub const REPORT_ROOM: usize = 40;

/// The most places a script may ask for in a table of regions, or besides as many as the image has.
pub const MOST_PLACES: usize = 5_000;
/// Of a table with more places than these only the ends are printed, so many places each, and a digest of it all.
pub const MOST_SHOWN: usize = 16;
pub const ENDS_SHOWN: usize = 4;

/// FNV-1a, 64 bits.
pub fn digest(bytes: &[u8]) -> u64 {
    bytes.iter().fold(0xCBF2_9CE4_8422_2325, |hash, byte| (hash ^ u64::from(*byte)).wrapping_mul(0x0100_0000_01B3))
}

/// A lent output, prefilled so that stray writes show in its digest.
pub fn lent(length: usize) -> Vec<u8> {
    (0..length).map(|place| 0xA5 ^ (place.wrapping_mul(7) & 0xFF) as u8).collect()
}

/// A lent table of regions, filled so that stray writes show.
pub fn lent_table(places: usize, seed: u64) -> Vec<TableRegion> {
    let bytes = fill(16 * places, seed);
    bytes.chunks(16).map(|place| TableRegion { start: get_u64(place, 0), end: get_u64(place, 8) }).collect()
}

/// The bytes of a table, as `lent_table` takes them from a fill.
pub fn table_bytes(table: &[TableRegion]) -> Vec<u8> {
    table.iter().flat_map(|place| [place.start, place.end]).flat_map(u64::to_le_bytes).collect()
}

/// A report without an image; each number behind it is that of its place.
pub fn new_report() -> [u64; REPORT_ROOM] {
    std::array::from_fn(|place| if place < report::NUMBERS { 0 } else { place as u64 })
}

/// Lower-case hex, `-` for no bytes.
pub fn hex(bytes: &[u8]) -> String {
    if bytes.is_empty() {
        return "-".to_string();
    }
    bytes.iter().map(|byte| format!("{byte:02x}")).collect()
}

fn unhex(word: &str) -> Result<Vec<u8>, String> {
    if word == "-" {
        return Ok(Vec::new());
    }
    let digits: Option<Vec<u8>> = word.chars().map(|digit| digit.to_digit(16).map(|value| value as u8)).collect();
    match digits {
        Some(digits) if digits.len() % 2 == 0 => Ok(digits.chunks(2).map(|pair| pair[0] << 4 | pair[1]).collect()),
        _ => Err(format!("bad hex {word:.20}")),
    }
}

/// The words of one line, taken from the left.
struct Words<'a>(std::str::SplitWhitespace<'a>);

impl<'a> Words<'a> {
    fn word(&mut self) -> Result<&'a str, String> {
        self.0.next().ok_or_else(|| "a word is missing".to_string())
    }

    fn number<T: std::str::FromStr>(&mut self) -> Result<T, String> {
        let word = self.word()?;
        word.parse().map_err(|_| format!("bad number {word:.30}"))
    }

    fn length(&mut self) -> Result<usize, String> {
        bounded(self.number()?)
    }

    /// A number of at most `most`.
    fn up_to(&mut self, most: usize) -> Result<usize, String> {
        let number = self.length()?;
        if number > most {
            return Err(format!("{number} is over {most}"));
        }
        Ok(number)
    }

    /// The places of a table: a number of them, or `=` for as many as `count` gives, `=+N` for more, `=-N` for fewer.
    fn places(&mut self, count: impl FnOnce() -> usize) -> Result<usize, String> {
        let word = self.word()?;
        let bad = || format!("bad places {word:.30}");
        let number = |digits: &str| digits.parse().ok().filter(|places| *places <= MOST_PLACES).ok_or_else(bad);
        match (word.strip_prefix('='), word.strip_prefix("=+"), word.strip_prefix("=-")) {
            (Some(""), ..) => Ok(count()),
            (_, Some(more), _) => Ok(count() + number(more)?),
            (_, _, Some(fewer)) => Ok(count().saturating_sub(number(fewer)?)),
            _ => number(word),
        }
    }

    fn bytes(&mut self) -> Result<Vec<u8>, String> {
        unhex(self.word()?)
    }

    /// Hex, or `fill:LEN:SEED`.
    fn data(&mut self) -> Result<Vec<u8>, String> {
        let word = self.word()?;
        let Some(rest) = word.strip_prefix("fill:") else { return unhex(word) };
        let bad = || format!("bad fill {word:.40}");
        let (length, seed) = rest.split_once(':').ok_or_else(bad)?;
        let length = bounded(length.parse().map_err(|_| bad())?)?;
        Ok(fill(length, seed.parse().map_err(|_| bad())?))
    }

    fn done(&mut self) -> Result<(), String> {
        self.0.next().map_or(Ok(()), |word| Err(format!("a word too many: {word:.20}")))
    }
}

fn bounded(length: u64) -> Result<usize, String> {
    if length > MOST_BYTES {
        return Err(format!("{length} is over {MOST_BYTES}"));
    }
    Ok(length as usize)
}

/// The word of a call and the edition it meets: by the image's magic before the call, for a format by its version.
pub type Called = (String, Option<Edition>);

/// The state a script works on, and a tally of the answers.
#[derive(Clone, Debug)]
pub struct Session<S = Own> {
    store: S,
    image: Vec<u8>,
    history: Option<History>,
    report: [u64; REPORT_ROOM],
    /// How often each refusal number was the answer of a call; listings, reports, tests for shared blocks and histories
    /// not counted.
    pub met: Counts,
    /// The same with listings, reports and tests for shared blocks, parted by call; api has no such number.
    by_call: BTreeMap<Called, Counts>,
    /// Calls answered, listings, reports, tests for shared blocks and api among them.
    pub calls: u64,
    /// The last call's refusal number, listings, reports and tests for shared blocks left out.
    pub last: Refusal,
    digests: bool,
}

impl Default for Session {
    fn default() -> Self {
        Session::over(Own)
    }
}

impl Session {
    /// A session whose lines leave the digests out, for when nobody reads them.
    pub fn without_digests() -> Self {
        Session { digests: false, ..Session::default() }
    }
}

impl<S: Store> Session<S> {
    /// A session whose calls go to this store.
    pub fn over(store: S) -> Self {
        let (image, met, by_call) = Default::default();
        let report = new_report();
        Session { store, image, history: None, report, met, by_call, calls: 0, last: 0, digests: true }
    }

    pub fn image(&self) -> &[u8] {
        &self.image
    }

    pub fn report(&self) -> &[u64; REPORT_ROOM] {
        &self.report
    }

    /// How often each call answered each number, by edition.
    pub fn by_call(&self) -> &BTreeMap<Called, Counts> {
        &self.by_call
    }

    /// How often the calls of this word answered each number.
    pub fn answers(&self, word: &str) -> Counts {
        self.sum(|(called, _)| called == word)
    }

    /// How often calls on images with this edition's magic answered each number, but for formats, listings, reports and
    /// tests for shared blocks.
    pub fn answers_in(&self, edition: Edition) -> Counts {
        let others = ["format", "listing", "reportadd", "reporttext", "regions", "sharing"];
        self.sum(|(word, met)| *met == Some(edition) && !others.contains(&word.as_str()))
    }

    fn sum(&self, wanted: impl Fn(&Called) -> bool) -> Counts {
        let mut sums = Counts::default();
        let wanted = self.by_call.iter().filter(|(called, _)| wanted(called));
        wanted.for_each(|(_, counts)| sums.iter_mut().zip(counts).for_each(|(sum, count)| *sum += count));
        sums
    }

    /// Carries out one line; gives the line to print, if there is one.
    pub fn execute(&mut self, line: &str) -> Result<Option<String>, String> {
        let mut words = Words(line.split_whitespace());
        let word = match words.word() {
            Ok(word) if !word.starts_with('#') => word,
            _ => return Ok(None),
        };
        match word {
            "image" | "imagefill" | "imagehex" | "poke" | "truncate" => self.reshape(word, words).map(|()| None),
            "open" | "find" | "list" | "listall" | "read" => self.ask(word, words).map(Some),
            "format" | "mkfile" | "mkdir" | "delete" | "deletekeep" | "restore" | "reclaim" => {
                self.write(word, words).map(Some)
            }
            "listing" => self.listing(words).map(Some),
            "reportnew" | "reportset" => self.set_report(word, words).map(|()| None),
            "reportadd" => self.report_add(words).map(Some),
            "reporttext" => self.report_text(words).map(Some),
            "regions" => self.regions(words).map(Some),
            "sharing" => words.done().map(|()| Some(self.sharing())),
            "api" => words.done().map(|()| Some(self.api())),
            "history" => words.done().map(|()| Some(self.check())),
            _ => Err(format!("unknown command {word:.20}")),
        }
    }

    /// Commands that make or alter the image behind the calls' back; each ends the history.
    fn reshape(&mut self, word: &str, mut words: Words) -> Result<(), String> {
        match word {
            "image" => self.image = vec![0; words.length()?],
            "imagefill" => self.image = fill(words.length()?, words.number()?),
            "imagehex" => self.image = words.bytes()?,
            "truncate" => self.image.resize(words.length()?, 0),
            _ => {
                let at: u64 = words.number()?;
                let room = self.image.get_mut(usize::try_from(at).unwrap_or(usize::MAX)..);
                room.unwrap_or_default().iter_mut().zip(words.bytes()?).for_each(|(old, new)| *old = new);
            }
        }
        self.history = None;
        words.done()
    }

    fn ask(&mut self, word: &str, mut words: Words) -> Result<String, String> {
        let path = if matches!(word, "find" | "read") { words.bytes()? } else { Vec::new() };
        let slot = if matches!(word, "list" | "listall") { words.number()? } else { 0 };
        let mut output = lent(if word == "find" { 0 } else { words.length()? });
        words.done()?;
        let edition = Edition::of_image(&self.image);
        let (refusal, numbers) = match word {
            "open" => opened(self.store.open(&self.image, &mut output)),
            "find" => found(self.store.find(&self.image, &path)),
            "list" => listed(self.store.list(&self.image, slot, &mut output)),
            "listall" => records(self.store.list_all(&self.image, slot, &mut output)),
            _ => content(self.store.read(&self.image, &path, &mut output)),
        };
        let shown = (word != "find").then_some(output);
        self.count(word, refusal, edition);
        Ok(self.answer(word, refusal, &numbers, shown.as_deref()))
    }

    fn write(&mut self, word: &str, mut words: Words) -> Result<String, String> {
        let version = if word == "format" { words.number()? } else { 0 };
        let block = if word == "format" { words.number()? } else { 0 };
        let reserved = if word == "format" { words.number()? } else { 0 };
        let path = if word == "reclaim" { Vec::new() } else { words.bytes()? };
        let stamp = words.number()?;
        let bytes = if word == "mkfile" { words.data()? } else { Vec::new() };
        words.done()?;
        let edition = if word == "format" { Edition::of_version(version) } else { Edition::of_image(&self.image) };
        let (store, image) = (&self.store, &mut self.image);
        let (answer, told) = match word {
            "format" => (store.format(image, version, block, reserved, &path, stamp), Told::Format { version, block }),
            "mkfile" => (store.create_file(image, &path, stamp, &bytes), Told::File { path: &path, bytes: &bytes }),
            "mkdir" => (store.create_directory(image, &path, stamp), Told::Directory { path: &path }),
            "delete" => (store.delete(image, &path, stamp), Told::Delete { path: &path }),
            "deletekeep" => (store.delete_keep(image, &path, stamp), Told::DeleteKeep { path: &path }),
            "restore" => (store.restore(image, &path, stamp), Told::Restore { path: &path }),
            _ => (store.reclaim(image, stamp), Told::Reclaim),
        };
        self.tell(told, answer.refusal == 0);
        self.count(word, answer.refusal, edition);
        Ok(self.answer(word, answer.refusal, &[], None))
    }

    /// Without a history only an accepted format is heard: it starts one.
    fn tell(&mut self, told: Told, accepted: bool) {
        match (&mut self.history, told) {
            (Some(history), _) => history.tell(told, accepted),
            (None, Told::Format { version, block }) if accepted => self.history = Some(History::begin(version, block)),
            _ => {}
        }
    }

    /// Counted by the number that the text gives, as the call itself gives no other than 18, which no text does.
    fn listing(&mut self, mut words: Words) -> Result<String, String> {
        let mut output = lent(words.length()?);
        words.done()?;
        let answer = self.store.listing(&self.image, &mut output);
        let text = output.get(..answer.length as usize).unwrap_or_default();
        let number = if answer.refusal == 0 { refused(text) } else { answer.refusal };
        self.calls += 1;
        self.count_by_call("listing", number, Edition::of_image(&self.image));
        let (refusal, numbers) = content(answer);
        Ok(self.answer("listing", refusal, &numbers, Some(&output)))
    }

    /// Commands that change the report behind the calls' back.
    fn set_report(&mut self, word: &str, mut words: Words) -> Result<(), String> {
        match word {
            "reportnew" => self.report = new_report(),
            _ => {
                let place = words.up_to(REPORT_ROOM - 1)?;
                self.report[place] = words.number()?;
            }
        }
        words.done()
    }

    fn report_add(&mut self, mut words: Words) -> Result<String, String> {
        let numbers = words.up_to(REPORT_ROOM)?;
        words.done()?;
        let refusal = self.store.report_add(&self.image, &mut self.report[..numbers]).refusal;
        self.calls += 1;
        self.count_by_call("reportadd", refusal, Edition::of_image(&self.image));
        Ok(self.answer("reportadd", refusal, &self.report.map(i128::from), None))
    }

    /// It goes by no image, and so by no edition.
    fn report_text(&mut self, mut words: Words) -> Result<String, String> {
        let numbers = words.up_to(REPORT_ROOM)?;
        let mut output = lent(words.length()?);
        words.done()?;
        let (refusal, length) = content(self.store.report_text(&self.report[..numbers], &mut output));
        self.calls += 1;
        self.count_by_call("reporttext", refusal, None);
        Ok(self.answer("reporttext", refusal, &length, Some(&output)))
    }

    fn regions(&mut self, mut words: Words) -> Result<String, String> {
        let places = words.places(|| sharing::count(&self.image))?;
        let mut table = lent_table(places, words.number()?);
        words.done()?;
        let Tabled { answer, regions } = self.store.regions(&self.image, &mut table);
        self.calls += 1;
        self.count_by_call("regions", answer, Edition::of_image(&self.image));
        let (table, image) = (self.shown_table(&table), self.shown("img", &self.image));
        Ok(format!("regions {answer} {regions} {places}{table}{image}"))
    }

    /// Counted by the answer of the quicker engine.
    fn sharing(&mut self) -> String {
        let [answer, plain] = [S::sharing, S::sharing_plain].map(|engine| engine(&self.store, &self.image).refusal);
        self.calls += 1;
        self.count_by_call("sharing", answer, Edition::of_image(&self.image));
        self.answer("sharing", answer, &[plain.into()], None)
    }

    fn api(&mut self) -> String {
        self.calls += 1;
        format!("api {}", self.store.api())
    }

    fn check(&self) -> String {
        match self.history.as_ref().map(|history| history.check(&self.image)) {
            None => "history none".to_string(),
            Some(Ok(())) => "history ok".to_string(),
            Some(Err(reason)) => format!("history FAILED {reason}"),
        }
    }

    fn count(&mut self, word: &str, refusal: Refusal, edition: Option<Edition>) {
        self.calls += 1;
        self.last = refusal;
        add_one(&mut self.met, refusal);
        self.count_by_call(word, refusal, edition);
    }

    fn count_by_call(&mut self, word: &str, refusal: Refusal, edition: Option<Edition>) {
        add_one(self.by_call.entry((word.to_string(), edition)).or_default(), refusal);
    }

    fn answer(&self, word: &str, refusal: Refusal, numbers: &[i128], output: Option<&[u8]>) -> String {
        let numbers: String = numbers.iter().map(|number| format!(" {number}")).collect();
        let output = output.map_or(String::new(), |output| self.shown("out", output));
        format!("{word} {refusal}{numbers}{output}{}", self.shown("img", &self.image))
    }

    fn shown_table(&self, table: &[TableRegion]) -> String {
        let words = |places: &[TableRegion]| -> String {
            places.iter().map(|place| format!(" {}-{}", place.start, place.end)).collect()
        };
        if table.len() <= MOST_SHOWN {
            return words(table);
        }
        let ends = words(&table[..ENDS_SHOWN]) + &words(&table[table.len() - ENDS_SHOWN..]);
        if !self.digests {
            return ends;
        }
        format!("{ends} {:016x}", digest(&table_bytes(table)))
    }

    fn shown(&self, label: &str, bytes: &[u8]) -> String {
        if self.digests {
            format!(" {label}={:016x}", digest(bytes))
        } else {
            String::new()
        }
    }
}

fn add_one(counts: &mut Counts, refusal: Refusal) {
    counts.get_mut(usize::from(refusal)).into_iter().for_each(|count| *count += 1);
}

/// The refusal number that a listing's text gives. A volume of such a name has a line of counts besides.
fn refused(text: &[u8]) -> Refusal {
    let number = std::str::from_utf8(text).ok().and_then(|text| text.strip_prefix("refused ")?.strip_suffix('\n'));
    number.and_then(|number| number.parse().ok()).unwrap_or(0)
}

type Numbers = (Refusal, Vec<i128>);

fn opened(answer: Opened) -> Numbers {
    let sizes = [answer.total, answer.reserved, answer.block_length, answer.data_blocks, answer.index_bytes];
    let mut numbers = vec![i128::from(answer.version)];
    numbers.extend(sizes.map(i128::from));
    numbers.extend([answer.stamp, answer.volume_stamp].map(i128::from));
    numbers.extend([answer.name_length.into(), i128::from(answer.edition)]);
    (answer.refusal, numbers)
}

fn found(answer: Found) -> Numbers {
    let mut numbers =
        [answer.slot, answer.kind.into(), answer.start, answer.end, answer.length].map(i128::from).to_vec();
    numbers.push(answer.stamp.into());
    (answer.refusal, numbers)
}

fn listed(answer: Listed) -> Numbers {
    let mut numbers =
        [answer.slot, answer.kind.into(), answer.start, answer.end, answer.length].map(i128::from).to_vec();
    numbers.extend([answer.stamp.into(), i128::from(answer.path_length)]);
    (answer.refusal, numbers)
}

fn records(answer: Records) -> Numbers {
    (answer.refusal, [answer.count, answer.length, answer.next].map(i128::from).to_vec())
}

fn content(answer: Read) -> Numbers {
    (answer.refusal, vec![answer.length.into()])
}
