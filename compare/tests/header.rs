//! `include/sfs.h` against the exports of the Rattle source, and against the declarations that `compare` links with: every function's
//! arguments and answer and every struct's fields, in name, order, width and sign. The engines for shared blocks are no part of the library:
//! their declarations are held against their own crates.
//!
//! Each side is read into a line of text for each declaration, in the words of Rust, and the lines are compared. A word that a reader
//! does not know stays as it is, and so is a difference.

use std::collections::{BTreeMap, BTreeSet};
use std::path::{Path, PathBuf};
use std::{fs, io};

/// The line of each function and struct, by its name in C.
type Interface = BTreeMap<String, String>;

/// What one side lacks, and what the two declare differently.
fn differences(header: &Interface, other: &Interface) -> Vec<String> {
    let names: BTreeSet<&String> = header.keys().chain(other.keys()).collect();
    let both = |name| [header, other].map(|side| side.get(name).map_or("nothing", String::as_str));
    let differing = names.into_iter().map(both).filter(|[ours, theirs]| ours != theirs);
    differing.map(|[ours, theirs]| format!("header: {ours}\nsource: {theirs}")).collect()
}

/// One space for any white space.
fn plain(lines: Vec<&str>) -> String {
    lines.join(" ").split_whitespace().collect::<Vec<_>>().join(" ")
}

/// The text up to a mark, and the text after it.
fn cut<'a>(text: &'a str, mark: &str) -> Result<(&'a str, &'a str), String> {
    text.split_once(mark).ok_or_else(|| format!("no `{mark}` in: {text}"))
}

// ---- C

fn header(text: &str) -> Result<Interface, String> {
    let text = without_comments(text);
    let text = plain(text.lines().filter(|line| !line.trim_start().starts_with('#')).collect());
    let (mut found, mut rest) = (Interface::new(), text.as_str());
    while !rest.is_empty() {
        rest = declaration(rest, &mut found)?.trim_start();
    }
    Ok(found)
}

fn without_comments(text: &str) -> String {
    text.split("/*").map(|part| part.split_once("*/").map_or(part, |(_, after)| after)).collect()
}

/// Takes the first declaration, and gives what follows it.
fn declaration<'a>(text: &'a str, found: &mut Interface) -> Result<&'a str, String> {
    if let Some(rest) = text.strip_prefix("extern \"C\" {").or(text.strip_prefix('}')) {
        return Ok(rest);
    }
    let (first, rest) = cut(text, ";")?;
    if first.contains('{') {
        let (body, rest) = cut(text, "};")?;
        let (name, fields) = cut(body, " {")?;
        if let Some(name) = name.strip_prefix("struct ") {
            found.insert(name.to_string(), format!("struct {name} {{ {} }}", c_list(fields, ';')));
        }
        return Ok(rest);
    }
    let (declared, arguments) = cut(first, "(")?;
    let (answer, name) = c_declared(declared);
    let arguments = c_list(cut(arguments, ")")?.0, ',');
    found.insert(name.to_string(), format!("fn {name}({arguments}) -> {answer}"));
    Ok(rest)
}

fn c_list(text: &str, mark: char) -> String {
    let parts = text.split(mark).map(str::trim).filter(|part| !part.is_empty() && *part != "void");
    parts.map(c_declared).map(|(kind, name)| format!("{name}: {kind}")).collect::<Vec<_>>().join(", ")
}

/// The type, in Rust's words, and the name that ends the text.
fn c_declared(text: &str) -> (&str, &str) {
    let (kind, name) = text.split_at(text.trim_end_matches(|c: char| c.is_ascii_alphanumeric() || c == '_').len());
    let kind = match kind.trim() {
        "uint32_t" => "u32",
        "uint64_t" => "u64",
        "int64_t" => "i64",
        "size_t" => "usize",
        "uint8_t *" => "*mut u8",
        "const uint8_t *" => "*const u8",
        "uint64_t *" => "*mut u64",
        "const uint64_t *" => "*const u64",
        "void" => "()",
        other => other,
    };
    (kind, name)
}

// ---- Rattle and Rust

/// The functions marked for C, and the structs that they answer with.
fn rattle(text: &str) -> Result<Interface, String> {
    let text = code(text);
    let exports: Vec<&str> = text.split("#[unsafe(no_mangle)] extern \"C\" fn ").skip(1).collect();
    if exports.len() != text.matches("no_mangle").count() {
        return Err("an export that is no function".to_string());
    }
    interface(&exports, &structs(&text)?)
}

/// The functions of the block of foreign functions, and the structs that they answer with.
fn rust(text: &str) -> Result<Interface, String> {
    let text = code(text);
    let block = cut(cut(&text, "extern \"C\" {")?.1, "}")?.0;
    interface(&block.split("fn ").skip(1).collect::<Vec<_>>(), &structs(&text)?)
}

/// Without comments; who may see a thing inside the source does not matter here, nor what is derived of it.
fn code(text: &str) -> String {
    let lines = text.lines().map(|line| line.split("//").next().unwrap_or_default());
    plain(lines.filter(|line| !line.trim_start().starts_with("#[derive(")).collect()).replace("pub ", "")
}

/// The fields of every struct laid out as in C, by its name; a struct without names for its fields stands inside others alone.
fn structs(text: &str) -> Result<BTreeMap<&str, String>, String> {
    let mut found = BTreeMap::new();
    let nameless = |part: &&str| part.trim_start_matches(char::is_alphanumeric).starts_with('(');
    for part in text.split("#[repr(C)] struct ").skip(1).filter(|part| !nameless(part)) {
        let (name, fields) = cut(part, " {")?;
        if found.insert(name, rust_list(cut(fields, "}")?.0)?).is_some() {
            return Err(format!("two structs {name}"));
        }
    }
    Ok(found)
}

fn interface(functions: &[&str], structs: &BTreeMap<&str, String>) -> Result<Interface, String> {
    let mut found = Interface::new();
    for text in functions {
        let (name, rest) = cut(text, "(")?;
        let (arguments, rest) = cut(rest, ")")?;
        let answer = rest.strip_prefix(" -> ").map_or("()", |rest| rest.split([' ', ';']).next().unwrap_or_default());
        let answer = answer.rsplit("::").next().unwrap_or_default();
        let mut in_c = answer.to_string();
        if answer.starts_with(char::is_uppercase) {
            let fields = structs.get(answer).ok_or_else(|| format!("{answer} is not #[repr(C)]"))?;
            in_c = format!("struct {}", name_in_c(answer));
            found.insert(name_in_c(answer), format!("{in_c} {{ {fields} }}"));
        }
        found.insert(name.to_string(), format!("fn {name}({}) -> {in_c}", rust_list(arguments)?));
    }
    Ok(found)
}

/// `FreeRun` is `sfs_free_run` in C.
fn name_in_c(name: &str) -> String {
    let words = name.chars().map(|c| if c.is_uppercase() { format!("_{}", c.to_lowercase()) } else { c.to_string() });
    format!("sfs{}", words.collect::<String>())
}

/// Fields or arguments; a slice is a pointer and a length, as in C.
fn rust_list(text: &str) -> Result<String, String> {
    let mut list = Vec::new();
    for part in text.split(',').map(str::trim).filter(|part| !part.is_empty()) {
        list.push(match cut(part, ": ")? {
            (name, "&[u8]") => format!("{name}: *const u8, {name}_len: usize"),
            (name, "&mut [u8]") => format!("{name}: *mut u8, {name}_len: usize"),
            (name, "&[u64]") => format!("{name}: *const u64, {name}_len: usize"),
            (name, "&mut [u64]") => format!("{name}: *mut u64, {name}_len: usize"),
            (name, "&mut [Region]") => format!("{name}: *mut Region, {name}_len: usize"),
            (name, kind) => format!("{name}: {kind}"),
        });
    }
    Ok(list.join(", "))
}

// ---- the tests

fn path(of: &str) -> PathBuf {
    Path::new(env!("CARGO_MANIFEST_DIR")).join("..").join(of)
}

/// The engines' crate, and that of their exports, which are not the library's.
const ENGINES: [&str; 2] = ["crates/region_table", "crates/region_table_c"];

/// Every Rattle file of the crates, wherever it stands, but those of the engines, and what `rt` makes of them in `out/`.
fn rattle_files() -> io::Result<String> {
    let (mut folders, mut text) = (vec![path("crates")], String::new());
    while let Some(folder) = folders.pop() {
        for entry in fs::read_dir(folder)? {
            let path = entry?.path();
            if path.ends_with("out") || ENGINES.iter().any(|engines| path.ends_with(engines)) {
                continue;
            }
            if path.is_dir() {
                folders.push(path);
            } else if path.extension().is_some_and(|ending| ending == "rt") {
                text += &fs::read_to_string(path)?;
            }
        }
    }
    Ok(text)
}

fn alike(source: Result<Interface, String>) {
    let header = header(&fs::read_to_string(path("include/sfs.h")).unwrap()).unwrap();
    assert!(header.contains_key("sfs_open") && header.contains_key("sfs_volume"), "{header:?}");
    let found = differences(&header, &source.unwrap());
    assert!(found.is_empty(), "{}", found.join("\n"));
}

#[test]
fn header_is_the_rattle_source() {
    alike(rattle(&rattle_files().unwrap()));
}

#[test]
fn header_is_what_compare_links() {
    alike(rust(&fs::read_to_string(path("compare/src/library.rs")).unwrap()));
}

#[test]
fn engines_are_what_compare_links() {
    let source = ENGINES.map(|engines| fs::read_to_string(path(engines).join("src/lib.rt")).unwrap()).concat();
    let exports = rattle(&source).unwrap();
    assert!(exports.contains_key("regions_in_table") && exports.contains_key("sfs_table_answer"), "{exports:?}");
    let found = differences(&exports, &rust(&fs::read_to_string(path("compare/src/engines.rs")).unwrap()).unwrap());
    assert!(found.is_empty(), "{}", found.join("\n"));
    // A place of a table: two blocks, each a number.
    assert_eq!(structs(&code(&source)).unwrap()["Region"], "start: Block, end: Block");
    assert!(code(&fs::read_to_string(path("crates/units/src/lib.rt")).unwrap()).contains("#[repr(C)] struct Block(u64);"));
}

const IN_C: &str = "#include <x.h>\nextern \"C\" {\n/* Kinds; */ enum kind { A = 0, B = 1 };\n
    struct sfs_volume { uint32_t refusal; /* or 0 */ uint64_t total; uint64_t data; int64_t stamp; };\n
    struct sfs_volume sfs_open(const uint8_t *image, size_t image_len,\n uint8_t *out, size_t out_len);\n
    uint32_t sfs_reclaim(uint8_t *image, size_t image_len, int64_t stamp);\n}\n";

const IN_RATTLE: &str = "#[repr(C)]\n#[derive(Clone, Copy)]\npub struct Volume { // numbers\n pub refusal: u32, pub total: u64, pub data: u64, pub stamp: i64,\n}\n
    #[unsafe(no_mangle)]\npub extern \"C\" fn sfs_open(image: &[u8], out: &mut [u8]) -> reading::Volume ensures { Opens image.now result } { open(image, out) }\n
    #[unsafe(no_mangle)]\npub extern \"C\" fn sfs_reclaim(image: &mut [u8], stamp: i64) -> u32\n{ 0 }\npub fn other(n: u64) -> u64 { n }\n";

/// What is said of the small pair with a text of it replaced.
fn said(old: &str, new: &str) -> String {
    assert_eq!(IN_C.matches(old).count() + IN_RATTLE.matches(old).count(), 1, "{old}");
    match (header(&IN_C.replace(old, new)), rattle(&IN_RATTLE.replace(old, new))) {
        (Ok(header), Ok(source)) => differences(&header, &source).join("\n"),
        (Err(text), _) | (_, Err(text)) => text,
    }
}

#[test]
fn the_small_pair_is_alike() {
    assert_eq!(said("or 0", "0 or more"), "");
}

#[test]
fn a_difference_is_found() {
    for (old, new, wanted) in [
        ("uint64_t total; uint64_t data;", "uint64_t data; uint64_t total;", "data: u64, total: u64"),
        ("uint64_t total;", "int64_t total;", "total: i64"),
        ("uint64_t data;", "uint32_t data;", "data: u32"),
        ("uint64_t data;", "uint64_t blocks;", "blocks: u64"),
        ("uint64_t data;", "uint64_t data[1];", "data[1]"),
        (", int64_t stamp);", ");", "sfs_reclaim"),
        ("const uint8_t *image", "uint8_t *image", "image: *mut u8"),
        ("uint32_t sfs_reclaim(", "uint64_t sfs_reclaim(", "-> u64"),
        ("uint32_t sfs_reclaim(uint8_t *image, size_t image_len, int64_t stamp);", "", "header: nothing"),
        ("uint32_t sfs_reclaim(", "uint32_t sfs_more(void); uint32_t sfs_reclaim(", "source: nothing"),
        ("struct sfs_volume {", "struct sfs_more { int64_t n; }; struct sfs_volume {", "source: nothing"),
        ("#[unsafe(no_mangle)]\npub extern \"C\" fn sfs_reclaim", "fn sfs_reclaim", "source: nothing"),
        ("image: &mut [u8], stamp: i64", "stamp: i64, image: &mut [u8]", "stamp: i64, image: *mut u8"),
        ("out: &mut [u8]", "out: &[u8]", "out: *const u8"),
        ("pub stamp: i64", "pub stamp: i64, pub more: u64", "more: u64"),
        ("#[repr(C)]", "", "Volume is not #[repr(C)]"),
        ("pub fn other", "#[unsafe(no_mangle)]\npub static other", "an export that is no function"),
        ("pub fn other", "#[repr(C)] struct Volume { n: u64 } pub fn other", "two structs Volume"),
    ] {
        assert!(said(old, new).contains(wanted), "{old} -> {new}: {}", said(old, new));
    }
}
