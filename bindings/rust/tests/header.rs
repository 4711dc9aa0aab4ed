//! What the crate says of limits against `include/g1heap.h`, where this crate is in a checkout. Its declarations are made of that file, and
//! `tools/write_calls --check` says whether they are.
use g1heap::{BadSizes, Error};
use std::fs;

/// A limit of the header, as a text names it.
fn limit(header: &str, name: &str) -> String {
    let define = format!("#define G1_MAX_{name} ");
    let from = header.find(&define).unwrap_or_else(|| panic!("the header has no G1_MAX_{name}")) + define.len();
    let digits: Vec<_> = header[from..].chars().take_while(char::is_ascii_digit).collect();
    let groups: Vec<String> = digits.rchunks(3).rev().map(|it| it.iter().collect()).collect();
    groups.join(",")
}
/// The lines of documentation of a field or a variant.
fn document(source: &str, line: &str) -> String {
    let from = source.find(&format!("\n    {line},\n")).unwrap_or_else(|| panic!("there is no {line}"));
    let mut lines: Vec<_> = source[..from].rsplit('\n').take_while(|it| it.starts_with("    ///")).collect();
    lines.reverse();
    lines.join(" ")
}

#[test]
fn each_limit_is_that_of_the_header() {
    let here = env!("CARGO_MANIFEST_DIR");
    let header = match fs::read_to_string(format!("{here}/../../include/g1heap.h")) {
        Ok(header) => header,
        Err(_) => return eprintln!("there is no header: nothing is compared"),
    };
    let source = fs::read_to_string(format!("{here}/src/heap.rs")).expect("src/heap.rs");
    let told: [(&str, Option<String>, &[&str]); 12] = [
        ("TooBig", Some(Error::TooBig.to_string()), &["OBJECT_WORDS", "WEAKS"]),
        ("Regions", Some(BadSizes::Regions.to_string()), &["REGIONS"]),
        ("Words", Some(BadSizes::Words.to_string()), &["REGION_WORDS", "WORDS"]),
        ("Mutators", Some(BadSizes::Mutators.to_string()), &["MUTATORS"]),
        ("Card", Some(BadSizes::Card.to_string()), &["CARD"]),
        ("Globals", Some(BadSizes::Globals.to_string()), &["GLOBALS"]),
        ("Registers", Some(BadSizes::Registers.to_string()), &["REGISTERS"]),
        ("Roots", Some(BadSizes::Roots.to_string()), &["ROOTS"]),
        ("pub regions: u32", None, &["REGIONS"]),
        ("pub words: u32", None, &["REGION_WORDS", "WORDS"]),
        ("pub globals: u32", None, &["GLOBALS"]),
        ("pub registers: u32", None, &["REGISTERS"]),
    ];
    for (name, message, limits) in told {
        for number in limits.iter().map(|it| limit(&header, it)) {
            for text in message.iter().chain([&document(&source, name)]) {
                let parts: Vec<_> = text.split(|it: char| !it.is_ascii_digit() && it != ',').map(|it| it.trim_matches(',')).collect();
                assert!(parts.contains(&number.as_str()), "{name}: {number} isn't in: {text}");
            }
        }
    }
}
