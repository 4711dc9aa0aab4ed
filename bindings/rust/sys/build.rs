//! Finds the archive: in the folder that G1HEAP_LIB_DIR names; else in one that pkg-config names; else in vendor/TARGET of this package,
//! which bindings/rust/package fills; else in lib/ of the checkout that this crate is in. Its version has to be this crate's, where
//! pkg-config or a g1heap.pc beside the archive tells it: both lay out the structs that they share. Where docs.rs builds the documents, no archive
//! is looked for: nothing is linked there.
use std::path::{Path, PathBuf};
use std::{env, fs, process};

/// What pkg-config says of g1heap, where it knows it.
fn pkg_config(word: &str) -> Option<String> {
    let program = env::var_os("PKG_CONFIG").unwrap_or_else(|| "pkg-config".into());
    // The variable makes it name folders of the system too, which rustc doesn't search.
    let out = process::Command::new(program).args([word, "g1heap"]).env("PKG_CONFIG_ALLOW_SYSTEM_LIBS", "1").output().ok()?;
    let said = String::from_utf8(out.stdout).ok()?;
    out.status.success().then(|| said.trim().to_string())
}

/// The folders of words that begin with -L. A space that is no end of a word has a backslash before it.
fn folders(words: &str) -> Vec<PathBuf> {
    let (mut all, mut letters) = (vec![String::new()], words.chars());
    while let Some(letter) = letters.next() {
        let word = all.last_mut().expect("the first one");
        match letter {
            ' ' => all.push(String::new()),
            '\\' => word.extend(letters.next()),
            _ => word.push(letter),
        }
    }
    all.iter().filter_map(|word| word.strip_prefix("-L")).map(PathBuf::from).collect()
}

/// The version that a g1heap.pc beside the archive tells.
fn version_in(folder: &Path) -> Option<String> {
    let text = fs::read_to_string(folder.join("g1heap.pc")).ok()?;
    text.lines().find_map(|line| line.strip_prefix("Version:")).map(|it| it.trim().to_string())
}

/// Where the archive may be, the first place first, and of which version it is.
fn places() -> Vec<(PathBuf, Option<String>)> {
    let beside = |folder: PathBuf| (folder.clone(), version_in(&folder));
    if let Some(named) = env::var_os("G1HEAP_LIB_DIR") {
        return vec![beside(named.into())];
    }
    let found = pkg_config("--libs-only-L").unwrap_or_default();
    let mut all: Vec<_> = folders(&found).into_iter().map(|folder| (folder, pkg_config("--modversion"))).collect();
    let here = env::var_os("CARGO_MANIFEST_DIR").map(PathBuf::from).unwrap_or_default();
    let vendor = here.join("vendor");
    if vendor.is_dir() {
        all.push(beside(vendor.join(env::var_os("TARGET").unwrap_or_default())));
    }
    all.push(beside(here.join("../../../lib")));
    all
}

fn main() {
    for name in ["DOCS_RS", "G1HEAP_LIB_DIR", "PKG_CONFIG", "PKG_CONFIG_PATH", "PKG_CONFIG_LIBDIR"] {
        println!("cargo:rerun-if-env-changed={name}");
    }
    if env::var_os("DOCS_RS").is_some() {
        return;
    }
    let name = if env::var_os("CARGO_FEATURE_RECORDED").is_some() { "g1heap_recorded" } else { "g1heap" };
    let own = env::var("CARGO_PKG_VERSION").unwrap_or_default();
    for (folder, version) in places() {
        let archive = folder.join(format!("lib{name}.a"));
        match version {
            _ if !archive.is_file() => eprintln!("g1heap-sys: {} isn't there", archive.display()),
            Some(it) if it != own => eprintln!("g1heap-sys: {} is of version {it}, and the crate of {own}", archive.display()),
            _ => {
                println!("cargo:rerun-if-changed={}", archive.display());
                println!("cargo:rustc-link-search=native={}", folder.display());
                println!("cargo:rustc-link-lib=static={name}");
                println!("cargo:lib_dir={}", folder.display());
                return;
            }
        }
    }
    eprintln!("g1heap-sys: ./library in a checkout of g1heap builds it; then let G1HEAP_LIB_DIR name the folder lib of that checkout");
    process::exit(1);
}
