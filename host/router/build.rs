//! Links the proved static library. ROUTER_LIB_DIR names a folder that has it, as librouter_c.a. Where it is not set, `rt lib` proves and builds it,
//! unless the same toolchain has built it here from the same sources before.
use std::collections::BTreeSet;
use std::path::{Path, PathBuf};
use std::process::{exit, Command};
use std::{env, fs, io};

/// The crate of the exports, and its archive as `rt lib` leaves it there. It is linked under the name of the crate whose calls it exports.
const CRATE: &str = "router_c_c";
const MADE: &str = "out/librouter_c_c.a";
const ARCHIVE: &str = "librouter_c.a";

/// The folders of a crate that its proof is about.
const PARTS: [&str; 3] = ["src", "specs", "proofs"];

fn main() {
    println!("cargo:rerun-if-env-changed=ROUTER_LIB_DIR");
    let folder = match env::var_os("ROUTER_LIB_DIR") {
        Some(folder) => lent(folder.into()),
        None => built(&path("CARGO_MANIFEST_DIR").join("../.."), path("OUT_DIR")),
    };
    println!("cargo:rustc-link-search=native={}", folder.display());
    println!("cargo:rustc-link-lib=static=router_c");
}

fn path(variable: &str) -> PathBuf {
    env::var_os(variable).expect("cargo sets it").into()
}

fn watch(path: &Path) {
    println!("cargo:rerun-if-changed={}", path.display());
}

/// Ends the build with a sentence.
fn stop(reason: &str) -> ! {
    eprintln!("{reason}");
    exit(1)
}

fn lent(folder: PathBuf) -> PathBuf {
    watch(&folder.join(ARCHIVE));
    folder
}

fn rt(words: &[&str]) -> Command {
    let mut command = Command::new("rt");
    command.args(words);
    command
}

/// The toolchain, by its own words.
fn toolchain() -> Vec<u8> {
    match rt(&["version"]).output() {
        Ok(said) if said.status.success() => said.stdout,
        Ok(_) => stop("rt, the command of the Rattle toolchain, does not tell its version"),
        Err(_) => stop("rt, the command of the Rattle toolchain, is not on the PATH: it proves and builds the router's library"),
    }
}

/// The crate that is linked, and all that it needs, by the lines `NAME: DEP DEP ..` of crates.txt. Behind a static library's name stands a word.
fn needed(lines: &str) -> BTreeSet<&str> {
    let mut needed = BTreeSet::new();
    let mut ahead = vec![CRATE];
    while let Some(name) = ahead.pop() {
        if needed.insert(name) {
            let lines = lines.lines().filter_map(|line| line.split_once(':'));
            let own = lines.filter(|(head, _)| head.split_whitespace().next() == Some(name));
            ahead.extend(own.flat_map(|(_, deps)| deps.split_whitespace()));
        }
    }
    needed
}

/// The files below a folder, if there is one.
fn files(folder: &Path, found: &mut BTreeSet<PathBuf>) -> io::Result<()> {
    if !folder.is_dir() {
        return Ok(());
    }
    for entry in fs::read_dir(folder)? {
        let path = entry?.path();
        if path.is_dir() {
            files(&path, found)?;
        } else {
            found.insert(path);
        }
    }
    Ok(())
}

/// All that the archive is made from, byte for byte.
fn sources(root: &Path) -> io::Result<Vec<u8>> {
    let listed = fs::read_to_string(root.join("crates.txt"))?;
    let mut found = BTreeSet::new();
    for name in needed(&listed) {
        for part in PARTS {
            files(&root.join("crates").join(name).join(part), &mut found)?;
        }
    }
    let mut sources = toolchain();
    sources.extend_from_slice(listed.as_bytes());
    for file in found {
        let text = fs::read(&file)?;
        let name = file.strip_prefix(root).unwrap_or(&file);
        let head = format!("\n{} {}\n", name.display(), text.len());
        sources.extend_from_slice(head.as_bytes());
        sources.extend(text);
    }
    Ok(sources)
}

/// Has the build run again where a source changes, but not where `rt` writes into a crate's out/.
fn watch_sources(root: &Path) -> io::Result<()> {
    let listed = root.join("crates.txt");
    watch(&listed);
    for name in needed(&fs::read_to_string(listed)?) {
        for part in PARTS.map(|part| root.join("crates").join(name).join(part)) {
            if part.is_dir() {
                watch(&part);
            }
        }
    }
    Ok(())
}

/// Builds the library where the sources are other than those kept beside its copy. The copy lies where `rt ci`, which sets each out/ aside, does not reach it.
fn built(root: &Path, folder: PathBuf) -> PathBuf {
    watch_sources(root).expect("the list of crates can be read");
    let (copy, kept) = (folder.join(ARCHIVE), folder.join("sources"));
    let sources = sources(root).expect("the crates can be read");
    if copy.is_file() && fs::read(&kept).is_ok_and(|kept| kept == sources) {
        return folder;
    }
    let exports = root.join("crates").join(CRATE);
    let done = rt(&["lib"]).current_dir(&exports).status();
    if !done.is_ok_and(|status| status.success()) {
        stop("rt lib in crates/router_c_c: the router's library is not proved or not built");
    }
    fs::copy(exports.join(MADE), &copy).expect("the archive can be copied");
    fs::write(&kept, sources).expect("the sources can be kept");
    folder
}
