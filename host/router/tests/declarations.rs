//! The C calls that this library declares are those of the C library's sources: the same names, parameters, structs and fields, in the same order.
use std::collections::BTreeMap;
use std::path::{Path, PathBuf};
use std::{fs, io};

/// A call's parameters by their types, and what it gives; or a struct's fields with their types.
type Shapes = BTreeMap<String, Vec<String>>;

/// The files with an ending below a folder, without their comments.
fn sources(folder: PathBuf, ending: &str) -> io::Result<String> {
    let mut text = String::new();
    for entry in fs::read_dir(folder)? {
        let path = entry?.path();
        if path.extension().is_some_and(|found| found == ending) {
            for line in fs::read_to_string(&path)?.lines() {
                text.push_str(line.split("//").next().unwrap_or(""));
                text.push('\n');
            }
        }
    }
    Ok(text)
}

/// The sources of the C library: those of the crates whose names begin with `router_`.
fn c_sources() -> io::Result<String> {
    let crates = Path::new(env!("CARGO_MANIFEST_DIR")).join("../../crates");
    let mut text = String::new();
    for entry in fs::read_dir(crates)? {
        let entry = entry?;
        if entry.file_name().to_string_lossy().starts_with("router_") {
            text.push_str(&sources(entry.path().join("src"), "rt")?);
        }
    }
    Ok(text)
}

fn rust_sources() -> io::Result<String> {
    sources(Path::new(env!("CARGO_MANIFEST_DIR")).join("src/raw"), "rs")
}

/// The part of a text before an end, and the part behind it.
fn until<'t>(text: &'t str, end: &str) -> (&'t str, &'t str) {
    text.split_once(end).unwrap_or((text, ""))
}

/// The name at the start of a text.
fn name(text: &str) -> &str {
    let end = text.find(|c: char| !c.is_alphanumeric() && c != '_');
    &text[..end.unwrap_or(text.len())]
}

/// The name that a struct of the C library has in Rust.
fn in_rust(kind: &str) -> String {
    let own = kind.strip_prefix('C');
    match own.filter(|own| own.starts_with(char::is_uppercase)) {
        Some("Snapshot") => "SnapshotState".into(),
        Some("Cache") => "CacheState".into(),
        Some(own) => own.into(),
        None => kind.into(),
    }
}

/// What stands behind the colons of a list of parameters or fields.
fn kinds(list: &str) -> Vec<String> {
    let kinds = list.split(',').filter_map(|part| part.split_once(':'));
    kinds.map(|(_, kind)| in_rust(kind.trim())).collect()
}

/// A call from the text behind `fn`: its name, its shape, and what follows.
fn call(text: &str) -> (&str, Vec<String>, &str) {
    let (parameters, rest) = until(text.split_once('(').map_or("", |(_, rest)| rest), ")");
    let (_, rest) = until(rest, "-> ");
    let answer = name(rest);
    let mut shape = kinds(parameters);
    shape.push(in_rust(answer));
    (name(text), shape, &rest[answer.len()..])
}

fn c_calls(text: &str) -> Shapes {
    let calls = text.split("pub extern \"C\" fn ").skip(1).map(call);
    calls.map(|(name, shape, _)| (name.into(), shape)).collect()
}

/// Those with `= C_NAME` behind them.
fn rust_calls(text: &str) -> Shapes {
    let calls = text.split("fn ").skip(1).map(call);
    let calls = calls.filter_map(|(_, shape, rest)| {
        let own = rest.strip_prefix(" = ")?;
        Some((name(own).into(), shape))
    });
    calls.collect()
}

fn structs(text: &str) -> Shapes {
    let structs = text.split("#[repr(C)]").skip(1).map(|text| {
        let (_, text) = until(text, "pub struct ");
        let (_, body) = until(text, "{");
        let (fields, _) = until(body, "}");
        let fields = fields.split(',').map(|field| field.trim().into());
        (in_rust(name(text)), fields.collect())
    });
    structs.collect()
}

#[test]
fn calls_are_those_of_the_c_library() -> io::Result<()> {
    let (c, rust) = (c_calls(&c_sources()?), rust_calls(&rust_sources()?));
    assert!(c.contains_key("router_resolve_single_home_cached"));
    assert_eq!(rust, c);
    Ok(())
}

#[test]
fn structs_are_those_of_the_c_library() -> io::Result<()> {
    let (c, rust) = (structs(&c_sources()?), structs(&rust_sources()?));
    assert!(c.get("Resolved").is_some_and(|fields| fields.len() == 10));
    assert_eq!(rust, c);
    Ok(())
}
