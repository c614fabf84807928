//! Compiles the peer, the index in plain C in the folder peer, and links it; CC names another compiler than cc. Links copies of
//! the peer and of two archives of the library besides, whose calls are measured side by side: the archive that is linked, and
//! the one in the folder that LUWHENOKA_BEFORE names, or the same once more where nothing is named.

use std::env;
use std::fs;
use std::path::{Path, PathBuf};
use std::process::Command;

const SOURCES: [&str; 4] = ["check", "read", "sound", "change"];

/// Where the code of a copy begins in a line of 64 bytes: a loop's time depends on that by as much as a search takes.
const SHIFTS: [usize; 4] = [0, 16, 32, 48];

/// What is measured of each copy.
const OF_LIBRARY: &[&str] = &["luw_instant", "luw_average_of", "luw_audit", "luw_enter", "luw_withdraw"];
const OF_PEER: &[&str] =
    &["peer_instant", "peer_instant_known", "peer_average_of", "peer_audit", "peer_enter", "peer_withdraw"];

fn main() {
    let out = PathBuf::from(env::var_os("OUT_DIR").expect("cargo sets it"));
    let compiler = env::var("CC").unwrap_or_else(|_| "cc".to_string());
    let objects = SOURCES.iter().map(|name| compile(&compiler, name, &out)).collect();
    let peer = link("peer", objects, &out);
    link("copies", copies(&peer, &out), &out);

    println!("cargo:rustc-env=PEER_COMPILER={}", version(&compiler));
    println!("cargo:rustc-link-search=native={}", out.display());
    println!("cargo:rerun-if-changed=build.rs");
    println!("cargo:rerun-if-changed=peer");
    println!("cargo:rerun-if-env-changed=CC");
}

/// Plain C for any x86-64: no flag for this machine's processor.
fn compile(compiler: &str, name: &str, out: &Path) -> PathBuf {
    let object = out.join(format!("{name}.o"));
    let flags = ["-O3", "-std=c99", "-Wall", "-Wextra", "-Wpedantic", "-fPIC", "-c"];
    run(Command::new(compiler).args(flags).arg(format!("peer/{name}.c")).arg("-o").arg(&object));
    object
}

/// Objects as an archive, which is linked.
fn link(name: &str, objects: Vec<PathBuf>, out: &Path) -> PathBuf {
    let archive = out.join(format!("lib{name}.a"));
    let _ = fs::remove_file(&archive);
    run(Command::new("ar").arg("crs").arg(&archive).args(&objects));
    println!("cargo:rustc-link-lib=static={name}");
    archive
}

// ---------------------------------------------------------------- copies at several places

/// Each archive at each shift, as objects. A function luw_instant gets the name before_0_instant in the first copy of the
/// archive before, and so on. That archive may be from before document 02's (viii), and answer without start and end: src/search.rs
/// has an answer of its own for it.
fn copies(peer: &Path, out: &Path) -> Vec<PathBuf> {
    let after = archive_in(folder("LUWHENOKA_LIB", "../../target/staticlib".into()));
    let before = archive_in(folder("LUWHENOKA_BEFORE", after.parent().expect("a folder").into()));
    let same = fs::read(&before).ok() == fs::read(&after).ok();
    println!("cargo:rustc-env=BEFORE_IS={}", if same { "this archive too" } else { "another archive" });
    let archives = [("before", before.as_path(), OF_LIBRARY), ("after", &after, OF_LIBRARY), ("peer", peer, OF_PEER)];
    let each = |(name, archive, functions): (&str, &Path, &[&str])| -> Vec<PathBuf> {
        let copies = SHIFTS.iter().enumerate();
        copies.map(|(i, shift)| copy(archive, functions, &format!("{name}_{i}"), *shift, out)).collect()
    };
    archives.into_iter().flat_map(each).collect()
}

fn folder(variable: &str, default: PathBuf) -> PathBuf {
    println!("cargo:rerun-if-env-changed={variable}");
    env::var_os(variable).map_or(default, PathBuf::from)
}

fn archive_in(folder: PathBuf) -> PathBuf {
    let archive = folder.join("libluwhenoka.a");
    println!("cargo:rerun-if-changed={}", archive.display());
    archive
}

/// All code of an archive as one section that is shifted in its line, with these functions as its only names.
fn copy(archive: &Path, functions: &[&str], name: &str, shift: usize, out: &Path) -> PathBuf {
    let (script, object) = (out.join(format!("{name}.ld")), out.join(format!("{name}.o")));
    let sections = format!("SECTIONS {{ .text : {{ . = . + {shift}; *(.text .text.*) }} }}\n");
    fs::write(&script, sections).unwrap_or_else(|error| panic!("{}: {error}", script.display()));
    run(Command::new("ld").args(["-r", "--whole-archive"]).arg(archive).arg("-T").arg(&script).arg("-o").arg(&object));
    let names = functions.iter().flat_map(|function| {
        let (_, call) = function.split_once('_').expect("a prefix");
        let given = format!("{name}_{call}");
        ["--redefine-sym".to_string(), format!("{function}={given}"), "--keep-global-symbol".to_string(), given]
    });
    run(Command::new("objcopy").args(names).args(["--set-section-alignment", ".text=64"]).arg(&object));
    object
}

// ---------------------------------------------------------------- commands

/// The first line that the compiler says of itself.
fn version(compiler: &str) -> String {
    let said = Command::new(compiler).arg("--version").output().map(|output| output.stdout).unwrap_or_default();
    String::from_utf8_lossy(&said).lines().next().unwrap_or("unknown").to_string()
}

fn run(command: &mut Command) {
    let ended = command.status().unwrap_or_else(|error| panic!("{command:?}: {error}"));
    assert!(ended.success(), "{command:?} ended with {ended}");
}
