//! Copies the sources of microsynth into the build folder, makes there the changes that the papers order (`../changes`, one
//! patch each, by rising number), puts after each source our accessors to its private state where `accessors/` has a file
//! of its name, and writes the list of modules that `src/lib.rs` includes.
//!
//! MICROSYNTH_SOURCES names another folder with the sources' `src/`. With MICROSYNTH_UNCHANGED in the environment no change
//! is made. With MICROSYNTH_CHANGED the sources have the changes already.

use std::env;
use std::fmt::Write;
use std::fs;
use std::path::{Path, PathBuf};
use std::process::Command;

/// The modules of the crate's root.
const ROOT: [&str; 9] = ["buffer", "context", "curve", "engine", "graph", "node", "scheduler", "synthdef", "voice"];

/// The modules of `ugens`, whose items its root exports by their bare names.
const UGENS: [&str; 3] = ["bus", "math", "utility"];

/// Where the sources stand: the folder that has their `src/`.
fn sources() -> PathBuf {
    println!("cargo::rerun-if-env-changed=MICROSYNTH_SOURCES");
    match env::var_os("MICROSYNTH_SOURCES") {
        Some(folder) => PathBuf::from(folder),
        None => Path::new(env!("CARGO_MANIFEST_DIR")).join("../../../shared/docs/src"),
    }
}

/// The patches to be applied, in their order.
fn changes() -> Vec<PathBuf> {
    println!("cargo::rerun-if-env-changed=MICROSYNTH_UNCHANGED");
    println!("cargo::rerun-if-changed=../changes");
    if env::var_os("MICROSYNTH_UNCHANGED").is_some() {
        return vec![];
    }
    let files = fs::read_dir("../changes").expect("oracle/changes can be read");
    let mut patches: Vec<PathBuf> = files.map(|file| file.expect("oracle/changes can be read").path()).collect();
    patches.sort();
    patches
}

/// Whether the sources that are named have the changes already, as the copies of `oracle/power` do.
fn is_changed() -> bool {
    println!("cargo::rerun-if-env-changed=MICROSYNTH_CHANGED");
    env::var_os("MICROSYNTH_CHANGED").is_some()
}

fn read(path: &Path) -> String {
    println!("cargo::rerun-if-changed={}", path.display());
    fs::read_to_string(path)
        .unwrap_or_else(|e| panic!("{}: {e} (MICROSYNTH_SOURCES names the folder that has src/)", path.display()))
}

/// The file of a module, from the folder that has `src/`.
fn file(module: &str) -> PathBuf {
    Path::new("src").join(module).with_extension("rs")
}

/// Copies the modules, and changes the copy.
fn copy(modules: &[String], changes: &[PathBuf], to: &Path) {
    let sources = sources();
    fs::create_dir_all(to.join("src/ugens")).expect("the build folder can be written");
    for module in modules {
        let file = file(module);
        fs::write(to.join(&file), read(&sources.join(&file))).expect("the build folder can be written");
    }
    for change in changes {
        let how = ["--silent", "--fuzz=0", "--no-backup-if-mismatch", "-p1", "-d"];
        let patch =
            Command::new("patch").args(how).arg(to).arg("-i").arg(change.canonicalize().expect("it is there")).status();
        assert!(patch.is_ok_and(|status| status.success()), "{} cannot be applied by patch", change.display());
    }
}

/// Writes the module with its accessors into the build folder, and answers the line that declares it.
fn module(copy: &Path, out: &Path, path: &str, name: &str) -> String {
    let mut text = fs::read_to_string(copy.join(file(path))).expect("the module was copied");
    let accessors = Path::new("accessors").join(name).with_extension("rs");
    if accessors.exists() {
        text.push_str(&read(&accessors));
    }
    let written = out.join(name).with_extension("rs");
    fs::write(&written, text).expect("the build folder can be written");
    format!("#[path = {written:?}]\npub mod {name};\n")
}

fn main() {
    let out = PathBuf::from(env::var_os("OUT_DIR").expect("cargo sets OUT_DIR"));
    let changes = changes();
    let ugens = UGENS.map(|name| format!("ugens/{name}"));
    let modules: Vec<String> = ROOT.iter().map(|name| name.to_string()).chain(ugens.clone()).collect();
    let copied = out.join("copy");
    copy(&modules, if is_changed() { &[] } else { &changes }, &copied);
    let mut list = String::new();
    for name in ROOT {
        list += &module(&copied, &out, name, name);
    }
    list += "pub mod ugens {\n";
    for (name, path) in UGENS.iter().zip(&ugens) {
        list += &module(&copied, &out, path, name);
        writeln!(list, "pub use {name}::*;").expect("a string can be written");
    }
    list += "}\n";
    println!("cargo::rerun-if-changed=accessors");
    println!("cargo::rustc-env=MICROSYNTH_CHANGES={}", changes.len());
    // what a change adds is there for the accessors
    println!("cargo::rustc-check-cfg=cfg(changed)");
    if !changes.is_empty() {
        println!("cargo::rustc-cfg=changed");
    }
    fs::write(out.join("modules.rs"), list).expect("the build folder can be written");
}
