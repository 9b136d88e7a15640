//! Where the variable ZUNIDELO_BEFORE names the archive of an earlier commit,
//! has it linked beside today's: a copy of it in which each function has
//! another name, such as before_zunidelo_check. For each of them there is a
//! `cfg(before = "zunidelo_check")`.

use std::collections::BTreeSet;
use std::env;
use std::path::PathBuf;
use std::process::{exit, Command};

const ARCHIVE_VARIABLE: &str = "ZUNIDELO_BEFORE";

fn main() {
    println!("cargo::rerun-if-env-changed={ARCHIVE_VARIABLE}");
    println!("cargo::rustc-check-cfg=cfg(before, values(any()))");
    let Some(archive) = env::var_os(ARCHIVE_VARIABLE).filter(|path| !path.is_empty()) else {
        return;
    };
    let archive = PathBuf::from(archive);
    println!("cargo::rerun-if-changed={}", archive.display());
    let folder = PathBuf::from(env::var_os("OUT_DIR").expect("cargo names a folder for this"));

    let listed = run(Command::new("nm").args(["--defined-only", "--extern-only"]).arg(&archive));
    // A line is an address, a kind and a name; the name of an object stands alone.
    let names: BTreeSet<&str> =
        listed.lines().filter_map(|line| line.split_whitespace().nth(2)).collect();
    let mut copy = Command::new("objcopy");
    for name in names {
        copy.arg(format!("--redefine-sym={name}=before_{name}"));
        println!("cargo::rustc-cfg=before=\"{name}\"");
    }
    run(copy.arg(&archive).arg(folder.join("libbefore.a")));
    println!("cargo::rustc-link-search=native={}", folder.display());
    println!("cargo::rustc-link-lib=static=before");
}

/// What the command prints; where it fails, so does the build.
fn run(command: &mut Command) -> String {
    let output = command.output().unwrap_or_else(|error| panic!("{command:?}: {error}"));
    if !output.status.success() {
        eprintln!("{}", String::from_utf8_lossy(&output.stderr));
        eprintln!("{ARCHIVE_VARIABLE} (make's BEFORE) names no archive that can be linked.");
        exit(1);
    }
    String::from_utf8(output.stdout).expect("names of functions are text")
}
