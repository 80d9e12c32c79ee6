// SPDX-License-Identifier: MIT OR Apache-2.0
//! Links the C library: of the folder that `HALFGATES_LIB_DIR` names, or else of `dist/lib` in this
//! repository, or else the one that pkg-config finds. A folder's archive is linked, or, where
//! `HALFGATES_DYNAMIC` is set, its shared library. With the feature `unlinked` nothing is linked.

use std::env;
use std::ffi::OsString;
use std::path::{Path, PathBuf};
use std::process::Command;

const FOLDER: &str = "HALFGATES_LIB_DIR";
const DYNAMIC: &str = "HALFGATES_DYNAMIC";
const PKG_CONFIG: &str = "PKG_CONFIG";
const CRATE: &str = "CARGO_MANIFEST_DIR";
const UNLINKED: &str = "CARGO_FEATURE_UNLINKED";

fn main() {
    for variable in [FOLDER, DYNAMIC, PKG_CONFIG, CRATE] {
        println!("cargo:rerun-if-env-changed={variable}");
    }
    if env::var_os(UNLINKED).is_some() {
        return;
    }
    match variable(FOLDER)
        .map(PathBuf::from)
        .or_else(folder_of_the_repository)
    {
        Some(folder) => link_folder(&folder),
        None => link_by_pkg_config(),
    }
}

/// What a variable names, unless it is empty.
fn variable(name: &str) -> Option<OsString> {
    env::var_os(name).filter(|it| !it.is_empty())
}

/// The folder of the repository that has the library for the target's processor.
fn folder_of_the_repository() -> Option<PathBuf> {
    let place = variable(CRATE)?;
    let top = Path::new(&place).parent()?;
    let folder = match env::var("CARGO_CFG_TARGET_ARCH").ok()?.as_str() {
        "x86_64" => top.join("dist/lib"),
        other => top.join("dist/lib").join(other),
    };
    folder.join("libhalfgates.a").is_file().then_some(folder)
}

fn link_folder(folder: &Path) {
    let folder = folder
        .canonicalize()
        .unwrap_or_else(|error| panic!("{}: {error}", folder.display()));
    println!("cargo:rerun-if-changed={}", folder.display());
    println!("cargo:rustc-link-search=native={}", folder.display());
    if variable(DYNAMIC).is_some() || !folder.join("libhalfgates.a").is_file() {
        println!("cargo:rustc-link-lib=dylib=halfgates");
        // For the tests and examples of this crate. Others name the folder where the library is at
        // run time.
        for word in ["-rpath".as_ref(), folder.as_path()] {
            println!("cargo:rustc-link-arg=-Xlinker");
            println!("cargo:rustc-link-arg={}", word.display());
        }
    } else {
        println!("cargo:rustc-link-lib=static=halfgates");
    }
}

fn link_by_pkg_config() {
    let command = env::var_os(PKG_CONFIG).unwrap_or_else(|| "pkg-config".into());
    let flags = match Command::new(command).args(["--libs", "halfgates"]).output() {
        Ok(output) if output.status.success() => {
            String::from_utf8_lossy(&output.stdout).into_owned()
        }
        _ => panic!("no libhalfgates: {FOLDER} or PKG_CONFIG_PATH names the folder"),
    };
    for flag in words(&flags) {
        if let Some(folder) = flag.strip_prefix("-L") {
            println!("cargo:rustc-link-search=native={folder}");
        } else if let Some(name) = flag.strip_prefix("-l") {
            println!("cargo:rustc-link-lib={name}");
        }
    }
}

/// The words of a line. A backslash stands before a blank, or another character, that belongs to
/// its word.
fn words(line: &str) -> Vec<String> {
    let (mut words, mut word) = (Vec::new(), String::new());
    let mut characters = line.chars();
    while let Some(it) = characters.next() {
        match it {
            '\\' => word.extend(characters.next()),
            _ if it.is_whitespace() => words.push(std::mem::take(&mut word)),
            _ => word.push(it),
        }
    }
    words.push(word);
    words
}
