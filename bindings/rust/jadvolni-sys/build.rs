//! Finds the library: in the folder that JADVOLNI_LIB_DIR names, and else by pkg-config.
use std::env::{self, VarError};
use std::path::{Path, PathBuf};
use std::process::Command;

/// The files of the library, the better one first, and how Cargo names that kind.
const LIBRARIES: [(&str, &str); 2] = [("libjadvolni.a", "static"), ("libjadvolni.so", "dylib")];

fn main() {
    for name in ["JADVOLNI_LIB_DIR", "PKG_CONFIG_PATH", "PKG_CONFIG_LIBDIR"] {
        println!("cargo:rerun-if-env-changed={name}");
    }
    let folder = folder();
    let shown = folder.display();
    let is_relative =
        env::var_os("JADVOLNI_LIB_DIR").is_some_and(|it| Path::new(&it).is_relative());
    let hint = if is_relative {
        ": a relative JADVOLNI_LIB_DIR starts at the folder jadvolni-sys"
    } else {
        ""
    };
    assert!(folder.is_dir(), "libjadvolni is looked for in {shown}, which is no folder{hint}");
    let found = LIBRARIES.into_iter().find(|(file, _)| is_filled(&folder.join(file)));
    let Some((file, kind)) = found else {
        panic!("{shown} has no libjadvolni.a and no libjadvolni.so, or empty ones");
    };
    println!("cargo:rerun-if-changed={shown}/{file}");
    println!("cargo:rustc-link-search=native={shown}");
    println!("cargo:rustc-link-lib={kind}=jadvolni");
}

/// Whether there is such a file, and it isn't empty.
fn is_filled(path: &Path) -> bool {
    path.metadata().is_ok_and(|it| it.is_file() && it.len() > 0)
}

/// The folder of the library. A relative path counts from the folder of this crate, the only one of
/// the sources that Cargo tells a build script.
fn folder() -> PathBuf {
    match env::var("JADVOLNI_LIB_DIR") {
        Ok(folder) if folder.is_empty() => {
            panic!("JADVOLNI_LIB_DIR is empty: set it to the folder of libjadvolni.a")
        }
        Ok(folder) => {
            PathBuf::from(env::var_os("CARGO_MANIFEST_DIR").expect("Cargo sets it")).join(folder)
        }
        Err(VarError::NotPresent) => by_pkg_config(),
        Err(VarError::NotUnicode(folder)) => panic!("JADVOLNI_LIB_DIR is {folder:?}, not UTF-8"),
    }
}

/// The folder of the library, as pkg-config prints it.
fn by_pkg_config() -> PathBuf {
    let answer = Command::new("pkg-config")
        .args(["--variable=libdir", "jadvolni"])
        .output()
        .expect("no pkg-config: set JADVOLNI_LIB_DIR to the folder of libjadvolni.a");
    let folder = unescaped(String::from_utf8(answer.stdout).expect("a path in UTF-8").trim());
    assert!(
        answer.status.success() && !folder.is_empty(),
        "pkg-config finds no jadvolni: install it, or set JADVOLNI_LIB_DIR to the folder of libjadvolni.a"
    );
    folder.into()
}

/// A path without the backslashes that pkg-config puts before blanks, where it tells where its file stands.
fn unescaped(path: &str) -> String {
    let (mut found, mut characters) = (String::new(), path.chars());
    while let Some(character) = characters.next() {
        found.extend(if character == '\\' { characters.next() } else { Some(character) });
    }
    found
}
