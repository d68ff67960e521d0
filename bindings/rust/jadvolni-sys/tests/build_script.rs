//! The build script: which library it links, and what it says where there is none.
use std::fs;
use std::path::{Path, PathBuf};
use std::process::Command;

const CRATE: &str = env!("CARGO_MANIFEST_DIR");

/// A new folder for a test, in the one that Cargo gives to tests.
fn room(name: &str) -> PathBuf {
    let room = Path::new(env!("CARGO_TARGET_TMPDIR")).join(name);
    let _ = fs::remove_dir_all(&room);
    fs::create_dir_all(&room).unwrap();
    room
}

/// Compiles a source, which has to succeed.
fn compile(source: &Path, output: &Path, kind: &str) {
    let rustc = std::env::var_os("RUSTC").unwrap_or_else(|| "rustc".into());
    let mut command = Command::new(rustc);
    command.args(["--edition=2021", "--crate-type", kind, "-o"]);
    assert!(command.args([output, source]).status().unwrap().success());
}

/// What the build script of a crate in a folder tells Cargo, or the reason why it fails.
fn run_script(room: &Path, setting: Option<&str>) -> Result<String, String> {
    let script = room.join("script");
    compile(&Path::new(CRATE).join("build.rs"), &script, "bin");
    let mut command = Command::new(script);
    command.current_dir("/").env("CARGO_MANIFEST_DIR", room);
    command.env_remove("PKG_CONFIG_PATH").env("PKG_CONFIG_LIBDIR", room);
    match setting {
        Some(folder) => command.env("JADVOLNI_LIB_DIR", folder),
        None => command.env_remove("JADVOLNI_LIB_DIR"),
    };
    let output = command.output().unwrap();
    if output.status.success() {
        Ok(String::from_utf8(output.stdout).unwrap())
    } else {
        Err(String::from_utf8(output.stderr).unwrap())
    }
}

#[test]
fn relative_path_counts_from_crate() {
    let room = room("relative");
    let folder = room.join("lib").display().to_string();
    fs::create_dir(&folder).unwrap();
    for (file, kind) in [("libjadvolni.so", "dylib"), ("libjadvolni.a", "static")] {
        fs::write(room.join("lib").join(file), "a library").unwrap();
        let said = run_script(&room, Some("lib")).unwrap();
        let wanted = [
            "rerun-if-env-changed=JADVOLNI_LIB_DIR".to_owned(),
            format!("rerun-if-changed={folder}/{file}"),
            format!("rustc-link-search=native={folder}"),
            format!("rustc-link-lib={kind}=jadvolni"),
        ];
        for line in wanted {
            assert!(said.contains(&format!("cargo:{line}\n")), "{line}: {said}");
        }
    }
}

#[test]
fn fault_is_said_with_path() {
    let room = room("faults");
    fs::write(room.join("file"), "no folder").unwrap();
    fs::create_dir_all(room.join("nested/libjadvolni.a")).unwrap();
    fs::create_dir(room.join("bare")).unwrap();
    fs::create_dir(room.join("hollow")).unwrap();
    fs::write(room.join("hollow/libjadvolni.a"), "").unwrap();
    let faults = [
        ("gone", "gone, which is no folder: a relative JADVOLNI_LIB_DIR starts at the folder jadvolni-sys"),
        ("file", "file, which is no folder"),
        ("bare", "bare has no libjadvolni.a"),
        ("hollow", "hollow has no libjadvolni.a"),
        ("nested", "nested has no libjadvolni.a"),
    ];
    for (setting, fault) in faults {
        let said = run_script(&room, Some(setting)).unwrap_err();
        assert!(said.contains(&format!("{}/{fault}", room.display())), "{said}");
    }
    let gone = room.join("gone").display().to_string();
    let said = run_script(&room, Some(&gone)).unwrap_err();
    assert!(said.contains(&format!("{gone}, which is no folder\n")), "{said}");
}

#[test]
fn no_folder_is_a_fault() {
    let room = room("none");
    let said = run_script(&room, Some("")).unwrap_err();
    assert!(said.contains("JADVOLNI_LIB_DIR is empty"), "{said}");
    let said = run_script(&room, None).unwrap_err();
    assert!(said.contains("set JADVOLNI_LIB_DIR to the folder"), "{said}");
}

#[test]
fn pkg_config_tells_of_a_folder_with_a_blank() {
    if Command::new("pkg-config").arg("--version").output().is_err() {
        return;
    }
    let room = room("a blank");
    fs::create_dir(room.join("lib")).unwrap();
    fs::write(room.join("lib/libjadvolni.a"), "a library").unwrap();
    let file = |libdir| format!("{libdir}\nName: jadvolni\nDescription: integers\nVersion: 1\n");
    fs::write(room.join("jadvolni.pc"), file("libdir=${pcfiledir}/lib")).unwrap();
    let said = run_script(&room, None).unwrap();
    let line = format!("cargo:rustc-link-search=native={}/lib\n", room.display());
    assert!(said.contains(&line), "{said}");
    fs::write(room.join("jadvolni.pc"), file("")).unwrap();
    let said = run_script(&room, None).unwrap_err();
    assert!(said.contains("pkg-config finds no jadvolni"), "{said}");
}

/// Writes a program that prints the version of its library, and answers its folder.
fn caller() -> PathBuf {
    let room = room("caller");
    fs::create_dir(room.join("src")).unwrap();
    let manifest = format!(
        "[package]\nname = \"caller\"\nedition = \"2021\"\n\n[workspace]\n\n\
         [dependencies]\njadvolni-sys = {{ path = {CRATE:?} }}\n"
    );
    fs::write(room.join("Cargo.toml"), manifest).unwrap();
    let program = "fn main() { print!(\"{}\", unsafe { jadvolni_sys::jadvolni_version() }) }\n";
    fs::write(room.join("src/main.rs"), program).unwrap();
    room
}

#[test]
fn replaced_library_is_linked_anew() {
    let room = caller();
    let source = room.join("library.rs");
    for version in ["1", "2"] {
        let function = format!("extern \"C\" fn jadvolni_version() -> u32 {{ {version} }}");
        fs::write(&source, format!("#![no_std]\n#[no_mangle]\npub {function}\n")).unwrap();
        // (An rlib is an archive of objects, and needs no other tool than rustc.)
        compile(&source, &room.join("libjadvolni.a"), "rlib");
        let mut command = Command::new(env!("CARGO"));
        command.args(["run", "--offline", "--quiet"]).current_dir(&room);
        command.env("JADVOLNI_LIB_DIR", &room).env("CARGO_TARGET_DIR", room.join("target"));
        let output = command.output().unwrap();
        let said = String::from_utf8(output.stderr).unwrap();
        assert_eq!(String::from_utf8(output.stdout).unwrap(), version, "{said}");
    }
}
