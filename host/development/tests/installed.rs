//! bin/install: what it puts in a folder is enough to compile and run the examples, wherever the folder is moved to, and where it
//! refuses or fails it leaves what was there.

mod package;
mod programs;

use package::flags;
use programs::{gets_the_papers_answers, repository, run, said, scratch, succeed, C, CPP};
use std::fs;
use std::os::unix::fs::PermissionsExt;
use std::path::{Path, PathBuf};
use std::process::Command;

const FILES: [&str; 3] = [
    "include/bannelgo.h",
    "lib/libbannelgo.a",
    "lib/pkgconfig/bannelgo.pc",
];

/// bin/install, for the library that cargo links.
fn install() -> Command {
    let mut install = Command::new(repository().join("bin/install"));
    install.env("BANNELGO_LIB", env!("BANNELGO_LIB_FOLDER"));
    install.env_remove("DESTDIR");
    install
}

/// The files below a folder, by name.
fn files_below(folder: &Path) -> Vec<PathBuf> {
    let mut files = vec![];
    for entry in fs::read_dir(folder).expect("the folder can be read") {
        let path = entry.expect("the folder can be read").path();
        if path.is_dir() {
            files.extend(files_below(&path));
        } else {
            files.push(path);
        }
    }
    files.sort();
    files
}

fn installed_in(folder: &Path) {
    let expected: Vec<PathBuf> = FILES.iter().map(|file| folder.join(file)).collect();
    assert_eq!(files_below(folder), expected);
    for file in expected {
        let mode = fs::metadata(&file).expect("it is there").permissions();
        assert_eq!(mode.mode() & 0o777, 0o644, "{}", file.display());
    }
}

/// The folder is moved before it is used, to a name with a space. The sources are copied, so that nothing of the repository is beside them.
#[test]
fn the_installed_copy_is_enough() {
    let folder = scratch("installed");
    let said = succeed(install().arg(folder.join("first")));
    assert!(said.starts_with("installed bannelgo "), "{said}");
    installed_in(&folder.join("first"));
    let moved = folder.join("moved here");
    fs::rename(folder.join("first"), &moved).expect("the folder can be moved");

    for (way, flags) in flags(&moved.join("lib/pkgconfig")) {
        for language in [C, CPP] {
            let source = folder.join(language.example);
            fs::copy(language.source(), &source).expect("the example can be copied");
            let program = folder.join(format!("{} {way}", language.example));
            let mut compiler = language.compiler(None);
            compiler.arg(&source).args(&flags).arg("-o").arg(&program);
            succeed(&mut compiler);
            gets_the_papers_answers(&program);
        }
    }
}

#[test]
fn every_version_is_the_packages() {
    let manifest = repository().join("host/bannelgo/Cargo.toml");
    let manifest = fs::read_to_string(manifest).expect("host/bannelgo has a Cargo.toml");
    let line = manifest.lines().find(|line| line.starts_with("version"));
    let version = line.and_then(|line| line.split('"').nth(1));
    let version = version.expect("Cargo.toml has a version");
    assert_eq!(version, env!("CARGO_PKG_VERSION"), "both packages");

    let folder = scratch("versions");
    succeed(install().arg(&folder));
    let file = package::read(&folder.join("lib/pkgconfig"));
    assert_eq!(file.version, version, "the file for pkg-config");

    let source = folder.join("version.c");
    fs::write(&source, PRINTS_VERSIONS).expect("a source can be written");
    let program = folder.join("version");
    let mut compiler = C.compiler(None);
    compiler
        .arg(&source)
        .args(&file.flags)
        .arg("-o")
        .arg(&program);
    succeed(&mut compiler);
    let parts: Vec<u64> = version
        .split('.')
        .map(|part| part.parse().expect("a number"))
        .collect();
    let number = parts[0] * 1_000_000 + parts[1] * 1_000 + parts[2];
    let said = succeed(&mut Command::new(program));
    assert_eq!(
        said,
        format!("{version} {version} {number}\n"),
        "the header"
    );
}

const PRINTS_VERSIONS: &str = r#"
#include <bannelgo.h>
#include <stdio.h>
#if BANNELGO_VERSION_NUMBER < BANNELGO_VERSION_PATCH
#error "the number can be compared"
#endif
int main(void) {
    printf("%s %d.%d.%d %d\n", BANNELGO_VERSION, BANNELGO_VERSION_MAJOR, BANNELGO_VERSION_MINOR, BANNELGO_VERSION_PATCH,
           BANNELGO_VERSION_NUMBER);
    return 0;
}
"#;

#[test]
fn a_relative_folder_is_the_callers() {
    let folder = scratch("relative");
    succeed(install().arg("below/here").current_dir(&folder));
    installed_in(&folder.join("below/here"));
}

#[test]
fn destdir_is_put_in_front() {
    let folder = fs::canonicalize(scratch("destdir")).expect("it is there");
    let (front, prefix) = (folder.join("front"), folder.join("prefix"));
    succeed(install().arg(&prefix).env("DESTDIR", &front));
    let below = prefix.strip_prefix("/").expect("an absolute name");
    installed_in(&front.join(below));
    assert!(!prefix.exists());
}

#[test]
fn it_refuses_what_is_not_one_folder() {
    let folder = scratch("refused");
    for arguments in [&[][..], &[""], &["one", "two"], &["--prefix=/one"]] {
        let output = run(install().args(arguments).current_dir(&folder));
        assert_eq!(
            output.status.code(),
            Some(2),
            "{arguments:?}: {}",
            said(&output)
        );
        assert!(
            said(&output).starts_with("bin/install: "),
            "{}",
            said(&output)
        );
    }
    assert_eq!(files_below(&folder), [] as [PathBuf; 0]);
}

#[test]
fn a_folder_in_the_way_is_refused() {
    let folder = scratch("folder_in_the_way");
    fs::create_dir_all(folder.join("include/bannelgo.h")).expect("it can be made");
    let output = run(install().arg(&folder));
    assert_eq!(output.status.code(), Some(2), "{}", said(&output));
    assert!(
        said(&output).contains("bannelgo.h is a folder"),
        "{}",
        said(&output)
    );
    assert_eq!(files_below(&folder), [] as [PathBuf; 0]);
}

/// A file is in the way of the last folder: the copy that was installed in the others stays, and nothing is beside it.
#[test]
fn a_failure_leaves_what_was_there() {
    let folder = scratch("failure");
    for file in ["include/bannelgo.h", "lib/pkgconfig"] {
        let path = folder.join(file);
        fs::create_dir_all(path.parent().expect("a file has a folder")).expect("it can be made");
        fs::write(&path, "earlier").expect("the file can be written");
    }
    let output = run(install().arg(&folder));
    assert_eq!(output.status.code(), Some(1), "{}", said(&output));
    assert!(
        said(&output).ends_with("bin/install: nothing was installed\n"),
        "{}",
        said(&output)
    );
    let left = ["include/bannelgo.h", "lib/pkgconfig"].map(|file| folder.join(file));
    assert_eq!(files_below(&folder), left);
    assert_eq!(
        fs::read_to_string(&left[0]).expect("the header stays"),
        "earlier"
    );
}
