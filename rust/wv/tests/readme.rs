//! The commands of the README and of `docs/commands.md`, as they stand there. `tools/c-tests`
//! runs those of the README on the package, and those on the sources.
#![deny(unused_must_use)]
#![cfg(unix)]

mod common;

use common::Folder;
use std::os::unix::fs::symlink;
use std::path::Path;

const PAGES: [&str; 2] = [
    include_str!("../../../README.md"),
    include_str!("../../../docs/commands.md"),
];

/// The blocks of commands that begin with `wv`.
fn scripts(page: &'static str) -> Vec<&'static str> {
    let blocks = page.split("```sh\n").skip(1);
    let blocks = blocks.map(|block| block.split("```").next().expect("its end"));
    blocks.filter(|block| block.starts_with("wv ")).collect()
}

/// One block of a page after the other, in one folder, beside the examples. A block that
/// checks ends with what the check says.
#[test]
fn every_command_works() {
    for page in PAGES {
        let folder = Folder::new("readme");
        let examples = Path::new(env!("CARGO_MANIFEST_DIR")).join("../../examples");
        symlink(examples, folder.path("examples")).expect("a link");
        let scripts = scripts(page);
        assert!(scripts.len() >= 2);
        assert!(scripts.iter().any(|script| script.contains("wv check ")));
        for script in scripts {
            let ended = folder.sh(&format!("set -e\n{script}"));
            assert_eq!((ended.status, ended.err.as_str()), (0, ""), "{script}");
            if script.contains("wv check ") {
                assert!(ended.text().ends_with(" bits\n"), "{script}: {ended:?}");
                assert!(ended.text().contains("accepted, "), "{script}: {ended:?}");
            }
        }
    }
}

/// The last line of the README's check is the one that it says.
#[test]
fn the_last_line() {
    let (_, told) = PAGES[0].split_once("The last line is `").expect("it");
    let (told, _) = told.split_once('`').expect("its end");
    let folder = Folder::new("last_line");
    let examples = Path::new(env!("CARGO_MANIFEST_DIR")).join("../../examples");
    symlink(examples, folder.path("examples")).expect("a link");
    let script = scripts(PAGES[0]).concat();
    let ended = folder.sh(&format!("set -e\n{script}"));
    assert_eq!(ended.text().lines().last(), Some(told), "{ended:?}");
}
