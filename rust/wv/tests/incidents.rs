//! Each way that has led, or could lead, to a second proof from one root, on real
//! files: it ends in a refusal that says what to do, and no proof comes twice.
#![deny(unused_must_use)]

mod common;

use common::{Ended, Folder};
use std::fs;

/// The same statement and the same salt each time: with the same root it would be the
/// same proof.
const PROVE: &str = "prove covers16.circuit row --shelf page --log log --message text:a \
                     --salt text:the_same_salt_of_32_bytes_in_all --out proof";

/// A shelf of 20 slots and three roots: so many that its order is its own.
fn depot(name: &str) -> Folder {
    let folder = Folder::with_circuit(name);
    begin(&folder);
    folder
}

fn begin(folder: &Folder) {
    folder.wv("shelf new page --log log --slots 20").says("");
    folder
        .wv("shelf stock page --log log --fresh 3")
        .says("stocked 3\n");
}

fn prove(folder: &Folder) -> Vec<u8> {
    let ended = folder.wv(PROVE);
    assert_eq!((ended.status, ended.err.as_str()), (0, ""));
    folder.read("proof")
}

/// Proving ends so, and changes no proof.
fn ends(folder: &Folder, is_it: impl Fn(&Ended)) {
    let before = folder.read("proof");
    is_it(&folder.wv(PROVE));
    assert_eq!(folder.read("proof"), before);
}

/// The incident itself: a cache puts the page from before a draw back.
#[test]
fn an_old_page_is_put_back() {
    let folder = depot("incident_old");
    let old = folder.read("page");
    prove(&folder);
    folder.write("page", &old);
    ends(&folder, |ended| {
        ended.refused(15, "put the present page back")
    });
}

/// The page is put back between two draws of the same run of days.
#[test]
fn every_page_of_the_past_is_put_back() {
    let folder = depot("incident_past");
    let mut proofs = vec![];
    let mut pages = vec![folder.read("page")];
    for _ in 0..3 {
        proofs.push(prove(&folder));
        pages.push(folder.read("page"));
    }
    let present = pages.pop().expect("a page");
    for old in pages {
        folder.write("page", &old);
        ends(&folder, |ended| {
            ended.refused(15, "put the present page back")
        });
    }
    folder.write("page", &present);
    folder
        .wv("shelf stock page --log log --fresh 1")
        .says("stocked 1\n");
    proofs.push(prove(&folder));
    proofs.sort();
    proofs.dedup();
    assert_eq!(proofs.len(), 4);
}

/// The log loses its last line, somebody proves and is refused, and then does
/// what he would do for an old page.
#[test]
fn the_log_is_cut_short_and_an_old_page_put_back() {
    let folder = depot("incident_short");
    let old = folder.read("page");
    prove(&folder);
    let log = folder.read("log");
    folder.write("log", &log[..log.len() - 51]);
    let todo = "make a new shelf with a new log and new roots";
    ends(&folder, |ended| ended.refused(15, todo));
    folder.write("page", &old);
    ends(&folder, |ended| ended.refused(15, todo));
    fs::remove_file(folder.path("page")).expect("a page");
    folder
        .wv("shelf new page --log log --slots 20 --lost")
        .refused(15, todo);
}

/// Something is written over the log, or its file is emptied.
#[test]
fn the_log_is_no_log() {
    let folder = depot("incident_no_log");
    let old = folder.read("page");
    let proof = prove(&folder);
    for bytes in [&b""[..], &[0; 4096], &proof, &old, b"wivulameno log 1 "] {
        folder.write("log", bytes);
        folder.write("page", &old);
        let todo = "if it is lost, no page of this shelf can be trusted";
        ends(&folder, |ended| ended.mistaken(todo));
        folder.wv("shelf status page --log log").mistaken(todo);
        assert_eq!(folder.read("log"), bytes);
    }
}

/// The log is lost; a new shelf is made at the same place, and a page from before
/// is put back under its log, with the count that it asks for.
#[test]
fn a_new_log_for_an_old_page() {
    let folder = depot("incident_new_log");
    let old = folder.read("page");
    prove(&folder);
    fs::remove_file(folder.path("log")).expect("a log");
    ends(&folder, |ended| ended.mistaken("log"));
    folder
        .wv("shelf new page --log log --slots 20")
        .mistaken("page");
    fs::remove_file(folder.path("page")).expect("a page");
    begin(&folder);
    folder.write("page", &old);
    ends(&folder, |ended| ended.unwanted("different shelves"));
}

/// A new page is begun under the log, and the page that was lost is found again.
#[test]
fn a_lost_page_is_found() {
    let folder = depot("incident_found");
    prove(&folder);
    let lost = folder.read("page");
    fs::remove_file(folder.path("page")).expect("a page");
    folder
        .wv("shelf new page --log log --slots 20")
        .mistaken("--lost");
    folder
        .wv("shelf new page --log log --slots 20 --lost")
        .says("");
    folder
        .wv("shelf stock page --log log --fresh 1")
        .says("stocked 1\n");
    folder.write("page", &lost);
    ends(&folder, |ended| ended.unwanted("new page"));
}

/// The output is named like a file of the shelf.
#[test]
fn a_proof_over_the_shelf() {
    let folder = depot("incident_out");
    prove(&folder);
    let before = folder.files();
    for name in ["page", "log", "page.next", "./log"] {
        let line = PROVE.replace("--out proof", &format!("--out {name}"));
        folder.wv(&line).mistaken("a file of its own");
    }
    assert_eq!(folder.files(), before);
}

/// Another depot's log, of the same count.
#[test]
fn another_log_of_the_same_count() {
    let [folder, other] = ["incident_log", "incident_other"].map(depot);
    let old = folder.read("page");
    for folder in [&folder, &other] {
        prove(folder);
    }
    let own = folder.read("log");
    folder.write("log", &other.read("log"));
    ends(&folder, |ended| ended.unwanted("different shelves"));
    folder.write("page", &old);
    ends(&folder, |ended| ended.unwanted("different shelves"));
    folder.write("log", &own);
    ends(&folder, |ended| {
        ended.refused(15, "put the present page back")
    });
}
