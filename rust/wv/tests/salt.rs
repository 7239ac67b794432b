//! The salt of a proof: drawn anew for each, or given.
#![deny(unused_must_use)]

mod common;

use common::Folder;

const PROVE: &str = "prove covers16.circuit row --shelf page --log log --message 'text:order 7' \
                     --instances 12 --chosen 4 --parties 4";
const CHECK: &str = "check covers16.circuit proof --y hex:f50100 --message 'text:order 7' --bits 7";
const ACCEPTED: &str = "accepted, M 12, tau 4, n 4, soundness 7.4 bits\n";

/// The salt of the proof in this file, which stands after h*.
fn salt_of(folder: &Folder, name: &str) -> Vec<u8> {
    folder.read(name)[38..70].to_vec()
}

fn prove(folder: &Folder, words: &str) {
    let made = folder.wv(&format!("{PROVE} {words}"));
    made.tells("have 7.4 bits of soundness");
}

/// Each proof has a salt of its own, and none is zero.
#[test]
fn a_new_salt_for_each_proof() {
    let folder = Folder::with_shelf("new_salt");
    let mut salts = vec![vec![0; 32]];
    for name in ["one", "two", "three"] {
        prove(&folder, &format!("--out {name}"));
        let salt = salt_of(&folder, name);
        assert!(!salts.contains(&salt), "{salt:?}");
        salts.push(salt);
        folder.wv(&CHECK.replace("proof", name)).says(ACCEPTED);
    }
}

/// Typed, in a file, and through a pipe.
#[test]
fn a_salt_that_is_given() {
    let folder = Folder::with_shelf("given_salt");
    let salt: Vec<u8> = (100..132).collect();
    let digits: String = salt.iter().map(|byte| format!("{byte:02x}")).collect();
    folder.write("salt", &salt);
    prove(&folder, &format!("--out proof --salt hex:{digits}"));
    assert_eq!(salt_of(&folder, "proof"), salt);
    folder.wv(CHECK).says(ACCEPTED);
    prove(&folder, "--out proof --salt salt");
    assert_eq!(salt_of(&folder, "proof"), salt);
    let piped = folder.wv_reading(&format!("{PROVE} --out proof --salt -"), &[0; 32]);
    piped.tells("have 7.4 bits of soundness");
    assert_eq!(salt_of(&folder, "proof"), [0; 32]);
    folder.wv(CHECK).says(ACCEPTED);
}

/// With a known root and a known salt the proof has known bytes: their length and SHA3-256
/// were made in Python over its hashlib.
#[test]
fn known_bytes() {
    let folder = Folder::with_circuit("known_bytes");
    folder.wv("shelf new page --log log --slots 1").says("");
    folder.write("root", b"sixteen bytes...");
    let stock = "shelf stock page --log log --root root";
    folder.wv(stock).says("stocked 1\n");
    let salt = "'text:thirty-two bytes in every proof.'";
    prove(&folder, &format!("--out proof --salt {salt}"));
    let proof = folder.read("proof");
    let digest = wivulameno::sha3_256(&proof).map(|byte| format!("{byte:02x}"));
    assert_eq!(
        (proof.len(), digest.concat().as_str()),
        (
            686,
            "34bb8ec58d2fb6662df376e72f1cec2ccf584eb81f43be635684445cae2c327d"
        )
    );
}

/// The proof replaces no file that the salt is read from.
#[test]
fn the_salt_is_not_replaced() {
    let folder = Folder::with_shelf("salt_kept");
    folder.write("salt", &[7; 32]);
    let before = folder.files();
    folder
        .wv(&format!("{PROVE} --out salt --salt salt"))
        .mistaken("the salt salt");
    assert_eq!(folder.files(), before);
}
