//! The command line as a new user meets it: prove and check.
#![deny(unused_must_use)]

mod common;

use common::{covers16, Folder, Y};

const PROVE: &str = "prove covers16.circuit row --shelf page --log log --out proof";
const CHECK: &str = "check covers16.circuit proof --y hex:f50100";
const SMALL: &str = "--instances 12 --chosen 4 --parties 4";
const ORDER: &str = "--message 'text:order 7'";

fn ready(folder: &Folder, count: usize) {
    let status = folder.wv("shelf status page --log log");
    let line = format!("ready {count}\n");
    assert!(status.text().contains(&line), "{status:?}");
}

/// A small proof in the file `proof`. By formula (1) with M 12, tau 4, n 4 the
/// best cheat makes k = 10 right, 45 / (495 * 16) = 1 / 176: 7.459 bits.
fn prove_small(folder: &Folder) {
    let made = folder.wv(&format!("{PROVE} {SMALL} {ORDER}"));
    made.tells("M 12, tau 4, n 4 have 7.4 bits of soundness");
    let len = folder.read("proof").len();
    assert_eq!(made.text(), format!("proved {Y} in {len} bytes\n"));
}

/// 70 bytes of header; opened nodes of 16, 1 to 6 for 4 of 12; 8 instances of 32; 4
/// chosen ones of 2 siblings of 16, 2 of corrections unless the last party is hidden,
/// 32, 4 of masked inputs and 5 of the hidden row: 70 + 256 + 4 * 75 = 626 at most
/// without the nodes.
#[test]
fn a_proof_is_made_and_accepted() {
    let folder = Folder::with_shelf("proof");
    prove_small(&folder);
    let len = folder.read("proof").len();
    let by_nodes = |nodes: usize| [0, 2, 4, 6, 8].map(|saved| 626 + 16 * nodes - saved);
    assert!((1..=6).any(|nodes| by_nodes(nodes).contains(&len)), "{len}");
    ready(&folder, 2);
    assert_eq!(folder.draws(), 1);
    folder
        .wv(&format!("{CHECK} {ORDER} --bits 7.4"))
        .says("accepted, M 12, tau 4, n 4, soundness 7.4 bits\n");
}

#[test]
fn the_usual_numbers_have_128_bits() {
    let folder = Folder::with_shelf("usual");
    let made = folder.wv(&format!("{PROVE} {ORDER}"));
    let len = folder.read("proof").len();
    made.says(&format!("proved {Y} in {len} bytes\n"));
    let accepted = "accepted, M 145, tau 66, n 8, soundness 128.0 bits\n";
    folder.wv(&format!("{CHECK} {ORDER}")).says(accepted);
    folder
        .wv(&format!("{CHECK} {ORDER} --bits 128"))
        .says(accepted);
    folder
        .wv(&format!("{CHECK} {ORDER} --bits 129"))
        .unwanted("have 128.0 bits of soundness, and 129 are asked for");
}

/// By formula (1): M 150, tau 47 with 32 parties and M 151, tau 45 with 64.
#[test]
fn many_parties() {
    let folder = Folder::with_shelf("many_parties");
    for (m, tau, n) in [(150, 47, 32), (151, 45, 64)] {
        let counts = format!("--instances {m} --chosen {tau} --parties {n}");
        let made = folder.wv(&format!("{PROVE} {ORDER} {counts}"));
        let len = folder.read("proof").len();
        made.says(&format!("proved {Y} in {len} bytes\n"));
        let accepted = format!("accepted, M {m}, tau {tau}, n {n}, soundness 128.1 bits\n");
        folder.wv(&format!("{CHECK} {ORDER}")).says(&accepted);
    }
}

#[test]
fn proofs_through_pipes() {
    let folder = Folder::with_shelf("pipes");
    folder.write("order", b"order 7");
    let prove = "prove - row --shelf page --log log --message order --out -";
    let made = folder.wv_reading(prove, &covers16());
    assert_eq!((made.status, made.err.as_str()), (0, ""));
    let check = "check covers16.circuit - --y hex:f50100 --message order";
    let accepted = "accepted, M 145, tau 66, n 8, soundness 128.0 bits\n";
    folder.wv_reading(check, &made.out).says(accepted);
}

/// With one root and one salt both would be the same proof.
#[test]
fn two_proofs_take_two_roots() {
    let folder = Folder::with_shelf("two_proofs");
    let salt = "--salt text:the_same_salt_of_32_bytes_in_all";
    let [first, second] = [(); 2].map(|()| {
        let made = folder.wv(&format!("{PROVE} {SMALL} {ORDER} {salt}"));
        assert_eq!(made.status, 0, "{made:?}");
        folder.read("proof")
    });
    assert_ne!(first, second);
    ready(&folder, 1);
}

/// The challenge follows from h* and the statement. With another circuit file, y
/// or message it asks for other instances: then the length differs (12), or an
/// unused bit is set (7), or an output (10), or the digest (13), whatever comes
/// first.
fn assert_does_not_hold(ended: &common::Ended) {
    let numbers = [7, 10, 12, 13];
    let starts = numbers.map(|number| format!("wv: refused {number}: "));
    let found = starts.iter().any(|start| ended.err.starts_with(start));
    assert!(ended.status == 1 && found, "{ended:?}");
    let cause = "it does not hold: y is not what the prover's row gives, or message or circuit \
                 are not the prover's, byte for byte, or the proof was cut or changed (";
    assert!(ended.err.contains(cause), "{ended:?}");
    assert_eq!(ended.out, b"", "{ended:?}");
}

#[test]
fn refused_proofs() {
    let folder = Folder::with_shelf("refused_proofs");
    prove_small(&folder);
    let proof = folder.read("proof");
    let check = |y: &str, message: &str, proof: &[u8]| {
        let line = format!("check covers16.circuit - --y {y} --message 'text:{message}' --bits 0");
        folder.wv_reading(&line, proof)
    };
    let accepted = check("hex:f50100", "order 7", &proof);
    accepted.says("accepted, M 12, tau 4, n 4, soundness 7.4 bits\n");
    assert_does_not_hold(&check("hex:f50100", "order 8", &proof));
    assert_does_not_hold(&folder.wv(&format!("{CHECK} --message text:other")));
    assert_does_not_hold(&check("hex:f40100", "order 7", &proof));
    // With the 17 outputs in another order it is another circuit of the same sizes.
    let mut circuit = covers16();
    circuit[16..16 + 4 * 17].rotate_left(4);
    folder.write("other.circuit", &circuit);
    let line = CHECK.replace("covers16", "other");
    assert_does_not_hold(&folder.wv(&format!("{line} {ORDER} --bits 0")));
    check("hex:f501", "a", &proof).refused(6, "--y has 2 bytes, the circuit asks for 3");
    check("hex:f50102", "a", &proof).refused(7, "--y has bits set behind its 17");
    check("hex:f50100", "a", &proof[..69]).refused(11, "standard input is no proof");
    check("hex:f50100", "a", b"").refused(11, "standard input: it is empty, no proof");
    let mut zeroed = proof.clone();
    zeroed[5] = 1;
    check("hex:f50100", "a", &zeroed).refused(11, "is no proof");
}

#[test]
fn changed_proofs() {
    let folder = Folder::with_shelf("changed_proofs");
    prove_small(&folder);
    let proof = folder.read("proof");
    let check = |name: &str, bytes: &[u8]| {
        folder.write(name, bytes);
        let line = CHECK.replace("proof", name);
        folder.wv(&format!("{line} {ORDER}"))
    };
    let cut = "cut: it does not hold: y is not what the prover's row gives, or";
    check("cut", &proof[..proof.len() - 1]).refused(12, cut);
    check("long", &[&proof[..], &[0]].concat()).refused(12, "long: ");
    for place in [6, 37, 38, 69, 70, proof.len() - 1] {
        let mut changed = proof.clone();
        changed[place] ^= 1;
        assert_does_not_hold(&check("changed", &changed));
    }
    folder.write("long.message", &[0; 4097]);
    folder
        .wv(&format!("{CHECK} --message long.message"))
        .refused(6, "--message long.message has 4097 bytes, at most 4096");
    folder
        .wv(&format!("check row proof --y hex:01 {ORDER}"))
        .refused(1, "row");
}

#[test]
fn too_little_soundness_is_refused() {
    let folder = Folder::with_shelf("bits");
    prove_small(&folder);
    let few =
        "proof: the proof holds, but its M 12, tau 4, n 4 have 7.4 bits of soundness, and 128 \
               are asked for: `--bits 7.4` asks for less";
    let ended = folder.wv(&format!("{CHECK} {ORDER}"));
    ended.unwanted(few);
    assert_eq!(ended.out, b"");
    folder
        .wv(&format!("{CHECK} {ORDER} --bits 7.5"))
        .unwanted("and 7.5 are asked for");
    for bits in ["0", "7", "7.4"] {
        folder
            .wv(&format!("{CHECK} {ORDER} --bits {bits}"))
            .says("accepted, M 12, tau 4, n 4, soundness 7.4 bits\n");
    }
}

/// What is no number of bits is a mistake, and not a wish for none.
#[test]
fn nonsense_for_bits() {
    let folder = Folder::with_shelf("nonsense_bits");
    prove_small(&folder);
    let huge = "9".repeat(400);
    for bits in [
        "nan", "NaN", "inf", "-inf", "infinity", "-1", "-0", "+1", "1e2", "0x10", "", "many",
        "1,5", ".5", "5.", &huge,
    ] {
        folder
            .wv(&format!("{CHECK} {ORDER} --bits '{bits}'"))
            .mistaken(&format!("--bits {bits}: this is not a number of 0 or more"));
    }
}

/// What cannot be proved takes no root and leaves no file.
#[test]
fn a_refusal_draws_no_root() {
    let folder = Folder::with_shelf("no_root");
    folder.write("long", &[0; 4097]);
    let before = folder.files();
    let prove = |line: &str| {
        let line = format!("prove {line} --shelf page --log log --out proof");
        folder.wv(&line)
    };
    let covers = |line: &str| prove(&format!("covers16.circuit {line} {ORDER}"));
    prove(&format!("row row {ORDER}")).refused(1, "row");
    covers("row --instances 1").refused(8, "--instances 1: 2 to 512");
    covers("row --instances 513").refused(8, "--instances 513: 2 to 512");
    covers("row --chosen 145").refused(8, "--chosen 145: 1 to 144");
    covers("row --chosen 0").refused(8, "--chosen 0: 1 to 144");
    for n in ["3", "48", "63", "65", "128"] {
        let told = format!("--parties {n}: 2, 4, 8, 16, 32 or 64");
        covers(&format!("row --parties {n}")).refused(8, &told);
    }
    covers("hex:00").refused(6, "the witness has 1 byte, the circuit asks for 4");
    covers("row --y hex:").refused(6, "--y has 0 bytes, the circuit asks for 3");
    covers("row --y row").refused(6, "--y row has 4 bytes, the circuit asks for 3");
    covers("row --y hex:f50102").refused(7, "--y has bits set behind its 17");
    covers("row --y hex:f40100").refused(10, "the witness row gives f50100, and --y is f40100");
    covers("hex:f900fa00 --y hex:f50100")
        .refused(10, "the witness gives f40100, and --y is f50100");
    let long = format!("hex:{}", "0a".repeat(33));
    covers(&format!("row --salt {long}")).refused(6, "--salt has 33 bytes, a salt has 32");
    covers("row --salt row").refused(6, "--salt row has 4 bytes, a salt has 32");
    covers("row --salt hex:").refused(6, "--salt has 0 bytes, a salt has 32");
    prove("covers16.circuit row --message long")
        .refused(6, "--message long has 4097 bytes, at most 4096");
    ready(&folder, 3);
    assert_eq!(folder.files(), before);
}

/// The incident, by hand.
#[test]
fn an_old_page_put_back_is_refused() {
    let folder = Folder::with_shelf("incident");
    let old = folder.read("page");
    prove_small(&folder);
    folder.write("page", &old);
    let before = folder.files();
    let line = format!("{PROVE} {ORDER}");
    let behind = "page is old, 1 draw behind: put the present page back";
    folder.wv(&line).refused(15, behind);
    folder.wv("shelf status page --log log").refused(15, behind);
    assert_eq!(folder.files(), before);
}

#[test]
fn an_empty_shelf_is_refused() {
    let folder = Folder::with_shelf("empty");
    for _ in 0..3 {
        prove_small(&folder);
    }
    let proof = folder.read("proof");
    folder
        .wv(&format!("{PROVE} {ORDER}"))
        .refused(16, "page: `wv shelf stock` puts more on it");
    assert_eq!(folder.read("proof"), proof);
}

#[test]
fn mistakes() {
    let folder = Folder::with_shelf("proof_mistakes");
    let before = folder.files();
    folder
        .wv("prove covers16.circuit")
        .mistaken("usage: wv prove");
    folder
        .wv("prove covers16.circuit row")
        .mistaken("`--shelf` is needed");
    folder
        .wv(&PROVE.replace("--out proof", ORDER))
        .mistaken("`--out` is needed");
    folder.wv(PROVE).mistaken("`--message` is needed");
    folder
        .wv("check covers16.circuit row")
        .mistaken("`--y` is needed");
    folder.wv(CHECK).mistaken("`--message` is needed");
    folder
        .wv(&format!("{PROVE} {ORDER} --parties eight"))
        .mistaken("--parties eight");
    folder.wv(&format!("{CHECK} {ORDER}")).mistaken("proof: ");
    assert_eq!(folder.files(), before);
}
