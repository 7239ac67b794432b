//! `docs/formats.md`: its tables are followed through files that the library makes.

use std::collections::BTreeSet;
use std::fs;
use std::path::Path;
use tests::challenges::Challenge;
use tests::random::Random;
use tests::tables::{section, tables, value, Layout};
use wivulameno::circuit::{evaluate, sizes, Sizes};
use wivulameno::mpc::{prepare, run, RunOut};
use wivulameno::proof::{check, longest_proof, prove, Counts, Statement};
use wivulameno::{sha3_256, shake128, shake256, Shelf, Work};

const FORMATS: &str = include_str!("../../../docs/formats.md");

fn layouts(name: &str) -> Vec<Layout> {
    let tables = tables(section(FORMATS, name));
    let tables = tables.iter().filter(|table| table[0][0] == "offset");
    tables.map(|table| Layout::of(table)).collect()
}

/// Every field of the tables is followed below.
fn has_fields(layout: &Layout, fields: &[&str]) {
    let found: BTreeSet<&str> = layout.fields().collect();
    assert_eq!(found, fields.iter().copied().collect());
}

fn example(name: &str) -> Vec<u8> {
    let folder = Path::new(env!("CARGO_MANIFEST_DIR")).join("../../examples");
    fs::read(folder.join(name)).expect("an example")
}

fn bit(bytes: &[u8], place: usize) -> bool {
    bytes[place / 8] >> (place % 8) & 1 == 1
}

/// The numbers above each picture are places of the tables.
#[test]
fn pictures() {
    let names = [("O", 3), ("G", 2), ("c", 9), ("S", 5), ("t", 0), ("k", 1)];
    for (name, picture, least) in [
        ("Circuit file", 0, 7),
        ("Proof file", 0, 7),
        ("Challenge", 0, 11),
        ("Challenge", 1, 3),
        ("Shelf page", 0, 7),
        ("Log", 0, 3),
    ] {
        let text = section(FORMATS, name);
        let ruler = text
            .split("```text\n")
            .nth(1 + picture)
            .and_then(|text| text.lines().next());
        let places = ruler.expect("a picture").split("  ").map(str::trim);
        let places: Vec<&str> = places
            .filter(|place| !["", "end"].contains(place))
            .collect();
        assert!(places.len() >= least, "{name}");
        let header = &layouts(name)[picture];
        let names: Vec<_> = match name {
            "Challenge" => vec![("O", 17), ("L", 5), ("τ", 4), ("t", 0)],
            "Log" => names
                .iter()
                .map(|&(name, _)| (name, 2))
                .chain([("L", 1)])
                .collect(),
            _ => names.to_vec(),
        };
        let starts: Vec<usize> = header
            .fields()
            .map(|field| header.range(field, &names).start)
            .collect();
        for place in places {
            assert!(starts.contains(&value(place, &names)), "{name}: {place}");
        }
    }
}

/// Evaluates a circuit by the table alone.
fn evaluated(layout: &Layout, circuit: &[u8], witness: &[u8]) -> Vec<u8> {
    let field = |name: &str, names: &[(&str, usize)]| layout.number(circuit, name, names);
    let [inputs, outputs, gates] = ["I", "O", "G"].map(|name| field(name, &[]));
    let end = layout.range("end", &[("O", outputs), ("G", gates)]);
    assert_eq!(end, circuit.len()..circuit.len());
    let mut wires: Vec<bool> = (0..inputs).map(|place| bit(witness, place)).collect();
    wires.resize(inputs + gates, false);
    let mut slot = field("head", &[]);
    let mut visits = 0;
    while slot != 0 {
        let names = [("O", outputs), ("k", slot)];
        let [kind, a, b] = ["kind", "a", "b"].map(|name| field(name, &names));
        wires[inputs + slot - 1] = match kind {
            1 => wires[a] ^ wires[b],
            2 => wires[a] & wires[b],
            _ => !wires[a],
        };
        slot = field("next", &names);
        visits += 1;
    }
    assert_eq!(visits, gates);
    let mut y = vec![0; outputs.div_ceil(8)];
    for t in 0..outputs {
        let wire = field("output t", &[("t", t)]);
        y[t / 8] |= u8::from(wires[wire]) << (t % 8);
    }
    y
}

#[test]
fn circuits() {
    let layout = &layouts("Circuit file")[0];
    let fields = [
        "I", "O", "G", "head", "output t", "kind", "a", "b", "next", "end",
    ];
    has_fields(layout, &fields);
    for name in ["covers16", "both", "grade", "worst"] {
        let circuit = example(&format!("{name}.circuit"));
        let row = example(&format!("{name}.row"));
        let mut flipped = row.clone();
        flipped[0] ^= 1;
        for witness in [row, flipped] {
            let sizes = sizes(&circuit).expect("a legal circuit");
            let mut y = vec![0; sizes.y_len()];
            evaluate(&circuit, &witness, &mut y).expect("no refusal");
            assert_eq!(evaluated(layout, &circuit, &witness), y, "{name}");
        }
    }
}

/// The inputs of hashes, as the table has them.
struct Hashes(Vec<Vec<String>>);

impl Hashes {
    fn read() -> Hashes {
        let tables = tables(section(FORMATS, "Proof file"));
        let mut hashes = tables.into_iter().filter(|table| table[0][0] == "tag");
        Hashes(hashes.next().expect("a table of hashes"))
    }

    /// The output of the hash with this tag, so many bytes.
    fn hash(&self, tag: u8, len: usize, numbers: &Numbers, bytes: &Bytes) -> Vec<u8> {
        let row = self.0.iter().find(|row| row[0] == tag.to_string());
        let row = row.expect("a tag");
        let mut input = vec![];
        for item in row[2].split(", ") {
            push(&mut input, item, numbers, bytes);
        }
        assert_eq!(input[0], tag);
        let mut output = vec![0; len];
        match row[1].as_str() {
            "SHA3-256" => output.copy_from_slice(&sha3_256(&input)),
            "SHAKE128" => shake128(&input, &mut output),
            "SHAKE256" => shake256(&input, &mut output),
            other => panic!("{other}"),
        }
        output
    }
}

type Numbers<'a> = [(&'a str, usize)];
type Bytes<'a> = [(&'a str, &'a [u8])];

fn number(numbers: &Numbers, name: &str) -> usize {
    let found = numbers.iter().find(|(known, _)| *known == name);
    found.unwrap_or_else(|| panic!("no number {name}")).1
}

/// An item of an input: a tag, a number with its width, or bytes, some of them only
/// for party n - 1.
fn push(input: &mut Vec<u8>, item: &str, numbers: &Numbers, bytes: &Bytes) {
    if let Ok(tag) = item.parse::<u8>() {
        return input.push(tag);
    }
    if let Some((name, width)) = item.split_once(": ") {
        let number = number(numbers, name).to_le_bytes();
        let width = if width == "u8" { 1 } else { 2 };
        return input.extend(&number[..width]);
    }
    let name = match item.split_once(" if ") {
        Some((name, condition)) => {
            assert_eq!(condition, "i = n − 1");
            if number(numbers, "i") != number(numbers, "n") - 1 {
                return;
            }
            name
        }
        None => item,
    };
    let found = bytes.iter().find(|(known, _)| *known == name);
    input.extend(found.unwrap_or_else(|| panic!("no bytes {name}")).1);
}

/// A proof with all that it was made from.
struct Made<'a> {
    circuit: &'a [u8],
    y: Vec<u8>,
    witness: &'a [u8],
    sizes: Sizes,
    counts: Counts,
    proof: Vec<u8>,
    hashes: Hashes,
    salt: [u8; 32],
}

/// What an instance has before the challenge.
struct Instance {
    nodes: Vec<Vec<u8>>,
    coms: Vec<Vec<u8>>,
    corrections: Vec<u8>,
    masked_inputs: Vec<u8>,
    rows: Vec<u8>,
}

const MESSAGE: &[u8] = b"order 4711";

impl Made<'_> {
    fn hash(&self, tag: u8, len: usize, numbers: &Numbers, bytes: &Bytes) -> Vec<u8> {
        let n = [("n", self.counts.n as usize)];
        let numbers: Vec<_> = numbers.iter().copied().chain(n).collect();
        let salt = [("salt", self.salt.as_slice())];
        let bytes: Vec<_> = bytes.iter().copied().chain(salt).collect();
        self.hashes.hash(tag, len, &numbers, &bytes)
    }

    /// The nodes of a tree from its top, node 1, on; 0 is nothing.
    fn tree(&self, j: usize, top: &[u8], leaves: usize) -> Vec<Vec<u8>> {
        let mut nodes = vec![vec![], top.to_vec()];
        for k in 1..leaves {
            let value = nodes[k].clone();
            let both = self.hash(2, 32, &[("j", j), ("k", k)], &[("node k", &value)]);
            nodes.extend([both[..16].to_vec(), both[16..].to_vec()]);
        }
        nodes
    }

    fn instance(&self, j: usize, master: &[u8]) -> Instance {
        let Sizes { inputs, ands, .. } = self.sizes;
        let (n, ands) = (self.counts.n as usize, ands as usize);
        let bits = inputs as usize + 2 * ands;
        let nodes = self.tree(j, master, n);
        let (mut seeds, mut tapes) = (vec![], vec![]);
        for i in 0..n {
            let numbers = [("j", j), ("i", i)];
            let leaf = &nodes[n + i];
            seeds.push(self.hash(3, 32, &numbers, &[("leaf i", leaf)]));
            let seed = &seeds[i][..16];
            let mut row = self.hash(4, bits.div_ceil(8), &numbers, &[("seed", seed)]);
            let used = bits - if i == n - 1 { ands } else { 0 };
            for place in used..8 * row.len() {
                row[place / 8] &= !(1 << (place % 8));
            }
            tapes.extend(row);
        }
        let mut made = self.ran(&tapes);
        made.nodes = nodes;
        for (i, both) in seeds.iter().enumerate() {
            let (seed, r) = both.split_at(16);
            let bytes = [("seed", seed), ("corrections", &made.corrections), ("r", r)];
            let com = self.hash(1, 32, &[("j", j), ("i", i)], &bytes);
            made.coms.push(com);
        }
        made
    }

    /// What the library's own run makes of the tapes.
    fn ran(&self, tapes: &[u8]) -> Instance {
        let Sizes {
            inputs,
            outputs,
            ands,
            ..
        } = self.sizes;
        let n = self.counts.n;
        let oct = |bits: u32| bits.div_ceil(8) as usize;
        let mut work = Work::for_sizes(self.sizes);
        let mut corrections = vec![0; oct(ands)];
        prepare(self.circuit, n, tapes, &mut corrections, &mut work).expect("no refusal");
        let mut masked_inputs = vec![0; oct(inputs)];
        let mut rows = vec![0; n as usize * oct(ands + outputs)];
        let mut y = vec![0; oct(outputs)];
        let out = RunOut {
            masked_inputs: &mut masked_inputs,
            rows: &mut rows,
            y: &mut y,
        };
        run(
            self.circuit,
            n,
            self.witness,
            tapes,
            &corrections,
            out,
            &mut work,
        )
        .expect("no refusal");
        assert_eq!(y, self.y);
        Instance {
            nodes: vec![],
            coms: vec![],
            corrections,
            masked_inputs,
            rows,
        }
    }

    /// h'_j of an instance.
    fn shown(&self, j: usize, instance: &Instance) -> Vec<u8> {
        let bytes = [
            ("masked inputs", instance.masked_inputs.as_slice()),
            ("all broadcast rows", &instance.rows),
        ];
        self.hash(8, 32, &[("j", j)], &bytes)
    }

    fn h_star(&self, instances: &[Instance]) -> Vec<u8> {
        let [mut all, mut all_shown] = [vec![], vec![]];
        for (j, instance) in instances.iter().enumerate() {
            let coms = instance.coms.concat();
            all.extend(self.hash(7, 32, &[("j", j)], &[("all com", &coms)]));
            all_shown.extend(self.shown(j, instance));
        }
        let h = self.hash(9, 32, &[], &[("all h_j", &all)]);
        let h_shown = self.hash(10, 32, &[], &[("all h'_j", &all_shown)]);
        self.hash(11, 32, &[], &[("h", &h), ("h'", &h_shown)])
    }

    /// The hidden party of each instance that is chosen, as document 01 draws them.
    fn challenge(&self, h_star: &[u8]) -> Vec<Option<usize>> {
        let [m, tau, n] = [self.counts.m, self.counts.tau, self.counts.n].map(|c| c as usize);
        let numbers = [("M", m), ("τ", tau), ("message length", MESSAGE.len())];
        let bytes = [
            ("h*", h_star),
            ("SHA3-256 of the circuit file", &sha3_256(self.circuit)),
            ("y", &self.y),
            ("message", MESSAGE),
        ];
        let stream = self.hash(6, 9 * tau, &numbers, &bytes);
        let mut asked = vec![None; m];
        for (t, word) in stream[..8 * tau].chunks(8).enumerate() {
            let word = u64::from_le_bytes(word.try_into().expect("8 bytes"));
            let place = (word % (m - t) as u64) as usize;
            let free: Vec<usize> = (0..m).filter(|&j| asked[j].is_none()).collect();
            asked[free[place]] = Some(0);
        }
        let chosen: Vec<usize> = (0..m).filter(|&j| asked[j].is_some()).collect();
        for (&j, byte) in chosen.iter().zip(&stream[8 * tau..]) {
            asked[j] = Some(usize::from(*byte) % n);
        }
        asked
    }
}

/// The numbers of the opened nodes, by their definition.
fn opened(asked: &[Option<usize>]) -> Vec<usize> {
    let leaves = asked.len().next_power_of_two();
    let below = |node: usize| {
        let height = leaves.ilog2() - node.ilog2();
        let first = (node << height) - leaves;
        (first..first + (1 << height)).filter(|&leaf| leaf < asked.len())
    };
    let has_hidden = |node: usize| below(node).any(|leaf| asked[leaf].is_some());
    let is_open = |node: &usize| {
        let has_open = below(*node).any(|leaf| asked[leaf].is_none());
        has_open && !has_hidden(*node) && has_hidden(node / 2)
    };
    (2..2 * leaves).filter(is_open).collect()
}

fn follow(name: &str, m: u32, tau: u32, n: u32) {
    let circuit = example(&format!("{name}.circuit"));
    let witness = example(&format!("{name}.row"));
    let sizes = sizes(&circuit).expect("a legal circuit");
    let mut y = vec![0; sizes.y_len()];
    evaluate(&circuit, &witness, &mut y).expect("no refusal");
    let (counts, root, salt) = (Counts { m, tau, n }, [0x5a; 16], [0x3c; 32]);
    let statement = Statement {
        circuit: &circuit,
        y: &y,
        message: MESSAGE,
    };
    let mut proof = vec![0; longest_proof(sizes, counts).expect("legal counts")];
    let mut work = Work::for_sizes(sizes);
    let len = prove(
        statement, &witness, &root, &salt, counts, &mut proof, &mut work,
    );
    proof.truncate(len.expect("no refusal"));
    check(statement, &proof, &mut work).expect("accepted");

    let layouts = layouts("Proof file");
    let made = Made {
        circuit: &circuit,
        y: y.clone(),
        witness: &witness,
        sizes,
        counts,
        proof,
        hashes: Hashes::read(),
        salt,
    };
    followed(&made, &layouts, &root);
}

fn followed(made: &Made, layouts: &[Layout], root: &[u8]) {
    let [header, not_chosen, chosen] = layouts else {
        panic!("three tables");
    };
    let (proof, counts) = (made.proof.as_slice(), made.counts);
    for (field, value) in [
        ("M", counts.m),
        ("τ", counts.tau),
        ("n", counts.n),
        ("zero", 0),
    ] {
        assert_eq!(header.number(proof, field, &[]), value as usize, "{field}");
    }
    assert_eq!(header.get(proof, "salt", &[]), made.salt);
    let m = counts.m as usize;
    let leaves = m.next_power_of_two();
    let masters = made.tree(65_535, root, leaves);
    let instance = |j: usize| made.instance(j, &masters[leaves + j]);
    let instances: Vec<Instance> = (0..m).map(instance).collect();
    let h_star = made.h_star(&instances);
    assert_eq!(header.get(proof, "h*", &[]), h_star);

    let asked = made.challenge(&h_star);
    let opened = opened(&asked);
    let names = [("c", opened.len())];
    let nodes: Vec<u8> = opened.iter().flat_map(|&k| masters[k].clone()).collect();
    assert_eq!(header.get(proof, "nodes", &names), nodes);
    let mut rest = &proof[header.range("instances", &names).start..];
    for (j, (instance, asked)) in instances.iter().zip(&asked).enumerate() {
        let len = match asked {
            None => {
                assert_eq!(not_chosen.get(rest, "h'_j", &[]), made.shown(j, instance));
                not_chosen.range("end", &[]).start
            }
            Some(p) => part(made, chosen, rest, instance, *p),
        };
        rest = &rest[len..];
    }
    assert!(rest.is_empty());
}

/// Follows the part of a chosen instance, and gives its length.
fn part(made: &Made, layout: &Layout, bytes: &[u8], instance: &Instance, p: usize) -> usize {
    let Sizes {
        inputs,
        outputs,
        ands,
        ..
    } = made.sizes;
    let (n, ands) = (made.counts.n as usize, ands as usize);
    let d = if p == n - 1 { 0 } else { ands.div_ceil(8) };
    let names = [
        ("n", n),
        ("d", d),
        ("I", inputs as usize),
        ("O", outputs as usize),
        ("A", ands),
    ];
    let get = |field: &str| layout.get(bytes, field, &names);
    let way = (0..n.ilog2()).rev().map(|up| (n + p) >> up);
    let siblings: Vec<u8> = way
        .flat_map(|node| instance.nodes[node ^ 1].clone())
        .collect();
    assert_eq!(get("siblings"), siblings);
    assert_eq!(get("corrections"), &instance.corrections[..d]);
    assert_eq!(get("com_p"), instance.coms[p]);
    assert_eq!(get("masked inputs"), instance.masked_inputs);
    let row = instance.rows.len() / n;
    assert_eq!(get("row of p"), &instance.rows[p * row..(p + 1) * row]);
    layout.range("end", &names).start
}

#[test]
fn proofs() {
    let [header, not_chosen, chosen] = &layouts("Proof file")[..] else {
        panic!("three tables");
    };
    let fields = ["M", "τ", "n", "zero", "h*", "salt", "nodes", "instances"];
    has_fields(header, &fields);
    has_fields(not_chosen, &["h'_j", "end"]);
    let fields = [
        "siblings",
        "corrections",
        "com_p",
        "masked inputs",
        "row of p",
        "end",
    ];
    has_fields(chosen, &fields);
    for (name, m, tau, n) in [
        ("grade", 4, 1, 2),
        ("grade", 7, 3, 8),
        ("covers16", 17, 5, 4),
        ("covers16", 12, 11, 16),
        ("both", 9, 4, 2),
        ("grade", 5, 2, 32),
        ("covers16", 4, 3, 64),
    ] {
        follow(name, m, tau, n);
    }
}

/// The challenge by the section of its own: instances, ascending, with their hidden parties.
fn drawn_by_the_page(counts: [usize; 3], stream: &[u8]) -> Vec<(u16, u8)> {
    let [m, tau, n] = counts;
    let layout = &layouts("Challenge")[1];
    has_fields(layout, &["word t", "byte t", "end"]);
    assert_eq!(layout.range("end", &[("τ", tau)]).start, stream.len());
    let number = |field, t| layout.number(stream, field, &[("τ", tau), ("t", t)]);
    let mut chosen: Vec<usize> = vec![];
    for t in 0..tau {
        let mut free = (0..m).filter(|j| !chosen.contains(j));
        let place = number("word t", t) % (m - t);
        chosen.push(free.nth(place).expect("one is free"));
    }
    chosen.sort();
    let hidden = (0..tau).map(|t| number("byte t", t) % n);
    let both = chosen.into_iter().zip(hidden);
    both.map(|(j, p)| (j as u16, p as u8)).collect()
}

/// Inputs that are put together by the table, against both implementations, which are lent
/// the fields apart.
#[test]
fn challenges() {
    let layout = &layouts("Challenge")[0];
    let fields = [
        "tag",
        "h*",
        "salt",
        "M",
        "τ",
        "n",
        "circuit digest",
        "y",
        "L",
        "message",
        "end",
    ];
    has_fields(layout, &fields);
    let mut random = Random::new(10);
    for (m, tau, n, outputs, len) in [
        (2, 1, 2, 1, 0),
        (5, 3, 4, 8, 1),
        (17, 16, 8, 9, 10),
        (145, 66, 8, 34, 10),
        (352, 33, 16, 17, 300),
        (300, 299, 32, 255, 7),
        (512, 511, 64, 256, 4096),
    ] {
        let counts = [m, tau, n];
        let y = usize::div_ceil(outputs, 8);
        let call = Challenge::any(&mut random, counts.map(|count| count as u32), y, len);
        let names = [("O", outputs), ("L", len)];
        let mut input = vec![0; layout.range("end", &names).start];
        let little = |number: usize| number.to_le_bytes().to_vec();
        for (field, bytes) in [
            ("tag", little(6)),
            ("h*", call.h_star.clone()),
            ("salt", call.salt.clone()),
            ("M", little(m)),
            ("τ", little(tau)),
            ("n", little(n)),
            ("circuit digest", call.circuit_digest.clone()),
            ("y", call.y.clone()),
            ("L", little(len)),
            ("message", call.message.clone()),
        ] {
            let range = layout.range(field, &names);
            let len = range.len();
            assert!(len == bytes.len() || bytes.len() == 8, "{field}");
            input[range].copy_from_slice(&bytes[..len]);
        }
        let mut stream = vec![0; 9 * tau];
        shake256(&input, &mut stream);
        let drawn = drawn_by_the_page(counts, &stream);
        let expected = reference::seeds::drawn(counts.map(|count| count as u32), &stream);
        assert_eq!(drawn, expected, "{counts:?}");
        let drawn: Vec<u8> = drawn
            .iter()
            .flat_map(|(j, p)| [j.to_le_bytes()[0], j.to_le_bytes()[1], *p])
            .collect();
        for out in [by_library(&call), by_second(&call)] {
            assert_eq!(out, drawn, "{counts:?}");
        }
    }
}

fn by_library(call: &Challenge) -> Vec<u8> {
    let mut out = vec![0; call.out_len];
    call.with(call.inputs(), &mut out).expect("no refusal");
    out
}

fn by_second(call: &Challenge) -> Vec<u8> {
    let mut out = vec![0; call.out_len];
    call.by_reference(&mut out).expect("no refusal");
    out
}

/// The two tables of the example: each line follows from the one before, and the second
/// implementation draws the same.
#[test]
fn the_example_of_a_challenge() {
    let all = tables(section(FORMATS, "Challenge"));
    let [steps, ends] = ["t", "chosen, ascending"].map(|head| {
        let table = all.iter().find(|table| table[0][0] == head);
        &table.expect("a table")[1..]
    });
    let number = |cell: &String| cell.parse::<usize>().expect("a number");
    let counts = [5, 3, 4];
    let mut stream = vec![];
    let mut free: Vec<usize> = (0..counts[0]).collect();
    for (t, row) in steps.iter().enumerate() {
        assert_eq!(number(&row[0]), t);
        let told: Vec<usize> = row[2].split(' ').map(|word| number(&word.into())).collect();
        assert_eq!(told, free);
        assert_eq!(number(&row[3]), number(&row[1]) % free.len());
        assert_eq!(number(&row[4]), free.remove(number(&row[3])));
        stream.extend(number(&row[1]).to_le_bytes());
    }
    stream.extend(ends.iter().map(|row| number(&row[1]) as u8));
    let told: Vec<(u16, u8)> = ends
        .iter()
        .map(|row| (number(&row[0]) as u16, number(&row[2]) as u8))
        .collect();
    assert_eq!(told.len(), counts[1]);
    let expected = reference::seeds::drawn(counts.map(|count| count as u32), &stream);
    assert_eq!(told, expected);
    assert_eq!(drawn_by_the_page(counts, &stream), expected);
}

/// The roots of a chain of a page, by the table alone.
fn chain(layout: &Layout, page: &[u8], head: &str) -> Vec<Vec<u8>> {
    let mut slot = layout.number(page, head, &[]);
    let mut roots = vec![];
    while slot != 0 {
        let names = [("k", slot)];
        roots.push(layout.get(page, "root", &names).to_vec());
        slot = layout.number(page, "next", &names);
    }
    roots
}

/// A shelf of five slots: three stocked, one drawn, one stocked. Gives the page after
/// each event, and the log.
fn history() -> (Vec<Vec<u8>>, Vec<u8>) {
    let folder = std::env::temp_dir().join(format!("wivulameno-formats-{}", std::process::id()));
    let _ = fs::remove_dir_all(&folder);
    fs::create_dir_all(&folder).expect("a folder");
    let (page, log) = (folder.join("page"), folder.join("log"));
    let read = || fs::read(&page).expect("a page");
    let mut shelf = Shelf::create(&page, &log, 5).expect("a shelf");
    let mut pages = vec![read()];
    for root in [1, 2, 3, 0, 4] {
        match root {
            0 => assert_eq!(shelf.draw().expect("a root"), [3; 16]),
            _ => shelf.stock(&[root; 16]).expect("room"),
        }
        pages.push(read());
    }
    let log = fs::read(&log).expect("a log");
    fs::remove_dir_all(&folder).expect("a folder");
    (pages, log)
}

#[test]
fn pages_and_logs() {
    let (pages, log) = history();
    let layout = &layouts("Shelf page")[0];
    let fields = [
        "S", "ready", "spare", "zero", "draws", "next", "root", "end",
    ];
    has_fields(layout, &fields);
    let page = pages.last().expect("a page");
    let number = |field: &str| layout.number(page, field, &[]);
    assert_eq!([number("S"), number("zero"), number("draws")], [5, 0, 1]);
    assert_eq!(layout.range("end", &[("S", 5)]).start, page.len());
    let roots = |names: &[u8]| names.iter().map(|&name| vec![name; 16]).collect::<Vec<_>>();
    assert_eq!(chain(layout, page, "ready"), roots(&[4, 2, 1]));
    assert_eq!(chain(layout, page, "spare"), roots(&[0, 0]));

    let layout = &layouts("Log")[0];
    let fields = [
        "version",
        "identity",
        "line end",
        "word",
        "draws",
        "digest",
        "full stop",
        "line end again",
        "end",
    ];
    has_fields(layout, &fields);
    assert_eq!(layout.get(&log, "version", &[]), b"wivulameno log 1 ");
    assert_eq!(layout.get(&log, "line end", &[]), b"\n");
    let identity = layout.get(&log, "identity", &[]);
    assert!(identity.iter().all(u8::is_ascii_hexdigit));
    let lines = pages.len() + 1;
    assert_eq!(layout.range("end", &[("L", lines)]).start, log.len());
    let told = ["page", "stock", "stock", "stock", "draw", "stock"];
    let words = words();
    for (place, (page, word)) in pages.iter().zip(told).enumerate() {
        let names = [("k", place + 2)];
        let text = |field: &str| String::from_utf8_lossy(layout.get(&log, field, &names));
        assert_eq!(text("word"), format!("{word:<6}"));
        assert!(words.contains(&format!("`{word}`")), "{word}");
        let draws = usize::from(place >= 4);
        assert_eq!(text("draws"), format!("{draws:010} "));
        let digest: String = sha3_256(page)[..16]
            .iter()
            .map(|b| format!("{b:02x}"))
            .collect();
        assert_eq!(text("digest"), digest);
        assert_eq!(
            (text("full stop"), text("line end again")),
            (".".into(), "\n".into())
        );
    }
}

/// The words of a log's lines that the page lists.
fn words() -> Vec<String> {
    let tables = tables(section(FORMATS, "Log"));
    let words = tables.iter().find(|table| table[0][0] == "word");
    let words = words.expect("a table of words")[1..].iter();
    words.map(|row| row[0].clone()).collect()
}
