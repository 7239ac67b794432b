//! What a proof costs, as `wv cost` prints it.
#![deny(unused_must_use)]

mod common;

use common::{covers16, covers16_row, Folder};
use wivulameno::circuit::sizes;
use wivulameno::limits::MAX_PARTIES;
use wivulameno::proof::{most_opened, proof_len, Counts};

/// A row of the table, and its marks.
struct Row {
    counts: Counts,
    bits: f64,
    bytes: usize,
    time: f64,
    marks: Vec<String>,
}

fn row(line: &str) -> Row {
    let words: Vec<&str> = line.split_whitespace().collect();
    let number = |place: usize| words[place].parse::<u32>().expect("a number");
    let decimal = |place: usize| words[place].parse::<f64>().expect("a decimal number");
    Row {
        counts: Counts {
            n: number(0),
            m: number(1),
            tau: number(2),
        },
        bits: decimal(3),
        bytes: number(4) as usize,
        time: decimal(5) + decimal(6),
        marks: words[7..].iter().map(|word| word.to_string()).collect(),
    }
}

/// The rows, and what stands above them.
fn rows(text: &str) -> (Vec<&str>, Vec<Row>) {
    let lines: Vec<&str> = text.lines().collect();
    let rows = lines[2..].iter().map(|line| row(line)).collect();
    (lines[..2].to_vec(), rows)
}

#[test]
fn a_table_of_good_counts() {
    let folder = Folder::new("cost");
    folder.write("covers16.circuit", &covers16());
    let ended = folder.wv("cost covers16.circuit --bits 40");
    assert_eq!((ended.status, ended.err.as_str()), (0, ""));
    let (head, rows) = rows(ended.text());
    assert_eq!(head[0], "32 inputs, 17 outputs, 16 AND gates");
    let names: Vec<&str> = head[1].split_whitespace().collect();
    let expected = [
        "n", "M", "tau", "bits", "bytes", "at", "most", "prove", "ms", "check", "ms",
    ];
    assert_eq!(names, expected);
    let sizes = sizes(&covers16()).expect("a legal circuit");
    for row in &rows {
        let bits = row.counts.soundness_bits().expect("legal counts");
        assert!((40.0..41.0).contains(&bits), "{:?}", row.counts);
        assert!((bits - row.bits).abs() < 0.11, "{:?}", row.counts);
        let opened = most_opened(row.counts.m, row.counts.tau).expect("legal counts");
        let longest = proof_len(sizes, row.counts, opened, 0);
        assert_eq!(Some(row.bytes), longest, "{:?}", row.counts);
        assert!(row.time > 0.0);
    }
    for height in 1..=MAX_PARTIES.ilog2() {
        let of_n = rows.iter().filter(|row| row.counts.n == 1 << height);
        assert!((1..=2).contains(&of_n.count()), "{height}");
    }
    let marked = |mark: &str| {
        let mut marked = rows
            .iter()
            .filter(|row| row.marks.iter().any(|m| m == mark));
        let row = marked.next().expect(mark);
        assert!(marked.next().is_none(), "{mark} twice");
        row
    };
    let [short, fast] = ["shortest", "fastest"].map(marked);
    assert!(rows.iter().all(|row| row.bytes >= short.bytes));
    // The printed times are rounded to a hundredth each.
    assert!(rows.iter().all(|row| row.time >= fast.time - 0.021));
    let marks: usize = rows.iter().map(|row| row.marks.len()).sum();
    assert_eq!(marks, 2);
}

/// Table 1 of the paper for 128 bits, but for n 64 and n 128, which have more than 512
/// instances. Each stands there once, and other soundness has none of them.
#[test]
fn the_papers_counts() {
    let folder = Folder::new("cost_paper");
    folder.write("c", &covers16());
    let ended = folder.wv("cost c --bits 128");
    assert_eq!((ended.status, ended.err.as_str()), (0, ""));
    let (_, rows) = rows(ended.text());
    let is_marked = |row: &&Row| row.marks.iter().any(|mark| mark == "paper");
    let marked: Vec<_> = rows
        .iter()
        .filter(is_marked)
        .map(|row| row.counts)
        .collect();
    let table = [(4, 218, 65), (8, 252, 44), (16, 352, 33), (32, 462, 27)];
    assert_eq!(marked, table.map(|(n, m, tau)| Counts { m, tau, n }));
    for counts in &marked {
        let equal = rows.iter().filter(|row| row.counts == *counts);
        assert_eq!(equal.count(), 1, "{counts:?}");
    }
    assert!(rows.iter().all(|row| row.bits >= 128.0));
    let parties: Vec<u32> = rows.iter().map(|row| row.counts.n).collect();
    assert!(parties.is_sorted(), "{parties:?}");
    let other = folder.wv("cost c --bits 127");
    assert_eq!(other.status, 0);
    assert!(!other.text().contains("paper"));
}

/// A proof with the numbers of the marked row is as long as told, or shorter, and
/// `wv check` accepts it.
#[test]
fn the_shortest_is_proved() {
    let folder = Folder::new("cost_proved");
    folder.write("c", &covers16());
    folder.write("w", &covers16_row());
    let ended = folder.wv("cost c");
    assert_eq!((ended.status, ended.err.as_str()), (0, ""));
    let (_, rows) = rows(ended.text());
    let is_shortest = |row: &&Row| row.marks.iter().any(|mark| mark == "shortest");
    let shortest = rows.iter().find(is_shortest).expect("a mark");
    let Counts { m, tau, n } = shortest.counts;
    folder.wv("shelf new p --log l --slots 3").says("");
    folder
        .wv("shelf stock p --log l --fresh 1")
        .says("stocked 1\n");
    let line = format!(
        "prove c w --shelf p --log l --message text:m --out o --instances {m} --chosen {tau} \
         --parties {n}"
    );
    let ended = folder.wv(&line);
    assert_eq!((ended.status, ended.err.as_str()), (0, ""));
    let len = folder.read("o").len();
    assert!(
        len <= shortest.bytes && len > shortest.bytes * 9 / 10,
        "{len}"
    );
    let ended = folder.wv("check c o --y hex:f50100 --message text:m");
    assert_eq!(ended.status, 0, "{ended:?}");
}

#[test]
fn what_is_refused() {
    let folder = Folder::new("cost_refused");
    folder.write("c", &covers16());
    folder.write("none", b"no circuit");
    folder
        .wv("cost c --bits 600")
        .unwanted("no M up to 512 has 600 bits of soundness: ask for fewer with --bits");
    folder.wv("cost none").refused(1, "none");
    folder.wv("cost c --bits many").mistaken("--bits many");
    folder.wv("cost").mistaken("an argument is missing");
}
