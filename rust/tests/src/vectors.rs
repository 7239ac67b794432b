//! Reads the file of known answers. A line out of form is a panic.

#[derive(Clone, Copy, Debug, PartialEq, Eq)]
pub enum Algorithm {
    Sha3_256,
    Shake128,
    Shake256,
}

#[derive(Debug)]
pub struct Vector {
    pub algorithm: Algorithm,
    pub message: Vec<u8>,
    pub output: Vec<u8>,
}

/// The known answers of `rust/vectors/fips202.txt`.
pub fn fips202() -> Vec<Vector> {
    parse(include_str!("../../vectors/fips202.txt"))
}

/// The vectors of a text in the form that the file's head describes.
pub fn parse(text: &str) -> Vec<Vector> {
    let mut records = vec![vec![]];
    for line in text.lines().filter(|line| !line.starts_with('#')) {
        if line.trim().is_empty() {
            records.push(vec![]);
        } else {
            add_line(records.last_mut().unwrap(), line);
        }
    }
    let records = records.iter().filter(|record| !record.is_empty());
    records.map(|record| vector(record)).collect()
}

/// Adds a field to the record, or more of the field before it.
fn add_line(record: &mut Vec<(String, String)>, line: &str) {
    if line.starts_with(' ') {
        let (_, value) = record.last_mut().expect("a continued line has one before");
        value.push_str(line.trim());
    } else {
        let (name, value) = line.split_once(' ').unwrap_or((line, ""));
        record.push((name.into(), value.trim().into()));
    }
}

fn vector(record: &[(String, String)]) -> Vector {
    let names: Vec<&str> = record.iter().map(|(name, _)| name.as_str()).collect();
    assert_eq!(names, ["algorithm", "message", "length", "output"]);
    let output = unhex(&record[3].1);
    assert_eq!(Ok(output.len()), record[2].1.parse(), "length of an output");
    Vector {
        algorithm: algorithm(&record[0].1),
        message: message(&record[1].1),
        output,
    }
}

fn algorithm(name: &str) -> Algorithm {
    match name {
        "SHA3-256" => Algorithm::Sha3_256,
        "SHAKE128" => Algorithm::Shake128,
        "SHAKE256" => Algorithm::Shake256,
        _ => panic!("no such algorithm: {name}"),
    }
}

fn message(value: &str) -> Vec<u8> {
    match value.split_once(" x ") {
        Some((byte, times)) => unhex(byte).repeat(times.parse().expect("a number of times")),
        None => unhex(value),
    }
}

fn unhex(digits: &str) -> Vec<u8> {
    assert!(digits.bytes().all(|c| c.is_ascii_hexdigit()), "{digits}");
    assert!(digits.len().is_multiple_of(2), "half a byte: {digits}");
    let bytes = (0..digits.len()).step_by(2);
    bytes
        .map(|i| u8::from_str_radix(&digits[i..i + 2], 16).unwrap())
        .collect()
}

#[cfg(test)]
mod tests {
    use super::*;

    #[test]
    fn reads_both_forms_of_a_message() {
        let text = "# head\n\nalgorithm SHAKE128\nmessage A3 x 3\nlength 2\noutput 01\n  Ff\n\n\
                    algorithm SHA3-256\nmessage\nlength 0\noutput\n";
        let vectors = parse(text);
        assert_eq!(vectors.len(), 2);
        assert_eq!(vectors[0].algorithm, Algorithm::Shake128);
        assert_eq!(vectors[0].message, [0xa3; 3]);
        assert_eq!(vectors[0].output, [0x01, 0xff]);
        assert!(vectors[1].message.is_empty() && vectors[1].output.is_empty());
    }

    #[test]
    #[should_panic(expected = "length of an output")]
    fn a_wrong_length_is_no_vector() {
        parse("algorithm SHAKE128\nmessage\nlength 3\noutput 0102\n");
    }
}
