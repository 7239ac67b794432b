//! Circuits for one of several outputs. The gates of a built file are free: it is read and
//! evaluated, and not compared byte by byte.

use crate::builders::shown;
use crate::guarded::Guarded;
use crate::random::Random;
use reference::one_of::OneOf;
use wivulameno::circuit::one_of_into;

/// What the library does with a buffer of `out_len` bytes: the whole buffer after a
/// success, and the length that was written. What is not to be written stays.
fn call(
    random: &mut Random,
    circuit: &[u8],
    list: &[u8],
    out_len: usize,
) -> Result<(Vec<u8>, usize), u32> {
    let inputs = Guarded::holding_each(random, [circuit, list]);
    let shift = random.below(8);
    let mut out = Guarded::new(random, shift, out_len);
    let before_out = out.get().to_vec();
    let before = [0; 3].map(|_| random.word());
    let mut words = before;
    let [file, outputs] = inputs.each_ref().map(Guarded::get);
    let answer = one_of_into(file, outputs, out.lent(), &mut words[1]);
    let shown = shown(&[circuit, list], out_len);
    assert!(inputs.iter().all(Guarded::unchanged), "inputs, {shown}");
    assert!(out.outside_unchanged(), "beside the output, {shown}");
    assert_eq!([words[0], words[2]], [before[0], before[2]], "{shown}");
    if let Err(refusal) = answer {
        assert!(out.unchanged() && words == before, "refused, {shown}");
        return Err(refusal.number());
    }
    let len = words[1] as usize;
    assert!(len <= out_len, "{len}, {shown}");
    assert!(out.get()[len..] == before_out[len..], "behind, {shown}");
    Ok((out.get().to_vec(), len))
}

/// The file that the library builds, which is one that the reference admits; or the
/// refusal, which is the reference's. With room to spare, with just enough and with too
/// little.
pub fn build(random: &mut Random, circuit: &[u8], list: &[u8]) -> Result<Vec<u8>, u32> {
    let shown = shown(&[circuit, list], 0);
    let asked = match OneOf::of(circuit, list) {
        Ok(asked) => asked,
        Err(number) => {
            // Before the length of the buffer is looked at.
            for room in [0, 1, 4096] {
                let answer = call(random, circuit, list, room);
                assert_eq!(answer, Err(number), "{shown}");
            }
            return Err(number);
        }
    };
    let room = 20 + 16 * asked.most_gates();
    let spare = random.pick(&[0, 1, 16, 40]);
    let (mut file, len) = call(random, circuit, list, room + spare).expect("room");
    file.truncate(len);
    assert!(asked.admits(&file), "{shown}");
    let exact = call(random, circuit, list, len);
    assert!(exact == Ok((file.clone(), len)), "{shown}");
    for short in [0, len / 2, len - 1] {
        let answer = call(random, circuit, list, short);
        assert_eq!(answer, Err(6), "{short} of {len}, {shown}");
    }
    Ok(file)
}

/// The file as built gives 1 for a witness exactly if the reference says so.
pub fn expect(built: &[u8], asked: &OneOf, witness: &[u8]) -> bool {
    let holds = asked.holds(witness);
    let expected = [u8::from(holds)];
    let [mut ours, mut second] = [[0xa5], [0x5a]];
    let answer = wivulameno::circuit::evaluate(built, witness, &mut ours);
    assert_eq!((answer, ours), (Ok(()), expected));
    let answer = reference::circuit::evaluate(built, witness, &mut second);
    assert_eq!((answer, second), (Ok(()), expected));
    holds
}
