//! Calls of masters and cover by both implementations: answers and every lent byte
//! are compared.

use crate::guarded::Guarded;
use crate::random::Random;
use reference::masters::{hidden_among, opened_nodes};

/// One call of masters.
#[derive(Clone, Debug)]
pub struct Masters {
    pub m: u32,
    pub salt: Vec<u8>,
    pub root: Vec<u8>,
    pub out_len: usize,
}

/// One call of cover. `hidden` is as it is lent, two bytes for a leaf.
#[derive(Clone, Debug)]
pub struct Cover {
    pub m: u32,
    pub hidden: Vec<u8>,
    pub salt: Vec<u8>,
    pub root: Vec<u8>,
    pub out_len: usize,
}

/// Two bytes for each leaf, the lower first.
pub fn bytes_of(leaves: &[usize]) -> Vec<u8> {
    let bytes = leaves
        .iter()
        .map(|leaf| [(leaf % 256) as u8, (leaf / 256) as u8]);
    bytes.flatten().collect()
}

impl Masters {
    /// A good call.
    pub fn of(m: usize, salt: &[u8], root: &[u8]) -> Masters {
        Masters {
            m: m as u32,
            salt: salt.to_vec(),
            root: root.to_vec(),
            out_len: 16 * m,
        }
    }

    pub fn inputs(&self) -> [&[u8]; 2] {
        [&self.salt, &self.root]
    }

    /// The library's answer, with these buffers lent.
    pub fn with(&self, inputs: [&[u8]; 2], out: &mut [u8]) -> Result<(), wivulameno::Refusal> {
        let [salt, root] = inputs;
        wivulameno::seeds::masters(self.m, salt, root, out)
    }

    /// For the message of a failure.
    pub fn shown(&self) -> String {
        let Masters { m, out_len, .. } = self;
        let lens = self.inputs().map(<[u8]>::len);
        format!("masters, M {m}, salt and root of {lens:?}, output of {out_len}")
    }
}

impl Cover {
    /// A good call; each leaf is below m, and there is one.
    pub fn of(m: usize, leaves: &[usize], salt: &[u8], root: &[u8]) -> Cover {
        Cover {
            m: m as u32,
            hidden: bytes_of(leaves),
            salt: salt.to_vec(),
            root: root.to_vec(),
            out_len: 16 * opened_nodes(&hidden_among(m, leaves)).len(),
        }
    }

    pub fn inputs(&self) -> [&[u8]; 3] {
        [&self.hidden, &self.salt, &self.root]
    }

    /// The library's answer, with these buffers lent.
    pub fn with(&self, inputs: [&[u8]; 3], out: &mut [u8]) -> Result<(), wivulameno::Refusal> {
        let [hidden, salt, root] = inputs;
        wivulameno::seeds::cover(self.m, hidden, salt, root, out)
    }

    /// For the message of a failure.
    pub fn shown(&self) -> String {
        format!(
            "cover, M {}, salt of {}, root of {}, output of {}, hidden {:?}",
            self.m,
            self.salt.len(),
            self.root.len(),
            self.out_len,
            self.hidden
        )
    }
}

/// Makes the call by both; gives what was filled, or the refusal. What is lent
/// must be the same afterwards, and as before if it was not to be written.
pub fn compare_masters(random: &mut Random, call: &Masters) -> Result<Vec<u8>, u32> {
    let inputs = Guarded::holding_each(random, call.inputs());
    let lent = inputs.each_ref().map(Guarded::get);
    let shift = random.below(8);
    let mut out = Guarded::new(random, shift, call.out_len);
    let mut expected = out.get().to_vec();
    let second = reference::masters::masters(call.m, lent[0], lent[1], &mut expected);

    let ours = call.with(lent, out.lent());
    let shown = call.shown();
    assert_eq!(ours.map_err(|refusal| refusal.number()), second, "{shown}");
    assert!(out.get() == expected, "the masters' bytes, {shown}");
    assert!(out.outside_unchanged(), "beside the masters, {shown}");
    assert!(second.is_ok() || out.unchanged(), "refused, {shown}");
    assert!(inputs.iter().all(Guarded::unchanged), "inputs, {shown}");
    second.map(|()| expected)
}

/// The same for a call of cover.
pub fn compare_cover(random: &mut Random, call: &Cover) -> Result<Vec<u8>, u32> {
    let inputs = Guarded::holding_each(random, call.inputs());
    let lent = inputs.each_ref().map(Guarded::get);
    let shift = random.below(8);
    let mut out = Guarded::new(random, shift, call.out_len);
    let mut expected = out.get().to_vec();
    let second = reference::masters::cover(call.m, lent[0], lent[1], lent[2], &mut expected);

    let ours = call.with(lent, out.lent());
    let shown = call.shown();
    assert_eq!(ours.map_err(|refusal| refusal.number()), second, "{shown}");
    assert!(out.get() == expected, "the nodes' bytes, {shown}");
    assert!(out.outside_unchanged(), "beside the nodes, {shown}");
    assert!(second.is_ok() || out.unchanged(), "refused, {shown}");
    assert!(inputs.iter().all(Guarded::unchanged), "inputs, {shown}");
    second.map(|()| expected)
}
