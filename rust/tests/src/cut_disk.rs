//! A file layer in memory that is cut off after a chosen step, and the states in
//! which the cut can leave a disk.

use std::cell::RefCell;
use std::collections::{BTreeMap, BTreeSet};
use std::io;
use std::rc::Rc;
use wivulameno::store::{Files, Name};

/// What happens to the steps of the calls.
#[derive(Clone, Copy, Debug, PartialEq, Eq)]
pub enum Plan {
    AllGoWell,
    /// So many steps are made, and none after them.
    CutAfter(usize),
    /// One step is an error, counted from 0; those after it are made.
    FailAt(usize),
    /// One reading of a file is an error, counted from 0.
    FailRead(usize),
}

/// The bytes of a file: as read now, and as they are on disk for certain.
#[derive(Clone, Debug, Default)]
struct Content {
    now: Vec<u8>,
    settled: Vec<u8>,
}

type Names = BTreeMap<Name, usize>;

#[derive(Clone)]
struct State {
    plan: Plan,
    steps: usize,
    reads: usize,
    names: Names,
    /// The names as they may be on disk, the certain ones first.
    names_on_disk: Vec<Names>,
    contents: Vec<Content>,
    /// Every page that was ever written whole.
    pages: Vec<Vec<u8>>,
}

/// Clones are the same disk.
#[derive(Clone)]
pub struct CutDisk(Rc<RefCell<State>>);

impl CutDisk {
    pub fn new(plan: Plan) -> CutDisk {
        CutDisk::with(State {
            plan,
            steps: 0,
            reads: 0,
            names: Names::new(),
            names_on_disk: vec![Names::new()],
            contents: vec![],
            pages: vec![],
        })
    }

    fn with(state: State) -> CutDisk {
        CutDisk(Rc::new(RefCell::new(state)))
    }

    /// The steps that were made or tried.
    pub fn steps(&self) -> usize {
        self.0.borrow().steps
    }

    /// Every page that was ever written whole, in place or beside it.
    pub fn pages(&self) -> Vec<Vec<u8>> {
        self.0.borrow().pages.clone()
    }

    pub fn bytes(&self, name: Name) -> Option<Vec<u8>> {
        let state = self.0.borrow();
        let file = state.names.get(&name)?;
        Some(state.contents[*file].now.clone())
    }

    /// Another disk with the same files, from now on with this plan.
    pub fn copy(&self, plan: Plan) -> CutDisk {
        let state = self.0.borrow().clone();
        CutDisk::with(State {
            plan,
            steps: 0,
            reads: 0,
            ..state
        })
    }

    /// Sets a file, as a restore from a copy does.
    pub fn put_back(&self, name: Name, bytes: &[u8]) {
        let mut state = self.0.borrow_mut();
        state.insert(name);
        let file = state.names[&name];
        state.contents[file].now = bytes.to_vec();
        state.settle(name);
    }

    /// The process was killed: all is as it was last seen, and what was not on
    /// disk is not there yet. The power went: whatever was not on disk for
    /// certain may be there or not, or in part.
    pub fn after_cut(&self) -> Vec<CutDisk> {
        let mut disks = vec![self.copy(Plan::AllGoWell)];
        let state = self.0.borrow();
        for names in &state.names_on_disk {
            let mut choices = vec![Names::new()];
            let mut contents = vec![];
            for (&name, &file) in names {
                let found = state.contents[file].after_power_cut();
                choices = chosen(&choices, name, contents.len(), found.len());
                contents.extend(found);
            }
            disks.extend(choices.iter().map(|names| state.on_disk(names, &contents)));
        }
        disks
    }
}

/// Each choice, with each of `count` contents from place `first` on for `name`.
fn chosen(choices: &[Names], name: Name, first: usize, count: usize) -> Vec<Names> {
    let mut all = vec![];
    for choice in choices {
        for place in first..first + count {
            let mut names = choice.clone();
            names.insert(name, place);
            all.push(names);
        }
    }
    all
}

impl Content {
    /// The start from now, the rest from before or zero, in many ways.
    fn after_power_cut(&self) -> Vec<Content> {
        let (now, settled) = (&self.now, &self.settled);
        let mut found = BTreeSet::from([now.clone(), settled.clone()]);
        for len in [0, 1, now.len() / 2, now.len().saturating_sub(1)] {
            let len = len.max(common(now, settled)).min(now.len());
            let rest = settled.get(len..).unwrap_or(&[]);
            found.insert([&now[..len], rest].concat());
            let mut zeros = now[..len].to_vec();
            zeros.resize(now.len(), 0);
            found.insert(zeros);
        }
        let same = |bytes: Vec<u8>| Content {
            now: bytes.clone(),
            settled: bytes,
        };
        found.into_iter().map(same).collect()
    }
}

/// The length of the start that both have.
fn common(a: &[u8], b: &[u8]) -> usize {
    a.iter().zip(b).take_while(|(a, b)| a == b).count()
}

impl State {
    fn on_disk(&self, names: &Names, contents: &[Content]) -> CutDisk {
        CutDisk::with(State {
            plan: Plan::AllGoWell,
            steps: 0,
            reads: 0,
            names: names.clone(),
            names_on_disk: vec![names.clone()],
            contents: contents.to_vec(),
            pages: self.pages.clone(),
        })
    }

    fn is_cut(&self) -> bool {
        matches!(self.plan, Plan::CutAfter(last) if self.steps > last)
    }

    /// Before each step: is it made?
    fn step(&mut self) -> io::Result<()> {
        let failed = self.plan == Plan::FailAt(self.steps);
        self.steps += 1;
        match failed || self.is_cut() {
            true => Err(io::Error::other("cut off")),
            false => Ok(()),
        }
    }

    /// Before each reading: is it made?
    fn reading(&mut self) -> io::Result<()> {
        let failed = self.plan == Plan::FailRead(self.reads);
        self.reads += 1;
        match failed || self.is_cut() {
            true => Err(io::Error::other("cannot be read")),
            false => Ok(()),
        }
    }

    /// A name with an empty file, if there is none; else its file is emptied.
    fn insert(&mut self, name: Name) {
        match self.names.get(&name) {
            Some(&file) => self.contents[file].now.clear(),
            None => {
                self.names.insert(name, self.contents.len());
                self.contents.push(Content::default());
                self.names_on_disk.push(self.names.clone());
            }
        }
    }

    fn file(&mut self, name: Name) -> io::Result<&mut Content> {
        let file = self.names.get(&name).ok_or(io::ErrorKind::NotFound)?;
        Ok(&mut self.contents[*file])
    }

    /// Writes in two steps, then waits.
    fn fill(&mut self, name: Name, place: usize, bytes: &[u8]) -> io::Result<()> {
        for part in [&bytes[..bytes.len() / 2], bytes] {
            self.step()?;
            let now = &mut self.file(name)?.now;
            now.resize(now.len().max(place + part.len()), 0);
            now[place..place + part.len()].copy_from_slice(part);
        }
        if name != Name::Log {
            self.pages.push(bytes.to_vec());
        }
        self.step()?;
        self.settle(name);
        Ok(())
    }

    fn settle(&mut self, name: Name) {
        let file = self.names[&name];
        self.contents[file].settled = self.contents[file].now.clone();
    }

    fn settle_names(&mut self) -> io::Result<()> {
        self.step()?;
        self.names_on_disk = vec![self.names.clone()];
        Ok(())
    }
}

impl Files for CutDisk {
    fn lock(&mut self) -> io::Result<()> {
        match self.bytes(Name::Log) {
            Some(_) => Ok(()),
            None => Err(io::ErrorKind::NotFound.into()),
        }
    }

    fn read(&mut self, name: Name) -> io::Result<Option<Vec<u8>>> {
        self.0.borrow_mut().reading()?;
        Ok(self.bytes(name))
    }

    fn create(&mut self, name: Name, bytes: &[u8]) -> io::Result<()> {
        let mut state = self.0.borrow_mut();
        state.step()?;
        if state.names.contains_key(&name) {
            return Err(io::ErrorKind::AlreadyExists.into());
        }
        state.insert(name);
        let file = state.names[&name];
        state.contents[file].now = bytes.to_vec();
        state.settle(name);
        if name != Name::Log {
            state.pages.push(bytes.to_vec());
        }
        state.settle_names()
    }

    fn write(&mut self, name: Name, bytes: &[u8]) -> io::Result<()> {
        let mut state = self.0.borrow_mut();
        state.step()?;
        state.insert(name);
        state.fill(name, 0, bytes)?;
        state.settle_names()
    }

    fn write_at(&mut self, name: Name, place: u64, bytes: &[u8]) -> io::Result<()> {
        self.0.borrow_mut().fill(name, place as usize, bytes)
    }

    fn settle(&mut self, name: Name) -> io::Result<()> {
        let mut state = self.0.borrow_mut();
        state.step()?;
        state.settle(name);
        state.settle_names()
    }

    fn rename(&mut self, from: Name, to: Name) -> io::Result<()> {
        let mut state = self.0.borrow_mut();
        state.step()?;
        let file = state.names.remove(&from).ok_or(io::ErrorKind::NotFound)?;
        state.names.insert(to, file);
        let names = state.names.clone();
        state.names_on_disk.push(names);
        state.settle_names()
    }

    fn remove(&mut self, name: Name) -> io::Result<()> {
        let mut state = self.0.borrow_mut();
        state.step()?;
        state.names.remove(&name).ok_or(io::ErrorKind::NotFound)?;
        let names = state.names.clone();
        state.names_on_disk.push(names);
        state.settle_names()
    }
}
