//! Several proofs, checked side by side.

use super::check::Claim;
use super::circuit::Circuit;
use crate::args::Args;
use crate::failure::{print, Failure};
use crate::input::Input;
use crate::json::{Object, Value};
use crate::names::counted;
use crate::progress::Progress;
use crate::report::Report;
use std::ffi::OsString;
use std::time::Instant;
use wivulameno::limits::MAX_QUOTA;
use wivulameno::proof::{Checked, Places, SharedChecker};
use wivulameno::{Refusal, Work};

/// Checks all proofs, and tells a verdict on each as soon as there is one.
pub fn check(args: &Args, asked: f64, report: &mut Report) -> Result<(), Failure> {
    let quota = quota(args)?;
    let cases = Case::all(args)?;
    let mut verdicts = Verdicts {
        cases: &cases,
        asked,
        are_printed: !args.flag("json"),
        told: cases.iter().map(|_| None).collect(),
    };
    let mut desk = Desk::default();
    for (place, case) in cases.iter().enumerate() {
        if let Err(refusal) = desk.enter(place as u32, case) {
            verdicts.tell(place, Err(refusal))?;
        }
    }
    let start = Instant::now();
    while desk.waiting > 0 {
        let checked = desk.next_verdicts(quota, start, cases.len())?;
        for (caller, verdict) in checked.finished() {
            verdicts.tell(caller as usize, verdict)?;
        }
    }
    verdicts.report(report)
}

/// The instances in a call.
fn quota(args: &Args) -> Result<u32, Failure> {
    let quota = args.number("quota")?.unwrap_or(MAX_QUOTA);
    let wrong = || format!("--quota {quota}: a call checks 1 to {MAX_QUOTA} instances");
    match (1..=MAX_QUOTA).contains(&quota) {
        true => Ok(quota),
        false => Err(Failure::Usage(wrong())),
    }
}

/// A proof with all that it needs, or why its circuit is refused.
struct Case {
    name: String,
    claim: Result<Claim, Failure>,
}

impl Case {
    fn all(args: &Args) -> Result<Vec<Case>, Failure> {
        let proofs = args.places().len() / 2;
        let [y, message] = ["y", "message"].map(|name| inputs(args, name, proofs));
        let (y, message) = (y?, message?);
        let pairs = args.places().chunks(2).enumerate();
        pairs
            .map(|(place, pair)| {
                let of = |inputs: &[Input]| inputs[place.min(inputs.len() - 1)].clone();
                Case::read(args, pair, place, [of(&y), of(&message)])
            })
            .collect()
    }

    /// The proof at this place, from 0.
    fn read(
        args: &Args,
        pair: &[OsString],
        place: usize,
        [y, message]: [Input; 2],
    ) -> Result<Case, Failure> {
        let circuit = Circuit::read(args, &pair[0]);
        let proof = args.input(&pair[1])?;
        let name = proof.name_or(&format!("proof {}", place + 1)).to_string();
        let claim = match circuit {
            Ok(circuit) => Ok(Claim {
                circuit,
                proof,
                y,
                message,
            }),
            Err(refused @ Failure::Refused(..)) => Err(refused),
            Err(other) => return Err(other),
        };
        Ok(Case { name, claim })
    }
}

/// The inputs that an option names: one for all proofs, or one for each.
fn inputs(args: &Args, name: &str, proofs: usize) -> Result<Vec<Input>, Failure> {
    let values = args.values(name);
    let given = values.len();
    if ![1, proofs].contains(&given) {
        return Err(Failure::Usage(format!(
            "`--{name}` stands there {given} times for {proofs} proofs: once for all, or once \
             for each"
        )));
    }
    let values = values.into_iter();
    values.map(|value| args.input(value)).collect()
}

/// The shared checker with its buffers.
struct Desk {
    checker: SharedChecker,
    buffer: Vec<u8>,
    work: Work,
    waiting: usize,
    instances: u64,
}

impl Default for Desk {
    fn default() -> Desk {
        Desk {
            checker: SharedChecker::new(),
            buffer: vec![],
            work: Work::for_every_circuit(),
            waiting: 0,
            instances: 0,
        }
    }
}

impl Desk {
    fn enter(&mut self, caller: u32, case: &Case) -> Result<(), Refusal> {
        let number = |failure: &Failure| failure.number().expect("a refused circuit");
        let refusal = |failure| Refusal::of(number(failure));
        let claim = case.claim.as_ref().map_err(refusal)?;
        let proof = &claim.proof.bytes;
        let places = Places::append(&mut self.buffer, claim.statement(), proof);
        let work = &mut self.work;
        self.checker.enter(caller, places, &self.buffer, work)?;
        self.waiting += 1;
        Ok(())
    }

    /// Calls the checker until it finishes a proof.
    fn next_verdicts(
        &mut self,
        quota: u32,
        start: Instant,
        proofs: usize,
    ) -> Result<Checked, Failure> {
        let progress = Progress::since(start, "checking");
        loop {
            let checked = self.checker.check(quota, &self.buffer, &mut self.work);
            let checked = checked.map_err(|refusal| Failure::Refused(refusal, String::new()))?;
            self.instances += u64::from(checked.count);
            self.waiting -= checked.finished().count();
            if checked.finished().next().is_some() {
                return Ok(checked);
            }
            let done = counted(self.instances, "instance");
            let finished = proofs - self.waiting;
            progress.tell(&format!(
                "checking, {done}, {finished} of {proofs} proofs finished"
            ));
        }
    }
}

/// The verdicts so far.
struct Verdicts<'a> {
    cases: &'a [Case],
    asked: f64,
    are_printed: bool,
    /// Is the proof accepted, and what is a program told of it?
    told: Vec<Option<(bool, Object)>>,
}

impl Verdicts<'_> {
    /// A line for a reader at once, and an object for a program at the end.
    fn tell(&mut self, place: usize, answer: Result<(), Refusal>) -> Result<(), Failure> {
        let Case { name, claim } = &self.cases[place];
        let mut object = Object::default();
        object.set("proof", &name[..]);
        object.set("accepted", false);
        let done = match claim {
            Ok(claim) => claim.accept(answer, self.asked, &mut object),
            Err(refused) => Err(refused.clone()),
        };
        let failure = done.as_ref().err();
        object.set("refused", failure.and_then(Failure::number));
        object.set("message", failure.map(Failure::to_string));
        self.told[place] = Some((done.is_ok(), object));
        // The name stands in front, so it is left out behind the number.
        let text = done.unwrap_or_else(|failure| {
            let named = format!(": {name}: ");
            failure.to_string().replacen(&named, ": ", 1)
        });
        match self.are_printed {
            true => print(&format!("{name}: {text}\n")),
            false => Ok(()),
        }
    }

    /// What there is to tell of all, when all are finished.
    fn report(self, report: &mut Report) -> Result<(), Failure> {
        let (accepted, objects): (Vec<bool>, Vec<Object>) = self.told.into_iter().flatten().unzip();
        let refused = accepted.iter().filter(|accepted| !**accepted).count();
        report.set("accepted", refused == 0);
        report.set("proofs", Value::List(objects));
        match refused {
            0 => Ok(()),
            _ => {
                let all = counted(accepted.len() as u64, "proof");
                Err(Failure::Unwanted(format!("{refused} of {all}")))
            }
        }
    }
}
