//! Both implementations, each with its own buffers, taken through the same steps.

use crate::script::{Exact, Step};
use crate::store::{Answer, Library, Peer, Store};
use crate::tally::Tally;
use std::fmt;
use std::marker::PhantomData;
use store::{BYTES_LEN, NUMBERS_LEN};

/// What an output is filled with before a snapshot.
const FILLING: u8 = 0xAA;
const SLOTS: usize = 4;

fn filled<T: Clone>(value: T, len: usize) -> Box<[T]> {
    vec![value; len].into_boxed_slice()
}

/// What one implementation works on.
struct Side<S> {
    numbers: Box<[u32]>,
    bytes: Exact,
    slots: [Option<(Box<[u32]>, Exact)>; SLOTS],
    last_snapshot: Exact,
    store: PhantomData<S>,
}

// Derived, it would ask the same of the store, of which nothing is kept.
impl<S> Clone for Side<S> {
    fn clone(&self) -> Side<S> {
        Side {
            numbers: self.numbers.clone(),
            bytes: self.bytes.clone(),
            slots: self.slots.clone(),
            last_snapshot: self.last_snapshot.clone(),
            store: PhantomData,
        }
    }
}

/// What a call gave beside the two buffers.
struct Outcome {
    call: &'static str,
    answer: Answer,
    output: Exact,
    /// The arguments that are only read, after the call.
    read: Vec<Exact>,
}

impl<S: Store> Side<S> {
    fn new() -> Side<S> {
        Side {
            numbers: filled(0, NUMBERS_LEN),
            bytes: filled(0, BYTES_LEN),
            slots: Default::default(),
            last_snapshot: Exact::default(),
            store: PhantomData,
        }
    }

    /// Takes a step; `None` if it is no call, `Err` if it cannot be taken.
    fn take(&mut self, step: &Step) -> Result<Option<Outcome>, String> {
        match step {
            Step::Numbers(len) => self.numbers = filled(0, *len),
            Step::Bytes(len) => self.bytes = filled(0, *len),
            Step::PokeNumber(at, value) => poke(&mut self.numbers, *at, *value)?,
            Step::PokeByte(at, value) => poke(&mut self.bytes, *at, *value)?,
            Step::Save(slot) => {
                let image = (self.numbers.clone(), self.bytes.clone());
                *self.slots.get_mut(*slot).ok_or("no such slot")? = Some(image);
            }
            Step::Load(slot) => {
                let saved = self.slots.get(*slot).ok_or("no such slot")?;
                (self.numbers, self.bytes) = saved.clone().ok_or("nothing saved in this slot")?;
            }
            call => return Ok(Some(self.call(call))),
        }
        Ok(None)
    }

    fn call(&mut self, step: &Step) -> Outcome {
        match step {
            Step::Open { study, version } => self.open(study.clone(), version.clone()),
            Step::Import(file) => self.import(file.clone()),
            Step::Reimport => self.import(self.last_snapshot.clone()),
            Step::Withdraw(oid) => self.withdraw(oid.clone()),
            Step::Snapshot { oid, date, len } => self.snapshot(oid.clone(), date.clone(), *len),
            other => unreachable!("not a call: {other:?}"),
        }
    }

    fn open(&mut self, study: Exact, version: Exact) -> Outcome {
        let answer = S::open(&mut self.numbers, &mut self.bytes, &study, &version);
        Outcome { call: "open", answer, output: Exact::default(), read: vec![study, version] }
    }

    fn import(&mut self, file: Exact) -> Outcome {
        let answer = S::import(&mut self.numbers, &mut self.bytes, &file);
        Outcome { call: "import", answer, output: Exact::default(), read: vec![file] }
    }

    fn withdraw(&mut self, oid: Exact) -> Outcome {
        let answer = S::withdraw(&mut self.numbers, &mut self.bytes, &oid);
        Outcome { call: "withdraw", answer, output: Exact::default(), read: vec![oid] }
    }

    fn snapshot(&mut self, oid: Exact, date: Exact, len: usize) -> Outcome {
        let mut output = filled(FILLING, len);
        let answer = S::snapshot(&self.numbers, &self.bytes, &oid, &date, &mut output);
        if answer.refusal == 0 {
            // A count beyond the output is found by the comparison.
            self.last_snapshot = output[..len.min(answer.count as usize)].into();
        }
        Outcome { call: "snapshot", answer, output, read: vec![oid, date] }
    }
}

fn poke<T>(buffer: &mut [T], at: usize, value: T) -> Result<(), String> {
    *buffer.get_mut(at).ok_or("poke beyond the buffer")? = value;
    Ok(())
}

/// Where the implementations part. A place is the first one that differs.
#[derive(Clone, Copy, Debug, PartialEq)]
pub enum Part {
    Refusal,
    Count,
    Number(usize),
    Byte(usize),
    Output(usize),
    /// An argument that is only read was written.
    Argument,
}

#[derive(Clone, Debug)]
pub struct Difference {
    /// The step that shows it.
    pub step: usize,
    call: &'static str,
    part: Part,
    library: Answer,
    peer: Answer,
}

impl Difference {
    /// The same fault as far as can be told: places and counts may move while a script is shortened.
    pub fn is_like(&self, other: &Difference) -> bool {
        let refusals = |one: &Difference| (one.library.refusal, one.peer.refusal);
        let parts_alike = std::mem::discriminant(&self.part) == std::mem::discriminant(&other.part);
        self.call == other.call && refusals(self) == refusals(other) && parts_alike
    }
}

impl fmt::Display for Difference {
    fn fmt(&self, out: &mut fmt::Formatter) -> fmt::Result {
        let Difference { call, library, peer, .. } = self;
        let answers = format!(
            "library {} {}, peer {} {}",
            library.refusal, library.count, peer.refusal, peer.count
        );
        match self.part {
            Part::Refusal => write!(out, "{call}: the refusal differs ({answers})"),
            Part::Count => write!(out, "{call}: the count differs ({answers})"),
            Part::Number(at) => write!(out, "{call}: number {at} differs after it ({answers})"),
            Part::Byte(at) => write!(out, "{call}: byte {at} differs after it ({answers})"),
            Part::Output(at) => write!(out, "{call}: byte {at} of the output differs ({answers})"),
            Part::Argument => write!(out, "{call}: the library wrote to an argument that is only read ({answers})"),
        }
    }
}

#[derive(Clone)]
pub struct Pair {
    library: Side<Library>,
    peer: Side<Peer>,
}

impl Default for Pair {
    fn default() -> Pair {
        Pair { library: Side::new(), peer: Side::new() }
    }
}

impl Pair {
    /// Takes the steps up to the first difference; `Err` if a step cannot be taken.
    pub fn run<'s>(
        &mut self,
        steps: impl IntoIterator<Item = &'s Step>,
        tally: &mut Tally,
    ) -> Result<Option<Difference>, String> {
        for (place, step) in steps.into_iter().enumerate() {
            let (Some(library), Some(peer)) = (self.library.take(step)?, self.peer.take(step)?) else { continue };
            tally.count(peer.call, peer.answer.refusal);
            if let Some(part) = self.compare(&library, &peer) {
                let (call, library, peer) = (peer.call, library.answer, peer.answer);
                return Ok(Some(Difference { step: place, call, part, library, peer }));
            }
        }
        Ok(None)
    }

    fn compare(&self, library: &Outcome, peer: &Outcome) -> Option<Part> {
        if library.answer.refusal != peer.answer.refusal {
            return Some(Part::Refusal);
        }
        if library.answer.count != peer.answer.count {
            return Some(Part::Count);
        }
        first_apart(&self.library.numbers, &self.peer.numbers)
            .map(Part::Number)
            .or_else(|| first_apart(&self.library.bytes, &self.peer.bytes).map(Part::Byte))
            .or_else(|| first_apart(&library.output, &peer.output).map(Part::Output))
            .or_else(|| (library.read != peer.read).then_some(Part::Argument))
    }

    /// What `reimport` would read, which is the same on both sides.
    pub fn last_snapshot(&self) -> &Exact {
        &self.peer.last_snapshot
    }
}

fn first_apart<T: PartialEq>(one: &[T], other: &[T]) -> Option<usize> {
    if one == other {
        return None;
    }
    one.iter().zip(other).position(|(one, other)| one != other)
}
