//! The same call by both implementations, in turn.

use crate::files::{Image, DATE};
use std::time::{Duration, Instant};
use store::SNAPSHOT_LEN;
use trials::store::{Answer, Library, Peer, Store};

/// A case ends after so many rounds, or when its time is over.
pub const ROUNDS: usize = 1_000;
pub const TIME: Duration = Duration::from_secs(2);

pub enum Call<'c> {
    Import(&'c [u8]),
    Withdraw(&'c [u8]),
    Snapshot,
}

/// In microseconds.
#[derive(Clone, Copy)]
pub struct Times {
    pub least: f64,
    pub median: f64,
}

impl Times {
    fn of(mut all: Vec<f64>) -> Times {
        all.sort_by(f64::total_cmp);
        Times { least: all[0], median: all[all.len() / 2] }
    }
}

/// One implementation at work: its buffers, and the times so far.
struct Work {
    image: Image,
    output: Vec<u8>,
    times: Vec<f64>,
    answer: Answer,
}

impl Work {
    fn new(image: &Image) -> Work {
        let answer = Answer { refusal: 0, count: 0 };
        Work { image: image.clone(), output: vec![0; SNAPSHOT_LEN], times: Vec::new(), answer }
    }

    /// Every round starts on the same image; writing it is not timed, but leaves it in the cache.
    fn round<S: Store>(&mut self, start: &Image, call: &Call) {
        self.image.0.copy_from_slice(&start.0);
        self.image.1.copy_from_slice(&start.1);
        let (numbers, bytes) = (&mut self.image.0, &mut self.image.1);
        let clock = Instant::now();
        self.answer = match call {
            Call::Import(file) => S::import(numbers, bytes, file),
            Call::Withdraw(oid) => S::withdraw(numbers, bytes, oid),
            Call::Snapshot => S::snapshot(numbers, bytes, b"S1", DATE, &mut self.output),
        };
        self.times.push(clock.elapsed().as_secs_f64() * 1e6);
    }
}

pub struct Compared {
    pub library: Times,
    pub peer: Times,
    /// What both answered; `None` if they differ in it or in a byte.
    pub answer: Option<Answer>,
}

/// Takes turns, so that what slows the machine down slows both.
pub fn compare(image: &Image, call: &Call) -> Compared {
    let (mut library, mut peer) = (Work::new(image), Work::new(image));
    let end = Instant::now() + TIME;
    while peer.times.len() < ROUNDS && (peer.times.is_empty() || Instant::now() < end) {
        library.round::<Library>(image, call);
        peer.round::<Peer>(image, call);
    }
    let same = library.answer == peer.answer && library.image == peer.image && library.output == peer.output;
    Compared {
        library: Times::of(library.times),
        peer: Times::of(peer.times),
        answer: same.then_some(peer.answer),
    }
}
