//! Call files from a seed: chains of files, withdrawals and snapshots on one store, with broken
//! files, damaged images and full stores between them. Every line is run as it is written, so the
//! next one knows what stands and what is live.

mod chain;
mod document;
mod faults;
mod model;
mod mutate;
mod random;
mod stored;
mod typed;
mod typed_calls;

use random::Random;
pub use stored::stored;

/// A call file of at least `count` calls: the last chain is written to its end.
pub fn call_file(seed: u64, count: usize) -> String {
    let mut writer = chain::Writer::new(Random::new(seed), false);
    while writer.calls() < count {
        writer.chain();
    }
    writer.into_text()
}
