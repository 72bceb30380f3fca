//! The one program: a file in, a verdict and a snapshot out.

use crate::{import, open, snapshot, Answer, BYTES_LEN, NUMBERS_LEN};

/// What the program holds of a file, and of a snapshot.
pub const HELD: usize = 65_536;

/// What the program prints for an input.
pub fn run(input: &[u8]) -> Vec<u8> {
    let mut numbers = vec![0; NUMBERS_LEN];
    let mut bytes = vec![0; BYTES_LEN];
    open(&mut numbers, &mut bytes, b"ST", b"V1");
    let taken = match input.len() > HELD {
        true => Answer { refusal: crate::refusal::TOO_LONG, count: 0 },
        false => import(&mut numbers, &mut bytes, input),
    };
    if taken.refusal != 0 {
        return format!("refused {}\n", taken.refusal).into_bytes();
    }
    let mut printed = format!("accepted {}\n", taken.count).into_bytes();
    let mut output = vec![0; HELD];
    let written = snapshot(&numbers, &bytes, b"S1", b"2014-03-02T09:00:00", &mut output);
    match written.refusal {
        0 => printed.extend(&output[..written.count as usize]),
        refusal => printed.extend(format!("refused {refusal}\n").bytes()),
    }
    printed
}
