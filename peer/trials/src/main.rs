//! Runs the proved library and the peer through the same calls and compares every answer and every byte.
//!
//! `trials SEED CALLS [SCRIPT]` generates the calls, about so many. At the first difference it writes the shortest
//! call file that shows it to SCRIPT (difference.calls), and ends with status 1.
//! `trials SCRIPT` runs a call file.

use std::process::ExitCode;
use std::time::Duration;
use store::generate::call_file;
use trials::pair::{Difference, Pair};
use trials::script::{parse, print, Step};
use trials::shrink::shrink;
use trials::tally::Tally;

/// Calls of one script: short ones keep memory and shrinking small.
const SCRIPT_CALLS: u64 = 200;
const SHRINK_TIME: Duration = Duration::from_secs(60);
/// What the header promises a call to need at most, and a little for what is around it: more ends the run at once.
const STACK: usize = (512 + 16) * 1024;

fn main() -> ExitCode {
    let words: Vec<String> = std::env::args().skip(1).collect();
    let run = std::thread::Builder::new().name("trials".into()).stack_size(STACK).spawn(move || trials(&words));
    match run.map(|thread| thread.join()) {
        Ok(Ok(Ok(code))) => code,
        Ok(Ok(Err(fault))) => {
            eprintln!("{fault}");
            ExitCode::from(2)
        }
        _ => ExitCode::from(2),
    }
}

fn trials(words: &[String]) -> Result<ExitCode, String> {
    let words: Vec<&str> = words.iter().map(String::as_str).collect();
    match words[..] {
        [script] => run_script(script),
        [seed, calls] => run_seed(number(seed)?, number(calls)?, "difference.calls"),
        [seed, calls, script] => run_seed(number(seed)?, number(calls)?, script),
        _ => Err("usage: trials SEED CALLS [SCRIPT] | trials SCRIPT".into()),
    }
}

fn number(word: &str) -> Result<u64, String> {
    word.parse().map_err(|_| format!("not a number: {word}"))
}

fn run_script(path: &str) -> Result<ExitCode, String> {
    let text = std::fs::read_to_string(path).map_err(|fault| format!("{path}: {fault}"))?;
    let mut tally = Tally::default();
    let found = Pair::default().run(&parse(&text)?, &mut tally)?;
    print!("{tally}");
    Ok(match found {
        None => ExitCode::SUCCESS,
        Some(difference) => {
            println!("{difference}");
            ExitCode::FAILURE
        }
    })
}

fn run_seed(seed: u64, calls: u64, path: &str) -> Result<ExitCode, String> {
    let mut tally = Tally::default();
    for script in 0.. {
        let left = calls.saturating_sub(tally.calls());
        if left == 0 {
            break;
        }
        let steps = parse(&call_file(script_seed(seed, script), left.min(SCRIPT_CALLS) as usize))?;
        if let Some(difference) = Pair::default().run(&steps, &mut tally)? {
            print!("{tally}");
            write_shortest(steps, difference, path)?;
            return Ok(ExitCode::FAILURE);
        }
    }
    print!("{tally}");
    println!("no difference");
    Ok(ExitCode::SUCCESS)
}

/// Scripts of one seed are never those of a near one.
fn script_seed(seed: u64, script: u64) -> u64 {
    seed.wrapping_mul(0x9E37_79B9_7F4A_7C15).wrapping_add(script)
}

fn write_shortest(steps: Vec<Step>, difference: Difference, path: &str) -> Result<(), String> {
    println!("{difference}");
    let shortest = shrink(steps, difference.clone(), SHRINK_TIME);
    let shown = match Pair::default().run(&shortest, &mut Tally::default())? {
        Some(last) => last.to_string(),
        None => format!("{difference}, but not in a second run"),
    };
    let text = format!("# {shown}\n{}", print(&shortest));
    std::fs::write(path, text).map_err(|fault| format!("{path}: {fault}"))?;
    println!("shortest: {shown}\n{} lines written to {path}", shortest.len());
    Ok(())
}
