//! Makes a script that shows a difference as short as it gets.

use crate::pair::{Difference, Pair};
use crate::script::{Exact, Step};
use crate::tally::Tally;
use std::ops::Range;
use std::time::{Duration, Instant};

/// Drops steps, then files out of their series, then parts of files, over and over, until nothing more can go or the
/// time is over.
pub fn shrink(steps: Vec<Step>, found: Difference, time: Duration) -> Vec<Step> {
    let mut shrinker = Shrinker { steps, found, end: Instant::now() + time };
    shrinker.cut();
    shrinker.spell_out();
    loop {
        let before = shrinker.steps.clone();
        shrinker.drop_steps();
        shrinker.unlink_files();
        shrinker.shorten_files();
        if shrinker.steps == before || shrinker.is_over() {
            return shrinker.steps;
        }
    }
}

struct Shrinker {
    steps: Vec<Step>,
    found: Difference,
    end: Instant,
}

impl Shrinker {
    fn is_over(&self) -> bool {
        Instant::now() >= self.end
    }

    /// Whether the steps still show the difference, going on from where `pair` stands. A script that cannot be run
    /// shows nothing.
    fn shown<'s>(&self, mut pair: Pair, steps: impl IntoIterator<Item = &'s Step>) -> Option<Difference> {
        let difference = pair.run(steps, &mut Tally::default()).ok().flatten();
        difference.filter(|difference| difference.is_like(&self.found))
    }

    /// Takes the new steps if they show the difference.
    fn try_steps(&mut self, steps: Vec<Step>) -> bool {
        let Some(found) = self.shown(Pair::default(), &steps) else { return false };
        (self.steps, self.found) = (steps, found);
        self.cut();
        true
    }

    fn cut(&mut self) {
        self.steps.truncate(self.found.step + 1);
    }

    /// Writes the file of each `reimport` out, so that the calls which led to that snapshot can go.
    fn spell_out(&mut self) {
        let mut pair = Pair::default();
        let mut spelled = Vec::new();
        for step in &self.steps {
            let step = match step {
                Step::Reimport => Step::Import(pair.last_snapshot().clone()),
                other => other.clone(),
            };
            // The last step differs, and the script has run before: neither can matter here.
            let _ = pair.run([&step], &mut Tally::default());
            spelled.push(step);
        }
        self.try_steps(spelled);
    }

    /// Drops stretches of steps, halves first, single ones last; later steps first, as they lean on earlier ones.
    fn drop_steps(&mut self) {
        let mut size = self.steps.len().div_ceil(2);
        while size > 0 {
            let mut end = self.steps.len();
            while end > 0 && !self.is_over() {
                let start = end.saturating_sub(size);
                self.try_steps([&self.steps[..start], &self.steps[end..]].concat());
                end = start.min(self.steps.len());
            }
            size /= 2;
        }
    }

    /// Drops a file that later ones name, and has them name the one before it: a series is seldom the point.
    fn unlink_files(&mut self) {
        for at in (0..self.steps.len()).rev() {
            let Some(Step::Import(file)) = self.steps.get(at) else { continue };
            let Some(oid) = value_of(file, b" FileOID=").map(|range| file[range].to_vec()) else { continue };
            let prior = value_of(file, b" PriorFileOID=").map(|range| file[range].to_vec());
            let mut steps = self.steps.clone();
            steps.remove(at);
            for step in &mut steps[at..] {
                if let Step::Import(later) = step {
                    relink(later, &oid, prior.as_deref());
                }
            }
            self.try_steps(steps);
        }
    }

    fn shorten_files(&mut self) {
        for at in 0..self.steps.len() {
            let Step::Import(file) = &self.steps[at] else { continue };
            let mut file = file.clone();
            let mut before = Pair::default();
            // No difference comes before the last step.
            let _ = before.run(&self.steps[..at], &mut Tally::default());
            let behind = &self.steps[at + 1..];
            let stays = |shorter: &Exact| {
                let step = Step::Import(shorter.clone());
                self.shown(before.clone(), std::iter::once(&step).chain(behind)).is_some()
            };
            self.drop_elements(&mut file, &stays);
            self.drop_attributes(&mut file, &stays);
            self.drop_bytes(&mut file, &stays);
            self.steps[at] = Step::Import(file);
        }
    }

    /// Drops whole elements, outer ones first: what is left is still of the written form.
    fn drop_elements(&self, file: &mut Exact, stays: &impl Fn(&Exact) -> bool) {
        let mut at = 0;
        while let Some(element) = next_element(file, at) {
            if self.is_over() {
                return;
            }
            at = element.start;
            // The next one has moved to the same place.
            if !drop_range(file, element, stays) {
                at += 1;
            }
        }
    }

    fn drop_attributes(&self, file: &mut Exact, stays: &impl Fn(&Exact) -> bool) {
        let mut at = 0;
        while let Some(attribute) = next_attribute(file, at) {
            if self.is_over() {
                return;
            }
            at = attribute.start;
            if !drop_range(file, attribute, stays) {
                at += 1;
            }
        }
    }

    /// Drops stretches of bytes, halves first, single ones last.
    fn drop_bytes(&self, file: &mut Exact, stays: &impl Fn(&Exact) -> bool) {
        let mut size = file.len().div_ceil(2);
        while size > 0 {
            let mut end = file.len();
            while end > 0 && !self.is_over() {
                let start = end.saturating_sub(size);
                drop_range(file, start..end, stays);
                end = start;
            }
            size /= 2;
        }
    }
}

fn drop_range(file: &mut Exact, range: Range<usize>, stays: &impl Fn(&Exact) -> bool) -> bool {
    let shorter = [&file[..range.start], &file[range.end..]].concat().into_boxed_slice();
    let dropped = stays(&shorter);
    if dropped {
        *file = shorter;
    }
    dropped
}

/// Where the value of an attribute stands, with its quotes; the name comes with the space before and the `=`.
fn value_of(file: &[u8], name: &[u8]) -> Option<Range<usize>> {
    let open = file.windows(name.len()).position(|part| part == name)? + name.len();
    let quote = file.get(open)?;
    let len = file[open + 1..].iter().position(|byte| byte == quote)?;
    Some(open..open + len + 2)
}

/// Names another prior file, or none, where `oid` was named. Texts come with their quotes, which may differ.
fn relink(file: &mut Exact, oid: &[u8], prior: Option<&[u8]>) {
    const NAME: &[u8] = b" PriorFileOID=";
    let bare = |text: &[u8]| text[1..text.len() - 1].to_vec();
    let Some(value) = value_of(file, NAME).filter(|range| bare(&file[range.clone()]) == bare(oid)) else { return };
    let mut text = file.to_vec();
    match prior {
        Some(prior) => drop(text.splice(value, prior.iter().copied())),
        None => drop(text.drain(value.start - NAME.len()..value.end)),
    }
    *file = text.into_boxed_slice();
}

/// The next element that begins at `from` or behind, through its closing tag. Only a guess in a broken file: what is
/// dropped is always tried.
fn next_element(file: &[u8], from: usize) -> Option<Range<usize>> {
    let mut starts = (from..file.len()).filter(|&at| file[at] == b'<');
    let start = starts.find(|&at| !matches!(file.get(at + 1), Some(b'/') | None))?;
    let mut depth = 0;
    let mut at = start;
    loop {
        let end = tag_end(file, at)?;
        match (file[at + 1], file[end - 2]) {
            (b'/', _) => depth -= 1,
            // The declaration stands for itself.
            (b'?', _) | (_, b'/') => {}
            _ => depth += 1,
        }
        if depth <= 0 {
            return Some(start..end);
        }
        at = match file[end..].iter().position(|&byte| byte == b'<') {
            Some(step) if end + step + 1 < file.len() => end + step,
            _ => return Some(start..file.len()),
        };
    }
}

/// The next stretch from a space through a quoted value.
fn next_attribute(file: &[u8], from: usize) -> Option<Range<usize>> {
    let find = |from: usize, bytes: &[u8]| (from..file.len()).find(|&at| bytes.contains(&file[at]));
    let start = find(from, b" \t\r\n")?;
    let open = find(start, b"\"'")?;
    let close = find(open + 1, &file[open..=open])?;
    Some(start..close + 1)
}

/// Behind the `>` of the tag that begins at `start`, quotes being skipped.
fn tag_end(file: &[u8], start: usize) -> Option<usize> {
    let mut quote = None;
    for (at, &byte) in file.iter().enumerate().skip(start) {
        match (quote, byte) {
            (None, b'>') => return Some(at + 1),
            (None, b'"' | b'\'') => quote = Some(byte),
            (Some(open), _) if open == byte => quote = None,
            _ => {}
        }
    }
    None
}

#[cfg(test)]
mod tests {
    use super::*;

    #[test]
    fn elements_are_found_from_the_outside() {
        let file = b"<?xml?><A b='>'><C/>\n<D></D></A>";
        assert_eq!(next_element(file, 0), Some(0..7));
        assert_eq!(next_element(file, 1), Some(7..32));
        assert_eq!(next_element(file, 8), Some(16..20));
        assert_eq!(next_element(file, 17), Some(21..28));
        assert_eq!(next_element(file, 22), None);
    }

    #[test]
    fn attributes_end_with_their_own_quote() {
        let file = b"<A b=\"'\" c = ''/>";
        assert_eq!(next_attribute(file, 0), Some(2..8));
        assert_eq!(next_attribute(file, 3), Some(8..15));
        assert_eq!(next_attribute(file, 14), None);
    }

    #[test]
    fn a_file_names_another_before_it() {
        let named = |prior: Option<&[u8]>| {
            let mut file: Exact = (*b"<ODM FileOID='C' PriorFileOID=\"B\"/>").into();
            relink(&mut file, b"'B'", prior);
            String::from_utf8(file.into()).unwrap()
        };
        assert_eq!(named(Some(b"'A'")), "<ODM FileOID='C' PriorFileOID='A'/>");
        assert_eq!(named(None), "<ODM FileOID='C'/>");
    }

    #[test]
    fn a_broken_file_has_no_end() {
        assert_eq!(next_element(b"<A b='", 0), None);
        assert_eq!(next_element(b"<A><B>", 0), Some(0..6));
        assert_eq!(next_element(b"<", 0), None);
    }
}
