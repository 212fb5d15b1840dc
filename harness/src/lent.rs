//! The two buffers that a call is lent, each from the middle of some more words that nobody may
//! touch.

use crate::finder::{Returned, WORK_WORDS};
use crate::random::Rng;
use crate::zone::WORDS;

/// Words, or bytes, on either side of what is lent.
pub const MARGIN: usize = 8;

#[derive(Clone, PartialEq, Eq)]
pub struct Lent {
    answer: Vec<i32>,
    work: Vec<i32>,
}

impl Lent {
    /// Buffers of these lengths, full of random words.
    pub fn of(answer: usize, work: usize, rng: &mut Rng) -> Lent {
        Lent {
            answer: rng.words(answer + 2 * MARGIN),
            work: rng.words(work + 2 * MARGIN),
        }
    }

    pub fn lend(&mut self) -> (&mut [i32], &mut [i32]) {
        (inner_mut(&mut self.answer), inner_mut(&mut self.work))
    }

    pub fn answer(&self) -> &[i32] {
        inner(&self.answer)
    }

    pub fn work(&self) -> &[i32] {
        inner(&self.work)
    }

    /// The buffers after a call of the plain matcher, by document 01's table.
    pub fn check_after(&self, after: &Lent, returned: Returned) -> Result<(), String> {
        let filled = returned.zones as usize * WORDS;
        let cleared = match returned.number {
            0 | 10 | 11 | 13 => WORK_WORDS,
            _ => 0,
        };
        let expected = |old: &[i32], new: &[i32], written: usize| {
            let end = MARGIN + written;
            old.len() == new.len() && old[..MARGIN] == new[..MARGIN] && old[end..] == new[end..]
        };
        if !expected(&self.answer, &after.answer, filled) {
            return Err("the plain matcher wrote behind the front of the answer".into());
        }
        if !expected(&self.work, &after.work, cleared) {
            return Err("the plain matcher wrote into work words that are not its own".into());
        }
        if after.work()[..cleared].iter().any(|&word| word != 0) {
            return Err("the plain matcher left work words that are not zero".into());
        }
        Ok(())
    }

    /// What another finder left, word for word, margins included, against the plain matcher's.
    pub fn check_equal(&self, finder: &str, plain: &Lent) -> Result<(), String> {
        let buffers = [
            ("answer", &self.answer, &plain.answer),
            ("work", &self.work, &plain.work),
        ];
        buffers.into_iter().try_for_each(|(name, theirs, plain)| {
            differ(name, theirs, plain).map_err(|fault| format!("{finder} left {fault}"))
        })
    }
}

fn inner(words: &[i32]) -> &[i32] {
    &words[MARGIN..words.len() - MARGIN]
}

fn inner_mut(words: &mut [i32]) -> &mut [i32] {
    let end = words.len() - MARGIN;
    &mut words[MARGIN..end]
}

fn differ(name: &str, theirs: &[i32], plain: &[i32]) -> Result<(), String> {
    let first = theirs.iter().zip(plain).position(|(t, p)| t != p);
    first.map_or(Ok(()), |at| {
        let (theirs, plain) = (theirs[at], plain[at]);
        let word = at as i64 - MARGIN as i64;
        Err(format!("{theirs} in {name} word {word}, plain {plain}"))
    })
}
