//! The bytes of the answers, kept for `$n`.

use crate::expected::Why;
use crate::fault::{self, Fault};

const ANSWERS: usize = 4096;
const ROOM: usize = 1_048_576;

/// The bytes of the first 4096 answers, in order, while they find room; None for one that found none.
#[derive(Clone, Default)]
pub struct Kept {
    answers: Vec<Option<Vec<u8>>>,
    used: usize,
}

impl Kept {
    pub fn keep(&mut self, bytes: &[u8]) {
        let most = if fault::on(Fault::TooFewKept) { ANSWERS - 1 } else { ANSWERS };
        if self.answers.len() >= most || bytes.is_empty() && fault::on(Fault::RefusedNotCounted) {
            return;
        }
        let fits = self.used + bytes.len() <= ROOM;
        self.used += if fits { bytes.len() } else { 0 };
        self.answers.push(fits.then(|| bytes.to_vec()));
    }

    /// The bytes of answer n, or why they cannot stand in a line.
    pub fn bytes(&self, n: u64) -> Result<&[u8], Why> {
        let n = if fault::on(Fault::AnswerOffByOne) { n + 1 } else { n };
        let index = usize::try_from(n).ok().and_then(|n| n.checked_sub(1)).ok_or(Why::NeverGiven)?;
        let answer = self.answers.get(index).and_then(Option::as_ref).ok_or(Why::NeverGiven)?;
        if answer.is_empty() {
            return Err(Why::NoBytes);
        }
        Ok(answer)
    }

    /// Each kept answer that has bytes, with its ordinal.
    pub fn with_bytes(&self) -> impl Iterator<Item = (usize, &[u8])> {
        let answers = self.answers.iter().enumerate();
        let kept = answers.filter_map(|(index, bytes)| Some((index + 1, bytes.as_deref()?)));
        kept.filter(|(_, bytes)| !bytes.is_empty())
    }
}
