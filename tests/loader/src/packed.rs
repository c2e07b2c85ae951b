//! Check 15, and the places that packed words name.

use crate::rules::Rules;
use crate::{refusal, Refusal};
use std::marker::PhantomData;
use std::slice::Iter;

type Word = [u8; 8];

#[inline]
fn words(table: &[u8]) -> &[Word] {
    table.as_chunks().0
}

/// Check 15 of a packed table, none where it is not backed, beside the RELA table.
pub fn check<R: Rules>(table: Option<&[u8]>, relocations: &[u8]) -> Result<(), Refusal> {
    let words = words(table.ok_or(refusal(15, 0))?);
    // Only the first word can be an odd one before any even one.
    if words.first().is_some_and(|word| word[0] & 1 != 0) && !R::ODD_FIRST {
        return Err(refusal(15, 0));
    }
    let mut total = R::counted(relocations);
    for (index, &word) in words.iter().enumerate() {
        let named = R::named(u64::from_le_bytes(word));
        if named == 0 {
            continue;
        }
        total += named;
        if total > R::MOST_PLACES {
            return Err(refusal(15, R::passed_at(relocations, index)));
        }
    }
    Ok(())
}

/// The places of a packed table in order, each with the index of its word.
pub struct Places<'a, R> {
    count: usize,
    words: Iter<'a, Word>,
    /// Bits left of the bitmap being read, bit 1 the lowest.
    bits: u64,
    /// The run of the next bitmap; that of the one being read comes just before it.
    run: u64,
    rules: PhantomData<R>,
}

impl<'a, R: Rules> Places<'a, R> {
    pub fn new(table: &'a [u8]) -> Places<'a, R> {
        let words = words(table).iter();
        Places { count: words.len(), words, bits: 0, run: 0, rules: PhantomData }
    }

    /// The index of the word read last.
    #[inline]
    fn index(&self) -> usize {
        self.count - self.words.len() - 1
    }
}

impl<R: Rules> Iterator for Places<'_, R> {
    type Item = (usize, u64);

    #[inline]
    fn next(&mut self) -> Option<(usize, u64)> {
        while self.bits == 0 {
            let word = u64::from_le_bytes(*self.words.next()?);
            if word & 1 == 0 {
                self.run = R::run_after(word);
                return Some((self.index(), word));
            }
            // No run wraps before 11 has refused the even word that it follows.
            self.bits = R::bits(word);
            self.run = self.run.wrapping_add(R::RUN_BYTES);
        }
        let bit = self.bits.trailing_zeros();
        self.bits &= self.bits - 1;
        let start = self.run.wrapping_sub(R::RUN_BYTES);
        Some((self.index(), start.wrapping_add(R::into_run(bit))))
    }
}
