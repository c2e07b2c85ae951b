//! The picker of tags: a list is checked whole before its first choice is written.

use crate::rules::{Rules, Stage};
use crate::writer::check_globals;
use crate::{refusal, Refusal};

/// Check 8: a global for which no tag is left, where no list of choices meets the rules. One tag is
/// enough where nothing abuts, and with two a global can always differ from the one before.
#[inline]
fn stuck<R: Rules>(addresses: &[u64], sizes: &[u64], left: u16) -> Option<usize> {
    if addresses.is_empty() && !R::EMPTY_NEEDS_TAG {
        return None;
    }
    match left.count_ones() {
        tags if tags < R::ENOUGH_APART => Some(0),
        tags if tags < R::ENOUGH_ABUTTING => R::abutting(addresses, sizes),
        _ => None,
    }
}

/// Fills the choices of a list that has passed its checks.
#[inline]
fn fill<R: Rules>(addresses: &[u64], sizes: &[u64], random: &[u8], left: u16, choices: &mut [u8]) {
    // By whether the one before abuts, and by start: the first tag left, and above it the one for where
    // that is the neighbour's. A shift takes one of them: a branch on random bytes would be foretold wrongly
    // too often.
    let tags = [false, true].map(|differs| -> [u16; 16] {
        std::array::from_fn(|start| {
            let first = R::first_from(start as u8, left);
            u16::from_le_bytes([first, if differs { R::first_after(first, left) } else { first }])
        })
    });
    let (mut last_end, mut before) = (0, R::BEFORE_FIRST);
    let globals = addresses.iter().zip(sizes).zip(random).zip(choices);
    for (i, (((&address, &size), &byte), choice)) in globals.enumerate() {
        let start = R::start(byte, *choice);
        let differs = R::must_differ(address, last_end);
        let both = tags[usize::from(differs)][usize::from(start)];
        *choice = (both >> (8 * u8::from(both as u8 == before))) as u8;
        last_end = R::next_end(address, size);
        if R::AVOIDS_AFTER && addresses.get(i + 1) == Some(&last_end) {
            let after = random.get(i + 1).map(|&byte| R::first_from(R::start(byte, 0), left));
            if after == Some(*choice) {
                *choice = R::first_after(*choice, left);
            }
        }
        before = R::neighbour(*choice, start);
    }
}

/// All checks of a list.
#[inline]
fn check<R: Rules>(
    addresses: &[u64],
    sizes: &[u64],
    lengths: [usize; 4],
    left: u16,
) -> Result<(), Refusal> {
    for stage in R::STAGES {
        match stage {
            Stage::Lengths if R::lengths_differ(lengths) => {
                return Err(refusal(R::LENGTHS, R::lengths_at(lengths)));
            }
            Stage::Lengths => {}
            Stage::Globals => _ = check_globals::<R, false>(addresses, sizes)?,
            Stage::Tags => {
                if let Some(at) = stuck::<R>(addresses, sizes, left) {
                    return Err(refusal(8, R::none_at(at, addresses.len())));
                }
            }
        }
    }
    Ok(())
}

pub fn pick_tags_by<R: Rules>(
    addresses: &[u64],
    sizes: &[u64],
    random: &[u8],
    excluded: u16,
    choices: &mut [u8],
) -> Result<usize, Refusal> {
    let lengths = [addresses.len(), sizes.len(), random.len(), choices.len()];
    let left = R::left(excluded);
    if let Err(broken) = check::<R>(addresses, sizes, lengths, left) {
        if R::fills_before(broken.number) {
            // Up to a global that is refused.
            let walked = (2..=5).contains(&broken.number);
            let count = if walked { broken.position as usize } else { choices.len() };
            fill::<R>(addresses, sizes, random, left, &mut choices[..count]);
        }
        if R::CLEARS_CHOICES {
            choices.fill(0);
        }
        return Err(broken);
    }
    fill::<R>(addresses, sizes, random, left, choices);
    Ok(addresses.len())
}
