//! The picker by the words of the documents, one by one and on exact numbers: what a pick has to answer,
//! and what its choices have to be. Whether a list of choices exists is asked of all lists, not of the
//! search. Slow, for comparing alone.

use crate::answers::{Picked, Picking};

/// A tag from 1 to 15 that the mask does not exclude.
fn allowed(pick: &Picking, tag: u8) -> bool {
    (1..16).contains(&tag) && pick.excluded >> tag & 1 == 0
}

/// Where a global ends.
fn end(pick: &Picking, at: usize) -> u128 {
    u128::from(pick.addresses[at]) + u128::from(pick.sizes[at])
}

/// A global starts where the one before ends.
fn abuts(pick: &Picking, at: usize) -> bool {
    at > 0 && end(pick, at - 1) == pick.addresses[at].into()
}

/// A tag that a global may have behind some choices.
fn good(pick: &Picking, choices: &[u8], tag: u8) -> bool {
    let at = choices.len();
    allowed(pick, tag) && !(abuts(pick, at) && choices[at - 1] == tag)
}

/// The first good tag from the random byte on, where there is one.
pub fn first_good(pick: &Picking, choices: &[u8]) -> Option<u8> {
    let start = pick.random[choices.len()] % 16;
    (start..16).chain(0..start).find(|&tag| good(pick, choices, tag))
}

/// Globals up to which all lists of choices are gone through.
const SHORT: usize = 12;

/// Some list that begins with these choices meets the rules: all are gone through, but for those that
/// break a rule before their end.
fn search(pick: &Picking, choices: &mut Vec<u8>) -> bool {
    if choices.len() == pick.addresses.len() {
        return true;
    }
    for tag in 0..=255 {
        if good(pick, choices, tag) {
            choices.push(tag);
            let found = search(pick, choices);
            choices.pop();
            if found {
                return true;
            }
        }
    }
    false
}

/// Some list meets the rules, by the tags that one can end with, global by global.
fn reaches(pick: &Picking) -> bool {
    let mut ends: Vec<u8> = Vec::new();
    for at in 0..pick.addresses.len() {
        let follows = |tag| !abuts(pick, at) || ends.iter().any(|&before| before != tag);
        ends = (1..16).filter(|&tag| allowed(pick, tag) && follows(tag)).collect();
        if ends.is_empty() {
            return false;
        }
    }
    true
}

/// Some list of choices meets the rules.
pub fn exists(pick: &Picking) -> bool {
    let reached = reaches(pick);
    if pick.addresses.len() <= SHORT {
        assert_eq!(reached, search(pick, &mut Vec::new()), "{pick:x?}");
    }
    reached
}

/// Number and index of the refusal, where a pick has to be refused.
pub fn refused(pick: &Picking) -> Option<(u8, u64)> {
    let count = pick.addresses.len();
    if [pick.sizes.len(), pick.random.len(), pick.choices.len()].iter().any(|&n| n != count) {
        return Some((7, 0));
    }
    for (i, (address, size)) in pick.addresses.iter().zip(&pick.sizes).enumerate() {
        let last_end = if i == 0 { 0 } else { end(pick, i - 1) };
        let broken = [
            (2, *size == 0),
            (3, size % 16 != 0 || address % 16 != 0),
            (4, u128::from(*address) < last_end),
            (5, end(pick, i) > 1 << 48),
        ];
        if let Some((number, _)) = broken.into_iter().find(|rule| rule.1) {
            return Some((number, i as u64));
        }
    }
    (!exists(pick)).then_some((8, 0))
}

/// What of a pick is not as the documents say.
pub fn judge(pick: &Picking, picked: &Picked) -> Result<(), String> {
    let got = (picked.number(), picked.index());
    if let Some((number, index)) = refused(pick) {
        if got != (number, index) {
            return Err(format!("refused {number} at {index}, not {got:?}"));
        }
        if picked.choices != pick.choices {
            return Err("the choices are not as lent".to_owned());
        }
        return Ok(());
    }
    if got != (0, pick.addresses.len() as u64) {
        return Err(format!("taken with {} globals, not {got:?}", pick.addresses.len()));
    }
    for (i, &choice) in picked.choices.iter().enumerate() {
        let before = &picked.choices[..i];
        if !allowed(pick, choice) {
            return Err(format!("choice {i} is {choice}, which is not allowed"));
        }
        if abuts(pick, i) && before[i - 1] == choice {
            return Err(format!("choice {i} is {choice}, the abutting neighbour's"));
        }
        if first_good(pick, before) != Some(choice) {
            return Err(format!("choice {i} is {choice}, and another good one comes before it"));
        }
    }
    Ok(())
}
