//! The plain loader of demand 3: it knows no tags, and writes bare addresses.

use crate::dynamic::untagged;
use crate::headers::{header_table, segments};
use crate::load::{lent_fits, word_at};
use crate::relocations::{address, Tables};
use crate::rules::Rules;
use crate::{packed, refusal, Refusal};

#[derive(PartialEq)]
pub struct Untagged {
    pub memory: Vec<u8>,
    /// The places of the entries not skipped, then those of packed words.
    pub places: Vec<usize>,
}

/// Checks 1 to 7, 15 and 10 to 13, without the memtag tags, descriptors, plane and choices; then the
/// segments over zeros, and each relocation's address.
pub fn load_untagged_by<R: Rules>(
    file: &[u8],
    bias: u64,
    length: u64,
) -> Result<Untagged, Refusal> {
    let headers = header_table::<R>(file)?;
    let segments = segments::<R>(file, headers)?;
    let found = untagged::<R>(file, headers, &segments)?;
    let packed = found.packed.unwrap_or_default();
    let tables = Tables::new::<R>(file, &segments, found.relocations, packed, found.symbols);
    if R::UNTAGGED_PACKED_LATE {
        tables.check::<R>(None)?;
    }
    if R::UNTAGGED_CHECKS_PACKED {
        packed::check::<R>(found.packed, found.relocations)?;
    }
    let walked = tables.check::<R>(Some(bias))?;
    if !lent_fits::<R>(headers, &segments, bias, length) {
        return Err(refusal(12, 0));
    }
    if let Some(position) = walked.far {
        return Err(refusal(13, position));
    }

    let mut memory = vec![0; length as usize];
    segments.place::<R>(file, &mut memory);
    let mut places = Vec::new();
    for entry in tables.entries::<R>() {
        let target = tables.passed_target::<R>(&entry);
        let address = address::<R>(target, bias, entry.addend).unwrap_or(0);
        *word_at(&mut memory, entry.place) = address.to_le_bytes();
        places.push(entry.place as usize);
    }
    for (_, place) in tables.places::<R>() {
        let word = word_at(&mut memory, place);
        let address = R::packed_address(bias, u64::from_le_bytes(*word)).unwrap_or(0);
        *word = address.to_le_bytes();
        places.push(place as usize);
    }
    Ok(Untagged { memory, places })
}
