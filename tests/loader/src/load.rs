//! The two calls: a file read through checks 1 to 11 and 15, then 12 to 14, then the writes.

use crate::dynamic::{dynamic, Dynamic};
use crate::headers::{aligns, header_table, segments, Segments};
use crate::packed::Places;
use crate::relocations::{address, source, target_of, Tables, Walked};
use crate::rules::Rules;
use crate::{descriptors, packed, refusal, Facts, Refusal, GRANULE};

/// A file that has passed checks 1 to 11 and 15.
struct Image<'a> {
    file: &'a [u8],
    headers: &'a [u8],
    segments: Segments,
    dynamic: Dynamic<'a>,
    globals: u64,
    walked: Walked,
}

impl<'a> Image<'a> {
    /// Given the bias, it also finds what 13 refuses.
    fn read<R: Rules>(file: &'a [u8], bias: Option<u64>) -> Result<Image<'a>, Refusal> {
        let headers = header_table::<R>(file)?;
        let segments = segments::<R>(file, headers)?;
        let dynamic = dynamic::<R>(file, headers, &segments)?;
        let check = || packed::check::<R>(dynamic.packed, dynamic.relocations);
        if !R::PACKED_LATE {
            check()?;
        }
        let globals = descriptors::count::<R>(dynamic.descriptors, &segments)?;
        if R::PACKED_LATE {
            check()?;
        }
        let mut image =
            Image { file, headers, segments, dynamic, globals, walked: Walked::default() };
        image.walked = image.tables::<R>().check::<R>(bias)?;
        Ok(image)
    }

    fn tables<R: Rules>(&self) -> Tables<'_> {
        let Dynamic { relocations, packed, symbols, .. } = self.dynamic;
        let packed = packed.unwrap_or_default();
        Tables::new::<R>(self.file, &self.segments, relocations, packed, symbols)
    }

    fn facts(&self) -> Facts {
        Facts {
            mode: self.dynamic.mode,
            heap: self.dynamic.heap,
            stack: self.dynamic.stack,
            globals: self.globals,
            words: self.walked.words,
        }
    }

    /// Check 12.
    fn check_fit<R: Rules>(&self, bias: u64, memory: u64, plane: u64) -> Result<(), Refusal> {
        if lent_fits::<R>(self.headers, &self.segments, bias, memory) && plane == memory / GRANULE {
            Ok(())
        } else {
            Err(refusal(12, 0))
        }
    }

    /// Check 13.
    fn check_addresses(&self) -> Result<(), Refusal> {
        self.walked.far.map_or(Ok(()), |position| Err(refusal(13, position)))
    }

    /// Check 14.
    fn check_choices<R: Rules>(&self, choices: &[u8]) -> Result<(), Refusal> {
        if choices.len() as u64 != self.globals {
            return Err(refusal(14, R::wrong_number(self.globals, choices.len() as u64)));
        }
        let mut before = None;
        let globals = descriptors::globals::<R>(self.dynamic.descriptors);
        for (index, ((start, end), &choice)) in globals.zip(choices).enumerate() {
            let differs =
                before.is_none_or(|(last_end, last)| R::differs(choice, last, last_end == start));
            if !R::choice(choice) || !differs {
                return Err(refusal(14, index as u64));
            }
            before = Some((end, choice));
        }
        Ok(())
    }

    /// Each global's choice over its granules, 0 elsewhere.
    fn tag<R: Rules>(&self, plane: &mut [u8], choices: &[u8]) {
        if R::CLEARS_PLANE {
            plane.fill(0);
        }
        let globals = descriptors::globals::<R>(self.dynamic.descriptors);
        for ((start, end), &choice) in globals.zip(choices) {
            plane[(start / GRANULE) as usize..(end / GRANULE) as usize].fill(choice);
        }
    }

    fn relocate<R: Rules>(&self, bias: u64, memory: &mut [u8], plane: &[u8]) {
        let tables = self.tables::<R>();
        for entry in tables.entries::<R>() {
            let mut target = tables.passed_target::<R>(&entry);
            if R::SYMBOLS_FROM_MEMORY && entry.symbol != 0 {
                let at = tables.symbol_address(entry.symbol).unwrap_or(0) as usize;
                let symbol = memory[at..].first_chunk().and_then(target_of::<R>);
                target = symbol.unwrap_or(target);
            }
            let word = word_at(memory, entry.place);
            let source = source::<R>(target, bias, entry.addend, u64::from_le_bytes(*word));
            let address = address::<R>(target, bias, entry.addend);
            *word = tagged(address, source, bias, plane).to_le_bytes();
        }
        let relocated;
        let mut packed = self.dynamic.packed.unwrap_or_default();
        if R::PACKED_FROM_MEMORY && !packed.is_empty() {
            relocated = memory[self.dynamic.packed_at as usize..][..packed.len()].to_vec();
            packed = &relocated;
        }
        for (_, place) in Places::<R>::new(packed) {
            let word = word_at(memory, place);
            let loaded = u64::from_le_bytes(*word);
            let (address, source) =
                (R::packed_address(bias, loaded), R::packed_source(bias, loaded));
            *word = tagged(address, source, bias, plane).to_le_bytes();
        }
    }
}

/// The eight bytes at a place that has passed 11.
#[inline]
pub fn word_at(memory: &mut [u8], place: u64) -> &mut [u8; 8] {
    memory[place as usize..].first_chunk_mut().expect("a place has eight bytes")
}

/// An address that has passed 13, with the tag of the source's granule.
#[inline]
fn tagged(address: Option<u64>, source: Option<u64>, bias: u64, plane: &[u8]) -> u64 {
    let tag = source.map_or(0, |source| tag_at(plane, source, bias));
    address.unwrap_or(0) | u64::from(tag) << 56
}

/// Check 12 of bias and memory length.
pub fn lent_fits<R: Rules>(headers: &[u8], segments: &Segments, bias: u64, memory: u64) -> bool {
    memory.is_multiple_of(GRANULE)
        && R::memory_reaches(memory, segments.end())
        && memory <= R::MEMORY_BYTES
        && R::bias_fits(aligns::<R>(headers), bias)
        && R::run_fits(bias, memory)
}

/// The tag of a source's granule, 0 outside the lent memory's run of addresses.
#[inline]
fn tag_at(plane: &[u8], source: u64, bias: u64) -> u8 {
    // What lies below the bias wraps to far above the run.
    let granule = source.wrapping_sub(bias) / GRANULE;
    plane.get(granule as usize).copied().unwrap_or(0)
}

pub fn examine_by<R: Rules>(file: &[u8]) -> Result<Facts, Refusal> {
    Ok(Image::read::<R>(file, None)?.facts())
}

pub fn load_by<R: Rules>(
    file: &[u8],
    bias: u64,
    memory: &mut [u8],
    plane: &mut [u8],
    choices: &[u8],
) -> Result<Facts, Refusal> {
    let image = Image::read::<R>(file, Some(bias))?;
    if R::ADDRESSES_FIRST {
        image.check_addresses()?;
    }
    image.check_fit::<R>(bias, memory.len() as u64, plane.len() as u64)?;
    image.check_addresses()?;
    if R::TAGS_BEFORE_CHOICES {
        image.tag::<R>(plane, choices);
    }
    image.check_choices::<R>(choices)?;
    image.segments.place::<R>(file, memory);
    image.tag::<R>(plane, choices);
    image.relocate::<R>(bias, memory, plane);
    Ok(image.facts())
}
