//! Checks 10, 11 and 13, and the words that relocations write.

use crate::bytes::{u16_at, u32_at, u64_at};
use crate::headers::Segments;
use crate::packed::Places;
use crate::rules::Rules;
use crate::{refusal, Refusal};

pub const ENTRY: usize = 24;
pub const NONE: u32 = 0;
const ABS64: u32 = 257;
const GLOB_DAT: u32 = 1025;
const RELATIVE: u32 = 1027;

#[derive(Clone, Copy)]
pub struct Relocation {
    pub place: u64,
    pub kind: u32,
    pub symbol: u32,
    pub addend: i64,
}

impl Relocation {
    #[inline]
    fn read(entry: &[u8; ENTRY]) -> Relocation {
        Relocation {
            place: u64_at(entry, 0),
            kind: u32_at(entry, 8),
            symbol: u32_at(entry, 12),
            addend: u64_at(entry, 16) as i64,
        }
    }

    #[inline]
    fn skipped<R: Rules>(&self) -> bool {
        R::skipped(self.kind)
    }
}

/// What a word points at.
#[derive(Clone, Copy)]
pub enum Target {
    Base,
    Symbol(u64),
    /// A weak undefined symbol, and the value it has in the table.
    Nothing(u64),
}

/// The tables that relocations are read from.
pub struct Tables<'a> {
    file: &'a [u8],
    segments: &'a Segments,
    relocations: &'a [[u8; ENTRY]],
    packed: &'a [u8],
    symbols: Option<u64>,
    /// The symbols in the file part that the first one is in.
    near: &'a [[u8; ENTRY]],
}

/// What checks 10 and 11 find out.
#[derive(Default)]
pub struct Walked {
    /// The number of words relocated.
    pub words: u64,
    /// The position of the first that 13 refuses under the bias.
    pub far: Option<u64>,
}

impl<'a> Tables<'a> {
    pub fn new<R: Rules>(
        file: &'a [u8],
        segments: &'a Segments,
        relocations: &'a [u8],
        packed: &'a [u8],
        symbols: Option<u64>,
    ) -> Tables<'a> {
        let near = symbols.and_then(|address| segments.backed_from::<R>(file, address));
        let near = near.unwrap_or_default().as_chunks().0;
        Tables { file, segments, relocations: relocations.as_chunks().0, packed, symbols, near }
    }

    /// The packed places, with the indexes of their words.
    pub fn places<R: Rules>(&self) -> Places<'a, R> {
        Places::new(self.packed)
    }

    fn all_entries(&self) -> impl Iterator<Item = Relocation> + 'a {
        self.relocations.iter().map(Relocation::read)
    }

    /// The entries not skipped.
    pub fn entries<R: Rules>(&self) -> impl Iterator<Item = Relocation> + 'a {
        self.all_entries().filter(|entry| !entry.skipped::<R>())
    }

    pub fn symbol_address(&self, symbol: u32) -> Option<u64> {
        self.symbols?.checked_add(u64::from(symbol) * ENTRY as u64)
    }

    #[inline]
    fn symbol<R: Rules>(&self, symbol: u32) -> Option<&'a [u8; ENTRY]> {
        self.near.get(symbol as usize).or_else(|| self.far_symbol::<R>(symbol))
    }

    /// A symbol in another file part.
    #[cold]
    fn far_symbol<R: Rules>(&self, symbol: u32) -> Option<&'a [u8; ENTRY]> {
        let address = self.symbol_address(symbol)?;
        self.segments.backed_from::<R>(self.file, address)?.first_chunk()
    }

    /// Check 10; none where kind or symbol is not allowed.
    #[inline]
    pub fn target<R: Rules>(&self, entry: &Relocation) -> Option<Target> {
        match R::kind(entry.kind) {
            RELATIVE => (entry.symbol == 0).then_some(Target::Base),
            ABS64 | GLOB_DAT if entry.symbol != 0 => {
                self.symbol::<R>(entry.symbol).and_then(target_of::<R>)
            }
            _ => None,
        }
    }

    /// The target of an entry that has passed 10.
    #[inline]
    pub fn passed_target<R: Rules>(&self, entry: &Relocation) -> Target {
        match entry.symbol {
            0 => Target::Base,
            symbol => self.symbol::<R>(symbol).map_or(Target::Base, named_by),
        }
    }

    /// Checks 10 and 11. Given the bias, they also find what 13 refuses.
    pub fn check<R: Rules>(&self, bias: Option<u64>) -> Result<Walked, Refusal> {
        match bias {
            Some(bias) => self.walk::<R, true>(bias),
            None => self.walk::<R, false>(0),
        }
    }

    fn walk<R: Rules, const BIASED: bool>(&self, bias: u64) -> Result<Walked, Refusal> {
        // Without relocations there is nothing to keep.
        let any = !self.relocations.is_empty() || !self.packed.is_empty();
        let mut met = Met::below(if any { R::map_end(self.segments) } else { 0 });
        let mut found = Walked::default();
        if R::PACKED_FIRST {
            self.walk_packed::<R, BIASED>(bias, &mut met, &mut found)?;
            self.walk_entries::<R, BIASED>(bias, &mut met, &mut found)?;
        } else {
            self.walk_entries::<R, BIASED>(bias, &mut met, &mut found)?;
            self.walk_packed::<R, BIASED>(bias, &mut met, &mut found)?;
        }
        Ok(found)
    }

    fn walk_entries<R: Rules, const BIASED: bool>(
        &self,
        bias: u64,
        met: &mut Met,
        found: &mut Walked,
    ) -> Result<(), Refusal> {
        let mut parts = self.segments.lookup();
        let mut place_good = |met: &mut Met, place: u64| {
            let good = place.is_multiple_of(8)
                && parts.find(|s| R::place_in(s, place)).is_some()
                && !R::repeats(met.has::<R>(place));
            if good {
                met.put::<R>(place);
            }
            good
        };
        let mut words = 0;
        for (index, entry) in (0..).zip(self.all_entries()) {
            if entry.skipped::<R>() {
                if R::MARKS_SKIPPED {
                    met.put_any::<R>(entry.place);
                }
                continue;
            }
            if R::PLACE_FIRST && !place_good(met, entry.place) {
                return Err(refusal(11, index));
            }
            let target = self.target::<R>(&entry).ok_or(refusal(10, index))?;
            if !R::PLACE_FIRST && !place_good(met, entry.place) {
                return Err(refusal(11, index));
            }
            if BIASED && !R::address_fits(address::<R>(target, bias, entry.addend)) {
                found.far.get_or_insert(index);
            }
            words += 1;
        }
        found.words += R::words(words, self.relocations.len() as u64);
        Ok(())
    }

    fn walk_packed<R: Rules, const BIASED: bool>(
        &self,
        bias: u64,
        met: &mut Met,
        found: &mut Walked,
    ) -> Result<(), Refusal> {
        if R::FORGETS_ENTRIES {
            met.0.fill(0);
        }
        if R::MARKS_SKIPPED_LATE {
            let skipped = self.all_entries().filter(Relocation::skipped::<R>);
            skipped.for_each(|entry| met.put_any::<R>(entry.place));
        }
        let mut parts = self.segments.lookup();
        let mut words = 0;
        for (index, place) in self.places::<R>() {
            let refused = || refusal(11, R::place_at(self.relocations, index));
            if !R::packed_aligned(place) {
                return Err(refused());
            }
            let segment = parts.find(|s| R::packed_in(s, place)).ok_or_else(refused)?;
            if met.has::<R>(place) {
                return Err(refused());
            }
            if R::MARKS_PACKED {
                met.put::<R>(place);
            }
            if BIASED {
                let loaded = segment.loaded::<R>(self.file, place);
                if !R::address_fits(R::packed_address(bias, loaded)) {
                    found.far.get_or_insert(R::address_at(self.relocations, index, words));
                }
            }
            words += 1;
        }
        found.words += R::packed_words(words);
        Ok(())
    }
}

/// The places met so far: a bit for each eight bytes.
struct Met(Vec<u64>);

impl Met {
    fn below(end: u64) -> Met {
        Met(vec![0; end.div_ceil(8 * 64) as usize])
    }

    /// Word and mask of a bit.
    #[inline]
    fn at(bit: u64) -> (usize, u64) {
        ((bit / 64) as usize, 1 << (bit % 64))
    }

    #[inline]
    fn has<R: Rules>(&self, place: u64) -> bool {
        let (word, mask) = Met::at(R::looked_at(place));
        self.0[word] & mask != 0
    }

    #[inline]
    fn put<R: Rules>(&mut self, place: u64) {
        let (word, mask) = Met::at(R::marked_at(place));
        self.0[word] = R::marked(self.0[word], mask);
    }

    /// The same for a place that may be anywhere.
    fn put_any<R: Rules>(&mut self, place: u64) {
        if place.is_multiple_of(8) && place / 512 < self.0.len() as u64 {
            self.put::<R>(place);
        }
    }
}

/// What a symbol entry gives, none where it is not allowed.
#[inline]
pub fn target_of<R: Rules>(symbol: &[u8; ENTRY]) -> Option<Target> {
    let (info, section) = (symbol[4], u16_at(symbol, 6));
    let refused = R::refused_type(info & 15)
        || R::refused_section(section)
        || section == 0 && !R::weak(info >> 4);
    (!refused).then(|| named_by(symbol))
}

/// What a symbol entry that is allowed gives.
#[inline]
fn named_by(symbol: &[u8; ENTRY]) -> Target {
    let value = u64_at(symbol, 8);
    match u16_at(symbol, 6) {
        0 => Target::Nothing(value),
        _ => Target::Symbol(value),
    }
}

/// The address of a word, none below 0 or from 2^64 on.
#[inline]
pub fn address<R: Rules>(target: Target, bias: u64, addend: i64) -> Option<u64> {
    match target {
        Target::Base => R::address(bias, 0, addend),
        Target::Symbol(value) => R::address(bias, value, addend),
        Target::Nothing(_) => R::weak_address(bias, addend),
    }
}

/// The tag source of a word, none from 2^64 on; at_place is *P.
#[inline]
pub fn source<R: Rules>(target: Target, bias: u64, addend: i64, at_place: u64) -> Option<u64> {
    match target {
        Target::Base => R::relative_source(bias, addend, at_place),
        Target::Symbol(value) => R::symbol_source(bias, value, addend),
        Target::Nothing(value) => R::weak_source(bias, value),
    }
}
