//! Picks of few globals by every mask and by every byte, and loads with what was picked: the Rust picker,
//! and the archive where this was built with it, against the words of the documents.

use loader::answers::{Loader, Picking, RIGHT};
use loader::ffi::proved;
use loader::generate::module::Module;
use loader::generate::pick::masks;
use loader::generate::{count, SEED};
use loader::pick_by_words::{exists, judge};
use loader::random::Random;

fn loaders() -> impl Iterator<Item = &'static dyn Loader> {
    std::iter::once(&RIGHT as &dyn Loader).chain(proved())
}

/// Globals of a granule from an address on, each some granules after the one before.
fn pick(first: u64, gaps: &[u64], random: Vec<u8>, excluded: u16) -> Picking {
    let mut addresses = vec![first];
    for gap in gaps {
        addresses.push(addresses[addresses.len() - 1] + 16 + 16 * gap);
    }
    addresses.truncate(random.len());
    let count = addresses.len();
    Picking { addresses, sizes: vec![16; count], random, excluded, choices: vec![0xee; count] }
}

/// What each loader answers is what the documents say; the number of the answer.
fn check(pick: &Picking) -> u8 {
    let answers = loaders().map(|loader| {
        let picked = loader.picked(pick);
        assert_eq!(judge(pick, &picked), Ok(()), "{pick:x?}");
        assert!(!picked.strayed, "{pick:x?}");
        picked.number()
    });
    answers.last().expect("a loader")
}

/// Every mask, with none to three globals that abut in every way.
#[test]
fn every_mask() {
    let mut r = Random::new(SEED);
    let mut seen = [0u64; 9];
    for excluded in 0..=0xffff {
        for (count, ways) in [(0, 1), (1, 1), (2, 2), (3, 4)] {
            for way in 0..ways {
                let gaps = [way & 1, way >> 1];
                let first = 16 * r.below(2);
                let pick = pick(first, &gaps, r.bytes(count), excluded);
                seen[usize::from(check(&pick))] += 1;
            }
        }
    }
    println!("taken {}, 8: {}", seen[0], seen[8]);
    // With no tag left all but the empty list is refused, with one left what abuts: of 8 ways there are 4.
    assert_eq!(seen[8], 2 * 7 + 30 * 4);
    assert_eq!(seen[0] + seen[8], 8 << 16);
}

/// Every byte for one global, and every pair of bytes for two, abutting and apart.
#[test]
fn every_byte() {
    let masks = masks();
    for first in 0..=255 {
        masks.iter().for_each(|&mask| _ = check(&pick(32, &[], vec![first], mask)));
        for second in 0..=255 {
            let mask = masks[(usize::from(first) * 7 + usize::from(second)) % masks.len()];
            for (excluded, gap) in [(0, 0), (0, 1), (mask, 0), (mask, 1)] {
                check(&pick(0, &[gap], vec![first, second], excluded));
            }
        }
    }
}

/// Some list of choices meets the rules: all lists of three, of any bytes up to 16, one by one.
#[test]
fn every_list() {
    let mut r = Random::new(SEED);
    let any: Vec<u16> = (0..200).map(|_| r.word() as u16).collect();
    for excluded in masks().into_iter().chain(any) {
        for way in 0..4 {
            let gaps = [way & 1, way >> 1];
            let meets = |list: u64| {
                let tags = [list % 17, list / 17 % 17, list / 289];
                let allowed = |&tag: &u64| tag > 0 && tag < 16 && excluded >> tag & 1 == 0;
                let differ = |i: usize| gaps[i] > 0 || tags[i] != tags[i + 1];
                tags.iter().all(allowed) && differ(0) && differ(1)
            };
            let some = (0..17 * 17 * 17).any(meets);
            let pick = pick(16, &gaps, r.bytes(3), excluded);
            assert_eq!(exists(&pick), some, "{pick:x?}");
            assert_eq!(check(&pick) == 0, some, "{pick:x?}");
        }
    }
}

/// A module that is loaded with the tags picked for its globals is not refused by 14.
#[test]
fn a_load_takes_what_was_picked() {
    let (mut taken, mut abutting, mut refused) = (0u64, 0u64, 0u64);
    for i in 0..count(3_000) {
        let mut r = Random::new(SEED ^ i << 20);
        let module = Module::random(&mut r);
        let (globals, mut call) = (&module.globals, module.call());
        let any = [r.word() as u16, (r.word() | r.word()) as u16];
        let excluded = if r.once_in(2) { r.pick(&any) } else { r.pick(&masks()) };
        let pick = Picking {
            addresses: globals.iter().map(|global| global.start).collect(),
            sizes: globals.iter().map(|global| 16 * global.granules).collect(),
            random: r.bytes(globals.len()),
            excluded,
            choices: vec![0; globals.len()],
        };
        if check(&pick) != 0 {
            refused += 1;
            continue;
        }
        for loader in loaders() {
            call.choices = loader.picked(&pick).choices;
            let outcome = loader.outcome(&call);
            assert_eq!(outcome.load, 256 * globals.len() as u64, "module {i}");
        }
        taken += 1;
        abutting += u64::from(globals.windows(2).any(|pair| pair[0].end() == pair[1].start));
    }
    println!("{taken} loads taken, {abutting} with abutting globals; {refused} lists refused by 8");
    assert!(taken > 1_000 && abutting > 300 && refused > 100);
}
