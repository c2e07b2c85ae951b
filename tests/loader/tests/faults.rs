//! The generated cases tell every seeded fault from the right loader, writer or picker.

use loader::answers::{Call, Loader, RIGHT};
use loader::faults::{FAULTS, PICKER_FAULTS, STEP_FAULTS, UNTAGGED_FAULTS, WRITER_FAULTS};
use loader::generate::list::write_case;
use loader::generate::pick::{pick_case, PickCase};
use loader::generate::{case, count, step_case, Case, SEED};
use loader::load_untagged;
use std::panic::{catch_unwind, AssertUnwindSafe};

/// Counts by fault, in a table with the first case that tells it from the right one.
struct Caught {
    names: Vec<&'static str>,
    counts: Vec<(u64, u64, Option<String>)>,
}

impl Caught {
    fn new(names: Vec<&'static str>) -> Caught {
        Caught { counts: vec![(0, 0, None); names.len()], names }
    }

    /// What each wrong loader does, by its index, beside what the right one did. A large case is only for
    /// those that no other case told.
    fn case<T: PartialEq>(&mut self, name: &str, large: bool, right: T, by: impl Fn(usize) -> T) {
        for (i, (times, stops, first)) in self.counts.iter_mut().enumerate() {
            if large && first.is_some() {
                continue;
            }
            // A wrong loader that stops is told apart as well, but counted on its own.
            match catch_unwind(AssertUnwindSafe(|| by(i))) {
                Ok(wrong) if wrong == right => continue,
                Ok(_) => *times += 1,
                Err(_) => *stops += 1,
            }
            first.get_or_insert(name.to_owned());
        }
    }

    fn each(&self, total: u64) {
        println!("differs  stops");
        for (name, (times, stops, first)) in self.names.iter().zip(&self.counts) {
            println!("{times:7} {stops:6}  {name:45} {}", first.as_deref().unwrap_or("-"));
        }
        println!("{} faults, {total} cases", self.names.len());
        for (name, (times, stops, _)) in self.names.iter().zip(&self.counts) {
            assert!(times + stops > 0, "not caught: {name}");
        }
    }
}

#[test]
fn each_is_caught() {
    let total = count(11_000);
    let mut loads = Caught::new(FAULTS.iter().map(|f| f.name).collect());
    let mut untagged = Caught::new(UNTAGGED_FAULTS.iter().map(|f| f.name).collect());
    let mut writes = Caught::new(WRITER_FAULTS.iter().map(|f| f.name).collect());
    std::panic::set_hook(Box::new(|_| {}));
    let mut each = |i: u64, case: &Case, large: bool| {
        let name = format!("case {i}, {}", case.name);
        let Call { file, bias, memory_length, .. } = &case.call;
        loads.case(&name, large, RIGHT.outcome(&case.call), |i| {
            FAULTS[i].loader.outcome(&case.call)
        });
        let length = *memory_length as u64;
        let right = load_untagged(file, *bias, length);
        untagged.case(&name, large, right, |i| (UNTAGGED_FAULTS[i].load)(file, *bias, length));
    };
    let mut large_cases = Vec::new();
    for i in 0..total {
        let case = case(SEED, i);
        if case.call.file.len().max(case.call.memory_length) > 1 << 20 {
            large_cases.push(i);
        } else {
            each(i, &case, false);
        }
    }
    for i in large_cases {
        each(i, &case(SEED, i), true);
    }
    for i in 0..total {
        let case = write_case(SEED, i);
        let name = format!("list {i}, {}", case.name);
        writes.case(&name, false, RIGHT.written(&case.list), |i| {
            WRITER_FAULTS[i].loader.written(&case.list)
        });
    }
    let _ = std::panic::take_hook();
    loads.each(total);
    untagged.each(total);
    writes.each(total);
}

/// The picker's own, and the writer's that are about what both refuse of a global.
#[test]
fn picks_catch_each() {
    let names = [
        "a size of 0 is written",
        "only addresses must be multiples of 16",
        "only sizes must be multiples of 16",
        "only ends must be multiples of 16",
        "multiples of 8 are taken",
        "a start may be a granule before the last end",
        "starts in any order",
        "listed globals may not abut",
        "no global at address 0",
        "an end of 2^48 is refused",
        "an end a granule above 2^48 is taken",
        "an end wraps at 2^64",
        "an end of 2^64 counts as 0",
        "only the start must be below 2^48",
        "3 before 2",
        "4 before 2 and 3",
        "5 before 4",
        "5 before 2 and 3",
        "each rule over the whole list before the next",
    ];
    let of_writes: Vec<_> = WRITER_FAULTS.iter().filter(|f| names.contains(&f.name)).collect();
    assert_eq!(of_writes.len(), names.len());
    let faults: Vec<_> = PICKER_FAULTS.iter().chain(of_writes).collect();
    let total = count(11_000);
    let mut picks = Caught::new(faults.iter().map(|f| f.name).collect());
    let mut each = |i: u64, case: &PickCase, large: bool| {
        let name = format!("pick {i}, {}", case.name);
        picks.case(&name, large, RIGHT.picked(&case.pick), |i| faults[i].loader.picked(&case.pick));
    };
    let mut large_cases = Vec::new();
    for i in 0..total {
        let case = pick_case(SEED, i);
        if case.pick.addresses.len() > 10_000 {
            large_cases.push(i);
        } else {
            each(i, &case, false);
        }
    }
    for i in large_cases {
        each(i, &pick_case(SEED, i), true);
    }
    picks.each(total);
}

#[test]
fn steps_catch_number_faults() {
    let names = [
        "the second number is the size",
        "any tenth byte",
        "the tenth byte must be 0",
        "8 in place of 16",
        "a padded first number is taken",
        "a padded second number is taken",
        "padding is seen in numbers of two bytes alone",
        "padding to ten bytes is not seen",
        "a byte 0 alone counts as padding",
        "any second number is taken",
        "a second number of 6 is taken",
        "a second number of 7 is refused",
        "16 of a first number before 8 of the second",
        "9 of an end above 2^48 before 16",
        "16 at the descriptor after",
        "the size wraps at 2^64",
        "the distance wraps at 2^64",
    ];
    let of_loads: Vec<_> = FAULTS.iter().filter(|f| names.contains(&f.name)).collect();
    assert_eq!(of_loads.len(), names.len());
    for fault in of_loads.into_iter().chain(STEP_FAULTS) {
        let differs = |i: &u64| {
            let c = step_case(SEED, *i);
            let by = |l: &dyn Loader| l.step(&c.table, c.position, c.last_end, c.index);
            by(&RIGHT) != by(fault.loader)
        };
        let times = (0..20_000).filter(differs).count();
        println!("{times:6}  {}", fault.name);
        assert!(times > 0, "not caught: {}", fault.name);
    }
}
