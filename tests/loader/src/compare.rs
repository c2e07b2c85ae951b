//! Two loaders side by side on the vectors and on generated cases.

use crate::answers::{Call, Listing, Loader, Outcome, Picked, Picking, Written, RIGHT};
use crate::generate::list::write_case;
use crate::generate::pick::pick_case;
use crate::generate::{case, step_case};
use crate::pick_by_words::judge;
use crate::{faults, ffi, load_untagged, vectors, Step, Untagged};

/// The loader to compare with, by name: archive, self, or fault: and a fault's name.
pub fn partner(name: &str) -> Result<&'static dyn Loader, String> {
    if name == "archive" {
        let missing = "built without the archive: set HAGOLSTAN_LIB to its folder and build again";
        return ffi::proved().ok_or(missing.to_owned());
    }
    if name == "self" {
        return Ok(&RIGHT);
    }
    match name.strip_prefix("fault:").and_then(faults::named) {
        Some(fault) => Ok(fault.loader),
        None => Err(format!("no loader of the name {name}")),
    }
}

/// What differs, in words; empty where nothing does. Where the other takes the load, it is compared
/// with the untagged loader as well.
pub fn difference(call: &Call, plain: &Outcome, other: &Outcome) -> String {
    let mut words = Vec::new();
    let mut numbers = |what: &str, a: u64, b: u64| {
        if a != b {
            words.push(format!("{what}: plain {}, other {}", shown(a), shown(b)));
        }
    };
    numbers("load", plain.load, other.load);
    numbers("examine", plain.examine, other.examine);
    if plain.facts != other.facts {
        words.push(format!("facts: plain {:#x}, other {:#x}", plain.facts, other.facts));
    }
    words.extend(bytes_differ("memory", "plain", &plain.memory, &other.memory));
    words.extend(bytes_differ("plane", "plain", &plain.plane, &other.plane));
    if plain.strayed || other.strayed {
        words.push("a byte beside the lent buffers was changed".to_owned());
    }
    words.extend(untagged_difference(call, other));
    words.join("\n  ")
}

/// How the bytes of the loader of a name differ from the other's.
fn bytes_differ(what: &str, name: &str, a: &[u8], b: &[u8]) -> Option<String> {
    if a == b {
        return None;
    }
    let count = a.iter().zip(b).filter(|(x, y)| x != y).count();
    let at = (0..a.len()).find(|&i| a[i] != b[i])?;
    let (x, y) = (a[at], b[at]);
    Some(format!("{what}: {count} bytes, first at {at:#x}: {name} {x:#04x}, other {y:#04x}"))
}

/// How a load that was taken differs from the untagged loader's, in words: by more than the top bytes
/// of relocated words, which are 0 in the untagged memory.
fn untagged_difference(call: &Call, other: &Outcome) -> Option<String> {
    if other.number() != 0 {
        return None;
    }
    match load_untagged(&call.file, call.bias, call.memory_length as u64) {
        Err(r) => Some(format!("untagged: refused {} at {}, other taken", r.number, r.position)),
        Ok(Untagged { memory, places }) => {
            let mut bare = other.memory.clone();
            for place in places {
                bare[place + 7] = 0;
            }
            bytes_differ("memory but for tags", "untagged", &memory, &bare)
        }
    }
}

/// What differs between two table writes, in words; empty where nothing does.
pub fn write_difference(plain: &Written, other: &Written) -> String {
    let mut words = Vec::new();
    if plain.answer != other.answer {
        words.push(format!("answer: plain {}, other {}", plain.answer, other.answer));
    }
    words.extend(bytes_differ("buffer", "plain", &plain.buffer, &other.buffer));
    if plain.strayed || other.strayed {
        words.push("a byte beside the lent buffer was changed".to_owned());
    }
    words.join("\n  ")
}

/// What differs between two picks, in words, and what either has against the words of the documents; empty
/// where nothing does.
pub fn pick_difference(pick: &Picking, plain: &Picked, other: &Picked) -> String {
    let mut words = Vec::new();
    if plain.answer != other.answer {
        words.push(format!("answer: plain {}, other {}", shown(plain.answer), shown(other.answer)));
    }
    words.extend(bytes_differ("choices", "plain", &plain.choices, &other.choices));
    if plain.strayed || other.strayed {
        words.push("a byte beside the lent choices was changed".to_owned());
    }
    for (name, picked) in [("plain", plain), ("other", other)] {
        let wrong = judge(pick, picked).err();
        words.extend(wrong.map(|why| format!("by the words, {name}: {why}")));
    }
    words.join("\n  ")
}

/// Reads a table by a loader's steps: the listed globals one a step, then the end.
pub fn reads_back(loader: &dyn Loader, table: &[u8], list: &Listing) -> Result<(), String> {
    let (mut at, mut last_end) = (0, 0);
    for (i, (&address, &size)) in list.addresses.iter().zip(&list.sizes).enumerate() {
        match loader.step(table, at, last_end, i as u64) {
            Some(Ok(Step::Global { start, granules, position, end }))
                if start == address && granules.checked_mul(16) == Some(size) =>
            {
                (at, last_end) = (position, end)
            }
            None => return Ok(()),
            step => return Err(format!("global {i} at {address:#x} of {size:#x} reads {step:x?}")),
        }
    }
    match loader.step(table, at, last_end, list.addresses.len() as u64) {
        Some(Ok(Step::Finished)) | None => Ok(()),
        step => Err(format!("after the last global comes {step:x?}")),
    }
}

fn shown(answer: u64) -> String {
    match answer % 256 {
        0 => format!("{answer} (taken, {} globals)", answer / 256),
        number => format!("{answer} (refused {number} at {})", answer / 256),
    }
}

pub fn hex(bytes: &[u8]) -> String {
    bytes.iter().map(|b| format!("{b:02x}")).collect()
}

pub fn unhex(text: &str) -> Option<Vec<u8>> {
    let digits = text.len().is_multiple_of(2) && text.is_ascii();
    let pairs = (0..text.len()).step_by(2);
    digits.then(|| pairs.map(|i| u8::from_str_radix(&text[i..i + 2], 16).ok()).collect())?
}

/// The arguments by which replay runs a call again.
pub fn replay_line(call: &Call, path: &str, against: &str) -> String {
    format!(
        "compare replay {path} --bias {:#x} --memory {} --plane {} --choices '{}' --against '{against}'",
        call.bias,
        call.memory_length,
        call.plane_length,
        hex(&call.choices),
    )
}

pub struct Settings {
    pub against: String,
    pub seed: u64,
    pub first: u64,
    pub cases: u64,
    /// Where the file of a differing call is written; a number is put after it.
    pub dump: String,
    /// Differences after which the run stops.
    pub stop: usize,
}

/// Counts of a run, by refusal number; 0 is taken.
#[derive(Default)]
pub struct Counts {
    pub answers: [u64; 17],
    pub write_answers: [u64; 7],
    /// 1 and 6 are none of the picker's.
    pub pick_answers: [u64; 9],
    pub calls: u64,
    pub steps: u64,
    pub writes: u64,
    pub picks: u64,
    pub different: usize,
}

struct Run<'a> {
    settings: &'a Settings,
    other: &'static dyn Loader,
    counts: Counts,
}

impl Run<'_> {
    fn call(&mut self, name: &str, call: &Call) {
        let (plain, other) = (RIGHT.outcome(call), self.other.outcome(call));
        let words = difference(call, &plain, &other);
        self.counts.answers[usize::from(plain.number())] += 1;
        self.counts.calls += 1;
        if words.is_empty() {
            return;
        }
        let path = format!("{}.{}", self.settings.dump, self.counts.different);
        self.counts.different += 1;
        println!("different: {name}\n  {words}");
        println!("  answers: plain {}, other {}", plain.load, other.load);
        match std::fs::write(&path, &call.file) {
            Ok(()) => println!("  {}", replay_line(call, &path, &self.settings.against)),
            Err(e) => println!("  {path}: {e}"),
        }
    }

    fn step(&mut self, name: &str, table: &[u8], position: u64, last_end: u64, index: u64) {
        let Some(other) = self.other.step(table, position, last_end, index) else { return };
        let plain = RIGHT.step(table, position, last_end, index);
        self.counts.steps += 1;
        if plain != Some(other) {
            self.counts.different += 1;
            println!("different: {name}\n  step({}, {position}, {last_end}, {index})", hex(table));
            println!("  plain {plain:?}\n  other {other:?}");
        }
    }

    /// A table write by both; what is taken is read back by both.
    fn write(&mut self, name: &str, list: &Listing) {
        let (plain, other) = (RIGHT.written(list), self.other.written(list));
        self.counts.write_answers[usize::from(plain.number())] += 1;
        self.counts.writes += 1;
        let mut words = write_difference(&plain, &other);
        if let (true, Some(table)) = (words.is_empty(), plain.table()) {
            let read = reads_back(&RIGHT, table, list).and(reads_back(self.other, table, list));
            words = read.err().unwrap_or_default();
        }
        if words.is_empty() {
            return;
        }
        self.counts.different += 1;
        println!("different: {name}\n  {words}");
        let (addresses, sizes) = (&list.addresses, &list.sizes);
        println!("  {} addresses, {} sizes", addresses.len(), sizes.len());
        if addresses.len().max(sizes.len()) <= 40 {
            println!("  write_table({addresses:x?}, {sizes:x?}, {} bytes)", list.buffer_length);
        }
    }

    /// A pick by both, and by the words of the documents.
    fn pick(&mut self, name: &str, pick: &Picking) {
        let (plain, other) = (RIGHT.picked(pick), self.other.picked(pick));
        self.counts.pick_answers[usize::from(plain.number())] += 1;
        self.counts.picks += 1;
        let words = pick_difference(pick, &plain, &other);
        if words.is_empty() {
            return;
        }
        self.counts.different += 1;
        println!("different: {name}\n  {words}");
        let Picking { addresses, sizes, random, excluded, choices } = pick;
        let lengths = [addresses.len(), sizes.len(), random.len(), choices.len()];
        println!("  addresses, sizes, random bytes and choices: {lengths:?}");
        if lengths.iter().all(|&length| length <= 40) {
            let (random, choices) = (hex(random), hex(choices));
            println!(
                "  pick_tags({addresses:x?}, {sizes:x?}, {random}, {excluded:#06x}, {choices})"
            );
        }
    }

    fn full(&self) -> bool {
        self.counts.different >= self.settings.stop
    }
}

/// All vectors and the generated cases; stops after a few differences.
pub fn run(settings: &Settings) -> Result<Counts, String> {
    let other = partner(&settings.against)?;
    let mut run = Run { settings, other, counts: Counts::default() };
    for set in vectors::LOADS {
        for (i, v) in vectors::loads(set).iter().enumerate() {
            if !run.full() {
                run.call(&format!("vector {i} of {set}, {}", v.name), &v.call);
            }
        }
    }
    vectors::each_large(|i, v| {
        if !run.full() {
            run.call(&format!("vector {i} of {}, {}", vectors::LARGE, v.name), &v.call);
        }
    });
    for set in vectors::STEPS {
        for (i, v) in vectors::steps(set).iter().enumerate() {
            if !run.full() {
                let name = format!("vector {i} of {set}");
                run.step(&name, &v.table, v.position, v.last_end, v.index);
            }
        }
    }
    for (i, v) in vectors::writes().iter().enumerate() {
        if !run.full() {
            run.write(&format!("write vector {i}, {}", v.name), &v.list);
        }
    }
    for (i, v) in vectors::picks().iter().enumerate() {
        if !run.full() {
            run.pick(&format!("pick vector {i}, {}", v.name), &v.pick);
        }
    }
    for number in settings.first..settings.first + settings.cases {
        if run.full() {
            break;
        }
        let c = case(settings.seed, number);
        run.call(&format!("case {number} of seed {:#x}, {}", settings.seed, c.name), &c.call);
        let s = step_case(settings.seed, number);
        let name = format!("step {number} of seed {:#x}", settings.seed);
        run.step(&name, &s.table, s.position, s.last_end, s.index);
        let w = write_case(settings.seed, number);
        run.write(&format!("list {number} of seed {:#x}, {}", settings.seed, w.name), &w.list);
        let p = pick_case(settings.seed, number);
        run.pick(&format!("pick {number} of seed {:#x}, {}", settings.seed, p.name), &p.pick);
    }
    Ok(run.counts)
}
