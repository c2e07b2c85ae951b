//! Instructions of a call by item: the images, lists and picks to count on, the rows of the table, and
//! what callgrind wrote for each call.
//!
//! A row is a sum of counts over calls that differ in one thing alone, so all else cancels.

use crate::answers::{Call, Listing, Loader, Picking};
use crate::bench::{assemble, call, dense, listing, picking, Tables, THREE_LEFT};
use crate::generate::module::descriptor;
use crate::{LARGEST, PAGE};

const SIZE: usize = 256 << 10;
/// Tables, places and globals lie behind the pages that PT_LOADs of their own may take.
const TABLES: usize = 64 << 10;
const PLACES: usize = 112 << 10;
const GLOBALS: usize = 128 << 10;
const SYMBOLS: usize = 32;
/// A global of 3 granules, and 2 before it.
const STEP: usize = 80;

#[derive(Clone, Copy, PartialEq, Eq)]
enum Form {
    /// One number of so many bytes.
    Bytes(usize),
    /// The size in a second number; a byte each.
    TwoNumbers,
}

/// An image by what it has; all images have the same size and the same places for everything.
#[derive(Clone, Copy, PartialEq, Eq)]
struct Shape {
    /// PT_LOADs before the one that holds all.
    passed: usize,
    form: Form,
    globals: usize,
    /// RELATIVE, or ABS64 with a symbol.
    symbols: bool,
    /// A power of two, or one or none.
    relocations: usize,
    /// Their places stand in mixed order, or they rise.
    mixed: bool,
    /// Entries of kind 0 behind them.
    skipped: usize,
    /// Packed places, one after the other in bitmaps, and empty bitmaps behind them.
    packed: usize,
    bitmaps: usize,
}

const EMPTY: Shape = Shape {
    passed: 0,
    form: Form::Bytes(1),
    globals: 0,
    symbols: false,
    relocations: 0,
    mixed: false,
    skipped: 0,
    packed: 0,
    bitmaps: 0,
};

/// Granules before a global, as few as give the form, and of it.
fn global(form: Form) -> (u64, u64) {
    match form {
        Form::Bytes(1) => (2, 3),
        Form::Bytes(bytes) => (16 << (7 * (bytes - 2)), 3),
        Form::TwoNumbers => (2, 9),
    }
}

fn image(shape: Shape) -> Call {
    let mut file = vec![0; SIZE];
    let (distance, granules) = global(shape.form);
    let mut descriptors = Vec::new();
    for i in 0..shape.globals {
        let before = if i == 0 { GLOBALS as u64 / 16 } else { distance };
        descriptors.extend(descriptor(before, granules));
    }
    let target = |i: usize| (GLOBALS + i * STEP) as u64;
    let symbols = (0..SYMBOLS).map(|i| [0x11 << 32 | 1 << 48, target(i), 8]).collect();
    let relocations = (0..shape.relocations).map(|i| {
        let symbol = (1 + i % (SYMBOLS - 1)) as u64;
        let (info, addend) =
            if shape.symbols { (257 | symbol << 32, 8) } else { (1027, target(i % MANY)) };
        // A factor that is odd gives each place of a power of two once.
        let place = if shape.mixed { i * 333 % shape.relocations } else { i };
        [(PLACES + 16 * place) as u64, info, addend]
    });
    let skipped = std::iter::repeat_n([PLACES as u64, 0, 0], shape.skipped);
    let relocations = relocations.chain(skipped).collect();
    for i in 0..shape.packed {
        file[PLACES + 8 * i..][..8].copy_from_slice(&target(i % MANY).to_le_bytes());
    }
    let packed = [dense(PLACES as u64, shape.packed), vec![1; shape.bitmaps]].concat();
    let tables = Tables { symbols, relocations, packed, descriptors };
    assemble(&mut file, shape.passed, TABLES, &tables);
    if shape.form != Form::Bytes(1) {
        // Memory behind the file, where the globals have room.
        let size = LARGEST - shape.passed as u64 * PAGE;
        file[64 + 56 * shape.passed + 40..][..8].copy_from_slice(&size.to_le_bytes());
    }
    call(file, shape.globals)
}

/// The list of as many globals of the shape's form; an image has nothing more for it.
fn list(shape: Shape) -> Listing {
    listing(std::iter::repeat_n(global(shape.form), shape.globals))
}

/// A pick for as many globals of three granules, each so many after the one before.
fn pick(shape: Shape, distance: u64, excluded: u16) -> Picking {
    picking(listing(std::iter::repeat_n((distance, 3), shape.globals)), excluded)
}

#[derive(Clone, Copy, PartialEq, Eq)]
enum What {
    Examine,
    Load,
    /// A table write with a buffer that takes any table, or of the table's length.
    Write,
    WriteExact,
    /// A pick by the granules before a global, and the mask.
    Pick(u64, u16),
}

/// A sum of counts, by the number of items that it is the count of.
struct Row {
    name: String,
    terms: Vec<(i64, What, Shape)>,
    items: i64,
}

type Terms = Vec<(i64, What, Shape)>;

/// What the larger shape has more, in one call.
fn more(what: What, small: Shape, large: Shape) -> Terms {
    vec![(1, what, large), (-1, what, small)]
}

fn less(mut terms: Terms, others: Terms) -> Terms {
    terms.extend(others.into_iter().map(|(n, what, shape)| (-n, what, shape)));
    terms
}

/// What the load adds to examine.
fn beyond(small: Shape, large: Shape) -> Terms {
    less(more(What::Load, small, large), more(What::Examine, small, large))
}

/// Numbers of descriptors; a table at its limit would end another way.
const FEW: usize = 256;
const MANY: usize = 768;
/// Of three bytes: the largest memory has room for little more.
const MANY_LONG: usize = 480;
/// PT_LOADs that are passed over.
const PASSED: usize = 8;

fn rows() -> Vec<Row> {
    use What::{Examine, Pick, Write, WriteExact};
    let mut rows = Vec::new();
    let mut row = |name: &str, items: usize, terms: Terms| {
        rows.push(Row { name: name.to_owned(), terms, items: items as i64 });
    };
    let many = |form| if form == Form::Bytes(3) { MANY_LONG } else { MANY };
    let globals = |form| [FEW, many(form)].map(|globals| Shape { form, globals, ..EMPTY });
    let forms = [
        ("a descriptor of one byte", Form::Bytes(1)),
        ("a descriptor of two bytes", Form::Bytes(2)),
        ("a descriptor of three bytes", Form::Bytes(3)),
        ("a descriptor of two numbers, a byte each", Form::TwoNumbers),
    ];
    for (name, form) in forms {
        let [small, large] = globals(form);
        row(&format!("{name}: examine"), many(form) - FEW, more(Examine, small, large));
    }
    let [small, large] = globals(Form::Bytes(1));
    row("a descriptor of one byte: the load beyond examine", MANY - FEW, beyond(small, large));

    for (name, form) in forms {
        let [small, large] = globals(form);
        row(&format!("{name}: written"), many(form) - FEW, more(Write, small, large));
    }
    let name = "a descriptor of one byte: written, no byte to spare";
    row(name, MANY - FEW, more(WriteExact, small, large));

    for (how, distance) in [("apart", 2), ("abutting", 0)] {
        for (tags, excluded) in [("nothing excluded", 0), ("three tags left", THREE_LEFT)] {
            let terms = more(Pick(distance, excluded), small, large);
            row(&format!("a tag picked, globals {how}, {tags}"), MANY - FEW, terms);
        }
    }

    // The globals that the relocations point into are there whatever the number of relocations.
    let tables = |symbols, mixed, from, to| {
        [from, to].map(|relocations| Shape { globals: MANY, symbols, relocations, mixed, ..EMPTY })
    };
    for (name, symbols) in [("a RELATIVE relocation", false), ("an ABS64 with a symbol", true)] {
        let [small, large] = tables(symbols, false, 512, 1_024);
        row(&format!("{name}, places rising: examine"), 512, more(Examine, small, large));
        for (from, to) in [(16, 32), (512, 1_024)] {
            let [small, large] = tables(symbols, true, from, to);
            let name = format!("{name}, places mixed, tables of {from} and {to}: examine");
            row(&name, to - from, more(Examine, small, large));
        }
        row(&format!("{name}: the load beyond examine"), 512, beyond(small, large));
    }
    let [small, large] = [512, 1_024].map(|skipped| Shape { globals: MANY, skipped, ..EMPTY });
    row("a skipped relocation: examine", 512, more(Examine, small, large));
    row("a skipped relocation: the load beyond examine", 512, beyond(small, large));
    // What is done once where there is a relocation.
    let [none, one] = tables(false, false, 0, 1);
    row("the first RELATIVE relocation: examine", 1, more(Examine, none, one));

    let packed = |from, to| [from, to].map(|packed| Shape { globals: MANY, packed, ..EMPTY });
    for (from, to) in [(16, 32), (512, 1_024)] {
        let [small, large] = packed(from, to);
        let name = format!("a packed place, tables of {from} and {to}: examine");
        row(&name, to - from, more(Examine, small, large));
    }
    let [small, large] = packed(512, 1_024);
    row("a packed place: the load beyond examine", 512, beyond(small, large));
    let [small, large] = [64, 2_112].map(|bitmaps| Shape { packed: 1, bitmaps, ..EMPTY });
    row("an empty bitmap word: examine", 2_048, more(Examine, small, large));
    row("an empty bitmap word: the load beyond examine", 2_048, beyond(small, large));

    let passing = |small: Shape, large: Shape| {
        let behind = |shape| Shape { passed: PASSED, ..shape };
        less(more(Examine, behind(small), behind(large)), more(Examine, small, large))
    };
    let [small, large] = globals(Form::Bytes(1));
    row("a PT_LOAD passed over, a global's lookup", PASSED * (MANY - FEW), passing(small, large));
    let [small, large] = tables(false, true, 512, 1_024);
    let places = passing(small, large);
    let [small, large] = tables(true, true, 512, 1_024);
    let both = passing(small, large);
    row("a PT_LOAD passed over, a symbol's lookup", PASSED * 512, less(both, places.clone()));
    row("a PT_LOAD passed over, a place's lookup", PASSED * 512, places);
    let [small, large] = packed(512, 1_024);
    row("a PT_LOAD passed over, a packed place's lookup", PASSED * 512, passing(small, large));
    let loads = beyond(EMPTY, Shape { passed: PASSED, ..EMPTY });
    row("a PT_LOAD: the load beyond examine", PASSED, loads);
    row("the rest of examine, once", 1, vec![(1, Examine, EMPTY)]);
    rows
}

/// A call with all its arguments.
pub enum Counted<'a> {
    Examine(&'a Call),
    Load(&'a Call, &'a mut [u8], &'a mut [u8]),
    Write(&'a Listing, &'a mut [u8]),
    Pick(&'a Picking, &'a mut [u8]),
}

/// The function that callgrind counts; it writes a profile each time it is left.
#[no_mangle]
#[inline(never)]
pub fn hagolstan_counted_call(loader: &dyn Loader, counted: Counted) -> u64 {
    match counted {
        Counted::Examine(call) => loader.examine(&call.file),
        Counted::Load(call, memory, plane) => {
            loader.load(&call.file, call.bias, memory, plane, &call.choices)
        }
        Counted::Write(list, buffer) => loader.write_table(&list.addresses, &list.sizes, buffer),
        Counted::Pick(pick, choices) => {
            let Picking { addresses, sizes, random, excluded, .. } = pick;
            loader.pick_tags(addresses, sizes, random, *excluded, choices)
        }
    }
}

/// The buffers that a call of an image leaves.
fn left_by(loader: &dyn Loader, whole: bool, shape: Shape) -> [Vec<u8>; 2] {
    let call = image(shape);
    let mut memory = vec![0xa5; call.memory_length];
    let mut plane = vec![0x5a; call.plane_length];
    let counted =
        if whole { Counted::Load(&call, &mut memory, &mut plane) } else { Counted::Examine(&call) };
    assert_eq!(hagolstan_counted_call(loader, counted), shape.globals as u64 * 256);
    [memory, plane]
}

/// The buffer that a table write leaves.
fn written_by(loader: &dyn Loader, exact: bool, shape: Shape) -> Vec<u8> {
    let list = list(shape);
    let bytes = match shape.form {
        Form::Bytes(bytes) => bytes,
        Form::TwoNumbers => 2,
    };
    let length = shape.globals * bytes;
    let mut buffer = vec![0xa5; if exact { length } else { list.buffer_length }];
    let answer = hagolstan_counted_call(loader, Counted::Write(&list, &mut buffer));
    assert_eq!(answer, length as u64 * 256);
    buffer
}

/// The choices that a pick leaves.
fn picked_by(loader: &dyn Loader, pick: &Picking) -> Vec<u8> {
    let mut choices = vec![0xa5; pick.choices.len()];
    let answer = hagolstan_counted_call(loader, Counted::Pick(pick, &mut choices));
    assert_eq!(answer, pick.addresses.len() as u64 * 256);
    choices
}

/// Makes every call of the table by both loaders in turn; the number of calls. Panics where an
/// answer is not the expected one or the loaders leave different bytes.
pub fn calls(loaders: [&dyn Loader; 2]) -> usize {
    let terms: Terms = rows().into_iter().flat_map(|row| row.terms).collect();
    for &(_, what, shape) in &terms {
        let left = loaders.map(|loader| match what {
            What::Examine | What::Load => left_by(loader, what == What::Load, shape).concat(),
            What::Write | What::WriteExact => written_by(loader, what == What::WriteExact, shape),
            What::Pick(distance, excluded) => picked_by(loader, &pick(shape, distance, excluded)),
        });
        assert!(left[0] == left[1], "the loaders leave different bytes");
    }
    2 * terms.len()
}

/// The table, from the instructions of each call in order.
pub fn table(counts: &[i64]) -> Result<String, String> {
    let rows = rows();
    let expected = 2 * rows.iter().map(|row| row.terms.len()).sum::<usize>();
    if counts.len() != expected {
        return Err(format!("{} calls were counted, {expected} are expected", counts.len()));
    }
    let mut text = format!(
        "Instructions an item, from two tables that differ in length; memset, memcpy and memmove are left out.\n\
         Where no tables are named they have {FEW} and {MANY} descriptors or globals ({MANY_LONG} of three bytes), or 512 and\n\
         1024 relocations or packed places. One PT_LOAD holds all, and {PASSED} more come before it where some are\n\
         passed over.\n\n\
         | Item | archive | Rust |\n|---|---|---|\n"
    );
    let mut pairs = counts.chunks_exact(2);
    for row in rows {
        let mut sums = [0; 2];
        for ((sign, _, _), pair) in row.terms.iter().zip(&mut pairs) {
            for (sum, count) in sums.iter_mut().zip(pair) {
                *sum += sign * count;
            }
        }
        let [archive, rust] = sums.map(|sum| sum as f64 / row.items as f64);
        text += &format!("| {} | {archive:.1} | {rust:.1} |\n", row.name);
    }
    Ok(text)
}

fn left_out(object: &str, function: &str) -> bool {
    let file = object.rsplit('/').next().unwrap_or(object);
    file.starts_with("libc.") || file.starts_with("libc-") || {
        ["memset", "memcpy", "memmove"].iter().any(|name| function.contains(name))
    }
}

/// The instructions in one profile of callgrind, written with whole names, without those of memset,
/// memcpy and memmove. These are the C library's, where they may have no name: all of it is left out.
pub fn instructions(profile: &str) -> Result<i64, String> {
    let (mut object, mut function) = ("", "");
    let (mut counted, mut all, mut total) = (0, 0, None);
    let mut lines = profile.lines();
    while let Some(line) = lines.next() {
        let number =
            |text: &str| text.trim().parse::<i64>().map_err(|_| format!("bad line: {line}"));
        match line.split_once('=') {
            Some(("ob", name)) => object = name,
            Some(("fn", name)) => function = name,
            // The line after it has the cost of the function called, which is counted by itself.
            Some(("calls", _)) => _ = lines.next(),
            _ => {}
        }
        if let Some(value) = line.strip_prefix("totals:") {
            total = Some(number(value)?);
        } else if line.starts_with(|c: char| c.is_ascii_digit() || "+-*".contains(c)) {
            let cost = line.split_once(' ').map_or(Ok(0), |(_, cost)| number(cost))?;
            all += cost;
            if !left_out(object, function) {
                counted += cost;
            }
        }
    }
    match total {
        Some(total) if total == all && counted > 0 => Ok(counted),
        Some(total) => Err(format!("{all} instructions read, {counted} counted, {total} in all")),
        None => Err("no total".to_owned()),
    }
}
