//! The Rust loader gives every answer of the outside vectors.

use loader::answers::{Call, Loader, RIGHT};
use loader::compare::difference;
use loader::ffi::proved;
use loader::{examine, load_untagged, pick_by_words, step, vectors, Refusal};

#[test]
fn loads() {
    for (set, count) in vectors::LOADS.into_iter().zip([700, 262, 341, 198, 155, 269]) {
        let vectors = vectors::loads(set);
        assert_eq!(vectors.len(), count);
        for (i, v) in vectors.iter().enumerate() {
            let line = vectors::load_line(&RIGHT.outcome(&v.call), &examine(&v.call.file));
            assert_eq!(line, v.answer, "{set}: case {i}, {}", v.name);
        }
    }
}

/// The untagged loader has no answers of its own here: it answers as the load does but for descriptors,
/// plane and choices. Where this was built with the archive, the archive gives the same as the load.
#[test]
fn large_loads() {
    let mut count = 0;
    vectors::each_large(|i, v| {
        let at = format!("{}: case {i}, {}", vectors::LARGE, v.name);
        let outcome = RIGHT.outcome(&v.call);
        assert_eq!(vectors::load_line(&outcome, &examine(&v.call.file)), v.answer, "{at}");
        assert_eq!(difference(&v.call, &outcome, &outcome), "", "{at}");
        let Call { file, bias, memory_length, plane_length, .. } = &v.call;
        let untagged = load_untagged(file, *bias, *memory_length as u64).err();
        let expected = match outcome.number() {
            0 | 9 | 14 => None,
            12 if *plane_length != memory_length / 16 => None,
            number => Some(Refusal { number, position: outcome.position() }),
        };
        assert_eq!(untagged, expected, "{at}");
        if let Some(archive) = proved() {
            assert_eq!(difference(&v.call, &outcome, &archive.outcome(&v.call)), "", "{at}");
        }
        count += 1;
    });
    assert_eq!(count, 60);
}

#[test]
fn untagged_loads() {
    for (folder, count) in vectors::UNTAGGED.into_iter().zip([262, 341, 198, 155, 269]) {
        let vectors = vectors::untagged_loads(folder);
        assert_eq!(vectors.len(), count);
        for (i, v) in vectors.iter().enumerate() {
            let Call { file, bias, memory_length, .. } = &v.call;
            let line = vectors::untagged_line(&load_untagged(file, *bias, *memory_length as u64));
            assert_eq!(line, v.answer, "{folder}: case {i}, {}", v.name);
        }
    }
}

#[test]
fn steps() {
    for (set, count) in vectors::STEPS.into_iter().zip([400, 303]) {
        let vectors = vectors::steps(set);
        assert_eq!(vectors.len(), count);
        for (i, v) in vectors.iter().enumerate() {
            let line = vectors::step_line(&step(&v.table, v.position, v.last_end, v.index));
            assert_eq!(line, v.answer, "{set}: case {i}");
        }
    }
}

#[test]
fn writes() {
    let vectors = vectors::writes();
    assert_eq!(vectors.len(), 346);
    for (i, v) in vectors.iter().enumerate() {
        let written = RIGHT.written(&v.list);
        assert_eq!(vectors::write_line(&written), v.answer, "case {i}, {}", v.name);
        assert!(!written.strayed, "case {i}, {}", v.name);
    }
}

/// The words say the same, and the archive where this was built with it.
#[test]
fn picks() {
    let vectors = vectors::picks();
    assert_eq!(vectors.len(), 358);
    for (i, v) in vectors.iter().enumerate() {
        for loader in std::iter::once(&RIGHT as &dyn Loader).chain(proved()) {
            let picked = loader.picked(&v.pick);
            assert_eq!(vectors::pick_line(&picked), v.answer, "case {i}, {}", v.name);
            assert_eq!(pick_by_words::judge(&v.pick, &picked), Ok(()), "case {i}, {}", v.name);
            assert!(!picked.strayed, "case {i}, {}", v.name);
        }
    }
}
