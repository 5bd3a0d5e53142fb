//! Replays the cases of the proved test programs through the archive, and compares the answers with theirs.
//!
//! `crates/test_sparse` and `crates/test_aggregate` have every call with every refusal: they are replayed through the
//! raw calls, which take what no safe type holds. `crates/test_rust` has answers of the Rust original: it is replayed
//! through the safe types.

mod read;
mod rust;
mod sparse;
mod states;

/// Compares the answer to each case of a program with what the program printed, but for the cases that are passed over.
fn replay(program: &str, at_least: usize, passed_over: &str, answer: impl Fn(&str) -> String) {
    let mut count = 0;
    for (case, expected) in read::cases(program) {
        if !passed_over.is_empty() && case.starts_with(passed_over) {
            continue;
        }
        assert_eq!(answer(&case), expected, "{program}: {case}");
        count += 1;
    }
    assert!(count >= at_least, "{program} has {count} cases");
}

#[test]
fn sparse_vectors_as_in_test_sparse() {
    replay("test_sparse", 655, "", sparse::answer);
}

#[test]
fn states_as_in_test_aggregate() {
    replay("test_aggregate", 607, "", states::answer);
}

/// But for the counts of `bit`, which are no calls of the archive.
#[test]
fn vectors_and_runs_as_in_the_rust() {
    replay("test_rust", 3000, "bit ", rust::answer);
}
