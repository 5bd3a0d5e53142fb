//! The reasons and how they read.

use oxlanyard::{Reason, Refusal};

/// The table of document 01.
const TABLE: [(Reason, u32, &str); 14] = [
    (Reason::Dims, 1, "DIMS"),
    (Reason::Length, 2, "LENGTH"),
    (Reason::Order, 3, "ORDER"),
    (Reason::Index, 4, "INDEX"),
    (Reason::Zero, 5, "ZERO"),
    (Reason::Padding, 6, "PADDING"),
    (Reason::Differ, 7, "DIFFER"),
    (Reason::Bounds, 8, "BOUNDS"),
    (Reason::Room, 9, "ROOM"),
    (Reason::Need, 10, "NEED"),
    (Reason::Count, 11, "COUNT"),
    (Reason::NotBegun, 12, "NOT_BEGUN"),
    (Reason::State, 13, "STATE"),
    (Reason::NotNeeded, 14, "NOT_NEEDED"),
];

#[test]
fn numbers_and_names_are_those_of_document_01() {
    assert_eq!(Reason::ALL.len(), TABLE.len());
    for ((reason, number, name), listed) in TABLE.into_iter().zip(Reason::ALL) {
        assert_eq!((listed, reason.number(), reason as u32), (reason, number, number));
        assert_eq!((reason.name(), reason.to_string()), (name, name.to_string()));
        assert_eq!(Reason::from_number(number), Some(reason));
    }
    assert_eq!((Reason::from_number(0), Reason::from_number(15)), (None, None));
}

/// A refusal reads as a sentence with the place, where that means something, and ends in the name and the number.
#[test]
fn refusals_read_well() {
    for (reason, number, name) in TABLE {
        let text = Refusal { reason, place: 4711 }.to_string();
        assert!(text.ends_with(&format!(" ({name}, {number})")), "{text}");
        let carries = matches!(number, 3 | 4 | 5 | 6 | 9 | 10);
        assert_eq!(text.contains("4711"), carries, "{text}");
    }
    let order = Refusal { reason: Reason::Order, place: 5 };
    assert_eq!(order.to_string(), "the indexes do not rise: entry 5 is not above the one before (ORDER, 3)");
    let need = Refusal { reason: Reason::Need, place: 32 };
    assert_eq!(need.to_string(), "the state must grow: it wants the capacity 32 (NEED, 10)");
}

#[test]
fn a_refusal_is_an_error() {
    fn fails() -> Result<(), Box<dyn std::error::Error + Send + Sync>> {
        oxlanyard::SVectBorrowed::zero(0)?;
        Ok(())
    }
    let error = fails().unwrap_err();
    assert_eq!(error.downcast_ref(), Some(&Refusal { reason: Reason::Dims, place: 0 }));
}
