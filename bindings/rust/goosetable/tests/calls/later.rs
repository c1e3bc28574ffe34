//! What later versions extend. A host must pass over what it does not know: where an enum were exhaustive, the last
//! arm of these would be unreachable, and this file would not compile.
#![deny(unreachable_patterns)]

use super::*;

fn number(refusal: Refusal) -> Option<u8> {
    Some(match refusal {
        Refusal::ShortArea => 1,
        Refusal::UnknownContact => 2,
        Refusal::WrongExchange => 3,
        Refusal::NoCell => 4,
        Refusal::NoTombstoneRow => 5,
        Refusal::NoSlot => 6,
        Refusal::Configuration => 7,
        Refusal::SavedFile => 8,
        Refusal::NoBadTagRow => 9,
        Refusal::MessageNumberTaken => 10,
        Refusal::OwnLength => 11,
        Refusal::WindowRows => 12,
        Refusal::LogRecord => 13,
        Refusal::Other { number, .. } => number,
        _ => return None,
    })
}

fn kind(action: Action) -> Option<u8> {
    Some(match action {
        Action::Put(_) => 0,
        Action::Delete(_) => 1,
        Action::OwnPut { .. } => 2,
        _ => return None,
    })
}

fn cells(error: SizeError) -> Option<usize> {
    match error {
        SizeError::CarriedCells(cells) | SizeError::OwnCells(cells) => Some(cells),
        SizeError::Memory => Some(0),
        _ => None,
    }
}

#[test]
fn nothing_is_new_yet() {
    let refusals = (1..=127).map(|number| Refusal::from_number(number).unwrap());
    assert!(refusals.map(number).eq((1..=127).map(Some)));
    let own_put = Action::OwnPut {
        contact: VERIFIED,
        message: 1,
    };
    let actions = [Action::Put(Slot(0)), Action::Delete(Slot(0)), own_put];
    assert_eq!(actions.map(kind), [Some(0), Some(1), Some(2)]);
    assert_eq!(cells(SizeError::OwnCells(300)), Some(300));
}
