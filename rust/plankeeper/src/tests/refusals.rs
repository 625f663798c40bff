//! Refusals and their numbers. Their sentences are tried beside the header's.

use std::error::Error;

use crate::Refusal;

#[test]
fn numbers() {
    for refusal in Refusal::ALL {
        assert_eq!(Refusal::from_number(refusal.number()), Some(refusal));
    }
    let numbers: Vec<u8> = Refusal::ALL.map(Refusal::number).into();
    assert_eq!(numbers, (1..=19).collect::<Vec<u8>>());
    let none = (0..=255).filter(|&number| Refusal::from_number(number).is_none());
    assert!(none.eq([0].into_iter().chain(20..=255)));
}

#[test]
fn a_refusal_is_an_error() {
    let error: Box<dyn Error> = Refusal::SumsDiffer.into();
    assert_eq!(error.to_string(), "sums differ");
}
