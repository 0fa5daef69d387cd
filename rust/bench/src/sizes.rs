//! The bytes of what crosses the C interface.
use bankcore::{answers::*, cache::Checking, rows::*, update};
use std::mem::size_of;

pub fn sizes() {
    let sizes = [
        ("an update's state", size_of::<update::State>()),
        ("an update's state and answer", update::STEP),
        ("an update's answer", size_of::<update::Answer>()),
        ("an update's next operation", size_of::<update::OperationAnswer>()),
        ("a checking state", size_of::<Checking>()),
        ("load, validate, header", size_of::<BankAnswer>()),
        ("freshness", size_of::<FreshAnswer>()),
        ("key", size_of::<KeyAnswer>()),
        ("key match", size_of::<SameKeyAnswer>()),
        ("checking begun, checking turn", size_of::<TurnAnswer>()),
        ("a bank's row", size_of::<BankRowAnswer>()),
        ("names line, row", size_of::<RowAnswer>()),
        ("row read", size_of::<ReadAnswer>()),
        ("filter query, insertion", size_of::<FilterAnswer>()),
    ];
    sizes.iter().for_each(|(name, bytes)| println!("{name}\t{bytes}"));
}
