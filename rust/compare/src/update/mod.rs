//! What the parts on updates share.
pub mod any;
pub mod calls;
pub mod content;
pub mod core;
pub mod cut;
pub mod fields;
pub mod flash;
pub mod history;
pub mod lifted;
pub mod model;
pub mod steps;
pub mod supply;
pub mod upper;
