//! The object pool of document 01 in plain Rust, with requests A.1, A.2, A.3, A.4, A.8 and A.9 of document 02, written from the documents
//! alone. Tests compare the proved library with it, and the benchmark measures it as the baseline. It allocates nothing and uses
//! no unsafe code.

#![forbid(unsafe_code)]

mod advance;
mod checksum;
mod commands;
mod header;
mod layout;
mod log;
mod pages;
mod records;
mod refusal;
mod runs;
mod setups;
mod steps;
mod transaction;
mod writeset;

pub use advance::{commit_advance, recover_advance};
pub use checksum::check;
pub use commands::command;
pub use header::mend;
pub use pages::{format, repair, scrub};
pub use records::*;
pub use runs::look;
pub use setups::{look_up, recall, save};
pub use steps::{commit_step, recover, recover_step};
pub use transaction::{allocate, begin, commit, free, write};
