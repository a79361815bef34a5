//! What the tests of the proved library share.
pub mod calls;
pub mod code;
pub mod driver;
pub mod in_use;
pub mod judge;
pub mod layout;
pub mod lines;
pub mod memory;
pub mod pools;
pub mod random;
pub mod requests;
pub mod scribble;
pub mod setups;
pub mod staged;
pub mod trace;

/// How many times the usual number of cases is run: 1, or 20 if the environment says POOL_TESTS=long.
pub fn times() -> usize {
    match std::env::var("POOL_TESTS").as_deref() {
        Ok("long") => 20,
        _ => 1,
    }
}
