//! The refusals' numbers. A call gives the first that applies in the order 32, 33 (given), 1, 2 (under 512 bytes), 3, 4, 2 (length), 9, 10, 11,
//! 29, 21, 22, 6, 8, 5, 23, 24, 31, 25, 33 (found), 7, 26, 28, 27.

// From the input.
pub const SHAPE: usize = 1; // format: rows, cols or zones outside its range, or id 0
pub const LENGTH: usize = 2; // pool under 512 bytes, or not the header's length
pub const NO_HEADER: usize = 3; // neither header valid
pub const HEADERS_DIFFER: usize = 4; // both valid and different
pub const OUT_OF_POOL: usize = 5; // cell address not below Z * 4 * R * C
pub const BODY: usize = 6; // allocate: body 0 or above 496
pub const RANGE: usize = 7; // write: range empty or past the body
pub const LOSS_LIST: usize = 8; // loss list not Z * C masks, or a bit above R set
pub const STAGING: usize = 9; // staging under 2,032 bytes
pub const IMPOSSIBLE: usize = 10; // transaction or recovery record impossible
pub const OTHER_POOL: usize = 11; // the record's id is not the pool's

// From the state.
pub const SEALED: usize = 21; // a seal is not zero
pub const NO_LOG: usize = 22; // both seals non-zero, neither log valid
pub const BROKEN: usize = 23; // the zone is broken anywhere
pub const NO_OBJECT: usize = 24; // no object begins there
pub const DAMAGED: usize = 25; // object damaged: its check is wrong, or a byte behind its body is not zero
pub const NO_ROOM: usize = 26; // no free run long enough
pub const TOO_MANY: usize = 27; // more than 127 distinct words touched
pub const TWO_LOST: usize = 28; // a mask with two bits or more
pub const STATE: usize = 29; // staging or starting when not open, or a step when not committing or recovering

// Of set-ups.
pub const NO_SETUP: usize = 31; // recall: no object has the set-up's tag
pub const SETUP_NUMBER: usize = 32; // number above 9
pub const SETUP_SIZE: usize = 33; // body not 120 bytes, given or found
