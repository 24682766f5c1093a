//! What a sheet may hold at most, and the room the bench program lends.

pub const EDITION: u8 = 1;
pub const TERMS: usize = 200;
pub const SKELETONS: usize = 2;
pub const STRANDS: usize = 6;
pub const HEIGHT: usize = 16;
pub const PAIRS: usize = 64;
pub const NONS: usize = 32;
pub const UNIQUES: usize = 32;

pub const NO_IMAGE: u8 = 255;

/// How many bytes of its input the bench program looks at.
pub const BENCH_INPUT: usize = 4096;
/// How many bytes the bench program lends the list.
pub const BENCH_ROOM: usize = 49_152;

/// A slot for every number that a byte can hold.
pub const TERM_ROOM: usize = 256;

// One more than the limit: a planted slip may let it in.
pub const STRAND_ROOM: usize = STRANDS + 1;
pub const HEIGHT_ROOM: usize = HEIGHT + 1;
pub const PAIR_ROOM: usize = PAIRS + 1;

/// Nodes are bits of a `u128`, so this may not pass 128.
pub const NODE_ROOM: usize = STRAND_ROOM * HEIGHT_ROOM;
