//! Generated rule sets, and the library on them beside the reference. A test instrument: unproved.

pub mod compare;
pub mod fixed;
pub mod generate;
pub mod random;
pub mod wide;
