//! A plain Rust twin of the replayer, the other engine over C, and what is
//! needed to compare the two.

pub mod answer;
pub mod check;
pub mod gen;
pub mod native;
pub mod tally;
pub mod twin;

// The second copy is compiled from its own module tree, so that a fault put
// into one copy leaves the other alone (faults/faults.sh changes this path).
#[cfg(not(feature = "native"))]
#[path = "twin/mod.rs"]
pub mod stand_in;
