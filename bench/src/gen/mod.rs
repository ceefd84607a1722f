//! Seeded makers of schedule files and single steps.

mod counting;
mod damage;
pub mod files;
mod flag;
mod flat;
mod lock;
pub mod model;
pub mod rng;
pub mod rounds;
pub mod singles;
pub mod small;
