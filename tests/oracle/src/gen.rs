//! Generators of tables, pools and schedules; all are functions over a seeded
//! generator, so that another implementation can be put to the same inputs.

pub mod beats;
pub mod brief;
pub mod bytes;
pub mod calls;
pub mod faults;
pub mod loops;
pub mod pools;
pub mod programs;
pub mod scenario;
pub mod schedules;
pub mod small;
pub mod twins;

pub use scenario::{notes, scenario, Scenario, Source};
