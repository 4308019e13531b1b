//! What the programs `bench` and `load` share: recordings of a night, made for a measurement; and what `bench` measures
//! with.

pub mod epochs;
pub mod fastest;
pub mod index;
mod judged;
pub mod night;
pub mod plain;
pub mod runs;
pub mod timing;
