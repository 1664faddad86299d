//! The programs that the proved library is measured against, and the sheets. All programs take the same
//! steps and keep no boundary sizes. [`plain`] and [`tuned`] make one pass over all vertices and edges at
//! each choice; [`counted`] counts from the other side.

pub mod counted;
pub mod plain;
mod shared;
pub mod sheets;
pub mod tuned;
