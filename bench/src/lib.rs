//! The plain store, the exported calls of the proved store, and what both are
//! measured on.

pub mod calls;
pub mod deepest;
pub mod measure;
pub mod plain;
pub mod random;
pub mod stack;
pub mod workload;
