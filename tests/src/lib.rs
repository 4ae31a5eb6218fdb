//! A second settings store, written from documents 01 and 02 alone, and the harness
//! that compares any store with it.
//!
//! `layout` and `check`, which have a package of their own (`tools/rules`), and
//! `value`, `store`, `names` and `batch` are the second store. `slotless` and `image` are two
//! further readings of the documents, and the store is held to both.
//! `compare` holds any store's calls to all of them; `run` is what the gate runs.

pub use frame_rules::{check, layout};

pub mod batch;
pub mod batches;
pub mod bindings;
pub mod chains;
pub mod compare;
pub mod crafted;
pub mod damage;
pub mod decode;
pub mod exported;
pub mod history;
pub mod image;
pub mod listings;
pub mod names;
pub mod orders;
pub mod random;
pub mod run;
pub mod session;
pub mod slotless;
pub mod stamps;
pub mod store;
pub mod tally;
pub mod touched;
pub mod trees;
pub mod unused;
pub mod value;
pub mod worked;
pub mod wrong;
pub mod wrong_editions;
pub mod wrong_stamps;
