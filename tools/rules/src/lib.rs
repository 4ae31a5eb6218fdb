//! What a good frame is, read from documents 01 and 02 alone.
//!
//! `layout` has the numbers and field places, `check` the rules and the
//! reading of a frame by them, `words` what is said of a broken rule. The
//! second store stands on it, and so does the tool that says why a frame is
//! not good; it knows nothing of the proved store.

pub mod check;
pub mod layout;
pub mod words;
