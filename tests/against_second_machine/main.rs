//! The library against the second machine on random schedules.
//!
//! After every call the answer and the four tables are compared, word for word. The schedules are
//! long and short, on small and large boards, on tables reached from an opening and on damaged
//! ones, with tables of the right lengths and of wrong ones.

mod damaged;
mod lists;
#[path = "../random.rs"]
mod random;
mod reached;
mod requests;
#[path = "../second_machine/mod.rs"]
mod second_machine;
