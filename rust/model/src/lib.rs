//! An independent model of the ivshmem v2 hub, and what is needed to compare the linked library with it.
//!
//! [`hub`] is the model, written from the rules alone; R1 and so on are their numbers in docs/RULES.md. [`layout`] says which
//! hub the library's words are. The rest is the comparison: [`call`] histories, made by [`generate`], run on two [`subject`]s by
//! [`compare`], cut short by [`shrink`] where they differ, and counted by [`count`]. [`one_shot`] checks a law of whole histories
//! on one subject alone, and [`isolation`] one of [`pairs`] of histories with the same [`window`]. [`log`] plays logs of calls by
//! the model, and [`random_log`] makes them.

#![deny(unsafe_code)]

pub mod call;
pub mod compare;
pub mod count;
pub mod generate;
pub mod hub;
pub mod isolation;
pub mod layout;
pub mod log;
pub mod one_shot;
pub mod pairs;
pub mod random;
pub mod random_log;
pub mod shrink;
pub mod subject;
pub mod window;
pub mod world;
