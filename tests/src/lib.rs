//! A second evaluator of club report plans, written from the papers alone: paper 01, and the requests of paper 02 that have landed.
//!
//! It shares no code and no definition with the proved library: it reads the same bytes in its
//! own way, so that a mistake in reading the paper shows as a difference between the two.
//! It is plain rather than quick. The calls that the library has are in [`calls`] and its converter in [`convert`]; `archive` and
//! `held` hold those of the library's archive against them, where the archive is there.

#[cfg(archive)]
pub mod archive;
pub mod between;
pub mod build;
pub mod by_hand;
pub mod calls;
pub mod cases;
pub mod cells;
pub mod check;
pub mod convert;
pub mod damage;
pub mod downward;
pub mod drawings;
pub mod edges;
pub mod elsewhere;
pub mod evaluate;
pub mod funds;
pub mod generate;
#[cfg(archive)]
pub mod held;
pub mod in_place;
pub mod keys;
pub mod large;
pub mod listings;
pub mod nodes;
pub mod pages;
pub mod plan;
pub mod prizes;
pub mod random;
pub mod rules;
#[cfg(target_os = "linux")]
pub mod stack;
pub mod tables;
pub mod version;
pub mod wide;
