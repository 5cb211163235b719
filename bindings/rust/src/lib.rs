//! Plates chooses which species plates go into a field guide of a given page count, so that they
//! show as much of the family tree as the space allows.
//!
//! The caller gives the tree, with a length for each branch and a price in quarter pages for each
//! taxon's plate and for each group's heading, and a page count, and may lock taxa that must be in
//! the guide. The library gives the set of taxa with the most diversity for that count, and the
//! best that can be reached for every smaller count. That is not a heuristic: among all the sets
//! that fit, no other is better. While a page count is still being turned, a quick choice can be
//! had: it may be poorer than the best, and tells by how much at most. Where a length changes
//! between editions, the library tells how far that moves the best. While prices are known only as
//! low and high, it tells which set fits whatever is agreed, and between which numbers the best then
//! is. In the literature the problem is called phylogenetic diversity under a budget (Pardi and
//! Goldman, Systematic Biology 56(3), 2007).
//!
//! An [`Outline`] is a tree that has been checked. It is read from text in Newick form with
//! [`Outline::from_newick`], or made from a [`Tree`], which is built by nesting; groups whose
//! headings take space are built with [`Tree::headed_group`], and locked taxa with
//! [`Tree::locked_taxon`]. [`choose`], also a method of the outline, gives a [`Choice`] for an
//! outline, a page count and a [`Way`]; [`Outline::quick_choice`] gives a [`QuickChoice`], which
//! need not be the best, with a ceiling for the best. [`Outline::revise`] gives a [`Revision`]: the
//! choice once one length is revised, and how far the best diversity moves by that.
//! [`Outline::range`] gives a [`SureChoice`]: what fits for all prices between those of two
//! outlines, and the floor and the roof of the best diversity then. [`Outline::sheet`] lists the
//! taxa of a choice, or of any other set, with what each adds in quarters and in diversity.
//! [`Outline::to_newick`] writes an outline as text again, to return a tree to its author.
//! [`Outline::for_buyer`] gives what a buyer's editor may see, without prices and locks;
//! [`view_buyer`] and [`view_house`] write what a buyer's and a house reader get to memory that the
//! caller lends. [`Outline::house_form`] gives the one outline of a tree, however its members are
//! ordered and its records numbered, and [`Outline::cmp_tree`] compares two trees by it;
//! [`house_form`] and [`compare`] do the same from bytes to memory that the caller lends.
//! What is wrong with a text, an outline, a page count, a number of picks, a revision, a range of
//! prices or marks is told as a [`Refusal`].
//!
//! ```
//! use plates::{Outline, Tree, Way};
//!
//! // Branch lengths on the tree, then each taxon's plate and its price:
//! //
//! //     --+--3--+--4--  plate 11, 3 quarters
//! //       |     +--2--  plate 12, 1 quarter
//! //       +--5--------  plate 13, 2 quarters
//! let outline = Tree::group(0, [
//!     Tree::group(3, [Tree::taxon(11, 4, 3), Tree::taxon(12, 2, 1)]),
//!     Tree::taxon(13, 5, 2),
//! ])
//! .outline()?;
//!
//! // The same as text, with plate and price of each taxon.
//! let prices = [(11, 3), (12, 1), (13, 2)];
//! assert_eq!(Outline::from_newick("((11:4,12:2):3,13:5);", prices)?, outline);
//!
//! let choice = outline.choose(5, Way::Rooted)?;
//! let plates: Vec<u32> = choice.taxa().iter().map(|taxon| taxon.plate).collect();
//! assert_eq!(plates, [11, 13]);
//! assert_eq!((choice.diversity(), choice.cost()), (12, 5));
//!
//! // Each plate with its quarters and its diversity, and their sums.
//! let sheet = outline.sheet(choice.marks(), Way::Rooted)?;
//! assert_eq!(sheet.to_string(), "11 3 7\n13 2 5\ntotal 5 12");
//! # Ok::<(), Box<dyn std::error::Error>>(())
//! ```
//!
//! All of it may be called from several threads at the same time. The library itself keeps no state
//! and allocates nothing; the memory of a call is taken here, and callers who choose often keep it
//! in a [`Work`].

#![deny(missing_docs)]
#![deny(unsafe_op_in_unsafe_fn)]

mod choice;
mod house;
mod newick;
mod outline;
mod quick;
mod range;
mod refusal;
mod revise;
mod sheet;
pub mod sys;
mod tree;
mod view;

pub use choice::{choose, choose_in, Choice, Column, Way, Work, MOST_COUNT};
pub use house::{compare, house_form};
pub use newick::{Newick, MOST_TEXT_LEN};
pub use outline::{Outline, Record, MOST_PLATE, MOST_RECORDS, MOST_TAXA, RECORD_BYTES};
pub use quick::{QuickChoice, MOST_PICKS};
pub use range::SureChoice;
pub use refusal::Refusal;
pub use revise::Revision;
pub use sheet::{Row, Sheet};
pub use tree::{Tree, TreeError};
pub use view::{view_buyer, view_house};

/// Runs the example of the README.
#[cfg(doctest)]
#[doc = include_str!("../README.md")]
pub struct Readme;
