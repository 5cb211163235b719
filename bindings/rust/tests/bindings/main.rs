//! Tests of the bindings: document 01's cases, headings that take space, locked taxa, the quick
//! choice, revising a length, prices not yet agreed, the refusals, building trees, reading and
//! writing texts, the sheet, what a buyer's reader gets, the house form and comparing, and calls
//! that share memory or run at once.

mod cases;
mod choosing;
mod headings;
mod house;
mod locks;
mod outlines;
mod quick;
mod range;
mod refusals;
mod revise;
mod sheets;
mod support;
mod texts;
mod trees;
mod views;
mod writing;
