//! Independent code, written from documents 01 and 02, with which the static library is compared at scale.

pub mod call;
pub mod cases;
pub mod compare;
pub mod comparing;
pub mod comparing_cases;
mod comparing_runs;
pub mod damage;
pub mod earlier;
pub mod exhaustive;
pub mod expect;
pub mod form;
pub mod form_cases;
mod form_runs;
pub mod frame;
pub mod heading_cases;
pub mod headings;
mod length_walks;
pub mod library;
pub mod lock_cases;
pub mod locks;
pub mod mangle;
mod measures;
pub mod newick;
pub mod outline;
pub mod peer;
mod prices_between;
pub mod quick;
pub mod quick_cases;
mod quick_runs;
pub mod random;
pub mod range;
mod range_bytes;
pub mod range_cases;
mod range_runs;
pub mod reading;
pub mod report;
pub mod revise;
pub mod revise_cases;
mod revise_runs;
pub mod rules;
pub mod runs;
pub mod same_tree;
pub mod shapes;
pub mod sheet;
pub mod sheet_cases;
mod sheet_runs;
pub mod spanning;
pub mod spell;
mod stated_runs;
pub mod table;
pub mod tally;
pub mod text_cases;
mod text_runs;
pub mod tree_pairs;
pub mod tree_rows;
pub mod trees;
pub mod view;
pub mod view_cases;
pub mod view_pairs;
mod view_runs;
pub mod write_cases;
pub mod write_runs;
pub mod writing;
#[cfg(test)]
mod wrong_forms;
#[cfg(test)]
mod wrong_orders;
#[cfg(test)]
mod wrong_picks;
#[cfg(test)]
mod wrong_ranges;
#[cfg(test)]
mod wrong_revisions;
#[cfg(test)]
mod wrong_views;
