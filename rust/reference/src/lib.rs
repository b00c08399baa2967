//! The reference visit planner: check, points, nested flips, cell queries,
//! overviews, counts of the visits in a cell, fills, walks, unit numbers, the
//! singles by cases, stage positions for a reader's field, and the region file
//! with its listing and its sheet.
//! All of it, the programs included, is written from documents 01, 02, 003 and
//! 004 alone (README.md of the repository says what they are; where 02 leaves a
//! reading open, docs/DECISIONS.md has ours) and not from the Rattle code, so
//! that an agreement of the two says something. Only three things are not in
//! them: `region_file::Stopped` follows docs/REFUSALS.md,
//! `counts::count_bounds_from` docs/DECISIONS.md, and `flips::random_scramble` a
//! rule that stands whole in its comments.

#![forbid(unsafe_code)]

pub mod check;
pub mod counts;
pub mod fill;
pub mod filter;
pub mod flips;
pub mod listing;
pub mod overview;
pub mod pair;
pub mod query;
pub mod refusal;
pub mod region_file;
pub mod sheet;
pub mod single_cases;
pub mod stage;
pub mod trial;
pub mod unit;
pub mod walk;

#[cfg(test)]
mod random;
