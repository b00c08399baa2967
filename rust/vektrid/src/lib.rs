//! Plans the visits of a microscope stage with (0,2)-sequences: in every aligned block of visits,
//! every elementary interval of every shape is seen exactly once. It also works backwards: given
//! an interval, it names the visit in it.
//!
//! ```
//! use vektrid::{Cell, Field, Pair, Region, Shift};
//!
//! let (pair, shift) = (Pair::standard(), Shift { x: 0x1234_5678, y: 0x9ABC_DEF0 });
//! let point = pair.point(shift, 5);
//! let region = Region { left: -500, top: 0, width: 1000, height: 800 };
//! let at = region.position(Field { width: 200, height: 100 }, point.x, point.y)?;
//! assert_eq!((at.x, at.y), (57, 511));
//!
//! // Of the first sixteen visits, the one in this square of four by four.
//! let cell = Cell { m: 4, a: 2, column: point.x >> 30, row: point.y >> 30, block: 0 };
//! assert_eq!(pair.query(shift, 32, cell)?, 5);
//! # Ok::<(), vektrid::Refusal>(())
//! ```
//!
//! # What is proved, and what is not
//!
//! The library behind these bindings is proved, in Rattle, for all inputs: what each call answers,
//! which inputs it refuses and under which number, what it writes into lent memory, that it ends
//! and never traps, and the theorems about the points themselves. `docs/PROMISES.md` of the
//! repository says where each of them stands.
//!
//! Not proved are the boundary, that is the C declarations in [`raw`] and how the compilers pass
//! arguments, and this crate. It does five things: it compares the library's number with [`ABI`]
//! before the first call, and panics where they differ; it hands over lent slices with their
//! lengths; it gives refusals their names; it copies answers into structures; and it makes the
//! scramble that a seed names. `rust/bindings` tests it and compares its answers with a planner in
//! Rust that was written apart.
//!
//! # Words
//!
//! Comments use the words of the literature, and where the planner has a word of its own it stands
//! behind in brackets: two generator matrices (a pair), digital shift (scramble words), Owen's
//! nested scrambling (flips), elementary interval (cell), cursor over visits (walk).

#![deny(missing_docs)]

mod cells;
mod library;
mod listing;
mod pair;
mod pieces;
mod points;
pub mod raw;
mod refusal;
mod region_file;
mod scramble;
mod sheet;
mod stage;
mod unit;
mod walk;

pub use cells::{overview_words, query_words, Cell, Cells};
pub use library::ABI;
pub use listing::{listing, Cursor, Listing};
pub use pair::{check_words, standard_words, Pair};
pub use pieces::{Pieces, LONGEST_LINE};
pub use points::{fill_words, point_words, standard_point, standard_point_bytes, Point};
pub use refusal::Refusal;
pub use region_file::{judge, judge_link, visits, FileVisit, FileWalk, Stopped, Visits};
pub use scramble::{Flips, Scramble, ScrambleBytes, Shift};
pub use sheet::{sheet, sheet_pages, Sheet, SheetCursor, SheetPages, PAGE};
pub use stage::{Field, Position, Region};
pub use unit::{double, point_singles_words, single, Singles};
pub use walk::{SinglesVisit, Steps, Visit, Walk};
