//! Statements about rows, as a text that a depot and a buyer can read, and the circuits
//! that ask what they say. `docs/statements.md` has the form.
//!
//! ```
//! use statement::{build, Given};
//!
//! let text = "row on_hand: 16, order: 16\n\
//!             show covered = on_hand >= order, order\n";
//! let built = build(text.as_bytes())?;
//! let row = built.row.pack(b"on_hand=1000 order=250")?;
//! let mut y = [0; 3];
//! wivulameno::circuit::evaluate(&built.circuit, &row, &mut y)?;
//! let shown = [("covered", Given::Condition(true)), ("order", Given::Number(250))];
//! assert_eq!(built.y.unpack(&y), shown);
//! # Ok::<(), Box<dyn std::error::Error>>(())
//! ```

mod build;
mod fault;
mod gates;
mod layout;
mod lexer;
mod numbers;
mod parser;
mod row_file;
mod slips;
mod tree;

pub use build::{build, Built, MAX_WIDTH};
pub use fault::{Fault, Place};
pub use layout::{Given, Layout, Shape, Slot};
pub use parser::MAX_DEPTH;
pub use row_file::{bits_of_row_file, is_row_file, row_file, FieldDifference, RowFault};
