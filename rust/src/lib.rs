//! Netlists of relay firmware: BLIF, ISCAS BENCH and Bristol texts read into a circuit of table cells, an order of the cells, and the
//! outputs, with unknown inputs too. The work is done by a static library whose every function is proved to meet its contract; this
//! crate lends it areas and turns records into structs.
//!
//! ```
//! use relay::{BoolCircuit, Refusal};
//! use std::collections::HashMap;
//!
//! let circuit = BoolCircuit::parse_blif("\
//! .inputs a b
//! .outputs y
//! .names a b t
//! 10 1
//! .names a u
//! 0 1
//! .names t u y
//! 11 1
//! ")?;
//! let order = circuit.scheduled_gates_by_key(2, |cell| (0, 0, cell))?;
//! assert_eq!(order, [3, 2, 4]);
//!
//! let bits = HashMap::from([("a".to_owned(), true), ("b".to_owned(), false)]);
//! assert_eq!(circuit.evaluate(&bits)?, [("y".to_owned(), false)]);
//!
//! // with b on, y is off whatever a is; with b off, a decides
//! let known = |b: bool| HashMap::from([("a".to_owned(), None), ("b".to_owned(), Some(b))]);
//! assert_eq!(circuit.run(&order, &known(true))?, [("y".to_owned(), Some(false))]);
//! assert_eq!(circuit.run(&order, &known(false))?, [("y".to_owned(), None)]);
//!
//! let refusal = BoolCircuit::parse_blif(".inputs a a\n").unwrap_err();
//! assert_eq!(refusal, Refusal::DefinedBefore);
//! assert_eq!(refusal.to_string(), "refused 4: a name is defined twice");
//! # Ok::<(), Refusal>(())
//! ```
#![deny(unsafe_code)]
#![warn(missing_docs)]

#[allow(unsafe_code)]
pub mod archive;
mod circuit;
mod evaluator;
mod order;
mod reader;
mod records;
mod refusal;
mod room;

pub use circuit::{BoolCircuit, BoolNode, BoolWire};
pub use evaluator::Evaluator;
pub use reader::{FileError, MOST_TEXT, Reader};
pub use refusal::Refusal;
