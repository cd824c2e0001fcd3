//! Safe calls of the proved relay path library.
//!
//! A graph of n vertices is lent as two slices of 32-bit numbers: n + 1 offsets and E targets. The list of vertex u is the targets from offset u
//! up to offset u + 1, the end excluded. Vertices are 0 to n - 1. n is from 1 to [`MAX_VERTICES`], E at most [`MAX_TARGETS`].
//!
//! What the numbers say is never trusted. Every call ends without a panic on any contents and answers a [`Refusal`] where a test is not passed.
//!
//! The calls are in librelaypath.a, which `tests/archive` writes at the top of the repository. The build looks for it in
//! target/staticlib there, or in the folder that `RELAYPATH_LIB` names. It is for x86-64 Linux.
//!
//! ```
//! use relaypath::{Direction, PathRange, Tables};
//!
//! // The lists 0:1,2; 1:0,3; 2:0; 3:1.
//! let tables = Tables::build(&[0, 2, 4, 5, 6], &[1, 2, 0, 3, 0, 1], 0)?;
//! assert_eq!(tables.distance(3, 2)?, 3);
//! assert_eq!(tables.lca(0, 1, 3)?, 1);
//!
//! let ranges = tables.vertex_path_ranges(3, 2)?;
//! assert_eq!(ranges[0], PathRange { start: 0, end: 3, direction: Direction::Reversed });
//! assert_eq!(ranges[1], PathRange { start: 3, end: 4, direction: Direction::Forward });
//! # Ok::<(), relaypath::Refusal>(())
//! ```
#![deny(unsafe_code)]
#![warn(missing_docs)]

mod centroids;
mod graph;
mod queries;
mod ranges;
#[allow(unsafe_code)]
mod raw;
mod refusal;
mod tables;

pub use centroids::{component_room, Component, ComponentLists, Components, Decomposition};
pub use graph::{validate_tree, work_room};
pub use ranges::{range_room, read_ranges, rule_part, Direction, PathRange, MAX_RANGES};
pub use refusal::Refusal;
pub use tables::{Parts, Tables};

/// The largest number of vertices.
pub const MAX_VERTICES: usize = 32_768;

/// The largest number of targets.
pub const MAX_TARGETS: usize = 65_535;

/// What a parent table holds for a vertex that has no parent.
pub const NO_PARENT: u32 = u32::MAX;
