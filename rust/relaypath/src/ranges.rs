//! The path between two vertices as ranges of numbers, and the parts of rule stores that ranges name.
use crate::raw::{self, PathKind};
use crate::{Refusal, Tables};

/// The number of ranges that is enough for every path on every tables: that of [`range_room`] for [`crate::MAX_VERTICES`].
pub const MAX_RANGES: usize = 31;

/// In which direction a range is read.
#[derive(Clone, Copy, Debug, PartialEq, Eq, Hash)]
#[repr(u32)]
pub enum Direction {
    /// From the start up.
    Forward = 0,
    /// From the end down.
    Reversed = 1,
}

/// A range of numbers, from `start` up to `end`, the end excluded.
#[derive(Clone, Copy, Debug, PartialEq, Eq, Hash)]
pub struct PathRange {
    /// The lowest number.
    pub start: usize,
    /// One above the highest number.
    pub end: usize,
    /// The direction to read it in.
    pub direction: Direction,
}

impl PathRange {
    /// The numbers in the order in which the path has them.
    pub fn numbers(self) -> impl Iterator<Item = usize> {
        let (start, end, reversed) = (self.start, self.end, self.direction == Direction::Reversed);
        (start..end).map(move |x| if reversed { start + (end - 1 - x) } else { x })
    }
}

/// The ranges that a list of plain numbers has, three numbers to a range: start, end, and 0 for Forward or 1 for Reversed.
///
/// For the lists that the `_into` calls write; a third number above 0 is read as Reversed, and one or two numbers left at the end are no range.
pub fn read_ranges(list: &[u32]) -> impl Iterator<Item = PathRange> + '_ {
    list.chunks_exact(3).map(|range| PathRange {
        start: range[0] as usize,
        end: range[1] as usize,
        direction: if range[2] == 0 {
            Direction::Forward
        } else {
            Direction::Reversed
        },
    })
}

/// The number of ranges that is enough for every path among `n` vertices: 2·floor(log2 n) + 1.
///
/// # Constraints
///
/// - n is from 1 to [`crate::MAX_VERTICES`], else the answer is [`Refusal::BadSize`].
///
/// # Cost
///
/// O(1).
pub fn range_room(n: usize) -> Result<usize, Refusal> {
    raw::range_room(n)
}

/// The part of two stores that a range names: [start, end) of the first for Forward, the same numbers of the second, which is the first turned
/// round, for Reversed. So the part is read from its first entry to its last in either direction.
///
/// # Constraints
///
/// - Both stores have m entries, one to a number, with m from 1 to 32,768; the second is the first turned round, which is not tested.
/// - start < end ≤ m
///
/// Else the part is empty.
///
/// # Cost
///
/// O(1).
pub fn rule_part<'a>(
    first: &'a [u32],
    second: &'a [u32],
    start: usize,
    end: usize,
    direction: Direction,
) -> &'a [u32] {
    let (place, count) = raw::rule_part(first, second, start, end, direction as u32);
    let store = match direction {
        Direction::Forward => first,
        Direction::Reversed => second,
    };
    &store[place..place + count]
}

/// The ranges that a call lists, with room for every path on the stack.
fn listed<T: AsRef<[u32]>>(
    tables: &Tables<T>,
    kind: PathKind,
    u: usize,
    v: usize,
) -> Result<Vec<PathRange>, Refusal> {
    let mut list = [0; 3 * MAX_RANGES];
    let count = raw::path_ranges(kind, tables.parts(), u, v, &mut list)?;
    Ok(read_ranges(&list[..3 * count]).collect())
}

/// Paths as ranges. Read one after the other, each in its direction, the ranges give the path from u to v in order. They refuse as the queries
/// do. The `_into` forms write three numbers to a range (see [`read_ranges`]) into a lent list and answer how many ranges there are; a list that is
/// too short is refused last, with [`Refusal::NoRoom`]. A refusal leaves the list as it was, and so are its entries past the ranges. They take no
/// memory. 3·[`range_room`] numbers are always enough.
impl<T: AsRef<[u32]>> Tables<T> {
    /// The numbers of the path's vertices.
    ///
    /// # Constraints
    ///
    /// - u, v < n
    ///
    /// # Cost
    ///
    /// O(log n).
    pub fn vertex_path_ranges(&self, u: usize, v: usize) -> Result<Vec<PathRange>, Refusal> {
        listed(self, PathKind::Vertices, u, v)
    }

    /// The same into a lent list.
    pub fn vertex_path_ranges_into(
        &self,
        u: usize,
        v: usize,
        list: &mut [u32],
    ) -> Result<usize, Refusal> {
        raw::path_ranges(PathKind::Vertices, self.parts(), u, v, list)
    }

    /// The numbers of the path's edges, each that of its child. From a vertex to itself there is none.
    ///
    /// # Constraints
    ///
    /// - u, v < n
    ///
    /// # Cost
    ///
    /// O(log n).
    pub fn edge_path_ranges(&self, u: usize, v: usize) -> Result<Vec<PathRange>, Refusal> {
        listed(self, PathKind::Edges, u, v)
    }

    /// The same into a lent list.
    pub fn edge_path_ranges_into(
        &self,
        u: usize,
        v: usize,
        list: &mut [u32],
    ) -> Result<usize, Refusal> {
        raw::path_ranges(PathKind::Edges, self.parts(), u, v, list)
    }

    /// Vertices and edges in turn: vertex x is twice its number, and the edge to its parent one less than that.
    ///
    /// # Constraints
    ///
    /// - u, v < n
    ///
    /// # Cost
    ///
    /// O(log n).
    pub fn vertex_edge_path_ranges(&self, u: usize, v: usize) -> Result<Vec<PathRange>, Refusal> {
        listed(self, PathKind::Both, u, v)
    }

    /// The same into a lent list.
    pub fn vertex_edge_path_ranges_into(
        &self,
        u: usize,
        v: usize,
        list: &mut [u32],
    ) -> Result<usize, Refusal> {
        raw::path_ranges(PathKind::Both, self.parts(), u, v, list)
    }
}
