//! Queries on six tables.
//!
//! Each refuses with `BadSize` where n is not from 1 to `MAX_VERTICES` or the tables are not all of one length, then with `BadVertex` where a
//! vertex argument is n or more, then with `BadTable` as it meets an entry that is not sound. Further refusals stand with the query.
use crate::raw;
use crate::{Refusal, Tables};
use std::ops::Range;

impl<T: AsRef<[u32]>> Tables<T> {
    /// The number of vertices, n.
    ///
    /// # Cost
    ///
    /// O(1).
    pub fn vertex_count(&self) -> Result<usize, Refusal> {
        raw::vertex_count(self.parts())
    }

    /// The root that the tables were built from.
    ///
    /// # Cost
    ///
    /// O(1).
    pub fn root(&self) -> Result<usize, Refusal> {
        raw::root(self.parts())
    }

    /// The distance of `v` from the root.
    ///
    /// # Constraints
    ///
    /// - v < n
    ///
    /// # Cost
    ///
    /// O(1).
    pub fn depth(&self, v: usize) -> Result<usize, Refusal> {
        raw::depth(self.parts(), v)
    }

    /// The number of `v`.
    ///
    /// # Constraints
    ///
    /// - v < n
    ///
    /// # Cost
    ///
    /// O(1).
    pub fn vertex_id(&self, v: usize) -> Result<usize, Refusal> {
        raw::vertex_id(self.parts(), v)
    }

    /// The numbers of the subtree of `v`: from the number of `v` up to that and the subtree's size.
    ///
    /// # Constraints
    ///
    /// - v < n
    ///
    /// # Cost
    ///
    /// O(1).
    pub fn subtree_range(&self, v: usize) -> Result<Range<usize>, Refusal> {
        raw::subtree_range(self.parts(), v)
    }

    /// The number of edges between `u` and `v`.
    ///
    /// # Constraints
    ///
    /// - u, v < n
    ///
    /// # Cost
    ///
    /// O(log n).
    pub fn distance(&self, u: usize, v: usize) -> Result<usize, Refusal> {
        raw::distance(self.parts(), u, v)
    }

    /// The lowest common ancestor of `u` and `v` as if `r` were the root: the one vertex on all three paths between r, u and v.
    ///
    /// # Constraints
    ///
    /// - r, u, v < n
    ///
    /// # Cost
    ///
    /// O(log n).
    pub fn lca(&self, r: usize, u: usize, v: usize) -> Result<usize, Refusal> {
        raw::lca(self.parts(), r, u, v)
    }

    /// The vertex `k` steps above `v`.
    ///
    /// # Constraints
    ///
    /// - v < n
    /// - k is at most the depth of v, else the answer is [`Refusal::TooFar`].
    ///
    /// # Cost
    ///
    /// O(log n).
    pub fn kth_ancestor(&self, v: usize, k: usize) -> Result<usize, Refusal> {
        raw::kth_ancestor(self.parts(), v, k)
    }

    /// The vertex `k` steps from `u` on the way to `v`.
    ///
    /// # Constraints
    ///
    /// - u, v < n
    /// - k is at most the distance of u and v, else the answer is [`Refusal::TooFar`].
    ///
    /// # Cost
    ///
    /// O(log n).
    pub fn jump(&self, u: usize, v: usize, k: usize) -> Result<usize, Refusal> {
        raw::jump(self.parts(), u, v, k)
    }

    /// The number of vertices of the subtree of `v` as if `r` were the root.
    ///
    /// # Constraints
    ///
    /// - r, v < n
    ///
    /// # Cost
    ///
    /// O(log n).
    pub fn subtree_size(&self, r: usize, v: usize) -> Result<usize, Refusal> {
        raw::subtree_size(self.parts(), r, v)
    }
}
