//! The six tables of a tree and how they are built.
use crate::graph::{new_work, vertices_within};
use crate::raw;
use crate::Refusal;

/// Six tables by name: owned (`Parts<Vec<u32>>`), lent for reading (`Parts<&[u32]>`) or lent for writing (`Parts<&mut [u32]>`).
#[derive(Clone, Copy, Debug, Default, PartialEq, Eq)]
pub struct Parts<T> {
    /// Entry v is the parent of vertex v seen from the root, [`crate::NO_PARENT`] for the root.
    pub parent: T,
    /// Entry v is the distance of vertex v from the root.
    pub depth: T,
    /// Entry v is the top of the chain of heavy children that v is on.
    pub head: T,
    /// Entry v is the number of vertex v. The root is 0. After a vertex comes the whole subtree of its heavy child, which is the child of
    /// greatest size (of equals the first in the list), then those of its other children in reverse list order.
    pub id: T,
    /// Entry i is the vertex with the number i.
    pub order: T,
    /// Entry v is the number of vertices in the subtree of v.
    pub size: T,
}

impl<T: AsRef<[u32]>> Parts<T> {
    /// The same tables, lent for reading.
    pub fn lent(&self) -> Parts<&[u32]> {
        Parts {
            parent: self.parent.as_ref(),
            depth: self.depth.as_ref(),
            head: self.head.as_ref(),
            id: self.id.as_ref(),
            order: self.order.as_ref(),
            size: self.size.as_ref(),
        }
    }
}

impl<T: AsMut<[u32]>> Parts<T> {
    /// The same tables, lent for writing.
    pub fn lent_mut(&mut self) -> Parts<&mut [u32]> {
        Parts {
            parent: self.parent.as_mut(),
            depth: self.depth.as_mut(),
            head: self.head.as_mut(),
            id: self.id.as_mut(),
            order: self.order.as_mut(),
            size: self.size.as_mut(),
        }
    }
}

/// The heavy-light decomposition of a rooted tree: six tables, on which all queries are asked.
///
/// Queries test every entry that they use. So tables may come from anywhere, and wrong ones give [`Refusal::BadTable`] or a wrong number, never a
/// fault.
#[derive(Clone, Copy, Debug, PartialEq, Eq)]
pub struct Tables<T = Vec<u32>> {
    parts: Parts<T>,
}

impl Tables<Vec<u32>> {
    /// The tables of the tree of these lists, seen from `root`.
    ///
    /// # Refusals
    ///
    /// `BadSize` to `HasCycle` but for `NoRoom`, tested in the order of their numbers.
    ///
    /// # Cost
    ///
    /// O(n + E) on every input. Takes memory for the tables, 6n entries, and for 8n + E entries of work.
    pub fn build(offsets: &[u32], targets: &[u32], root: usize) -> Result<Self, Refusal> {
        let table = vec![0; vertices_within(offsets)];
        let mut parts = Parts {
            parent: table.clone(),
            depth: table.clone(),
            head: table.clone(),
            id: table.clone(),
            order: table.clone(),
            size: table,
        };
        raw::try_hld(
            offsets,
            targets,
            root,
            parts.lent_mut(),
            &mut new_work(offsets, targets),
        )?;
        Ok(Tables { parts })
    }
}

impl<'a> Tables<&'a mut [u32]> {
    /// The same in memory that the caller lends.
    ///
    /// # Constraints
    ///
    /// - Each table has exactly n entries. A refusal leaves all six as they were.
    /// - `work` is as for [`crate::validate_tree`].
    ///
    /// # Refusals
    ///
    /// `BadSize` to `HasCycle`, tested in the order of their numbers.
    ///
    /// # Cost
    ///
    /// O(n + E) on every input. No memory is taken.
    pub fn build_into(
        offsets: &[u32],
        targets: &[u32],
        root: usize,
        mut parts: Parts<&'a mut [u32]>,
        work: &mut [u32],
    ) -> Result<Self, Refusal> {
        raw::try_hld(offsets, targets, root, parts.lent_mut(), work)?;
        Ok(Tables { parts })
    }
}

impl<T: AsRef<[u32]>> Tables<T> {
    /// Tables from anywhere, for instance read from a file. Nothing is tested here, since each query tests what it uses.
    pub fn from_parts(parts: Parts<T>) -> Self {
        Tables { parts }
    }

    /// The six tables, lent for reading.
    pub fn parts(&self) -> Parts<&[u32]> {
        self.parts.lent()
    }

    /// The six tables, given back.
    pub fn into_parts(self) -> Parts<T> {
        self.parts
    }
}
