//! The centroid decomposition and the component lists.
use crate::graph::{new_work, vertices_within};
use crate::raw;
use crate::{Refusal, NO_PARENT};

/// The centroid decomposition of a tree, the first search starting at vertex 0.
///
/// Like [`crate::Tables`] it may be made of any two tables.
#[derive(Clone, Copy, Debug, PartialEq, Eq)]
pub struct Decomposition<T = Vec<u32>> {
    /// Entry v is the centroid whose removal made the component of which v is the centroid, [`NO_PARENT`] for the first one.
    pub parent: T,
    /// Entry v is the number of centroids above v, at most floor(log2 n).
    pub level: T,
}

impl Decomposition<Vec<u32>> {
    /// The decomposition of the tree of these lists.
    ///
    /// # Refusals
    ///
    /// `BadSize` to `HasCycle` but for `NoRoom` and `BadRoot`, tested in the order of their numbers.
    ///
    /// # Cost
    ///
    /// O(n log n + E). Takes memory for the tables, 2n entries, and for 8n + E entries of work.
    pub fn build(offsets: &[u32], targets: &[u32]) -> Result<Self, Refusal> {
        let mut parent = vec![0; vertices_within(offsets)];
        let mut level = parent.clone();
        raw::try_centroid_decomposition(
            offsets,
            targets,
            &mut parent,
            &mut level,
            &mut new_work(offsets, targets),
        )?;
        Ok(Decomposition { parent, level })
    }
}

impl<'a> Decomposition<&'a mut [u32]> {
    /// The same in memory that the caller lends: two tables of exactly n entries, which a refusal leaves as they were, and `work` as for
    /// [`crate::validate_tree`]. No memory is taken.
    pub fn build_into(
        offsets: &[u32],
        targets: &[u32],
        parent: &'a mut [u32],
        level: &'a mut [u32],
        work: &mut [u32],
    ) -> Result<Self, Refusal> {
        raw::try_centroid_decomposition(offsets, targets, parent, level, work)?;
        Ok(Decomposition { parent, level })
    }
}

impl<T: AsRef<[u32]>> Decomposition<T> {
    /// The centroid above `v`; none for the first one.
    ///
    /// # Constraints
    ///
    /// - v < n, else the answer is [`Refusal::BadVertex`].
    /// - Both tables have one length from 1 to [`crate::MAX_VERTICES`], else the answer is [`Refusal::BadSize`].
    ///
    /// # Cost
    ///
    /// O(1).
    pub fn parent(&self, v: usize) -> Result<Option<usize>, Refusal> {
        let entry = raw::centroid_parent(self.parent.as_ref(), self.level.as_ref(), v)?;
        Ok((entry != NO_PARENT).then_some(entry as usize))
    }

    /// The number of centroids above `v`.
    ///
    /// # Constraints
    ///
    /// As for [`Decomposition::parent`].
    ///
    /// # Cost
    ///
    /// O(1).
    pub fn level(&self, v: usize) -> Result<usize, Refusal> {
        let entry = raw::centroid_level(self.parent.as_ref(), self.level.as_ref(), v)?;
        Ok(entry as usize)
    }
}

/// The four parts of component lists by name: owned (`ComponentLists<Vec<u32>>`), lent for reading (`ComponentLists<&[u32]>`) or lent for writing
/// (`ComponentLists<&mut [u32]>`). The list of c stands in the first three from entry c of `starts` up to entry c + 1.
#[derive(Clone, Copy, Debug, Default, PartialEq, Eq)]
pub struct ComponentLists<T> {
    /// The vertices of each component, breadth first in list order.
    pub vertices: T,
    /// The distance of each from c.
    pub distances: T,
    /// The neighbour of c that each hangs from; c itself for c.
    pub branches: T,
    /// Where the list of each c begins, and at entry n where the last one ends.
    pub starts: T,
}

impl<T: AsMut<[u32]>> ComponentLists<T> {
    /// The same lists, lent for writing.
    pub fn lent_mut(&mut self) -> ComponentLists<&mut [u32]> {
        ComponentLists {
            vertices: self.vertices.as_mut(),
            distances: self.distances.as_mut(),
            branches: self.branches.as_mut(),
            starts: self.starts.as_mut(),
        }
    }
}

/// The number of entries that is enough for each of the three lists of any tree of `n` vertices: n·(floor(log2 n) + 1).
pub fn component_room(n: usize) -> usize {
    n.checked_ilog2()
        .map_or(0, |log| n.saturating_mul(log as usize + 1))
}

/// The list of one component: its vertices, their distances and their branches.
pub type Component<'a> = (&'a [u32], &'a [u32], &'a [u32]);

/// The component lists of a tree: for c = 0 to n - 1 the vertices of c's component, that is of what is left around c when the centroids above it
/// are removed.
#[derive(Clone, Copy, Debug, PartialEq, Eq)]
pub struct Components<T = Vec<u32>> {
    lists: ComponentLists<T>,
}

impl Components<Vec<u32>> {
    /// The component lists of the tree of these lists.
    ///
    /// # Refusals
    ///
    /// `BadSize` to `HasCycle` but for `NoRoom` and `BadRoot`, tested in the order of their numbers.
    ///
    /// # Cost
    ///
    /// O(n log n + E). Takes memory for three lists of [`component_room`] entries, of which those that are not used are given back, for n + 1 starts
    /// and for 8n + E entries of work.
    pub fn build(offsets: &[u32], targets: &[u32]) -> Result<Self, Refusal> {
        let n = vertices_within(offsets);
        let list = vec![0; component_room(n)];
        let mut lists = ComponentLists {
            vertices: list.clone(),
            distances: list.clone(),
            branches: list,
            starts: vec![0; n + 1],
        };
        let work = &mut new_work(offsets, targets);
        raw::component_lists(offsets, targets, lists.lent_mut(), work)?;
        for list in [
            &mut lists.vertices,
            &mut lists.distances,
            &mut lists.branches,
        ] {
            list.truncate(lists.starts[n] as usize);
            list.shrink_to_fit();
        }
        Ok(Components { lists })
    }
}

impl<'a> Components<&'a mut [u32]> {
    /// The same in memory that the caller lends. No memory is taken.
    ///
    /// # Constraints
    ///
    /// - `starts` has at least n + 1 entries, and each list as many as all components have together, for which [`component_room`] is always enough.
    ///   Entries past those are unchanged, and they are no part of the answer. A refusal leaves all four as they were.
    /// - `work` is as for [`crate::validate_tree`], but its first 8n + E entries are zero after [`Refusal::NoRoom`] for starts or a list too.
    ///
    /// # Refusals
    ///
    /// `BadSize` to `HasCycle` but for `BadRoot`, tested in the order of their numbers. `NoRoom` is tested once more at the end, for the lists.
    pub fn build_into(
        offsets: &[u32],
        targets: &[u32],
        mut lists: ComponentLists<&'a mut [u32]>,
        work: &mut [u32],
    ) -> Result<Self, Refusal> {
        raw::component_lists(offsets, targets, lists.lent_mut(), work)?;
        let starts = &mut lists.starts[..offsets.len()];
        let count = starts[offsets.len() - 1] as usize;
        let lists = ComponentLists {
            vertices: &mut lists.vertices[..count],
            distances: &mut lists.distances[..count],
            branches: &mut lists.branches[..count],
            starts,
        };
        Ok(Components { lists })
    }
}

impl<T: AsRef<[u32]>> Components<T> {
    /// The component of `c`: its vertices, the distance of each from c, and the branch of each.
    ///
    /// # Constraints
    ///
    /// - c < n, else the answer is [`Refusal::BadVertex`].
    ///
    /// # Cost
    ///
    /// O(1).
    pub fn of(&self, c: usize) -> Result<Component<'_>, Refusal> {
        let all = self.lists();
        if c >= all.starts.len() - 1 {
            return Err(Refusal::BadVertex);
        }
        let (start, end) = (all.starts[c] as usize, all.starts[c + 1] as usize);
        Ok((
            &all.vertices[start..end],
            &all.distances[start..end],
            &all.branches[start..end],
        ))
    }

    /// The lists of all components one behind the other, and where each begins.
    pub fn lists(&self) -> ComponentLists<&[u32]> {
        ComponentLists {
            vertices: self.lists.vertices.as_ref(),
            distances: self.lists.distances.as_ref(),
            branches: self.lists.branches.as_ref(),
            starts: self.lists.starts.as_ref(),
        }
    }
}
