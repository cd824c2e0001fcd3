//! The calls that take a graph and work.
use super::names::*;
use super::outcome;
use crate::{ComponentLists, Parts, Refusal};

pub fn validate_tree(
    offsets: &[u32],
    targets: &[u32],
    root: usize,
    work: &mut [u32],
) -> Result<(), Refusal> {
    // Safety: all three are lent as references.
    outcome(unsafe {
        relaypath_validate_tree(
            offsets.as_ptr(),
            offsets.len(),
            targets.as_ptr(),
            targets.len(),
            root,
            work.as_mut_ptr(),
            work.len(),
        )
    })
}

pub fn try_hld(
    offsets: &[u32],
    targets: &[u32],
    root: usize,
    tables: Parts<&mut [u32]>,
    work: &mut [u32],
) -> Result<(), Refusal> {
    // Safety: graph, tables and work are lent as references.
    outcome(unsafe {
        relaypath_try_hld(
            offsets.as_ptr(),
            offsets.len(),
            targets.as_ptr(),
            targets.len(),
            root,
            tables.parent.as_mut_ptr(),
            tables.parent.len(),
            tables.depth.as_mut_ptr(),
            tables.depth.len(),
            tables.head.as_mut_ptr(),
            tables.head.len(),
            tables.id.as_mut_ptr(),
            tables.id.len(),
            tables.order.as_mut_ptr(),
            tables.order.len(),
            tables.size.as_mut_ptr(),
            tables.size.len(),
            work.as_mut_ptr(),
            work.len(),
        )
    })
}

pub fn try_centroid_decomposition(
    offsets: &[u32],
    targets: &[u32],
    parent: &mut [u32],
    level: &mut [u32],
    work: &mut [u32],
) -> Result<(), Refusal> {
    // Safety: graph, tables and work are lent as references.
    outcome(unsafe {
        relaypath_try_centroid_decomposition(
            offsets.as_ptr(),
            offsets.len(),
            targets.as_ptr(),
            targets.len(),
            parent.as_mut_ptr(),
            parent.len(),
            level.as_mut_ptr(),
            level.len(),
            work.as_mut_ptr(),
            work.len(),
        )
    })
}

pub fn component_lists(
    offsets: &[u32],
    targets: &[u32],
    lists: ComponentLists<&mut [u32]>,
    work: &mut [u32],
) -> Result<(), Refusal> {
    // Safety: graph, lists, starts and work are lent as references.
    outcome(unsafe {
        relaypath_component_lists(
            offsets.as_ptr(),
            offsets.len(),
            targets.as_ptr(),
            targets.len(),
            lists.vertices.as_mut_ptr(),
            lists.vertices.len(),
            lists.distances.as_mut_ptr(),
            lists.distances.len(),
            lists.branches.as_mut_ptr(),
            lists.branches.len(),
            lists.starts.as_mut_ptr(),
            lists.starts.len(),
            work.as_mut_ptr(),
            work.len(),
        )
    })
}
