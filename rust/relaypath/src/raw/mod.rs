//! Calls of the C names: the only unsafe code.
//!
//! include/relaypath.h asks of a caller that each pointer is aligned and has as many entries as the length after it says, that what is written
//! overlaps nothing else that is lent, and that nobody else writes or reads it meanwhile. Rust's references give all three: a slice is aligned and
//! has its length, a `&mut` is the only way to what it lends, and a `&` is not written. "Lent as references" below stands for this.
mod graphs;
mod names;

pub use graphs::{component_lists, try_centroid_decomposition, try_hld, validate_tree};

use crate::{Parts, Refusal};
use names::*;
use std::ops::Range;

/// Calls a C function with six tables, then with the rest.
macro_rules! call_on {
    ($function:expr, $tables:expr, $($argument:expr),*) => {
        $function(
            $tables.parent.as_ptr(),
            $tables.parent.len(),
            $tables.depth.as_ptr(),
            $tables.depth.len(),
            $tables.head.as_ptr(),
            $tables.head.len(),
            $tables.id.as_ptr(),
            $tables.id.len(),
            $tables.order.as_ptr(),
            $tables.order.len(),
            $tables.size.as_ptr(),
            $tables.size.len(),
            $($argument,)*
        )
    };
}

/// A query with one number as its answer: the safe function over the C one.
macro_rules! queries {
    ($($name:ident = $c_name:ident($($argument:ident),*);)*) => {
        $(pub fn $name(tables: Parts<&[u32]>, $($argument: usize),*) -> Result<usize, Refusal> {
            let mut answer = 0;
            // Safety: the tables and the answer are lent as references.
            outcome(unsafe { call_on!($c_name, tables, $($argument,)* &mut answer) })?;
            Ok(answer)
        })*
    };
}

queries! {
    vertex_count = relaypath_vertex_count();
    root = relaypath_root();
    depth = relaypath_depth(v);
    vertex_id = relaypath_vertex_id(v);
    distance = relaypath_distance(u, v);
    lca = relaypath_lca(r, u, v);
    kth_ancestor = relaypath_kth_ancestor(v, k);
    jump = relaypath_jump(u, v, k);
    subtree_size = relaypath_subtree_size(r, v);
}

/// A code as a result. The library gives no other code than 0 to 10.
fn outcome(code: u32) -> Result<(), Refusal> {
    match Refusal::from_code(code) {
        None if code == 0 => Ok(()),
        None => unreachable!("the library gave the code {code}"),
        Some(refusal) => Err(refusal),
    }
}

pub fn subtree_range(tables: Parts<&[u32]>, v: usize) -> Result<Range<usize>, Refusal> {
    let (mut start, mut end) = (0, 0);
    // Safety: the tables and both numbers are lent as references.
    outcome(unsafe { call_on!(relaypath_subtree_range, tables, v, &mut start, &mut end) })?;
    Ok(start..end)
}

/// What of a path is listed.
#[derive(Clone, Copy)]
pub enum PathKind {
    Vertices,
    Edges,
    Both,
}

pub fn path_ranges(
    kind: PathKind,
    tables: Parts<&[u32]>,
    u: usize,
    v: usize,
    list: &mut [u32],
) -> Result<usize, Refusal> {
    let call = match kind {
        PathKind::Vertices => relaypath_vertex_path_ranges,
        PathKind::Edges => relaypath_edge_path_ranges,
        PathKind::Both => relaypath_vertex_edge_path_ranges,
    };
    let mut count = 0;
    // Safety: the tables, the list and the count are lent as references.
    outcome(unsafe {
        call_on!(
            call,
            tables,
            u,
            v,
            list.as_mut_ptr(),
            list.len(),
            &mut count
        )
    })?;
    Ok(count)
}

pub fn range_room(n: usize) -> Result<usize, Refusal> {
    let mut answer = 0;
    // Safety: the answer is lent as a reference.
    outcome(unsafe { relaypath_range_room(n, &mut answer) })?;
    Ok(answer)
}

/// The place and the length of the part that a range names in its store.
pub fn rule_part(
    first: &[u32],
    second: &[u32],
    start: usize,
    end: usize,
    direction: u32,
) -> (usize, usize) {
    let mut place = 0;
    // Safety: the stores and the place are lent as references.
    let count = unsafe {
        relaypath_rule_part(
            first.as_ptr(),
            first.len(),
            second.as_ptr(),
            second.len(),
            start,
            end,
            direction,
            &mut place,
        )
    };
    (place, count)
}

pub fn centroid_parent(parent: &[u32], level: &[u32], v: usize) -> Result<u32, Refusal> {
    let mut answer = 0;
    // Safety: the tables and the answer are lent as references.
    outcome(unsafe {
        relaypath_centroid_parent(
            parent.as_ptr(),
            parent.len(),
            level.as_ptr(),
            level.len(),
            v,
            &mut answer,
        )
    })?;
    Ok(answer)
}

pub fn centroid_level(parent: &[u32], level: &[u32], v: usize) -> Result<u32, Refusal> {
    let mut answer = 0;
    // Safety: the tables and the answer are lent as references.
    outcome(unsafe {
        relaypath_centroid_level(
            parent.as_ptr(),
            parent.len(),
            level.as_ptr(),
            level.len(),
            v,
            &mut answer,
        )
    })?;
    Ok(answer)
}
