//! The lent graph and its validation.
use crate::raw;
use crate::Refusal;

/// The number of entries of work that a call on this graph needs: 8n + E, where n is one less than the number of offsets.
///
/// Where that is beyond the limits the call refuses anyway, and the number means nothing.
pub fn work_room(offsets: &[u32], targets: &[u32]) -> usize {
    offsets
        .len()
        .saturating_sub(1)
        .saturating_mul(8)
        .saturating_add(targets.len())
}

/// Work for a call on this graph. A graph beyond the limits gets none, so that no memory is taken for a call that will be refused.
pub(crate) fn new_work(offsets: &[u32], targets: &[u32]) -> Vec<u32> {
    if vertices_within(offsets) == 0 || targets.len() > crate::MAX_TARGETS {
        return Vec::new();
    }
    vec![0; work_room(offsets, targets)]
}

/// The number of vertices, and 0 where it is beyond the limit.
pub(crate) fn vertices_within(offsets: &[u32]) -> usize {
    match offsets.len().saturating_sub(1) {
        n if n <= crate::MAX_VERTICES => n,
        _ => 0,
    }
}

/// Whether the graph is a tree, seen from `root`.
///
/// `Ok` is answered exactly for a tree: symmetric lists, exactly one simple path between any two vertices, no vertex in its own list and no entry
/// twice in a list.
///
/// # Constraints
///
/// - `work` has at least [`work_room`] entries, of any contents. After [`Refusal::BadSize`] and [`Refusal::NoRoom`] it is unchanged. After every
///   other answer its first 8n + E entries are zero and the rest is unchanged.
///
/// # Refusals
///
/// `BadSize` to `HasCycle`, tested in the order of their numbers.
///
/// # Cost
///
/// O(n + E) on every input. No memory is taken.
pub fn validate_tree(
    offsets: &[u32],
    targets: &[u32],
    root: usize,
    work: &mut [u32],
) -> Result<(), Refusal> {
    raw::validate_tree(offsets, targets, root, work)
}
