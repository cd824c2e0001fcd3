// The six tables, and what the original shows of its own.
use crate::calls::PATTERN;
use original::hld::Hld;

pub const NAMES: [&str; 6] = ["parent", "depth", "head", "id", "order", "size"];
pub const NO_PARENT: u32 = u32::MAX;

// In the order of their names.
#[derive(Clone, PartialEq)]
pub struct Tables(pub [Vec<u32>; 6]);

impl Tables {
    // Tables of n entries, full of the pattern.
    pub fn unwritten(n: usize) -> Self {
        Tables(std::array::from_fn(|_| vec![PATTERN; n]))
    }

    pub fn are_unwritten(&self) -> bool {
        self.0.iter().flatten().all(|&x| x == PATTERN)
    }

    // The name of the first table that is not the same in both.
    pub fn differs(&self, other: &Tables) -> Option<&'static str> {
        let k = (0..6).find(|&k| self.0[k] != other.0[k])?;
        Some(NAMES[k])
    }
}

// The original's tables are private to it, so this reads them through its answers. The path from v to the root begins with the chain of v, so
// its first range starts at the number of the head of v.
pub fn original_tables(hld: &Hld) -> Tables {
    let vertices = 0..hld.vertex_count();
    let mut order = vec![0; hld.vertex_count()];
    for v in vertices.clone() {
        order[hld.vertex_id(v)] = v as u32;
    }
    let parent = |v| hld.kth_ancestor(v, 1).map_or(NO_PARENT, |p| p as u32);
    let head = |v| order[hld.vertex_path_ranges(v, hld.root())[0].0];
    let size = |v| {
        let (start, end) = hld.subtree_range(v);
        (end - start) as u32
    };
    Tables([
        vertices.clone().map(parent).collect(),
        vertices.clone().map(|v| hld.depth(v) as u32).collect(),
        vertices.clone().map(head).collect(),
        vertices.clone().map(|v| hld.vertex_id(v) as u32).collect(),
        order.clone(),
        vertices.map(size).collect(),
    ])
}
