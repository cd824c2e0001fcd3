//! The C names, as include/relaypath.h declares them.

/// Declares C functions that take the six tables first.
macro_rules! on_tables {
    ($($name:ident($($argument:ident: $type:ty),*);)*) => {
        extern "C" {
            $(pub fn $name(
                parent: *const u32,
                parent_len: usize,
                depth: *const u32,
                depth_len: usize,
                head: *const u32,
                head_len: usize,
                id: *const u32,
                id_len: usize,
                order: *const u32,
                order_len: usize,
                size: *const u32,
                size_len: usize,
                $($argument: $type,)*
            ) -> u32;)*
        }
    };
}

on_tables! {
    relaypath_vertex_count(answer: *mut usize);
    relaypath_root(answer: *mut usize);
    relaypath_depth(v: usize, answer: *mut usize);
    relaypath_vertex_id(v: usize, answer: *mut usize);
    relaypath_distance(u: usize, v: usize, answer: *mut usize);
    relaypath_lca(r: usize, u: usize, v: usize, answer: *mut usize);
    relaypath_kth_ancestor(v: usize, k: usize, answer: *mut usize);
    relaypath_jump(u: usize, v: usize, k: usize, answer: *mut usize);
    relaypath_subtree_size(r: usize, v: usize, answer: *mut usize);
    relaypath_subtree_range(v: usize, start: *mut usize, end: *mut usize);
    relaypath_vertex_path_ranges(u: usize, v: usize, ranges: *mut u32, ranges_len: usize, count: *mut usize);
    relaypath_edge_path_ranges(u: usize, v: usize, ranges: *mut u32, ranges_len: usize, count: *mut usize);
    relaypath_vertex_edge_path_ranges(u: usize, v: usize, ranges: *mut u32, ranges_len: usize, count: *mut usize);
}

extern "C" {
    pub fn relaypath_validate_tree(
        offsets: *const u32,
        offsets_len: usize,
        targets: *const u32,
        targets_len: usize,
        root: usize,
        work: *mut u32,
        work_len: usize,
    ) -> u32;

    pub fn relaypath_try_hld(
        offsets: *const u32,
        offsets_len: usize,
        targets: *const u32,
        targets_len: usize,
        root: usize,
        parent: *mut u32,
        parent_len: usize,
        depth: *mut u32,
        depth_len: usize,
        head: *mut u32,
        head_len: usize,
        id: *mut u32,
        id_len: usize,
        order: *mut u32,
        order_len: usize,
        size: *mut u32,
        size_len: usize,
        work: *mut u32,
        work_len: usize,
    ) -> u32;

    pub fn relaypath_range_room(n: usize, answer: *mut usize) -> u32;

    pub fn relaypath_rule_part(
        first: *const u32,
        first_len: usize,
        second: *const u32,
        second_len: usize,
        start: usize,
        end: usize,
        direction: u32,
        place: *mut usize,
    ) -> usize;

    pub fn relaypath_try_centroid_decomposition(
        offsets: *const u32,
        offsets_len: usize,
        targets: *const u32,
        targets_len: usize,
        parent: *mut u32,
        parent_len: usize,
        level: *mut u32,
        level_len: usize,
        work: *mut u32,
        work_len: usize,
    ) -> u32;

    pub fn relaypath_component_lists(
        offsets: *const u32,
        offsets_len: usize,
        targets: *const u32,
        targets_len: usize,
        vertices: *mut u32,
        vertices_len: usize,
        distances: *mut u32,
        distances_len: usize,
        branches: *mut u32,
        branches_len: usize,
        starts: *mut u32,
        starts_len: usize,
        work: *mut u32,
        work_len: usize,
    ) -> u32;

    pub fn relaypath_centroid_parent(
        parent: *const u32,
        parent_len: usize,
        level: *const u32,
        level_len: usize,
        v: usize,
        answer: *mut u32,
    ) -> u32;

    pub fn relaypath_centroid_level(
        parent: *const u32,
        parent_len: usize,
        level: *const u32,
        level_len: usize,
        v: usize,
        answer: *mut u32,
    ) -> u32;
}
