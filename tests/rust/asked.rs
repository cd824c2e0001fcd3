// The proved queries, through their C names.
use crate::tables::Tables;

// What stands in the number lent for an answer before each call.
const UNANSWERED: usize = 0xA5C3_9617;

// A code, and what stands in the number lent for the answer after the call.
pub type Asked = (u32, usize);

pub const BAD_VERTEX: Asked = (4, UNANSWERED);
pub const TOO_FAR: Asked = (10, UNANSWERED);

pub fn is(x: usize) -> Asked {
    (0, x)
}

// Each query as a function over tables, with the C function that it calls.
macro_rules! queries {
    ($($name:ident = $c_name:ident($($argument:ident),*);)*) => {
        extern "C" {
            $(fn $c_name(
                parent: *const u32,
                parent_len: usize,
                depth: *const u32,
                depth_len: usize,
                head: *const u32,
                head_len: usize,
                id: *const u32,
                id_len: usize,
                order: *const u32,
                order_len: usize,
                size: *const u32,
                size_len: usize,
                $($argument: usize,)*
                answer: *mut usize,
            ) -> u32;)*
        }

        $(pub fn $name(tables: &Tables, $($argument: usize),*) -> Asked {
            let [parent, depth, head, id, order, size] = &tables.0;
            let mut answer = UNANSWERED;
            // Safety: each pointer has as many entries as the length after it says, and the answer overlaps none of them.
            let code = unsafe {
                $c_name(
                    parent.as_ptr(),
                    parent.len(),
                    depth.as_ptr(),
                    depth.len(),
                    head.as_ptr(),
                    head.len(),
                    id.as_ptr(),
                    id.len(),
                    order.as_ptr(),
                    order.len(),
                    size.as_ptr(),
                    size.len(),
                    $($argument,)*
                    &mut answer,
                )
            };
            (code, answer)
        })*
    };
}

queries! {
    vertex_count = relaypath_vertex_count();
    root = relaypath_root();
    depth = relaypath_depth(v);
    vertex_id = relaypath_vertex_id(v);
    distance = relaypath_distance(u, v);
    lca = relaypath_lca(r, u, v);
    kth_ancestor = relaypath_kth_ancestor(v, k);
    jump = relaypath_jump(u, v, k);
    subtree_size = relaypath_subtree_size(r, v);
}

extern "C" {
    fn relaypath_subtree_range(
        parent: *const u32,
        parent_len: usize,
        depth: *const u32,
        depth_len: usize,
        head: *const u32,
        head_len: usize,
        id: *const u32,
        id_len: usize,
        order: *const u32,
        order_len: usize,
        size: *const u32,
        size_len: usize,
        v: usize,
        start: *mut usize,
        end: *mut usize,
    ) -> u32;
}

// A code, and what stands in the two numbers lent for the interval after the call.
pub fn subtree_range(tables: &Tables, v: usize) -> (u32, usize, usize) {
    let [parent, depth, head, id, order, size] = &tables.0;
    let (mut start, mut end) = (UNANSWERED, UNANSWERED);
    // Safety: as above.
    let code = unsafe {
        relaypath_subtree_range(
            parent.as_ptr(),
            parent.len(),
            depth.as_ptr(),
            depth.len(),
            head.as_ptr(),
            head.len(),
            id.as_ptr(),
            id.len(),
            order.as_ptr(),
            order.len(),
            size.as_ptr(),
            size.len(),
            v,
            &mut start,
            &mut end,
        )
    };
    (code, start, end)
}

pub const NO_SUBTREE: (u32, usize, usize) = (4, UNANSWERED, UNANSWERED);
