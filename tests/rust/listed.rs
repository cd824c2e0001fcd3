// The proved calls for the ranges of paths, and range room, through their C names.
use crate::calls::PATTERN;
use crate::tables::Tables;
use original::hld::{Hld, PathDirection};

extern "C" {
    fn relaypath_range_room(n: usize, answer: *mut usize) -> u32;
}

// What stands in the number lent for the count before each call.
const UNCOUNTED: usize = 0xA5C3_9617;

pub const NO_ROOM: u32 = 2;

// A code, what stands in the number lent for the count, and what stands in the list.
pub type Listed = (u32, usize, Vec<u32>);

// The answer where these numbers are the ranges, three to a range, and the list has room for so many.
pub fn expected(numbers: &[u32], room: usize) -> Listed {
    let mut list = vec![PATTERN; room];
    if room < numbers.len() {
        return (NO_ROOM, UNCOUNTED, list);
    }
    list[..numbers.len()].copy_from_slice(numbers);
    (0, numbers.len() / 3, list)
}

// The answer of a refusal before the test of room.
pub fn refused(code: u32, room: usize) -> Listed {
    (code, UNCOUNTED, vec![PATTERN; room])
}

pub fn range_room(n: usize) -> (u32, usize) {
    let mut answer = UNCOUNTED;
    // Safety: the answer overlaps nothing.
    let code = unsafe { relaypath_range_room(n, &mut answer) };
    (code, answer)
}

macro_rules! kinds {
    ($($name:ident = $c_name:ident;)*) => {
        extern "C" {
            $(fn $c_name(
                parent: *const u32,
                parent_len: usize,
                depth: *const u32,
                depth_len: usize,
                head: *const u32,
                head_len: usize,
                id: *const u32,
                id_len: usize,
                order: *const u32,
                order_len: usize,
                size: *const u32,
                size_len: usize,
                u: usize,
                v: usize,
                ranges: *mut u32,
                ranges_len: usize,
                count: *mut usize,
            ) -> u32;)*
        }

        $(fn $name(tables: &Tables, u: usize, v: usize, list: &mut [u32], count: &mut usize) -> u32 {
            let [parent, depth, head, id, order, size] = &tables.0;
            // Safety: each pointer has as many entries as the length after it says, and what is written overlaps nothing else.
            unsafe {
                $c_name(
                    parent.as_ptr(),
                    parent.len(),
                    depth.as_ptr(),
                    depth.len(),
                    head.as_ptr(),
                    head.len(),
                    id.as_ptr(),
                    id.len(),
                    order.as_ptr(),
                    order.len(),
                    size.as_ptr(),
                    size.len(),
                    u,
                    v,
                    list.as_mut_ptr(),
                    list.len(),
                    count,
                )
            }
        })*
    };
}

kinds! {
    vertices = relaypath_vertex_path_ranges;
    edges = relaypath_edge_path_ranges;
    both = relaypath_vertex_edge_path_ranges;
}

type Ranges = Vec<(usize, usize, PathDirection)>;

// A kind of ranges on both sides: its name, the proved call and the original's.
pub struct Kind {
    pub name: &'static str,
    pub ours: fn(&Tables, usize, usize, &mut [u32], &mut usize) -> u32,
    pub theirs: fn(&Hld, usize, usize) -> Ranges,
}

impl Kind {
    // The proved call's answer with a list of this length.
    pub fn answer(&self, tables: &Tables, u: usize, v: usize, room: usize) -> Listed {
        let mut list = vec![PATTERN; room];
        let mut count = UNCOUNTED;
        let code = (self.ours)(tables, u, v, &mut list, &mut count);
        (code, count, list)
    }

    // The original's ranges, three numbers to a range.
    pub fn numbers(&self, hld: &Hld, u: usize, v: usize) -> Vec<u32> {
        let one = |(start, end, direction)| {
            let turned = match direction {
                PathDirection::Forward => 0,
                PathDirection::Reversed => 1,
            };
            [start as u32, end as u32, turned]
        };
        (self.theirs)(hld, u, v).into_iter().flat_map(one).collect()
    }
}

pub const KINDS: [Kind; 3] = [
    Kind {
        name: "vertex_path_ranges",
        ours: vertices,
        theirs: Hld::vertex_path_ranges,
    },
    Kind {
        name: "edge_path_ranges",
        ours: edges,
        theirs: Hld::edge_path_ranges,
    },
    Kind {
        name: "vertex_edge_path_ranges",
        ours: both,
        theirs: Hld::vertex_edge_path_ranges,
    },
];

// What the ranges read, three numbers to a range: each from its start to its end, or the other way.
pub fn reading(ranges: &[u32]) -> Vec<u32> {
    let one = |range: &[u32]| -> Vec<u32> {
        let forward = range[0]..range[1];
        if range[2] == 0 {
            forward.collect()
        } else {
            forward.rev().collect()
        }
    };
    ranges.chunks(3).flat_map(one).collect()
}
