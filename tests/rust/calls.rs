// The two sides: the proved calls, through their C names, and the original.
use crate::lists::Lists;
use crate::tables::{original_tables, Tables};
use original::graph::{Graph, NotATreeError};

extern "C" {
    fn relaypath_validate_tree(
        offsets: *const u32,
        offsets_len: usize,
        targets: *const u32,
        targets_len: usize,
        root: usize,
        work: *mut u32,
        work_len: usize,
    ) -> u32;

    fn relaypath_try_hld(
        offsets: *const u32,
        offsets_len: usize,
        targets: *const u32,
        targets_len: usize,
        root: usize,
        parent: *mut u32,
        parent_len: usize,
        depth: *mut u32,
        depth_len: usize,
        head: *mut u32,
        head_len: usize,
        id: *mut u32,
        id_len: usize,
        order: *mut u32,
        order_len: usize,
        size: *mut u32,
        size_len: usize,
        work: *mut u32,
        work_len: usize,
    ) -> u32;

    fn relaypath_try_centroid_decomposition(
        offsets: *const u32,
        offsets_len: usize,
        targets: *const u32,
        targets_len: usize,
        parent: *mut u32,
        parent_len: usize,
        level: *mut u32,
        level_len: usize,
        work: *mut u32,
        work_len: usize,
    ) -> u32;
}

pub const DONE: u32 = 0;
pub const BAD_SIZE: u32 = 1;
pub const NO_ROOM: u32 = 2;
pub const NOT_SYMMETRIC: u32 = 6;
pub const DISCONNECTED: u32 = 7;
pub const HAS_CYCLE: u32 = 8;
pub const MAX_TARGETS: usize = 65_535;

// What stands in work and in the tables before each call, and how many entries work has past those that are asked for.
pub const PATTERN: u32 = 0xA5C3_9617;
const SPARE: usize = 5;

// What a build answers: its code, and what stands in the tables after it.
#[derive(PartialEq)]
pub struct Answer {
    pub code: u32,
    pub tables: Tables,
}

// The graph in the proved calls' form, with work of its own.
pub struct Lent {
    pub offsets: Vec<u32>,
    pub targets: Vec<u32>,
    pub work: Vec<u32>,
    room: usize,
}

impl Lent {
    pub fn new(lists: &Lists) -> Self {
        Lent::of(lists.offsets(), lists.targets())
    }

    pub fn of(offsets: Vec<u32>, targets: Vec<u32>) -> Self {
        let room = 8 * offsets.len().saturating_sub(1) + targets.len();
        Lent {
            offsets,
            targets,
            work: vec![PATTERN; room + SPARE],
            room,
        }
    }

    // The same with one entry of work less than is asked for.
    pub fn short_of_room(mut self) -> Self {
        self.work.truncate(self.room - 1);
        self
    }

    pub fn vertices(&self) -> usize {
        self.offsets.len().saturating_sub(1)
    }

    // The code of the proved validation, with work full of the pattern before.
    pub fn validate(&mut self, root: usize) -> u32 {
        self.work.fill(PATTERN);
        // Safety: each pointer has as many entries as the length after it says, and the three do not overlap.
        unsafe {
            relaypath_validate_tree(
                self.offsets.as_ptr(),
                self.offsets.len(),
                self.targets.as_ptr(),
                self.targets.len(),
                root,
                self.work.as_mut_ptr(),
                self.work.len(),
            )
        }
    }

    // The proved build into these tables, with work as it is.
    pub fn build_again(&mut self, root: usize, tables: &mut Tables) -> u32 {
        let [parent, depth, head, id, order, size] = &mut tables.0;
        // Safety: each pointer has as many entries as the length after it says, and no two of the nine overlap.
        unsafe {
            relaypath_try_hld(
                self.offsets.as_ptr(),
                self.offsets.len(),
                self.targets.as_ptr(),
                self.targets.len(),
                root,
                parent.as_mut_ptr(),
                parent.len(),
                depth.as_mut_ptr(),
                depth.len(),
                head.as_mut_ptr(),
                head.len(),
                id.as_mut_ptr(),
                id.len(),
                order.as_mut_ptr(),
                order.len(),
                size.as_mut_ptr(),
                size.len(),
                self.work.as_mut_ptr(),
                self.work.len(),
            )
        }
    }

    // The same with work full of the pattern before.
    pub fn build_into(&mut self, root: usize, mut tables: Tables) -> Answer {
        self.work.fill(PATTERN);
        let code = self.build_again(root, &mut tables);
        Answer { code, tables }
    }

    // The proved build into tables of the right length, full of the pattern before.
    pub fn build(&mut self, root: usize) -> Answer {
        self.build_into(root, Tables::unwritten(self.vertices()))
    }

    // The proved centroid decomposition into these two tables, with work full of the pattern before.
    pub fn decompose(&mut self, parent: &mut [u32], level: &mut [u32]) -> u32 {
        self.work.fill(PATTERN);
        self.decompose_again(parent, level)
    }

    // The same with work as it is.
    pub fn decompose_again(&mut self, parent: &mut [u32], level: &mut [u32]) -> u32 {
        // Safety: each pointer has as many entries as the length after it says, and no two of the five overlap.
        unsafe {
            relaypath_try_centroid_decomposition(
                self.offsets.as_ptr(),
                self.offsets.len(),
                self.targets.as_ptr(),
                self.targets.len(),
                parent.as_mut_ptr(),
                parent.len(),
                level.as_mut_ptr(),
                level.len(),
                self.work.as_mut_ptr(),
                self.work.len(),
            )
        }
    }

    // Whether work is as it must be after the codes 0 and 3 to 8: zero as far as it was asked for, and unchanged past that.
    pub fn work_is_clean(&self) -> bool {
        let (used, spare) = self.work.split_at(self.room);
        used.iter().all(|&x| x == 0) && spare.iter().all(|&x| x == PATTERN)
    }

    // Whether work is as it must be after the code: unchanged after 1 and 2, else clean.
    pub fn work_is_kept(&self, code: u32) -> bool {
        if code == BAD_SIZE || code == NO_ROOM {
            return self.work.iter().all(|&x| x == PATTERN);
        }
        self.work_is_clean()
    }

    // Whether both calls refuse with this code, the build writes no table, and work is as it must be after each.
    pub fn refuses(&mut self, root: usize, code: u32) -> bool {
        let same = self.validate(root) == code && self.work_is_kept(code);
        let built = self.build(root);
        same && built.code == code && built.tables.are_unwritten() && self.work_is_kept(code)
    }
}

pub fn original_graph(lists: &Lists) -> Graph<()> {
    let mut graph = Graph::new(lists.vertices());
    for (u, list) in lists.0.iter().enumerate() {
        for &v in list {
            graph.add_edge(u, v as usize, ());
        }
    }
    graph
}

fn code_of(refusal: NotATreeError) -> u32 {
    match refusal {
        NotATreeError::Disconnected => DISCONNECTED,
        NotATreeError::HasCycle => HAS_CYCLE,
    }
}

// The original's answer by the number of our code. Its validation is private to it, so this builds the whole decomposition.
pub fn original_code(graph: &Graph<()>, root: usize) -> u32 {
    graph.try_hld(root).map_or_else(code_of, |_| DONE)
}

// The original's answer in the proved build's form: a refusal writes no table.
pub fn original_answer(graph: &Graph<()>, root: usize) -> Answer {
    match graph.try_hld(root) {
        Ok(hld) => Answer {
            code: DONE,
            tables: original_tables(&hld),
        },
        Err(refusal) => Answer {
            code: code_of(refusal),
            tables: Tables::unwritten(graph.vertex_count()),
        },
    }
}
