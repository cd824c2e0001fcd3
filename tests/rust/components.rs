// The component lists, held against the original's. It hands its callback the distances of a component and those of each branch; the vertices
// come from a walk of its decomposition here.
use crate::calls::{original_graph, Lent, DONE, NO_ROOM, PATTERN};
use crate::labelled::trees;
use crate::lists::Lists;
use crate::random::Random;
use crate::shapes::{graph, SHAPES};
use crate::tally::Tally;
use original::centroid_decomposition::CentroidDecomposition;
use std::collections::HashMap;

extern "C" {
    fn relaypath_component_lists(
        offsets: *const u32,
        offsets_len: usize,
        targets: *const u32,
        targets_len: usize,
        vertices: *mut u32,
        vertices_len: usize,
        distances: *mut u32,
        distances_len: usize,
        branches: *mut u32,
        branches_len: usize,
        starts: *mut u32,
        starts_len: usize,
        work: *mut u32,
        work_len: usize,
    ) -> u32;
}

// Vertices, distances, branches and starts.
#[derive(Clone, PartialEq)]
pub struct Filled(pub [Vec<u32>; 4]);

impl Filled {
    // Lists of this room and a table of starts of that length, full of the pattern.
    pub fn unwritten(room: usize, starts: usize) -> Self {
        Filled([room, room, room, starts].map(|length| vec![PATTERN; length]))
    }

    fn is_unwritten(&self) -> bool {
        self.0.iter().flatten().all(|&x| x == PATTERN)
    }
}

impl Lent {
    // The proved component lists into these, with work as it is.
    pub fn list_again(&mut self, filled: &mut Filled) -> u32 {
        let [vertices, distances, branches, starts] = &mut filled.0;
        // Safety: each pointer has as many entries as the length after it says, and no two of the seven overlap.
        unsafe {
            relaypath_component_lists(
                self.offsets.as_ptr(),
                self.offsets.len(),
                self.targets.as_ptr(),
                self.targets.len(),
                vertices.as_mut_ptr(),
                vertices.len(),
                distances.as_mut_ptr(),
                distances.len(),
                branches.as_mut_ptr(),
                branches.len(),
                starts.as_mut_ptr(),
                starts.len(),
                self.work.as_mut_ptr(),
                self.work.len(),
            )
        }
    }
}

// Whether a vertex above c in the decomposition is x.
fn above(made: &CentroidDecomposition, c: usize, x: usize) -> bool {
    let mut at = made.parent(c);
    while let Some(p) = at {
        if p == x {
            return true;
        }
        at = made.parent(p);
    }
    false
}

// The vertices of c's component breadth first in list order, each with its branch.
fn walk(lists: &Lists, made: &CentroidDecomposition, c: usize) -> Vec<(usize, usize)> {
    let mut seen = HashMap::from([(c, ())]);
    let mut queue = vec![(c, c)];
    let mut next = 0;
    while let Some(&(u, branch)) = queue.get(next) {
        next += 1;
        for &v in &lists.0[u] {
            let v = v as usize;
            if !above(made, c, v) && seen.insert(v, ()).is_none() {
                queue.push((v, if u == c { v } else { branch }));
            }
        }
    }
    queue
}

// The lists of a tree as the original has them; its distances by branch are held against those of the walk.
fn theirs(lists: &Lists, agree: &mut bool) -> Filled {
    let n = lists.vertices();
    let graph = original_graph(lists);
    let made = graph.try_centroid_decomposition();
    let made = made.unwrap_or_else(|_| panic!("the lists of a tree"));
    let mut filled = Filled::unwritten(0, 0);
    let mut next = 0;
    made.for_each_component(&graph, |c, whole, branches| {
        *agree &= c == next;
        next += 1;
        let walked = walk(lists, &made, c);
        *agree &= walked.len() == whole.len();
        filled.0[3].push(filled.0[0].len() as u32);
        let mut parts: Vec<(usize, Vec<usize>)> = Vec::new();
        for (&(v, branch), &distance) in walked.iter().zip(whole) {
            filled.0[0].push(v as u32);
            filled.0[1].push(distance as u32);
            filled.0[2].push(branch as u32);
            if v != c {
                match parts.iter_mut().find(|part| part.0 == branch) {
                    Some(part) => part.1.push(distance),
                    None => parts.push((branch, vec![distance])),
                }
            }
        }
        let parts: Vec<Vec<usize>> = parts.into_iter().map(|part| part.1).collect();
        *agree &= parts == branches;
    });
    *agree &= next == n;
    filled.0[3].push(filled.0[0].len() as u32);
    filled
}

// One tree, with room to spare, with just enough, and with one entry less of each.
fn compare(tally: &mut Tally, lists: &Lists) {
    let mut agree = true;
    let whole = theirs(lists, &mut agree);
    let (total, n) = (whole.0[0].len(), lists.vertices());
    let mut lent = Lent::new(lists);
    for spare in [0, 3] {
        let mut ours = Filled::unwritten(total + spare, n + 1 + spare);
        lent.work.fill(PATTERN);
        let code = lent.list_again(&mut ours);
        let mut expected = whole.clone();
        let longer = |list: &mut Vec<u32>| list.resize(list.len() + spare, PATTERN);
        expected.0.iter_mut().for_each(longer);
        if !agree || code != DONE || ours != expected || !lent.work_is_clean() {
            tally.wrong(&format!("{}: the component lists differ", lists.text()));
        }
        tally.checked();
    }
    for k in 0..4 {
        let mut ours = Filled::unwritten(total, n + 1);
        ours.0[k].pop();
        lent.work.fill(PATTERN);
        let code = lent.list_again(&mut ours);
        if code != NO_ROOM || !ours.is_unwritten() || !lent.work_is_clean() {
            tally.wrong(&format!("{}: list {k} one entry short", lists.text()));
        }
        tally.checked();
    }
}

// Lists that are no tree are refused as by the decomposition, and nothing is written.
fn refused(tally: &mut Tally, lists: &Lists) {
    let mut lent = Lent::new(lists);
    let mut ours = Filled::unwritten(8, lists.vertices() + 1);
    let code = lent.list_again(&mut ours);
    let (mut parent, mut level) = (vec![0; lists.vertices()], vec![0; lists.vertices()]);
    let other = lent.decompose(&mut parent, &mut level);
    if code != other || code == DONE || !ours.is_unwritten() {
        tally.wrong(&format!("{}: lists of what is no tree", lists.text()));
    }
    tally.checked();
}

pub fn all(tally: &mut Tally, short: bool) {
    let before = tally.total();
    let mut random = Random::new(7);
    for n in 1..=if short { 5 } else { 7 } {
        for lists in trees(n) {
            compare(tally, &lists);
            compare(tally, &lists.shuffled(&mut random));
        }
    }
    let sizes: &[usize] = if short {
        &[33, 500]
    } else {
        &[33, 500, 1_024, 10_000, 32_767, 32_768]
    };
    for &n in sizes {
        for shape in SHAPES {
            compare(tally, &graph(shape, "none", n, &mut random));
        }
        for what in ["removed", "added", "parted"] {
            refused(tally, &graph("random", what, n, &mut random));
        }
    }
    println!(
        "component lists, every room one short: {} answers",
        tally.total() - before
    );
}
