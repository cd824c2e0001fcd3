// The centroid decomposition, held against the original's: parents and levels.
use crate::calls::{original_graph, Lent, DONE, PATTERN};
use crate::labelled::trees;
use crate::lists::Lists;
use crate::random::Random;
use crate::shapes::{graph, kinds, SHAPES};
use crate::tally::Tally;
use original::graph::NotATreeError;

const NO_PARENT: u32 = u32::MAX;

// A code with the two tables.
type Answer = (u32, Vec<u32>, Vec<u32>);

fn theirs(lists: &Lists) -> Answer {
    let n = lists.vertices();
    match original_graph(lists).try_centroid_decomposition() {
        Ok(made) => {
            let parent = |v| made.parent(v).map_or(NO_PARENT, |p| p as u32);
            let level = |v| made.level(v) as u32;
            (
                DONE,
                (0..n).map(parent).collect(),
                (0..n).map(level).collect(),
            )
        }
        Err(refusal) => {
            let code = match refusal {
                NotATreeError::Disconnected => 7,
                NotATreeError::HasCycle => 8,
            };
            (code, vec![PATTERN; n], vec![PATTERN; n])
        }
    }
}

fn compare(tally: &mut Tally, lists: &Lists) {
    let mut lent = Lent::new(lists);
    let n = lists.vertices();
    let (mut parent, mut level) = (vec![PATTERN; n], vec![PATTERN; n]);
    let code = lent.decompose(&mut parent, &mut level);
    if (code, parent, level) != theirs(lists) {
        tally.wrong(&format!("{}: the decomposition differs", lists.text()));
    }
    if !lent.work_is_kept(code) {
        tally.wrong(&format!("{}: work after the decomposition", lists.text()));
    }
    tally.checked();
}

// Tables of a wrong length are refused and not written.
fn lengths(tally: &mut Tally, lists: &Lists) {
    let n = lists.vertices();
    for (p, l) in [(n - 1, n), (n + 1, n), (n, n - 1), (n, n + 1), (0, 0)] {
        let mut lent = Lent::new(lists);
        let (mut parent, mut level) = (vec![PATTERN; p], vec![PATTERN; l]);
        let code = lent.decompose(&mut parent, &mut level);
        let kept = parent.iter().chain(&level).all(|&x| x == PATTERN);
        if code != 1 || !kept || !lent.work_is_kept(code) {
            tally.wrong(&format!("tables of {p} and {l} entries for {n} vertices"));
        }
        tally.checked();
    }
}

pub fn all(tally: &mut Tally, short: bool) {
    let before = tally.total();
    let mut random = Random::new(6);
    for n in 1..=if short { 6 } else { 8 } {
        for lists in trees(n) {
            compare(tally, &lists);
            compare(tally, &lists.shuffled(&mut random));
        }
    }
    for n in 1..=if short { 40 } else { 200 } {
        for (shape, what) in kinds() {
            compare(tally, &graph(shape, what, n, &mut random));
        }
    }
    let sizes: &[usize] = if short {
        &[32_768]
    } else {
        &[1_000, 10_000, 32_767, 32_768]
    };
    for &n in sizes {
        for shape in SHAPES {
            compare(tally, &graph(shape, "none", n, &mut random));
        }
    }
    lengths(tally, &graph("path", "none", 9, &mut random));
    println!(
        "centroid decompositions, to 32768 vertices: {} answers",
        tally.total() - before
    );
}
