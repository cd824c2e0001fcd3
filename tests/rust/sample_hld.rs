// A sample of the original's tables, which the crate `replay_hld` runs without the original: 16-bit numbers, the low byte first. The first is
// the count of cases; each case is n, the root, n + 1 offsets, 2(n - 1) targets, and n entries of each of the six tables. 65535 stands for no
// parent.
use crate::calls::{original_answer, original_graph};
use crate::labelled::trees;
use crate::lists::Lists;
use crate::random::Random;
use crate::shapes::{graph, SHAPES};

fn case(lists: &Lists, root: usize) -> Vec<u32> {
    let tables = original_answer(&original_graph(lists), root).tables;
    let mut numbers = vec![lists.vertices() as u32, root as u32];
    numbers.extend(lists.offsets());
    numbers.extend(lists.targets());
    numbers.extend(tables.0.iter().flatten());
    numbers
}

// All labelled trees of 4 vertices, from all roots, with each list shuffled.
fn small_cases(random: &mut Random) -> Vec<Vec<u32>> {
    let mut cases = Vec::new();
    for lists in trees(4) {
        let lists = lists.shuffled(random);
        cases.extend((0..4).map(|root| case(&lists, root)));
    }
    cases
}

// Each shape at these sizes, renamed and with lists shuffled, from a random root.
fn shaped_cases(sizes: &[usize], random: &mut Random) -> Vec<Vec<u32>> {
    let mut cases = Vec::new();
    for &n in sizes {
        for shape in SHAPES {
            let lists = graph(shape, "none", n, random);
            cases.push(case(&lists, random.below(n)));
        }
    }
    cases
}

pub fn cases() -> Vec<Vec<u32>> {
    let mut random = Random::new(4);
    let mut cases = vec![case(&Lists::empty(1), 0)];
    cases.extend(small_cases(&mut random));
    cases.extend(shaped_cases(
        &[5, 6, 7, 8, 9, 10, 12, 15, 20, 25, 30, 36, 40],
        &mut random,
    ));
    cases
}
