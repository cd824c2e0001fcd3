// Times the proved library beside the Rust original in one run, on trees of many shapes. Each figure is the least of several rounds in which the
// two take turns. The proved calls write into buffers that were made before and are used again, as their callers would; the original makes its
// own, as it does for its callers.
mod asked;
mod calls;
mod centroids;
mod components;
mod labelled;
mod listed;
mod lists;
mod random;
mod shapes;
mod small;
mod tables;
mod tally;

use asked::{distance, jump, kth_ancestor, lca, subtree_size};
use calls::{original_graph, Lent, DONE};
use components::Filled;
use listed::KINDS;
use lists::Lists;
use original::graph::Graph;
use original::hld::Hld;
use random::Random;
use shapes::{graph, SHAPES};
use std::hint::black_box;
use std::time::Instant;
use tables::Tables;

fn told(word: &str) -> bool {
    std::env::args().any(|said| said == word)
}

// Fewer where the limits are lifted, since each build takes a second there, and one where instructions are counted.
fn rounds() -> usize {
    match (cfg!(lifted), told("--count")) {
        (_, true) => 1,
        (true, false) => 2,
        (false, false) => 7,
    }
}

const QUESTIONS: usize = 4_096;

// Nanoseconds of the quickest round of each of the two.
fn race(mut ours: impl FnMut(), mut theirs: impl FnMut()) -> (f64, f64) {
    let (mut a, mut b) = (f64::MAX, f64::MAX);
    for _ in 0..rounds() {
        let start = Instant::now();
        ours();
        a = a.min(start.elapsed().as_nanos() as f64);
        let start = Instant::now();
        theirs();
        b = b.min(start.elapsed().as_nanos() as f64);
    }
    (a, b)
}

fn line(n: usize, shape: &str, what: &str, each: usize, (ours, theirs): (f64, f64)) {
    let (ours, theirs) = (ours / each as f64, theirs / each as f64);
    println!(
        "{n:7} {shape:12} {what:27} {ours:12.1} {theirs:12.1} {:6.2}",
        ours / theirs
    );
}

// How often a build of n vertices is run in a round.
fn times(n: usize) -> usize {
    (65_536 / n).max(1)
}

fn builds(n: usize, shape: &str, lists: &Lists) {
    let graph = original_graph(lists);
    let k = times(n);
    let mut lent = Lent::new(lists);
    let mut tables = Tables::unwritten(n);
    let found = race(
        || (0..k).for_each(|_| assert_eq!(0, lent.build_again(0, &mut tables))),
        || (0..k).for_each(|_| drop(black_box(graph.try_hld(0)))),
    );
    line(n, shape, "try_hld", k, found);
    let (mut parent, mut level) = (vec![0; n], vec![0; n]);
    let found = race(
        || (0..k).for_each(|_| assert_eq!(0, lent.decompose_again(&mut parent, &mut level))),
        || (0..k).for_each(|_| drop(black_box(graph.try_centroid_decomposition()))),
    );
    line(n, shape, "try_centroid_decomposition", k, found);
    components(n, shape, &graph, &mut lent);
}

fn components(n: usize, shape: &str, graph: &Graph<()>, lent: &mut Lent) {
    let k = times(n);
    let made = graph.try_centroid_decomposition();
    let made = made.unwrap_or_else(|_| panic!("the lists of a tree"));
    let total: usize = (0..n).map(|v| made.level(v) + 1).sum();
    let mut filled = Filled::unwritten(total, n + 1);
    let found = race(
        || (0..k).for_each(|_| assert_eq!(DONE, lent.list_again(&mut filled))),
        || (0..k).for_each(|_| listed(graph)),
    );
    line(n, shape, "component_lists", k, found);
}

// The original's way to the same lists: the decomposition, and then each component.
fn listed(graph: &Graph<()>) {
    let made = graph.try_centroid_decomposition();
    let made = made.unwrap_or_else(|_| panic!("the lists of a tree"));
    let mut sum = 0;
    made.for_each_component(graph, |c, whole, branches| {
        sum += c + whole.len() + branches.len()
    });
    black_box(sum);
}

type Arguments = [usize; 3];

// One query on both sides.
fn query(
    (n, shape, what): (usize, &str, &str),
    arguments: &[Arguments],
    ours: impl Fn(Arguments) -> usize,
    theirs: impl Fn(Arguments) -> usize,
) {
    let found = race(
        || {
            drop(black_box(
                arguments
                    .iter()
                    .map(|&a| ours(a))
                    .fold(0, usize::wrapping_add),
            ))
        },
        || {
            drop(black_box(
                arguments
                    .iter()
                    .map(|&a| theirs(a))
                    .fold(0, usize::wrapping_add),
            ))
        },
    );
    line(n, shape, what, arguments.len(), found);
}

fn queries(n: usize, shape: &str, tables: &Tables, hld: &Hld, random: &mut Random) {
    let mut any: Vec<Arguments> = Vec::new();
    for _ in 0..QUESTIONS {
        any.push(std::array::from_fn(|_| random.below(n)));
    }
    let on_the_way = |&[u, v, x]: &Arguments| [u, v, x % (hld.distance(u, v) + 1)];
    let steps: Vec<Arguments> = any.iter().map(on_the_way).collect();
    let above: Vec<Arguments> = any
        .iter()
        .map(|&[u, v, x]| [u, v, x % (hld.depth(u) + 1)])
        .collect();
    let t = tables;
    query(
        (n, shape, "distance"),
        &any,
        |[u, v, _]| distance(t, u, v).1,
        |[u, v, _]| hld.distance(u, v),
    );
    query(
        (n, shape, "lca"),
        &any,
        |[r, u, v]| lca(t, r, u, v).1,
        |[r, u, v]| hld.lca(r, u, v),
    );
    query(
        (n, shape, "kth_ancestor"),
        &above,
        |[v, _, k]| kth_ancestor(t, v, k).1,
        |[v, _, k]| hld.kth_ancestor(v, k).unwrap_or(n),
    );
    query(
        (n, shape, "jump"),
        &steps,
        |[u, v, k]| jump(t, u, v, k).1,
        |[u, v, k]| hld.jump(u, v, k).unwrap_or(n),
    );
    query(
        (n, shape, "subtree_size"),
        &any,
        |[r, v, _]| subtree_size(t, r, v).1,
        |[r, v, _]| hld.subtree_size(r, v),
    );
    let room = 3 * (2 * n.ilog2() as usize + 1);
    for kind in &KINDS {
        let list = std::cell::RefCell::new(vec![0; room]);
        query(
            (n, shape, kind.name),
            &any,
            |[u, v, _]| {
                let mut count = 0;
                (kind.ours)(t, u, v, &mut list.borrow_mut(), &mut count);
                count
            },
            |[u, v, _]| (kind.theirs)(hld, u, v).len(),
        );
    }
}

// A tree's lists with one thing wrong, as far towards their end as can be: the last offset, the last target, a target that makes the lists
// uneven.
fn damaged(lists: &Lists, what: &str) -> Lent {
    let (mut offsets, mut targets) = (lists.offsets(), lists.targets());
    let (n, e) = (lists.vertices() as u32, targets.len());
    match what {
        "3, last offset" => offsets[n as usize] -= 1,
        "4, last target" => targets[e - 1] = n,
        _ => targets[e - 1] = (targets[e - 1] + 1) % n,
    }
    Lent::of(offsets, targets)
}

// One refusal beside the acceptance of a tree of the same size.
fn refusal(n: usize, shape: &str, what: &str, tree: &Lists, mut bad: Lent, root: usize) {
    let mut good = Lent::new(tree);
    let (mut tables, mut more) = (Tables::unwritten(n), Tables::unwritten(n));
    let k = times(n);
    let found = race(
        || (0..k).for_each(|_| assert_ne!(DONE, bad.build_again(root, &mut tables))),
        || (0..k).for_each(|_| assert_eq!(DONE, good.build_again(0, &mut more))),
    );
    line(n, shape, &format!("refused {what}"), k, found);
}

fn refusals(n: usize, random: &mut Random) {
    for shape in SHAPES {
        let tree = graph(shape, "none", n, random);
        for what in ["3, last offset", "4, last target", "6, last target"] {
            refusal(n, shape, what, &tree, damaged(&tree, what), 0);
        }
        refusal(n, shape, "5", &tree, Lent::new(&tree), n);
        for (what, code) in [("removed", "7"), ("parted", "7"), ("self", "8")] {
            let other = graph(shape, what, n, random);
            let name = format!("{code}, {what}");
            refusal(n, shape, &name, &tree, Lent::new(&other), 0);
        }
    }
}

fn main() {
    let (lifted, counted) = (told("--large"), told("--count"));
    let sizes: &[usize] = match (lifted, counted) {
        (true, _) => &[1_000_000],
        (false, true) => &[1_024],
        (false, false) => &[1_024, 32_768],
    };
    let mut random = Random::new(8);
    println!("      n shape        what                          ours, ns     theirs, ns  ratio");
    for &n in sizes {
        for shape in SHAPES {
            let lists = graph(shape, "none", n, &mut random);
            builds(n, shape, &lists);
            let tables = Lent::new(&lists).build(0).tables;
            let hld = original_graph(&lists).try_hld(0);
            let hld = hld.unwrap_or_else(|_| panic!("the lists of a tree"));
            queries(n, shape, &tables, &hld, &mut random);
        }
    }
    if !lifted && !counted {
        println!(
            "      n shape        what                       refused, ns   accepted, ns  ratio"
        );
        refusals(32_700, &mut random);
    }
}
