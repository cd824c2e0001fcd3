// Trees of many shapes up to the largest, with vertices renamed and lists shuffled at random, and each with one thing changed.
use crate::calls::MAX_TARGETS;
use crate::lists::Lists;
use crate::random::Random;
use crate::tally::Tally;

type Edges = Vec<(usize, usize)>;

pub const SHAPES: [&str; 7] = [
    "path",
    "star",
    "caterpillar",
    "broom",
    "binary",
    "random",
    "deep",
];
const CHANGES: [&str; 6] = ["none", "added", "removed", "doubled", "self", "parted"];

// The vertex below v that v hangs from, for 1 ≤ v < n.
fn parent(shape: &str, n: usize, v: usize, random: &mut Random) -> usize {
    match shape {
        "path" => v - 1,
        "star" => 0,
        "caterpillar" => (v - 1) / 2 * 2,
        "broom" => (v - 1).min(n / 2),
        "binary" => (v - 1) / 2,
        "deep" => v - 1 - random.below(v.min(3)),
        _ => random.below(v),
    }
}

// A tree of n vertices, renamed at random.
fn tree(shape: &str, n: usize, random: &mut Random) -> Edges {
    let mut names: Vec<usize> = (0..n).collect();
    random.shuffle(&mut names);
    let edge = |v: usize| (names[parent(shape, n, v, random)], names[v]);
    (1..n).map(edge).collect()
}

// Which vertices are joined to the first end of the edge at `at`, once that edge is gone.
fn side(n: usize, edges: &Edges, at: usize) -> Vec<bool> {
    let mut rest = edges.clone();
    let (from, _) = rest.swap_remove(at);
    let lists = Lists::of_edges(n, &rest);
    let mut seen = vec![false; n];
    let mut stack = vec![from];
    while let Some(u) = stack.pop() {
        if !seen[u] {
            seen[u] = true;
            stack.extend(lists.0[u].iter().map(|&v| v as usize));
        }
    }
    seen
}

// Moves one edge into one side of it: as many edges as a tree has, in two components.
fn part(n: usize, mut edges: Edges, random: &mut Random) -> Edges {
    let at = random.below(edges.len());
    let seen = side(n, &edges, at);
    let large = seen.iter().filter(|&&x| x).count() * 2 >= n;
    let inside: Vec<usize> = (0..n).filter(|&v| seen[v] == large).collect();
    let pick = |random: &mut Random| inside[random.below(inside.len())];
    edges[at] = (pick(random), pick(random));
    edges
}

// The edges with one thing changed. A tree of one vertex has no edge, and changes only by a self entry.
fn change(what: &str, n: usize, mut edges: Edges, random: &mut Random) -> Edges {
    let v = random.below(n);
    if what == "self" {
        edges.push((v, v));
    }
    if edges.is_empty() {
        return edges;
    }
    let at = random.below(edges.len());
    match what {
        "added" => edges.push((v, (v + 1 + random.below(n - 1)) % n)),
        "doubled" => edges.push(edges[at]),
        "removed" => drop(edges.swap_remove(at)),
        "parted" => return part(n, edges, random),
        _ => {}
    }
    edges
}

// Each shape with each change.
pub fn kinds() -> impl Iterator<Item = (&'static str, &'static str)> {
    SHAPES
        .into_iter()
        .flat_map(|shape| CHANGES.into_iter().map(move |what| (shape, what)))
}

pub fn graph(shape: &str, what: &str, n: usize, random: &mut Random) -> Lists {
    let edges = tree(shape, n, random);
    let edges = change(what, n, edges, random);
    Lists::of_edges(n, &edges).shuffled(random)
}

// Each kind at size n, from `roots` roots. Graphs beyond the limit of targets are left out.
fn at_size(tally: &mut Tally, n: usize, roots: usize, random: &mut Random) {
    for (shape, what) in kinds() {
        let lists = graph(shape, what, n, random);
        if lists.entries() <= MAX_TARGETS {
            let from: Vec<usize> = (0..roots).map(|_| random.below(n)).collect();
            tally.compare(&lists, from.into_iter());
        }
    }
}

fn at_sizes(tally: &mut Tally, sizes: &[usize], roots: usize, random: &mut Random) {
    for &n in sizes {
        at_size(tally, n, roots, random);
    }
}

pub fn all(tally: &mut Tally, short: bool) {
    let mut random = Random::new(1);
    let (times, largest) = if short { (10, 2_000) } else { (60, 32_768) };
    let each: Vec<usize> = (1..=100).collect();
    at_sizes(tally, &each, times / 10, &mut random);
    tally.group("trees of 7 shapes, as they are and with 5 changes, each size to 100");
    let some: Vec<usize> = (0..times)
        .map(|_| 101 + random.below(largest - 100))
        .collect();
    at_sizes(tally, &some, 2, &mut random);
    tally.group(&format!("the same, {times} sizes to {largest}"));
    at_sizes(
        tally,
        &[32_767, 32_768],
        if short { 1 } else { 5 },
        &mut random,
    );
    tally.group("the same, 32767 and 32768");
}
