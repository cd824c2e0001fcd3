// Every labelled tree of few vertices, by its Prüfer code: each list of n - 2 vertices is the code of one tree of n ≥ 2 vertices.
use crate::lists::Lists;
use crate::random::Random;
use crate::small::digits;
use crate::tally::Tally;

// The edges of the tree of n ≥ 2 vertices with this code: each vertex of the code is joined to the least leaf that is left, then the last two are
// joined.
fn edges(n: usize, code: &[usize]) -> Vec<(usize, usize)> {
    let mut degree = vec![1; n];
    for &v in code {
        degree[v] += 1;
    }
    let mut edges = Vec::new();
    for &v in code {
        let leaf = (0..n).find(|&u| degree[u] == 1).expect("a leaf");
        edges.push((leaf, v));
        degree[leaf] = 0;
        degree[v] -= 1;
    }
    let last: Vec<usize> = (0..n).filter(|&u| degree[u] == 1).collect();
    edges.push((last[0], last[1]));
    edges
}

// All trees of n vertices, with each list ascending.
pub fn trees(n: usize) -> impl Iterator<Item = Lists> {
    let length = n.saturating_sub(2);
    (0..n.pow(length as u32)).map(move |k| {
        if n < 2 {
            return Lists::empty(n);
        }
        let mut lists = Lists::of_edges(n, &edges(n, &digits(k, n, length)));
        lists.0.iter_mut().for_each(|list| list.sort());
        lists
    })
}

// All trees of up to 6 vertices from all roots, with each list ascending, descending and shuffled.
pub fn all(tally: &mut Tally) {
    let mut random = Random::new(3);
    for n in 1..=6 {
        for lists in trees(n) {
            tally.compare(&lists, 0..n);
            tally.compare(&lists.turned(), 0..n);
            tally.compare(&lists.clone().shuffled(&mut random), 0..n);
        }
    }
    tally.group("all labelled trees, to 6 vertices, lists in 3 orders");
}
