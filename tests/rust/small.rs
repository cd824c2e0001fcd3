// Every small graph: a multiplicity for each pair of vertices, a vertex with itself included.
use crate::calls::{Lent, DONE, NOT_SYMMETRIC};
use crate::lists::Lists;
use crate::tally::Tally;

// The pairs u ≤ v of n vertices, in the order in which they fill each list ascending.
fn pairs(n: usize) -> Vec<(usize, usize)> {
    (0..n).flat_map(|u| (u..n).map(move |v| (u, v))).collect()
}

// The number `k` as `digits` digits in base `base`.
pub fn digits(k: usize, base: usize, digits: usize) -> Vec<usize> {
    (0..digits).map(|i| k / base.pow(i as u32) % base).collect()
}

fn symmetric_lists(n: usize, pairs: &[(usize, usize)], times: &[usize]) -> Lists {
    let edges: Vec<(usize, usize)> = pairs
        .iter()
        .zip(times)
        .flat_map(|(&pair, &k)| std::iter::repeat_n(pair, k))
        .collect();
    Lists::of_edges(n, &edges)
}

// All symmetric graphs of n vertices, as lists in ascending order.
pub fn graphs(n: usize, base: usize) -> impl Iterator<Item = Lists> {
    let pairs = pairs(n);
    let of = move |k| symmetric_lists(n, &pairs, &digits(k, base, pairs.len()));
    (0..base.pow((n * (n + 1) / 2) as u32)).map(of)
}

// All symmetric graphs of n vertices with multiplicities below `base`, from all roots, with each list ascending and then descending.
fn symmetric_graphs(tally: &mut Tally, n: usize, base: usize) {
    for lists in graphs(n, base) {
        tally.compare(&lists, 0..n);
        tally.compare(&lists.turned(), 0..n);
    }
}

// The graph of n vertices in which v stands times[u * n + v] times in the list of u.
fn lists_of(n: usize, times: &[usize]) -> Lists {
    let entries = |u: usize| (0..n).flat_map(move |v| vec![v as u32; times[u * n + v]]);
    Lists((0..n).map(|u| entries(u).collect()).collect())
}

// All graphs of n vertices, symmetric or not, with multiplicities below `base`: code 6 is given exactly to those that are not symmetric.
// Answers how often it was given.
fn all_graphs(tally: &mut Tally, n: usize, base: usize) -> usize {
    let mut given = 0;
    for k in 0..base.pow((n * n) as u32) {
        let lists = lists_of(n, &digits(k, base, n * n));
        let mut lent = Lent::new(&lists);
        let code = lent.validate(k % n);
        let fine = lent.work_is_clean() && (code == DONE || lent.refuses(k % n, code));
        if (code == NOT_SYMMETRIC) == lists.symmetric() || !fine {
            tally.wrong(&format!(
                "{} from {}: {code}, a table or work",
                lists.text(),
                k % n
            ));
        }
        tally.checked();
        given += usize::from(code == NOT_SYMMETRIC);
    }
    given
}

pub fn all(tally: &mut Tally, short: bool) {
    (1..=4).for_each(|n| symmetric_graphs(tally, n, 3));
    tally.group("all symmetric lists, multiplicities to 2, to 4 vertices");
    if !short {
        (1..=5).for_each(|n| symmetric_graphs(tally, n, 2));
        tally.group("all symmetric lists, multiplicities to 1, to 5 vertices");
    }
    let given: usize = (1..=3).map(|n| all_graphs(tally, n, 3)).sum();
    println!(
        "all lists, symmetric or not, multiplicities to 2, to 3 vertices: 6 is given to {given}"
    );
}
