// The queries on built tables, held against the original's: all arguments on small trees, random ones on large trees.
use crate::asked::{self, is, BAD_VERTEX, NO_SUBTREE, TOO_FAR};
use crate::calls::{original_graph, Lent};
use crate::labelled::trees;
use crate::lists::Lists;
use crate::random::Random;
use crate::shapes::{graph, SHAPES};
use crate::tables::Tables;
use crate::tally::Tally;
use original::hld::Hld;
use std::fmt::Debug;

// A tree from one root on both sides.
struct Both<'a> {
    tally: &'a mut Tally,
    name: String,
    tables: Tables,
    hld: Hld,
}

impl<'a> Both<'a> {
    fn new(tally: &'a mut Tally, lists: &Lists, root: usize) -> Self {
        let hld = original_graph(lists).try_hld(root);
        Both {
            tally,
            name: format!("{} from {root}", lists.text()),
            tables: Lent::new(lists).build(root).tables,
            hld: hld.unwrap_or_else(|_| panic!("the lists of a tree")),
        }
    }

    fn check<A: PartialEq + Debug>(
        &mut self,
        query: &str,
        arguments: &[usize],
        ours: A,
        theirs: A,
    ) {
        if ours != theirs {
            let name = &self.name;
            self.tally.wrong(&format!(
                "{name}: {query} {arguments:?} gives {ours:?}, the original {theirs:?}"
            ));
        }
        self.tally.checked();
    }

    fn whole(&mut self) {
        let (t, n) = (&self.tables, self.hld.vertex_count());
        let (count, root) = (asked::vertex_count(t), asked::root(t));
        let too_high = asked::depth(t, n);
        self.check("vertex_count", &[], count, is(n));
        self.check("root", &[], root, is(self.hld.root()));
        self.check("depth", &[n], too_high, BAD_VERTEX);
        let too_high = asked::subtree_range(&self.tables, n);
        self.check("subtree_range", &[n], too_high, NO_SUBTREE);
    }

    fn one(&mut self, v: usize, k: usize) {
        let t = &self.tables;
        let (depth, id) = (asked::depth(t, v), asked::vertex_id(t, v));
        let up = asked::kth_ancestor(t, v, k);
        self.check("depth", &[v], depth, is(self.hld.depth(v)));
        self.check("vertex_id", &[v], id, is(self.hld.vertex_id(v)));
        let range = asked::subtree_range(&self.tables, v);
        let (start, end) = self.hld.subtree_range(v);
        self.check("subtree_range", &[v], range, (0, start, end));
        let theirs = self.hld.kth_ancestor(v, k).map_or(TOO_FAR, is);
        self.check("kth_ancestor", &[v, k], up, theirs);
    }

    fn two(&mut self, u: usize, v: usize, k: usize) {
        let t = &self.tables;
        let (distance, size) = (asked::distance(t, u, v), asked::subtree_size(t, u, v));
        let jump = asked::jump(t, u, v, k);
        self.check("distance", &[u, v], distance, is(self.hld.distance(u, v)));
        let theirs = is(self.hld.subtree_size(u, v));
        self.check("subtree_size", &[u, v], size, theirs);
        let theirs = self.hld.jump(u, v, k).map_or(TOO_FAR, is);
        self.check("jump", &[u, v, k], jump, theirs);
    }

    fn three(&mut self, r: usize, u: usize, v: usize) {
        let lca = asked::lca(&self.tables, r, u, v);
        self.check("lca", &[r, u, v], lca, is(self.hld.lca(r, u, v)));
    }

    // All arguments, with up to one step more than there is on any way.
    fn all_arguments(&mut self) {
        let n = self.hld.vertex_count();
        self.whole();
        for u in 0..n {
            (0..=n).for_each(|k| self.one(u, k));
            for v in 0..n {
                (0..=n).for_each(|k| self.two(u, v, k));
                (0..n).for_each(|r| self.three(r, u, v));
            }
        }
    }

    // Random arguments. A step count is up to one more than what there is.
    fn some_arguments(&mut self, times: usize, random: &mut Random) {
        let n = self.hld.vertex_count();
        self.whole();
        for _ in 0..times {
            let [r, u, v] = std::array::from_fn(|_| random.below(n));
            let steps = random.below(self.hld.depth(u) + 2);
            self.one(u, steps);
            let steps = random.below(self.hld.distance(u, v) + 2);
            self.two(u, v, steps);
            self.three(r, u, v);
        }
    }
}

fn small(tally: &mut Tally) -> usize {
    let before = tally.total();
    for n in 1..=5 {
        for lists in trees(n) {
            (0..n).for_each(|root| Both::new(tally, &lists, root).all_arguments());
        }
    }
    tally.total() - before
}

fn large(tally: &mut Tally, sizes: &[usize], times: usize) -> usize {
    let before = tally.total();
    let mut random = Random::new(4);
    for &n in sizes {
        for shape in SHAPES {
            let lists = graph(shape, "none", n, &mut random);
            let root = random.below(n);
            Both::new(tally, &lists, root).some_arguments(times, &mut random);
        }
    }
    tally.total() - before
}

pub fn all(tally: &mut Tally, short: bool) {
    let answers = small(tally);
    println!("queries on all labelled trees, to 5 vertices: {answers} answers");
    let (sizes, times): (&[usize], usize) = if short {
        (&[6, 31, 32, 1_000, 32_768], 100)
    } else {
        (
            &[6, 31, 32, 33, 255, 256, 1_000, 10_000, 32_767, 32_768],
            2_000,
        )
    };
    let answers = large(tally, sizes, times);
    println!("queries on trees of 7 shapes, to 32768 vertices: {answers} answers");
}
