// The ranges of paths, held against the original's: all pairs and all rooms on small trees, random pairs on large ones; and that the reading of
// v to u is that of u to v turned round.
use crate::calls::{original_graph, Lent};
use crate::labelled::trees;
use crate::listed::{expected, range_room, reading, refused, Kind, KINDS};
use crate::lists::Lists;
use crate::random::Random;
use crate::shapes::{graph, SHAPES};
use crate::tables::Tables;
use crate::tally::Tally;
use original::hld::Hld;

// A tree from one root on both sides.
struct Both<'a> {
    tally: &'a mut Tally,
    name: String,
    tables: Tables,
    hld: Hld,
}

impl<'a> Both<'a> {
    fn new(tally: &'a mut Tally, lists: &Lists, root: usize) -> Self {
        let hld = original_graph(lists).try_hld(root);
        Both {
            tally,
            name: format!("{} from {root}", lists.text()),
            tables: Lent::new(lists).build(root).tables,
            hld: hld.unwrap_or_else(|_| panic!("the lists of a tree")),
        }
    }

    fn check(&mut self, what: String, fine: bool) {
        if !fine {
            let name = &self.name;
            self.tally.wrong(&format!("{name}: {what}"));
        }
        self.tally.checked();
    }

    // One kind from u to v with lists of these lengths, besides those that its count asks for.
    fn pair(&mut self, kind: &Kind, u: usize, v: usize, rooms: impl Iterator<Item = usize>) {
        let theirs = kind.numbers(&self.hld, u, v);
        let n = self.hld.vertex_count();
        let most = 3 * range_room(n).1;
        for room in rooms.chain([most]) {
            let ours = kind.answer(&self.tables, u, v, room);
            let fine = ours == expected(&theirs, room);
            self.check(format!("{} {u} {v} with room {room}", kind.name), fine);
        }
        let back = kind.answer(&self.tables, v, u, most);
        let mut turned = reading(&back.2[..3 * back.1]);
        turned.reverse();
        let fine = turned == reading(&theirs);
        self.check(format!("{} {u} {v} turned round", kind.name), fine);
    }

    // All pairs, with every room from none to one number more than is needed.
    fn all_pairs(&mut self) {
        let n = self.hld.vertex_count();
        for kind in &KINDS {
            for (u, v) in (0..n).flat_map(|u| (0..n).map(move |v| (u, v))) {
                let needed = kind.numbers(&self.hld, u, v).len();
                self.pair(kind, u, v, 0..=needed + 1);
            }
            let refusal = kind.answer(&self.tables, n, 0, 9);
            self.check(format!("{} {n} 0", kind.name), refusal == refused(4, 9));
        }
    }

    fn some_pairs(&mut self, times: usize, random: &mut Random) {
        let n = self.hld.vertex_count();
        for _ in 0..times {
            let (u, v) = (random.below(n), random.below(n));
            for kind in &KINDS {
                let needed = kind.numbers(&self.hld, u, v).len();
                self.pair(kind, u, v, [needed.saturating_sub(1), needed].into_iter());
            }
        }
    }
}

// Range room for every n, on both sides of its limits, and for some of more than 32 bits.
fn rooms(tally: &mut Tally) {
    let wide = [1 << 32, (1 << 32) + 1, 1 << 63, usize::MAX];
    for n in (0..=32_769_usize).chain(wide) {
        let within = (1..=32_768).contains(&n);
        let (code, room) = range_room(n);
        let fine = if within {
            code == 0 && room == 2 * n.ilog2() as usize + 1
        } else {
            code == 1
        };
        if !fine {
            tally.wrong(&format!("range_room {n} gives {code} and {room}"));
        }
        tally.checked();
    }
}

fn small(tally: &mut Tally, largest: usize) {
    for n in 1..=largest {
        for lists in trees(n) {
            (0..n).for_each(|root| Both::new(tally, &lists, root).all_pairs());
        }
    }
}

fn large(tally: &mut Tally, sizes: &[usize], times: usize) {
    let mut random = Random::new(5);
    for &n in sizes {
        for shape in SHAPES {
            let lists = graph(shape, "none", n, &mut random);
            let root = random.below(n);
            Both::new(tally, &lists, root).some_pairs(times, &mut random);
        }
    }
}

pub fn all(tally: &mut Tally, short: bool) {
    let before = tally.total();
    rooms(tally);
    small(tally, if short { 4 } else { 6 });
    println!(
        "ranges on small labelled trees, every room: {} answers",
        tally.total() - before
    );
    let before = tally.total();
    let (sizes, times): (&[usize], usize) = if short {
        (&[7, 32, 1_000, 32_768], 100)
    } else {
        (
            &[7, 31, 32, 33, 255, 256, 1_000, 10_000, 32_767, 32_768],
            2_000,
        )
    };
    large(tally, sizes, times);
    println!(
        "ranges on trees of 7 shapes, to 32768 vertices: {} answers",
        tally.total() - before
    );
}
