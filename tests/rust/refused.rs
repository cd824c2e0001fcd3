// Builds that are refused for each cause: no table is written, and work is as promised.
use crate::calls::{Lent, BAD_SIZE, NO_ROOM};
use crate::lists::Lists;
use crate::tables::{Tables, NAMES};
use crate::tally::Tally;

// Offsets, targets, root and code. Where two tests are not passed, the code is that of the first.
const TABLE: [(&[u32], &[u32], usize, u32); 14] = [
    (&[], &[], 0, 1),
    (&[0], &[], 0, 1),
    (&[1, 2, 2], &[1, 2], 5, 3),
    (&[0, 2, 1], &[1], 0, 3),
    (&[0, 1, 1], &[1, 0], 0, 3),
    (&[0, 1, 3], &[1, 0], 0, 3),
    (&[0, 1, 2], &[1, 2], 2, 4),
    (&[0, 1, 2], &[u32::MAX, 0], 0, 4),
    (&[0, 1, 2], &[1, 0], 2, 5),
    (&[0, 1, 1], &[1], usize::MAX, 5),
    (&[0, 2, 3, 4], &[1, 2, 2, 1], 0, 6),
    (&[0, 0, 0], &[], 1, 7),
    (&[0, 2, 4, 6], &[1, 2, 0, 2, 0, 1], 2, 8),
    (&[0, 1], &[0], 0, 8),
];

fn check(tally: &mut Tally, what: &str, fine: bool) {
    if !fine {
        tally.wrong(what);
    }
    tally.checked();
}

// The path of n vertices.
fn path(n: usize) -> Lists {
    let edges: Vec<(usize, usize)> = (1..n).map(|v| (v - 1, v)).collect();
    Lists::of_edges(n, &edges)
}

// A tree into tables of which one is not of length n.
fn wrong_lengths(tally: &mut Tally, n: usize) {
    let mut lent = Lent::new(&path(n));
    for (k, name) in NAMES.iter().enumerate() {
        for length in [0, n - 1, n + 1, 2 * n] {
            let mut tables = Tables::unwritten(n);
            tables.0[k].resize(length, tables.0[k][0]);
            let built = lent.build_into(0, tables);
            let fine = built.code == BAD_SIZE && built.tables.are_unwritten();
            let what = format!("the table {name} of {length} entries for {n} vertices");
            check(tally, &what, fine && lent.work_is_kept(BAD_SIZE));
        }
    }
}

pub fn all(tally: &mut Tally) {
    let before = tally.total();
    for (offsets, targets, root, code) in TABLE {
        let mut lent = Lent::of(offsets.to_vec(), targets.to_vec());
        let what = format!("{offsets:?} {targets:?} from {root}: not refused with {code}");
        check(tally, &what, lent.refuses(root, code));
    }
    let mut large = Lent::new(&path(32_769));
    check(tally, "32769 vertices", large.refuses(0, BAD_SIZE));
    let mut many = Lent::of(vec![0, 65_536], vec![0; 65_536]);
    check(tally, "65536 targets", many.refuses(0, BAD_SIZE));
    for n in [1, 4, 100] {
        let mut short = Lent::new(&path(n)).short_of_room();
        check(tally, "work too short", short.refuses(0, NO_ROOM));
        wrong_lengths(tally, n);
    }
    let answers = tally.total() - before;
    println!("refusals of each cause, and tables of a wrong length: {answers} answers");
}
