// A sample of tree files, each with the report that the original's answers give, which the crate `replay_files` runs without the original:
// 16-bit numbers, the low byte first. The first is the count of cases; each case is the length of the file in bytes, the file, the length of
// the report in bytes and the report, which a 0 follows where its length is odd. The original panics at a vertex out of range, so no query has one.
use crate::calls::{original_code, original_graph};
use crate::labelled::trees;
use crate::lists::Lists;
use crate::random::Random;
use crate::shapes::{graph, kinds, SHAPES};
use original::hld::{Hld, PathDirection};

// Its kind and its three numbers.
type Query = [usize; 4];

// A query of this kind among n vertices. A step count is up to n, and up to 8 where n is larger, so that some are too far.
fn query(kind: usize, n: usize, random: &mut Random) -> Query {
    let [a, b, c] = std::array::from_fn(|_| random.below(n));
    let k = random.below(n.min(8) + 1);
    match kind {
        2 => [kind, a, b, c],
        3 => [kind, a, k, 0],
        4 => [kind, a, b, k],
        _ => [kind, a, b, 0],
    }
}

// So many queries, their kinds in turn from a random one on.
fn queries(count: usize, n: usize, random: &mut Random) -> Vec<Query> {
    let first = random.below(8);
    (first..first + count)
        .map(|k| query(k % 8 + 1, n, random))
        .collect()
}

// The original's answer of one number, after its code: `None` is 10.
fn number(answer: Option<usize>) -> String {
    answer.map_or("10".to_string(), |x| format!("0 {x}"))
}

fn ranges(answer: Vec<(usize, usize, PathDirection)>) -> String {
    let one = |(start, end, direction)| match direction {
        PathDirection::Forward => format!(" {start}-{end}F"),
        PathDirection::Reversed => format!(" {start}-{end}R"),
    };
    let texts: String = answer.into_iter().map(one).collect();
    format!("0{texts}")
}

// The code and the answer of the original.
fn answer(hld: &Hld, [kind, a, b, c]: Query) -> String {
    match kind {
        1 => number(Some(hld.distance(a, b))),
        2 => number(Some(hld.lca(a, b, c))),
        3 => number(hld.kth_ancestor(a, b)),
        4 => number(hld.jump(a, b, c)),
        5 => number(Some(hld.subtree_size(a, b))),
        6 => ranges(hld.vertex_path_ranges(a, b)),
        7 => ranges(hld.edge_path_ranges(a, b)),
        _ => ranges(hld.vertex_edge_path_ranges(a, b)),
    }
}

// The report of the original's answers.
fn report(lists: &Lists, root: usize, queries: &[Query]) -> String {
    let graph = original_graph(lists);
    let Ok(hld) = graph.try_hld(root) else {
        return format!("tree {}\n", original_code(&graph, root));
    };
    let line = |(k, &query): (usize, &Query)| {
        let answer = answer(&hld, query);
        format!("{} {} {answer}\n", k + 1, query[0])
    };
    let lines: String = queries.iter().enumerate().map(line).collect();
    format!("tree 0 {} {root}\n{lines}", lists.vertices())
}

// The numbers of the tree file.
fn file(lists: &Lists, root: usize, queries: &[Query]) -> Vec<u32> {
    let (offsets, targets) = (lists.offsets(), lists.targets());
    let mut numbers = vec![offsets.len() as u32];
    numbers.extend(offsets);
    numbers.push(targets.len() as u32);
    numbers.extend(targets);
    numbers.extend([1, root as u32, queries.len() as u32]);
    numbers.extend(queries.iter().flatten().map(|&x| x as u32));
    numbers
}

// The bytes of a text as numbers, two to a number.
fn numbers(text: &str) -> Vec<u32> {
    let one = |pair: &[u8]| pair[0] as u32 + 256 * pair.get(1).map_or(0, |&x| x as u32);
    text.as_bytes().chunks(2).map(one).collect()
}

fn case(lists: &Lists, count: usize, random: &mut Random) -> Vec<u32> {
    let n = lists.vertices();
    let root = random.below(n);
    let queries = queries(count, n, random);
    let (file, text) = (file(lists, root, &queries), report(lists, root, &queries));
    let mut case = vec![2 * file.len() as u32];
    case.extend(file);
    case.push(text.len() as u32);
    case.extend(numbers(&text));
    case
}

// All labelled trees of 4 vertices, with each list shuffled, and 8 queries to each.
fn small_cases(random: &mut Random) -> Vec<Vec<u32>> {
    trees(4)
        .map(|lists| case(&lists.shuffled(random), 8, random))
        .collect()
}

// Each shape at each size up to 12, with up to 20 queries.
fn shaped_cases(random: &mut Random) -> Vec<Vec<u32>> {
    let mut cases = Vec::new();
    for n in 1..=12 {
        for shape in SHAPES {
            let lists = graph(shape, "none", n, random);
            let count = 8 + random.below(13);
            cases.push(case(&lists, count, random));
        }
    }
    cases
}

// Each shape with each change that makes it no tree, with up to 3 queries, which get no line.
fn changed_cases(random: &mut Random) -> Vec<Vec<u32>> {
    let mut one = |(shape, what): (&str, &str)| {
        let n = 2 + random.below(11);
        let lists = graph(shape, what, n, random);
        let count = random.below(4);
        case(&lists, count, random)
    };
    kinds()
        .filter(|&(_, what)| what != "none")
        .map(&mut one)
        .collect()
}

pub fn cases() -> Vec<Vec<u32>> {
    let mut random = Random::new(6);
    let mut cases = small_cases(&mut random);
    cases.extend(shaped_cases(&mut random));
    cases.extend(changed_cases(&mut random));
    let large = graph("random", "none", 200, &mut random);
    cases.push(case(&large, 64, &mut random));
    cases
}
