// The trees that document 01 uses as examples, in the form that the calls take.

// A graph as offsets and targets.
pub struct Graph {
    pub offsets: Vec<u32>,
    pub targets: Vec<u32>,
}

// The graph with these lists.
pub fn graph(lists: &[&[u32]]) -> Graph {
    let mut offsets = vec![0];
    let mut targets = Vec::new();
    for list in lists {
        targets.extend_from_slice(list);
        offsets.push(targets.len() as u32);
    }
    Graph { offsets, targets }
}

// Tree T.
#[allow(dead_code)]
pub fn tree_t() -> Graph {
    graph(&[&[1, 2], &[0, 3], &[0], &[1]])
}

// Star S.
#[allow(dead_code)]
pub fn star_s() -> Graph {
    graph(&[&[1, 2, 3], &[0], &[0], &[0]])
}

// The path 0-1-..-(n-1).
#[allow(dead_code)]
pub fn path(n: usize) -> Graph {
    let lists: Vec<Vec<u32>> = (0..n as u32)
        .map(|v| {
            [v.wrapping_sub(1), v + 1]
                .into_iter()
                .filter(|&w| (w as usize) < n)
                .collect()
        })
        .collect();
    graph(&lists.iter().map(Vec::as_slice).collect::<Vec<_>>())
}
