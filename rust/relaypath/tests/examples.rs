// Document 01's examples, each with its neighbour.
mod common;

use common::{graph, path, star_s, tree_t, Graph};
use relaypath::Direction::{Forward, Reversed};
use relaypath::{Decomposition, Direction, PathRange, Refusal, Tables};

fn built(graph: &Graph, root: usize) -> Tables {
    Tables::build(&graph.offsets, &graph.targets, root).expect("a tree")
}

// The ranges with these starts, ends and directions.
fn ranges(list: &[(usize, usize, Direction)]) -> Result<Vec<PathRange>, Refusal> {
    Ok(list
        .iter()
        .map(|&(start, end, direction)| PathRange {
            start,
            end,
            direction,
        })
        .collect())
}

#[test]
fn tables_of_t() {
    let tables = built(&tree_t(), 0);
    let parts = tables.parts();
    assert_eq!(parts.id, [0, 1, 3, 2]);
    assert_eq!(parts.head, [0, 0, 2, 0]);
    assert_eq!(parts.order, [0, 1, 3, 2]);
    assert_eq!(parts.parent, [relaypath::NO_PARENT, 0, 0, 1]);
    assert_eq!(parts.depth, [0, 1, 1, 2]);
    assert_eq!(parts.size, [4, 2, 1, 1]);
}

#[test]
fn single_entries_of_t() {
    let tables = built(&tree_t(), 0);
    assert_eq!(tables.vertex_count(), Ok(4));
    assert_eq!(tables.root(), Ok(0));
    assert_eq!(tables.depth(3), Ok(2));
    assert_eq!(tables.vertex_id(2), Ok(3));
    assert_eq!(tables.subtree_range(1), Ok(1..3));
    assert_eq!(built(&tree_t(), 3).root(), Ok(3));
}

#[test]
fn queries_of_t() {
    let tables = built(&tree_t(), 0);
    assert_eq!(tables.subtree_size(3, 1), Ok(3));
    assert_eq!(tables.subtree_size(0, 1), Ok(2));
    assert_eq!(tables.lca(3, 0, 2), Ok(0));
    assert_eq!(tables.lca(0, 1, 3), Ok(1));
    assert_eq!(tables.distance(3, 2), Ok(3));
    assert_eq!(tables.kth_ancestor(3, 2), Ok(0));
    assert_eq!(tables.kth_ancestor(3, 3), Err(Refusal::TooFar));
    assert_eq!(tables.jump(3, 2, 3), Ok(2));
    assert_eq!(tables.jump(3, 2, 4), Err(Refusal::TooFar));
    assert_eq!(tables.jump(3, 2, usize::MAX), Err(Refusal::TooFar));
}

#[test]
fn ranges_of_t() {
    let tables = built(&tree_t(), 0);
    assert_eq!(
        tables.vertex_path_ranges(3, 2),
        ranges(&[(0, 3, Reversed), (3, 4, Forward)])
    );
    assert_eq!(
        tables.vertex_path_ranges(2, 3),
        ranges(&[(3, 4, Reversed), (0, 3, Forward)])
    );
    assert_eq!(
        tables.edge_path_ranges(3, 2),
        ranges(&[(1, 3, Reversed), (3, 4, Forward)])
    );
    assert_eq!(tables.edge_path_ranges(2, 2), ranges(&[]));
    assert_eq!(
        tables.vertex_edge_path_ranges(3, 2),
        ranges(&[(0, 5, Reversed), (5, 7, Forward)])
    );
    assert_eq!(
        tables.vertex_edge_path_ranges(2, 2),
        ranges(&[(6, 7, Forward)])
    );
}

#[test]
fn star() {
    let tables = built(&star_s(), 0);
    assert_eq!(tables.parts().id, [0, 1, 3, 2]);
    let there = ranges(&[(3, 4, Reversed), (0, 1, Forward), (2, 3, Forward)]);
    assert_eq!(tables.vertex_path_ranges(2, 3), there);
}

// The ranges, read in their directions, are the path.
#[test]
fn reading() {
    let tables = built(&tree_t(), 0);
    let order = tables.parts().order;
    let read = |u, v| -> Vec<u32> {
        let ranges = tables.vertex_path_ranges(u, v).unwrap();
        ranges
            .into_iter()
            .flat_map(PathRange::numbers)
            .map(|id| order[id])
            .collect()
    };
    assert_eq!(read(3, 2), [3, 1, 0, 2]);
    assert_eq!(read(2, 3), [2, 0, 1, 3]);
}

#[test]
fn centroids_of_a_path() {
    let Graph { offsets, targets } = path(4);
    let found = Decomposition::build(&offsets, &targets).unwrap();
    let levels: Vec<_> = (0..4).map(|v| found.level(v).unwrap()).collect();
    let parents: Vec<_> = (0..4).map(|v| found.parent(v).unwrap()).collect();
    assert_eq!(levels, [1, 0, 1, 2]);
    assert_eq!(parents, [Some(1), None, Some(1), Some(2)]);
    assert_eq!(found.level(4), Err(Refusal::BadVertex));
    assert_eq!(found.parent(usize::MAX), Err(Refusal::BadVertex));
}

#[test]
fn one_vertex() {
    let tables = built(&graph(&[&[]]), 0);
    assert_eq!(tables.vertex_id(0), Ok(0));
    assert_eq!(tables.vertex_path_ranges(0, 0), ranges(&[(0, 1, Forward)]));
    assert_eq!(tables.edge_path_ranges(0, 0), ranges(&[]));
    assert_eq!(tables.distance(0, 1), Err(Refusal::BadVertex));
}
