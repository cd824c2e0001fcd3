// What is refused, with which number, and what lent memory holds afterwards.
mod common;

use common::{graph, path, tree_t, Graph};
use relaypath::{validate_tree, work_room, Components, Decomposition, Parts, Refusal, Tables};

// What validation, the build and, from root 0, the decomposition and the component lists say of a graph. All four agree.
fn judged(graph: &Graph, root: usize) -> Result<(), Refusal> {
    let Graph { offsets, targets } = graph;
    let mut work = vec![7; work_room(offsets, targets) + 1];
    let said = validate_tree(offsets, targets, root, &mut work);
    let (used, spare) = work.split_at(work.len() - 1);
    let kept = if said == Err(Refusal::BadSize) { 7 } else { 0 };
    assert!(used.iter().all(|&x| x == kept) && spare == [7]);
    assert_eq!(Tables::build(offsets, targets, root).map(|_| ()), said);
    if root == 0 {
        assert_eq!(Decomposition::build(offsets, targets).map(|_| ()), said);
        assert_eq!(Components::build(offsets, targets).map(|_| ()), said);
    }
    said
}

#[test]
fn graphs() {
    assert_eq!(judged(&tree_t(), 0), Ok(()));
    assert_eq!(judged(&tree_t(), 4), Err(Refusal::BadRoot));
    assert_eq!(judged(&tree_t(), 1 << 32), Err(Refusal::BadRoot));
    assert_eq!(
        judged(&graph(&[&[1, 2], &[2], &[1]]), 0),
        Err(Refusal::NotSymmetric)
    );
    assert_eq!(judged(&graph(&[&[0]]), 0), Err(Refusal::HasCycle));
    assert_eq!(judged(&graph(&[&[], &[]]), 0), Err(Refusal::Disconnected));
    assert_eq!(judged(&graph(&[&[1]]), 0), Err(Refusal::BadVertex));
    let falling = Graph {
        offsets: vec![0, 2, 1],
        targets: vec![1],
    };
    assert_eq!(judged(&falling, 0), Err(Refusal::BadOffsets));
}

#[test]
fn sizes() {
    assert_eq!(judged(&path(32_768), 0), Ok(()));
    assert_eq!(judged(&path(32_769), 0), Err(Refusal::BadSize));
    assert_eq!(judged(&graph(&[]), 0), Err(Refusal::BadSize));
    assert_eq!(
        judged(
            &Graph {
                offsets: vec![],
                targets: vec![]
            },
            0
        ),
        Err(Refusal::BadSize)
    );
    let many = Graph {
        offsets: vec![0, 65_536],
        targets: vec![0; 65_536],
    };
    assert_eq!(judged(&many, 0), Err(Refusal::BadSize));
}

#[test]
fn too_little_work() {
    let Graph { offsets, targets } = tree_t();
    let mut work = vec![7; work_room(&offsets, &targets) - 1];
    assert_eq!(
        validate_tree(&offsets, &targets, 0, &mut work),
        Err(Refusal::NoRoom)
    );
    assert!(work.iter().all(|&x| x == 7));
}

#[test]
fn lent_tables() {
    let Graph { offsets, targets } = tree_t();
    let mut work = vec![7; work_room(&offsets, &targets)];
    let mut memory = [[9; 4]; 6];
    let [parent, depth, head, id, order, size] = &mut memory;
    let parts = Parts {
        parent: &mut parent[..],
        depth,
        head,
        id,
        order,
        size,
    };
    assert_eq!(
        Tables::build_into(&offsets, &targets, 4, parts, &mut work),
        Err(Refusal::BadRoot)
    );
    assert_eq!(memory, [[9; 4]; 6]);

    let [parent, depth, head, id, order, size] = &mut memory;
    let parts = Parts {
        parent: &mut parent[..],
        depth,
        head,
        id,
        order,
        size,
    };
    let tables = Tables::build_into(&offsets, &targets, 0, parts, &mut work).unwrap();
    assert_eq!(tables.distance(3, 2), Ok(3));

    let (mut parent, mut level) = ([9; 4], [9; 3]);
    let short = Decomposition::build_into(&offsets, &targets, &mut parent, &mut level, &mut work);
    assert_eq!(short, Err(Refusal::BadSize));
}

#[test]
fn damaged_tables() {
    let Graph { offsets, targets } = tree_t();
    let mut parts = Tables::build(&offsets, &targets, 0).unwrap().into_parts();
    parts.depth[3] = 4;
    let damaged = Tables::from_parts(parts.lent());
    assert_eq!(damaged.distance(3, 2), Err(Refusal::BadTable));
    assert_eq!(damaged.distance(1, 2), Ok(2));
    assert_eq!(damaged.distance(4, 3), Err(Refusal::BadVertex));
    parts.size.push(1);
    assert_eq!(
        Tables::from_parts(parts).vertex_count(),
        Err(Refusal::BadSize)
    );
    assert_eq!(
        Tables::from_parts(Parts::<Vec<u32>>::default()).root(),
        Err(Refusal::BadSize)
    );
}

#[test]
fn numbers() {
    for (place, refusal) in Refusal::ALL.into_iter().enumerate() {
        assert_eq!(refusal.code() as usize, place + 1);
        assert_eq!(Refusal::from_code(refusal.code()), Some(refusal));
    }
    assert_eq!(Refusal::from_code(0), None);
    assert_eq!(Refusal::from_code(11), None);
    assert_eq!(
        Refusal::TooFar.to_string(),
        "there are fewer steps than were asked for"
    );
}
