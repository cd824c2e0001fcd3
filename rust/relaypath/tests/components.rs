// The component lists: what they hold, how much room they need, and what lent memory holds afterwards.
mod common;

use common::{graph, path, star_s, Graph};
use relaypath::{component_room, work_room, ComponentLists, Components, Refusal, MAX_VERTICES};

// Memory for the four parts of the lists, full of nines.
fn nines(lists: usize, starts: usize) -> ComponentLists<Vec<u32>> {
    ComponentLists {
        vertices: vec![9; lists],
        distances: vec![9; lists],
        branches: vec![9; lists],
        starts: vec![9; starts],
    }
}

// The answer in lent memory, without the view of it. Whatever is refused after the test of work leaves the lists alone and work zero.
fn into(graph: &Graph, lists: &mut ComponentLists<Vec<u32>>) -> Result<(), Refusal> {
    let Graph { offsets, targets } = graph;
    let before = lists.clone();
    let mut work = vec![7; work_room(offsets, targets) + 1];
    let said = Components::build_into(offsets, targets, lists.lent_mut(), &mut work).map(|_| ());
    let (used, spare) = work.split_at(work.len() - 1);
    assert!(used.iter().all(|&x| x == 0) && spare == [7]);
    assert!(said.is_ok() || *lists == before);
    said
}

#[test]
fn components_of_a_path() {
    let Graph { offsets, targets } = path(4);
    let found = Components::build(&offsets, &targets).unwrap();
    let all = found.lists();
    assert_eq!(all.starts, [0, 1, 5, 7, 8]);
    assert_eq!(all.vertices, [0, 1, 0, 2, 3, 2, 3, 3]);
    assert_eq!(all.distances, [0, 0, 1, 1, 2, 0, 1, 0]);
    assert_eq!(all.branches, [0, 1, 0, 2, 2, 2, 3, 3]);
    let whole = (&[1, 0, 2, 3][..], &[0, 1, 1, 2][..], &[1, 0, 2, 2][..]);
    assert_eq!(found.of(1), Ok(whole));
    assert_eq!(found.of(3), Ok((&[3][..], &[0][..], &[3][..])));
    assert_eq!(found.of(4), Err(Refusal::BadVertex));
    assert_eq!(found.of(usize::MAX), Err(Refusal::BadVertex));
}

#[test]
fn components_of_a_star() {
    let Graph { offsets, targets } = star_s();
    let found = Components::build(&offsets, &targets).unwrap();
    assert_eq!(found.lists().starts, [0, 4, 5, 6, 7]);
    let whole = (&[0, 1, 2, 3][..], &[0, 1, 1, 1][..], &[0, 1, 2, 3][..]);
    assert_eq!(found.of(0), Ok(whole));
    assert_eq!(found.of(2), Ok((&[2][..], &[0][..], &[2][..])));
    let turned = graph(&[&[3, 1, 2], &[0], &[0], &[0]]);
    let found = Components::build(&turned.offsets, &turned.targets).unwrap();
    assert_eq!(found.of(0).unwrap().0, [0, 3, 1, 2]);
}

#[test]
fn component_of_one_vertex() {
    let Graph { offsets, targets } = graph(&[&[]]);
    let found = Components::build(&offsets, &targets).unwrap();
    assert_eq!(found.of(0), Ok((&[0][..], &[0][..], &[0][..])));
    assert_eq!(found.of(1), Err(Refusal::BadVertex));
    assert_eq!(found.lists().starts, [0, 1]);
}

// What is said to be enough for every tree is enough for the longest path, and what it does not use is given back.
#[test]
fn room() {
    assert_eq!([0, 1, 2, 3, 4].map(component_room), [0, 1, 4, 6, 12]);
    assert_eq!(component_room(MAX_VERTICES), 16 * MAX_VERTICES);
    assert_eq!(component_room(usize::MAX), usize::MAX);
    let Graph { offsets, targets } = path(MAX_VERTICES);
    let found = Components::build(&offsets, &targets).unwrap();
    let all = found.lists();
    assert_eq!(all.starts.len(), MAX_VERTICES + 1);
    assert_eq!(all.starts[MAX_VERTICES] as usize, all.vertices.len());
    assert!(all.vertices.len() <= component_room(MAX_VERTICES));
}

#[test]
fn lent_lists() {
    let mut lists = nines(10, 7);
    assert_eq!(into(&path(4), &mut lists), Ok(()));
    assert_eq!(lists.vertices, [0, 1, 0, 2, 3, 2, 3, 3, 9, 9]);
    assert_eq!(lists.distances, [0, 0, 1, 1, 2, 0, 1, 0, 9, 9]);
    assert_eq!(lists.branches, [0, 1, 0, 2, 2, 2, 3, 3, 9, 9]);
    assert_eq!(lists.starts, [0, 1, 5, 7, 8, 9, 9]);

    let Graph { offsets, targets } = path(4);
    let mut work = vec![7; work_room(&offsets, &targets)];
    let found = Components::build_into(&offsets, &targets, lists.lent_mut(), &mut work).unwrap();
    let owned = Components::build(&offsets, &targets).unwrap();
    assert_eq!(found.lists(), owned.lists());
    assert_eq!(found.of(2), Ok((&[2, 3][..], &[0, 1][..], &[2, 3][..])));
    assert_eq!(found.of(4), Err(Refusal::BadVertex));
}

#[test]
fn one_entry_short() {
    assert_eq!(into(&path(4), &mut nines(8, 5)), Ok(()));
    assert_eq!(into(&path(4), &mut nines(8, 4)), Err(Refusal::NoRoom));
    for which in 0..3 {
        let mut lists = nines(8, 5);
        let three = [
            &mut lists.vertices,
            &mut lists.distances,
            &mut lists.branches,
        ];
        three[which].pop();
        assert_eq!(into(&path(4), &mut lists), Err(Refusal::NoRoom));
    }
}

// Short starts go before the lists of the graph, and those before short lists.
#[test]
fn order_of_refusals() {
    let parted = graph(&[&[], &[]]);
    assert_eq!(into(&parted, &mut nines(0, 2)), Err(Refusal::NoRoom));
    assert_eq!(into(&parted, &mut nines(0, 3)), Err(Refusal::Disconnected));

    let Graph { offsets, targets } = path(4);
    let (mut lists, mut work) = (nines(8, 5), vec![7; work_room(&offsets, &targets) - 1]);
    let short = Components::build_into(&offsets, &targets, lists.lent_mut(), &mut work);
    assert_eq!(short, Err(Refusal::NoRoom));
    assert!(lists == nines(8, 5) && work.iter().all(|&x| x == 7));
}
