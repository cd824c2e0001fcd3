// Lists in lent memory, range room and rule parts.
mod common;

use common::{star_s, Graph};
use relaypath::Direction::{Forward, Reversed};
use relaypath::{range_room, read_ranges, rule_part, Refusal, Tables, MAX_RANGES, MAX_VERTICES};

#[test]
fn lent_lists() {
    let Graph { offsets, targets } = star_s();
    let tables = Tables::build(&offsets, &targets, 0).unwrap();
    let mut list = [5; 10];
    assert_eq!(tables.vertex_path_ranges_into(2, 3, &mut list), Ok(3));
    assert_eq!(list, [3, 4, 1, 0, 1, 0, 2, 3, 0, 5]);
    assert_eq!(
        read_ranges(&list[..9]).collect::<Vec<_>>(),
        tables.vertex_path_ranges(2, 3).unwrap()
    );
    assert_eq!(tables.edge_path_ranges_into(2, 3, &mut list), Ok(2));
    assert_eq!(tables.vertex_edge_path_ranges_into(2, 3, &mut list), Ok(3));

    let mut short = [5; 8];
    assert_eq!(
        tables.vertex_path_ranges_into(2, 3, &mut short),
        Err(Refusal::NoRoom)
    );
    assert_eq!(short, [5; 8]);
    assert_eq!(tables.edge_path_ranges_into(2, 2, &mut []), Ok(0));
}

#[test]
fn room() {
    assert_eq!(range_room(0), Err(Refusal::BadSize));
    assert_eq!(range_room(1), Ok(1));
    assert_eq!(range_room(7), Ok(5));
    assert_eq!(range_room(8), Ok(7));
    assert_eq!(range_room(MAX_VERTICES), Ok(MAX_RANGES));
    assert_eq!(range_room(MAX_VERTICES + 1), Err(Refusal::BadSize));
    assert_eq!(range_room(usize::MAX), Err(Refusal::BadSize));
}

#[test]
fn parts_of_stores() {
    let (first, second) = ([10, 11, 12, 13], [13, 12, 11, 10]);
    assert_eq!(rule_part(&first, &second, 1, 3, Forward), [11, 12]);
    assert_eq!(rule_part(&first, &second, 1, 3, Reversed), [12, 11]);
    assert_eq!(rule_part(&first, &second, 0, 4, Reversed), second);
    assert_eq!(rule_part(&first, &second, 2, 2, Forward), []);
    assert_eq!(rule_part(&first, &second, 3, 5, Forward), []);
    assert_eq!(rule_part(&first, &second[..3], 0, 1, Forward), []);
    assert_eq!(rule_part(&[], &[], 0, 1, Reversed), []);
}

// A part lives as long as its store, past everything else that the call was given.
#[test]
fn a_part_outlives_the_call() {
    let first = [10, 11, 12];
    let second = [12, 11, 10];
    let part = {
        let direction = Forward;
        rule_part(&first, &second, 0, 2, direction)
    };
    assert_eq!(part, [10, 11]);
}
