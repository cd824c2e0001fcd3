//! A tree of seven relays, two queries, and the ranges of a path.
//!
//!     cargo --offline run --quiet --example paths
//!
//! is run in rust/relaypath, after `tests/archive` at the top of the repository.
use relaypath::{Direction, PathRange, Refusal, Tables};

// The lists 0:4,1,5; 1:0,2,3; 2:1; 3:1,6; 4:0; 5:0; 6:3.
const OFFSETS: [u32; 8] = [0, 3, 6, 7, 9, 10, 11, 12];
const TARGETS: [u32; 12] = [4, 1, 5, 0, 2, 3, 1, 1, 6, 0, 0, 3];

// Prints ranges as start-end with R or F.
fn print_ranges(what: &str, ranges: &[PathRange]) {
    print!("{what} from 6 to 4:");
    for range in ranges {
        let direction = match range.direction {
            Direction::Forward => 'F',
            Direction::Reversed => 'R',
        };
        print!(" {}-{}{direction}", range.start, range.end);
    }
    println!();
}

// Prints the relays of the path in order: each range is read in its direction, and the order table gives the relay with a number.
fn print_relays(tables: &Tables, ranges: &[PathRange]) {
    print!("relays:");
    for number in ranges.iter().flat_map(|range| range.numbers()) {
        print!(" {}", tables.parts().order[number]);
    }
    println!();
}

fn main() -> Result<(), Refusal> {
    let tables = Tables::build(&OFFSETS, &TARGETS, 0)?;
    println!("relays {}, root {}", tables.vertex_count()?, tables.root()?);
    println!("distance from 6 to 4: {}", tables.distance(6, 4)?);
    let parting = tables.lca(6, 2, 4)?;
    println!("seen from relay 6, the paths to 2 and to 4 part at {parting}");

    let ranges = tables.vertex_path_ranges(6, 4)?;
    print_ranges("vertices", &ranges);
    print_relays(&tables, &ranges);
    print_ranges("edges", &tables.edge_path_ranges(6, 4)?);
    Ok(())
}
