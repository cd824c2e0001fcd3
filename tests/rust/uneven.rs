// Lists that are not symmetric, on which the original does something else than refuse: it accepts what is no tree, panics or never ends.
// The proved calls give 6 on each. Each root is 0.
use crate::calls::{original_code, original_graph, Lent, DISCONNECTED, DONE, NOT_SYMMETRIC};
use crate::lists::Lists;
use crate::tally::Tally;
use std::process::{Command, ExitCode, Stdio};
use std::time::{Duration, Instant};

// What the original does.
#[derive(Clone, Copy, PartialEq, Debug)]
enum Does {
    Accepts,
    Panics,
    NeverEnds,
    SaysDisconnected,
    SaysHasCycle,
}

use Does::*;

struct Uneven {
    name: &'static str,
    lists: Lists,
    does: Does,
}

const TABLE: [(&str, Does, &str); 12] = [
    ("two vertices, one in its own list", Accepts, "0:1; 1:1"),
    ("siblings name each other", Accepts, "0:1,2; 1:2; 2:1"),
    ("a child twice, its parent not", Accepts, "0:1; 1:2,2; 2:1"),
    ("a self entry for the parent", Accepts, "0:1; 1:1,2; 2:1"),
    ("a leaf in its own list", Accepts, "0:1; 1:0,2; 2:2"),
    ("both children name the first", Accepts, "0:1,2; 1:1; 2:1"),
    ("a light child twice", Panics, "0:1; 1:3,2,2; 2:1; 3:1"),
    ("a directed triangle", NeverEnds, "0:1; 1:0,2; 2:0"),
    (
        "an uncle for the parent",
        NeverEnds,
        "0:1,2; 1:0,3; 2:0; 3:2",
    ),
    ("siblings in a ring", NeverEnds, "0:1,2,3; 1:2; 2:3; 3:1"),
    ("an edge without its reverse", SaysHasCycle, "0:1; 1:"),
    ("only the reverse of an edge", SaysDisconnected, "0:; 1:0"),
];

// Each vertex names the next twice, the last the one before it: the number of steps doubles with each vertex.
fn doubling(n: u32) -> Uneven {
    let mut lists = vec![vec![1]];
    lists.extend((1..n - 1).map(|v| vec![v + 1, v + 1]));
    lists.push(vec![n - 2]);
    Uneven {
        name: "each names the next twice",
        lists: Lists(lists),
        does: NeverEnds,
    }
}

fn table() -> Vec<Uneven> {
    let entry = |(name, does, text)| Uneven {
        name,
        lists: Lists::read(text),
        does,
    };
    let mut table: Vec<Uneven> = TABLE.into_iter().map(entry).collect();
    table.push(doubling(60));
    table
}

// What the original does in this process. A panic is caught.
fn original_does(lists: &Lists) -> Does {
    let graph = original_graph(lists);
    match std::panic::catch_unwind(|| original_code(&graph, 0)) {
        Ok(DONE) => Accepts,
        Ok(DISCONNECTED) => SaysDisconnected,
        Ok(_) => SaysHasCycle,
        Err(_) => Panics,
    }
}

// Runs the original on an entry in a process of its own, which is stopped after a tenth of a second: the walk that never ends also takes
// more and more memory.
fn ends(name: &str) -> bool {
    let this = std::env::current_exe().expect("the path of this program");
    let mut command = Command::new(this);
    command
        .args(["--try", name])
        .stdout(Stdio::null())
        .stderr(Stdio::null());
    let mut child = command.spawn().expect("a process");
    let start = Instant::now();
    let mut status = None;
    while status.is_none() && start.elapsed() < Duration::from_millis(100) {
        std::thread::sleep(Duration::from_millis(5));
        status = child.try_wait().expect("its state");
    }
    child.kill().ok();
    child.wait().ok();
    status.is_some_and(|status| status.success())
}

// Runs the original on the entry of that name.
pub fn try_one(name: &str) -> ExitCode {
    let Some(entry) = table().into_iter().find(|entry| entry.name == name) else {
        return ExitCode::from(2);
    };
    println!("{:?}", original_does(&entry.lists));
    ExitCode::SUCCESS
}

// What the original was seen to do. In the short form an entry that never ends is not run.
fn seen(entry: &Uneven, short: bool) -> Does {
    if entry.does != NeverEnds {
        return original_does(&entry.lists);
    }
    if short || !ends(entry.name) {
        return NeverEnds;
    }
    original_does(&entry.lists)
}

fn check(tally: &mut Tally, entry: &Uneven, short: bool) {
    let mut lent = Lent::new(&entry.lists);
    let ours = lent.validate(0);
    let theirs = seen(entry, short);
    if theirs != entry.does || !lent.refuses(0, NOT_SYMMETRIC) {
        tally.wrong(&format!("{}: {ours}, the original {theirs:?}", entry.name));
    }
    tally.checked();
    println!(
        "  {}: {ours}, the original {theirs:?}: {}",
        entry.name,
        entry.lists.text()
    );
}

pub fn all(tally: &mut Tally, short: bool) {
    let not_run = if short {
        " (those that never end are not run)"
    } else {
        ""
    };
    println!("lists that are not symmetric{not_run}:");
    std::panic::set_hook(Box::new(|_| {}));
    for entry in table() {
        check(tally, &entry, short);
    }
    drop(std::panic::take_hook());
}
