// Counts of the answers compared, and the verdict over all of them.
use crate::calls::{original_answer, original_graph, Answer, Lent, DISCONNECTED, DONE, HAS_CYCLE};
use crate::lists::Lists;
use std::process::ExitCode;

const SHOWN: usize = 10;

pub struct Tally {
    trees: usize,
    disconnected: usize,
    cycles: usize,
    total: usize,
    wrong: usize,
}

impl Tally {
    pub fn new() -> Self {
        Tally {
            trees: 0,
            disconnected: 0,
            cycles: 0,
            total: 0,
            wrong: 0,
        }
    }

    pub fn wrong(&mut self, what: &str) {
        self.wrong += 1;
        if self.wrong <= SHOWN {
            println!("WRONG: {what}");
        }
    }

    pub fn checked(&mut self) {
        self.total += 1;
    }

    pub fn total(&self) -> usize {
        self.total
    }

    // Compares the two sides on symmetric lists, seen from each of the roots.
    pub fn compare(&mut self, lists: &Lists, roots: impl Iterator<Item = usize>) {
        let graph = original_graph(lists);
        let mut lent = Lent::new(lists);
        for root in roots {
            let theirs = original_answer(&graph, root);
            if let Some(what) = difference(&mut lent, root, &theirs) {
                self.wrong(&format!("{} from {root}: {what}", lists.text()));
            }
            self.count(theirs.code);
        }
    }

    fn count(&mut self, code: u32) {
        self.total += 1;
        match code {
            DONE => self.trees += 1,
            DISCONNECTED => self.disconnected += 1,
            HAS_CYCLE => self.cycles += 1,
            _ => {}
        }
    }

    // Prints the line of a group and starts the counts of the next.
    pub fn group(&mut self, name: &str) {
        let (t, d, c) = (self.trees, self.disconnected, self.cycles);
        println!(
            "{name}: {} answers ({t} trees, {d} disconnected, {c} with a cycle)",
            t + d + c
        );
        (self.trees, self.disconnected, self.cycles) = (0, 0, 0);
    }

    pub fn verdict(&self) -> ExitCode {
        println!("{} compared, {} wrong", self.total, self.wrong);
        ExitCode::from(u8::from(self.wrong != 0))
    }
}

// In what the proved calls differ from the original's answer or from what they promise of work.
fn difference(lent: &mut Lent, root: usize, theirs: &Answer) -> Option<String> {
    let code = theirs.code;
    let judged = lent.validate(root);
    if judged != code {
        return Some(format!("judged {judged}, the original {code}"));
    }
    if !lent.work_is_clean() {
        return Some("work is not as promised by the validation".to_string());
    }
    let ours = lent.build(root);
    if ours.code != code {
        return Some(format!("built {}, the original {code}", ours.code));
    }
    if !lent.work_is_clean() {
        return Some("work is not as promised by the build".to_string());
    }
    let table = ours.tables.differs(&theirs.tables)?;
    Some(format!("the table {table} differs after code {code}"))
}
