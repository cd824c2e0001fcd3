// Holds the proved library against the Rust original on graphs whose lists are symmetric, and shows lists that are not symmetric on which
// the original accepts, panics or never ends.
//
//   compare [--short]             compare; the last line says whether all answers agree
//   compare --sample FILE         write a sample of the original's answers, for the crate `replay`
//   compare --sample-hld FILE     write a sample of the original's tables, for the crate `replay_hld`
//   compare --sample-files FILE   write a sample of tree files and reports, for the crate `replay_files`
//   compare --try NAME            run the original on one entry of the table in uneven.rs (used for those that never end)
mod asked;
mod calls;
mod centroids;
mod components;
mod labelled;
mod listed;
mod lists;
mod queries;
mod random;
mod ranges;
mod refused;
mod sample;
mod sample_files;
mod sample_hld;
mod shapes;
mod small;
mod tables;
mod tally;
mod uneven;

use std::process::ExitCode;
use tally::Tally;

fn compare(short: bool) -> ExitCode {
    let mut tally = Tally::new();
    small::all(&mut tally, short);
    labelled::all(&mut tally);
    shapes::all(&mut tally, short);
    refused::all(&mut tally);
    queries::all(&mut tally, short);
    ranges::all(&mut tally, short);
    centroids::all(&mut tally, short);
    components::all(&mut tally, short);
    uneven::all(&mut tally, short);
    tally.verdict()
}

fn main() -> ExitCode {
    let words: Vec<String> = std::env::args().skip(1).collect();
    let words: Vec<&str> = words.iter().map(String::as_str).collect();
    match words[..] {
        [] => compare(false),
        ["--short"] => compare(true),
        ["--sample", file] => sample::write(file, &sample::cases()),
        ["--sample-hld", file] => sample::write(file, &sample_hld::cases()),
        ["--sample-files", file] => sample::write(file, &sample_files::cases()),
        ["--try", name] => uneven::try_one(name),
        _ => {
            eprintln!("usage: compare [--short] | compare --sample[-hld|-files] FILE");
            ExitCode::from(2)
        }
    }
}
