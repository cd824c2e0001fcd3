// A sample of the original's answers on symmetric lists, which the crate `replay` runs without the original: 16-bit numbers, the low byte
// first. The first is the count of cases; each case is n, E, the root, the code, n + 1 offsets and E targets.
use crate::calls::{original_code, original_graph};
use crate::lists::Lists;
use crate::random::Random;
use crate::shapes::{graph, kinds};
use crate::small::graphs;
use std::process::ExitCode;

fn case(lists: &Lists, root: usize) -> Vec<u32> {
    let code = original_code(&original_graph(lists), root);
    let (n, e) = (lists.vertices() as u32, lists.entries() as u32);
    let mut numbers = vec![n, e, root as u32, code];
    numbers.extend(lists.offsets());
    numbers.extend(lists.targets());
    numbers
}

// All symmetric lists of up to 3 vertices with multiplicities 0 and 1, from all roots.
fn small_cases() -> Vec<Vec<u32>> {
    let at = |n: usize| {
        graphs(n, 2).flat_map(move |lists| (0..n).map(move |root| case(&lists.clone(), root)))
    };
    (1..=3).flat_map(at).collect()
}

// Each shape with each change, at a size from `least` up to `most`.
fn shaped_cases(least: usize, most: usize, random: &mut Random) -> Vec<Vec<u32>> {
    let mut one = |(shape, what): (&str, &str)| {
        let n = least + random.below(most + 1 - least);
        let lists = graph(shape, what, n, random);
        case(&lists, random.below(n))
    };
    kinds().map(&mut one).collect()
}

pub fn cases() -> Vec<Vec<u32>> {
    let mut random = Random::new(2);
    let mut cases = small_cases();
    cases.extend(shaped_cases(4, 12, &mut random));
    cases.extend(shaped_cases(40, 60, &mut random));
    cases
}

fn bytes(cases: &[Vec<u32>]) -> Vec<u8> {
    let count = cases.len() as u16;
    let numbers = cases.iter().flatten().map(|&x| x as u16);
    std::iter::once(count)
        .chain(numbers)
        .flat_map(u16::to_le_bytes)
        .collect()
}

// Writes the cases as the programs read them: their count first.
pub fn write(file: &str, cases: &[Vec<u32>]) -> ExitCode {
    let bytes = bytes(cases);
    println!("{} cases, {} bytes", cases.len(), bytes.len());
    match std::fs::write(file, bytes) {
        Ok(()) => ExitCode::SUCCESS,
        Err(why) => {
            eprintln!("{file}: {why}");
            ExitCode::FAILURE
        }
    }
}
