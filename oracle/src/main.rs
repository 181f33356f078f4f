//! Runs this library beside the Rust crate iso8583-core 0.1.0. See README.md.
mod bench;
mod case;
mod compare;
mod here;
mod inputs;
mod memory;
mod notes;
mod outside;
mod random;
mod sample;
mod table;
mod there;

use compare::Comparison;
use random::Random;
use std::process::ExitCode;
use table::{ranges, Domain};

fn main() -> ExitCode {
    there::quiet_panics();
    let words: Vec<String> = std::env::args().skip(1).collect();
    let number = |name: &str, default: u64| match words.iter().position(|w| w == name) {
        Some(i) => words.get(i + 1).and_then(|n| n.parse().ok()).expect("a number"),
        None => default,
    };
    match words.first().map(String::as_str) {
        Some("outside") => match outside::run(&Domain::of_the_crate()) {
            0 => ExitCode::SUCCESS,
            _ => ExitCode::FAILURE,
        },
        Some("compare") => compare(number("--seed", 8583), number("--rounds", 1) as usize),
        Some("memory") => {
            memory::run(number("--seed", 8583));
            ExitCode::SUCCESS
        }
        Some("bench") => {
            bench::run();
            ExitCode::SUCCESS
        }
        Some("names") => {
            bench::names().iter().for_each(|(work, side)| println!("{work}\t{side}"));
            ExitCode::SUCCESS
        }
        Some("repeat") => {
            let times = words.get(3).and_then(|n| n.parse().ok()).expect("a number");
            bench::repeat(&words[1], &words[2], times);
            ExitCode::SUCCESS
        }
        Some("sample") => {
            let folder = words.get(1).expect("the folder for stdin and stdout");
            sample::write(folder.as_ref(), number("--seed", 8583), &Domain::of_the_crate()).expect("the folder can be written");
            ExitCode::SUCCESS
        }
        _ => {
            eprintln!("usage: oracle compare | outside | sample FOLDER | bench | names | repeat WORK SIDE N | memory; see README.md");
            ExitCode::FAILURE
        }
    }
}

fn compare(seed: u64, rounds: usize) -> ExitCode {
    let domain = Domain::of_the_crate();
    println!("seed {seed}, rounds {rounds}");
    println!("fields for reading: {}", ranges(&domain.reading));
    println!("fields for cleaning: {}", ranges(&domain.cleaning));
    println!("fields for class checks: {}", ranges(&domain.class));
    let said = Domain::of_the_decisions();
    if (&said.reading, &said.cleaning, &said.class) != (&domain.reading, &domain.cleaning, &domain.class) {
        println!("FAILED: these are not the fields of docs/DECISIONS.md D1, D3 and D4");
        return ExitCode::FAILURE;
    }

    let mut comparison = Comparison::new(domain);
    let random = &mut Random::new(seed);
    let started = std::time::Instant::now();
    let (reading, cleaning, class) = (said.reading, said.cleaning, said.class);
    let mut part = |name: &str, make: &mut dyn FnMut(inputs::Sink)| {
        make(&mut |case| comparison.case(case));
        eprintln!("{name}: {:.1} s", started.elapsed().as_secs_f64());
    };
    part("conversions", &mut |to| inputs::conversions(random, rounds, to));
    part("length indicators", &mut |to| inputs::length_indicators(to));
    part("dates and times", &mut |to| inputs::dates_and_times(random, rounds, to));
    part("PANs", &mut |to| inputs::pans(random, rounds, to));
    part("classes", &mut |to| inputs::classes(random, rounds, &class, to));
    part("field checks", &mut |to| inputs::field_checks(random, rounds, &class, to));
    part("required fields", &mut |to| inputs::required(random, rounds, to));
    part("messages", &mut |to| inputs::messages(random, rounds, &reading, to));
    part("writings", &mut |to| inputs::writings(random, rounds, &cleaning, to));

    let not_as_listed = outside::run(&comparison.domain);
    comparison.print_counts();
    if not_as_listed > 0 {
        println!("FAILED: {not_as_listed} of the listed differences are not as listed");
        return ExitCode::FAILURE;
    }
    println!("{} compared, {} differ", comparison.compared(), comparison.differing());
    if comparison.differing() == 0 {
        ExitCode::SUCCESS
    } else {
        ExitCode::FAILURE
    }
}
