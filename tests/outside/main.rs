//! Compares every call of the library with rules that were written apart from it, on inputs from a seeded generator.

mod compare;
mod guests;
mod inputs;
mod library;
mod rules;
mod sequences;
mod trials;
mod worked;
mod wrong;

use std::process::ExitCode;

use compare::{Call, Comparison, Difference};
use rules::Written;

const USAGE: &str = "usage: outside [--seed NUMBER] [--inputs NUMBER-FOR-EACH-CALL] [--longest] [--break]";

/// What the command line asks for.
struct Wanted {
    seed: u64,
    inputs: u64,
    longest: bool,
    self_check: bool,
}

fn wanted(mut arguments: impl Iterator<Item = String>) -> Option<Wanted> {
    let mut wanted = Wanted { seed: 1, inputs: 200_000, longest: false, self_check: false };
    while let Some(argument) = arguments.next() {
        match argument.as_str() {
            "--seed" => wanted.seed = arguments.next()?.parse().ok()?,
            "--inputs" => wanted.inputs = arguments.next()?.parse().ok()?,
            "--longest" => wanted.longest = true,
            "--break" => wanted.self_check = true,
            _ => return None,
        }
    }
    Some(wanted)
}

/// A number with a comma before every three digits.
fn with_commas(number: u64) -> String {
    match number {
        0..=999 => number.to_string(),
        _ => format!("{},{:03}", with_commas(number / 1000), number % 1000),
    }
}

/// Compares every call, each on this many inputs.
fn compare_all(comparison: &mut Comparison, wanted: &Wanted) -> Result<(), Difference> {
    for call in Call::ALL {
        trials::run(call, comparison, wanted.inputs)?;
    }
    if wanted.longest {
        sequences::longest(comparison)?;
    }
    Ok(())
}

/// Prints a line for each call, and says whether each gave every one of its answers.
fn print_counts(comparison: &Comparison) -> bool {
    let mut complete = true;
    for call in Call::ALL {
        let (name, answers) = call.described();
        let given = |answer| comparison.answers.get(&call).and_then(|given| given.get(&answer)).copied().unwrap_or(0);
        let counts: Vec<String> = answers.iter().map(|&a| format!("{a}: {}", with_commas(given(a)))).collect();
        println!("{name:31} {:>9} inputs, answers {}", with_commas(comparison.inputs(call)), counts.join(", "));
        complete &= answers.iter().all(|&answer| given(answer) > 0);
    }
    complete
}

/// The library against the rules.
fn compare_with_the_rules(wanted: &Wanted) -> bool {
    let mut comparison = Comparison::new(&Written, wanted.seed);
    let outcome = compare_all(&mut comparison, wanted);
    let inputs = with_commas(Call::ALL.iter().map(|&call| comparison.inputs(call)).sum());
    if let Err(difference) = outcome {
        println!("{}{inputs} inputs, the last of them with a difference", difference.words);
        return false;
    }
    let complete = print_counts(&comparison);
    if !complete {
        println!("an answer was never given: ask for more inputs");
    }
    println!("{inputs} inputs, 0 differences");
    complete
}

/// The library against rules with one wrong, again and again: each must make a difference to its call.
fn check_the_comparison(wanted: &Wanted) -> bool {
    let wrong_rules = wrong::all();
    let mut missed = 0;
    for (call, words, rules) in &wrong_rules {
        let mut comparison = Comparison::new(rules.as_ref(), wanted.seed);
        let found =
            trials::run(*call, &mut comparison, wanted.inputs).is_err_and(|difference| difference.call == *call);
        let verdict = if found { "found at input" } else { "NOT FOUND in inputs" };
        println!("{:31} {words}: {verdict} {}", call.described().0, with_commas(comparison.inputs(*call)));
        missed += u64::from(!found);
    }
    println!("{} wrong rules, {missed} of them not found", wrong_rules.len());
    missed == 0
}

fn main() -> ExitCode {
    let Some(wanted) = wanted(std::env::args().skip(1)) else {
        eprintln!("{USAGE}");
        return ExitCode::from(2);
    };
    println!("seed {}", wanted.seed);
    if !worked::rules_agree() {
        println!("the rules of this program do not give the known hashes and two-way answers");
        return ExitCode::FAILURE;
    }
    let good = if wanted.self_check { check_the_comparison(&wanted) } else { compare_with_the_rules(&wanted) };
    if good {
        ExitCode::SUCCESS
    } else {
        ExitCode::FAILURE
    }
}
