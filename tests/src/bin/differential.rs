//! differential [--seed S] [--cases N] [--case K] [--trace] [GROUP...]
//!
//! Compares the library with the second program. Ends at the first difference, with the seed and the
//! number of the case: `--seed S --case K GROUP` runs that case alone. `--trace` prints the number of
//! each case before it runs, for a case that does not come back.

use second_program::differential::{case_random, groups, Group, Tally};
use std::process::ExitCode;
use std::time::Instant;

/// From this number of cases on, a refusal number that was reached too seldom is a failure.
const ENOUGH: u64 = 2_000;

struct Arguments {
    seed: u64,
    cases: Option<u64>,
    case: Option<u64>,
    trace: bool,
    groups: Vec<String>,
}

fn arguments() -> Result<Arguments, String> {
    let mut arguments =
        Arguments { seed: 20_261_115, cases: None, case: None, trace: false, groups: Vec::new() };
    let mut words = std::env::args().skip(1);
    while let Some(word) = words.next() {
        let mut number = || {
            let value = words.next().ok_or(format!("{word} needs a number"))?;
            value.parse::<u64>().map_err(|error| format!("{word} {value}: {error}"))
        };
        match word.as_str() {
            "--seed" => arguments.seed = number()?,
            "--cases" => arguments.cases = Some(number()?),
            "--case" => arguments.case = Some(number()?),
            "--trace" => arguments.trace = true,
            _ => arguments.groups.push(word),
        }
    }
    Ok(arguments)
}

fn chosen_groups(names: &[String]) -> Result<Vec<Group>, String> {
    let mut chosen = groups();
    for name in names {
        if !chosen.iter().any(|group| group.name == name) {
            return Err(format!("there is no group '{name}'"));
        }
    }
    chosen.retain(|group| names.is_empty() || names.iter().any(|name| name == group.name));
    Ok(chosen)
}

fn run_group(group: &Group, arguments: &Arguments) -> Result<(), String> {
    let start = Instant::now();
    let mut tally = Tally::default();
    let cases = arguments.cases.unwrap_or(group.default_cases);
    let range = match arguments.case {
        Some(case) => case..case + 1,
        None => 0..cases,
    };
    for case in range {
        if arguments.trace {
            eprintln!("{} {case}", group.name);
        }
        let mut random = case_random(arguments.seed, group, case);
        (group.run_case)(case, &mut random, &mut tally).map_err(|difference| {
            format!(
                "DIFFERENCE in {}: --seed {} --case {case} {}\n{difference}",
                group.name, arguments.seed, group.name
            )
        })?;
    }
    let reached: Vec<String> = tally
        .0
        .iter()
        .map(|(number, times)| match number {
            0 => format!("accepted {times}"),
            _ => format!("{number}: {times}"),
        })
        .collect();
    println!(
        "{}: {cases} cases, no difference, {:.1} s; {}",
        group.name,
        start.elapsed().as_secs_f64(),
        reached.join(", ")
    );
    if cases >= ENOUGH && arguments.case.is_none() {
        coverage(group, &tally)?;
    }
    Ok(())
}

fn coverage(group: &Group, tally: &Tally) -> Result<(), String> {
    for number in std::iter::once(&0).chain(group.refusals) {
        let times = tally.0.get(number).copied().unwrap_or(0);
        if times < group.times {
            return Err(format!("{}: outcome {number} was reached {times} times", group.name));
        }
    }
    Ok(())
}

fn run() -> Result<(), String> {
    let arguments = arguments()?;
    println!("seed {}", arguments.seed);
    for group in chosen_groups(&arguments.groups)? {
        run_group(&group, &arguments)?;
    }
    Ok(())
}

fn main() -> ExitCode {
    match run() {
        Ok(()) => ExitCode::SUCCESS,
        Err(message) => {
            eprintln!("{message}");
            ExitCode::FAILURE
        }
    }
}
