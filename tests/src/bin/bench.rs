//! The library's time as a ratio of the second program's, in the same run. Prints a markdown table.
//!
//! Each line is the median of several runs in which the two sides take turns. The library is called by its
//! wrapper for Rust. Outputs are allocated before the measurement and are not cleared between calls.

use second_program::bench::{Group, Line, GROUPS};

fn time(seconds: f64) -> String {
    match seconds {
        s if s < 1e-6 => format!("{:.0} ns", s * 1e9),
        s if s < 1e-3 => format!("{:.2} µs", s * 1e6),
        s => format!("{:.2} ms", s * 1e3),
    }
}

/// Small ratios with more digits.
fn ratio(ratio: f64) -> String {
    match ratio {
        r if r < 0.05 => format!("{r:.5}"),
        r => format!("{r:.2}"),
    }
}

fn print(line: &Line) {
    let roaring = line.roaring.map_or("-".to_string(), time);
    let earlier = match &line.earlier {
        Some(earlier) => {
            let (ratio, change) = (ratio(earlier.ratio), ratio(earlier.change));
            format!(" {} | {ratio} | {change} |", time(earlier.time))
        }
        None if std::env::var("BV_BEFORE").is_ok() => " - | - | - |".to_string(),
        None => String::new(),
    };
    println!(
        "| {} | {} | {} | {} | {} | {} |{}",
        line.call,
        line.input,
        time(line.library),
        time(line.reference),
        ratio(line.ratio),
        roaring,
        earlier
    );
}

/// The groups that are named on the command line, or all.
fn chosen() -> Vec<Group> {
    let names: Vec<String> = std::env::args().skip(1).collect();
    let known = |name: &String| GROUPS.iter().any(|(group, _)| group == name);
    if let Some(name) = names.iter().find(|name| !known(name)) {
        eprintln!("bench: no group is called '{name}'");
        std::process::exit(2);
    }
    let wanted = |(group, _): &Group| names.is_empty() || names.iter().any(|name| name == group);
    GROUPS.into_iter().filter(wanted).collect()
}

fn main() {
    let groups = chosen();
    println!(
        "CPU time of one call, medians of interleaved runs, baseline x86-64 code, opt-level 3."
    );
    println!("Output buffers are allocated beforehand and not cleared between calls.");
    println!("Ratio: the library's time by the second program's, under 1 is faster.");
    println!();
    let mut names = vec!["call", "input", "library", "second program", "ratio", "CRoaring"];
    if std::env::var("BV_BEFORE").is_ok() {
        println!("Before: an earlier library. Change: the library's time by the earlier one's.");
        println!();
        names.extend(["before", "ratio before", "change"]);
    }
    println!("| {} |", names.join(" | "));
    println!("|{}", "---|".repeat(names.len()));
    for (_, group) in groups {
        group(&mut |line| print(&line));
    }
}
