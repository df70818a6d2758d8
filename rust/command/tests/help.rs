//! Help, version, wrong use, and the man page.

mod common;
use common::{Folder, REPOSITORY};
use std::collections::{BTreeMap, BTreeSet};
use std::fs;
use std::process::Command;

/// The verbs that `--help` lists.
fn verbs() -> Vec<String> {
    let help = Folder::new().run(&["--help"]).text();
    let lines = help.lines().filter_map(|line| line.strip_prefix("    "));
    lines.map(verb_of).filter(|name| !name.is_empty()).collect()
}

/// The words in small letters at the front of a line.
fn verb_of(line: &str) -> String {
    let operands = line.split("  ").next().unwrap_or_default();
    let small = |word: &&str| word.starts_with(|letter: char| letter.is_ascii_lowercase());
    operands.split(' ').take_while(small).collect::<Vec<_>>().join(" ")
}

/// The long options in a text.
fn options(text: &str) -> BTreeSet<String> {
    let ends = |letter: char| !letter.is_ascii_lowercase() && letter != '-';
    let words = text.split(ends).filter_map(|word| word.strip_prefix("--"));
    words.filter(|word| !word.is_empty()).map(str::to_string).collect()
}

#[test]
fn the_verbs_are_all_there() {
    let wanted = [
        "check",
        "list",
        "ask",
        "write",
        "union",
        "intersection",
        "difference",
        "symmetric-difference",
        "store put",
        "store fetch",
        "store drop",
        "store list",
        "schema",
        "block",
        "bucket",
        "help",
    ];
    assert_eq!(verbs(), wanted);
}

#[test]
fn every_verb_has_help() {
    let folder = Folder::new();
    for verb in verbs() {
        let words: Vec<&str> = verb.split(' ').collect();
        let help = folder.run(&[words.as_slice(), &["--help"]].concat());
        assert_eq!((help.status, help.err.as_str()), (0, ""), "{verb}");
        assert!(help.text().starts_with(&format!("Usage: barcovento {verb} ")), "{verb}");
        assert!(help.text().lines().all(|line| line.chars().count() <= 100), "{verb}");
        assert_eq!(folder.run(&[words.as_slice(), &["-h"]].concat()), help);
        assert_eq!(folder.run(&[&["--help"], words.as_slice()].concat()), help);
        assert_eq!(folder.run(&[&["help"], words.as_slice()].concat()), help);
    }
    let all = folder.run(&["--help"]);
    assert_eq!((all.status, all.err.as_str()), (0, ""));
    assert!(all.text().starts_with("Usage: barcovento VERB [OPTION]... OPERAND...\n"));
    assert!(all.text().lines().all(|line| line.chars().count() <= 100));
    assert_eq!(folder.run(&["help"]), all);
    assert_eq!(folder.run(&["-h"]), all);
    let stores = folder.run(&["store", "--help"]);
    assert_eq!(stores.text().matches("Usage: barcovento store ").count(), 4);
    assert_eq!(folder.run(&["help", "store"]), stores);
}

#[test]
fn version() {
    let folder = Folder::new();
    let version = concat!("barcovento ", env!("CARGO_PKG_VERSION"), "\n");
    folder.prints(&["--version"], version);
    folder.prints(&["-V"], version);
    assert_eq!(version, "barcovento 0.1.0\n");
}

#[test]
fn wrong_use() {
    let folder = Folder::new();
    let zone = "samples/zone.bitmap";
    for (words, line) in [
        ([].as_slice(), "a verb is missing; try 'barcovento --help'"),
        (&["frob"], "no verb 'frob'; try 'barcovento --help'"),
        (&["frob", "--help"], "no verb 'frob'; try 'barcovento --help'"),
        (&["help", "frob"], "there is no such verb; try 'barcovento help --help'"),
        (&["store"], "put, fetch, drop or list is missing; try 'barcovento --help'"),
        (&["store", "frob"], "no verb 'store frob'; try 'barcovento --help'"),
        (&["check"], "FILE is missing; try 'barcovento check --help'"),
        (&["check", "--frob", zone], "no option '--frob'; try 'barcovento --help'"),
        (&["check", "-x", zone], "no option '-x'; try 'barcovento --help'"),
        (&["check", "-qx", zone], "no option '-x'; try 'barcovento --help'"),
        (&["check", zone, "-j"], "option '-j' wants a value; try 'barcovento --help'"),
        (&["check", "--quiet=1", zone], "option '--quiet' takes no value; try 'barcovento --help'"),
        (&["check", "-j0", zone], "0 threads check nothing; try 'barcovento check --help'"),
        (
            &["check", "-j", "x", zone],
            "'x' is no number for threads; try 'barcovento check --help'",
        ),
        (
            &["check", "--json", zone],
            "'check' has no option '--json'; try 'barcovento check --help'",
        ),
        (
            &["list", zone, zone],
            "'samples/zone.bitmap' is one word too many; try 'barcovento list --help'",
        ),
        (&["ask", zone], "POSITION is missing; try 'barcovento ask --help'"),
        (&["write"], "OUT is missing; try 'barcovento write --help'"),
        (&["store", "put", "s", "1"], "BITMAP is missing; try 'barcovento store put --help'"),
        (&["block", "s"], "FILE is missing; try 'barcovento block --help'"),
        (&["bucket", "s"], "ROWS is missing; try 'barcovento bucket --help'"),
    ] {
        folder.fails(words, 2, line);
    }
}

#[test]
fn options_stand_anywhere() {
    let folder = Folder::new();
    let zone = "samples/zone.bitmap";
    for words in [
        ["union", zone, zone, "-o", "-", "--room", "12"],
        ["--room=12", "union", "-o-", "--", zone, zone, zone],
        ["-o", "-", "union", zone, "--room", "12", zone],
        ["union", "--output=-", zone, "--room", "5", zone, "--room=12"],
    ] {
        assert_eq!(folder.run(&words).out, common::ZONE, "{words:?}");
    }
}

/// The man page, without marks of fonts and backslashes.
fn man_page() -> String {
    let page =
        fs::read_to_string(format!("{REPOSITORY}/docs/man/barcovento.1")).expect("a man page");
    ["\\fI", "\\fB", "\\fR"]
        .iter()
        .fold(page, |page, font| page.replace(font, ""))
        .replace("\\-", "-")
}

#[test]
fn the_man_page_has_the_verbs_and_their_options() {
    let page = man_page();
    let section = page.split("\n.SH VERBS\n").nth(1).expect("verbs").split("\n.SH").next().unwrap();
    let verb = |part: &str| {
        let (name, text) = part.split_once('\n').expect("a verb and its text");
        (name.to_string(), options(text))
    };
    let in_page: BTreeMap<String, BTreeSet<String>> =
        section.split(".SS ").skip(1).map(verb).collect();
    let folder = Folder::new();
    let help = |verb: String| {
        let words: Vec<&str> = ["help"].into_iter().chain(verb.split(' ')).collect();
        let mut options = options(&folder.run(&words).text());
        if verb != "help" {
            options.remove("help");
        }
        (verb, options)
    };
    let in_help: BTreeMap<String, BTreeSet<String>> = verbs().into_iter().map(help).collect();
    assert_eq!(in_page, in_help);
}

#[test]
fn the_examples_of_the_man_page_are_true() {
    let page = man_page().replace("\\e", "\\");
    let folder = Folder::new();
    let mut examples = 0;
    for part in page.split(".nf\n").skip(1) {
        let part = part.split(".fi\n").next().unwrap_or_default();
        for example in part.split("$ ").skip(1) {
            let (line, printed) = example.split_once('\n').expect("a line");
            let run = folder.shell(&line.replace("barcovento", "$B"));
            let plain = |text: &str| text.lines().map(str::trim_end).collect::<Vec<_>>().join("\n");
            assert_eq!(plain(&run.text()), plain(printed), "{line}");
            assert_eq!((run.status, run.err.as_str()), (0, ""), "{line}");
            examples += 1;
        }
    }
    assert_eq!(examples, 8);
}

#[test]
fn the_man_page_prints_without_warnings() {
    let page = format!("{REPOSITORY}/docs/man/barcovento.1");
    let Ok(run) = Command::new("groff").args(["-man", "-Tutf8", "-ww", &page]).output() else {
        println!("skipped: no groff");
        return;
    };
    assert_eq!(String::from_utf8_lossy(&run.stderr), "");
    assert!(run.status.success() && !run.stdout.is_empty());
}
