//! The command `run`: what it prints, and how it refuses.

use jantsovy_tests::*;

fn example(name: &str) -> String {
    root().join("examples").join(name).to_str().unwrap().to_string()
}

fn refused(args: &[&str], wanted: &str) {
    let e = run("run", args);
    assert_eq!(e.status, Some(1), "{args:?}");
    assert_eq!(e.stdout, "", "{args:?}");
    assert!(e.stderr.contains(wanted), "{args:?}: {}", e.stderr);
}

#[test]
fn words_that_cannot_be_meant() {
    let cabins = example("cabins.jan");
    let f = cabins.as_str();
    refused(&[], "FILE");
    refused(&[f], "PROC");
    refused(&["no-such-file.jan", "f"], "no-such-file.jan");
    refused(&[f, "entre", "1", "1"], "there is no procedure `entre`: expected one of enter, leave, hour");
    refused(&[f, "enter", "1"], "1 numbers are given: expected 2, for the parameters (cabins, let_in)");
    refused(&[f, "enter", "1", "2", "3"], "3 numbers are given: expected 2");
    refused(&[f, "enter", "1", "256"], "number 2 is too large: expected numbers of 8 bits");
    refused(&[f, "enter", "1", "one"], "`one` is no number");
    refused(&[f, "enter", "1", "18446744073709551616"], "`18446744073709551616` is no number");
    refused(&[f, "enter", "1", "-1"], "`-1` is no number");
    refused(&[f, "enter", "1", "0", "--quick"], "`--quick` is no option: expected --choices, --fuel or --help");
    refused(&[f, "enter", "1", "0", "--fuel"], "--fuel is the last word");
    refused(&[f, "enter", "1", "0", "--fuel", "much"], "`much` is no number");
    refused(&[f, "hour", "1", "0", "--choices"], "--choices is the last word");
    refused(&[f, "hour", "1", "0", "--choices", "1,,2"], "`` is no number");
}

#[test]
fn help_says_everything() {
    let e = run("run", &["--help"]);
    assert_eq!(e.status, Some(0));
    for word in ["FILE", "PROC", "NUMBER", "--choices", "--fuel", "--help", "status"] {
        assert!(e.stdout.contains(word), "{word}");
    }
}

#[test]
fn a_precondition_that_is_not_so_is_noted() {
    let e = run("run", &[&example("cabins.jan"), "enter", "255", "0"]);
    assert!(e.stderr.contains("note: the precondition is not so"), "{}", e.stderr);
    assert_eq!(e.stdout, "cabins = 255\nlet_in = 0\n");
    assert_eq!(e.status, Some(0));
}

#[test]
fn the_outcomes() {
    let e = run("run", &[&example("factorial.jan"), "factorial", "8", "0"]);
    assert_eq!((e.stdout.as_str(), e.status), ("n = 8\nr = 40320\n", Some(0)));
    let e = run("run", &[&example("factorial.jan"), "factorial", "9", "0"]);
    assert_eq!((e.stdout.as_str(), e.status), ("failed: line 18: the product is too large\n", Some(1)));
    let e = run("run", &[&example("factorial.jan"), "factorial", "8", "0", "--fuel", "20"]);
    assert_eq!((e.stdout.as_str(), e.status), ("late\n", Some(1)));
    let e = run("run", &[&example("waiting.jan"), "order", "40", "7", "300", "7"]);
    assert_eq!((e.stdout.as_str(), e.status), ("t = [7, 7, 40, 300]\n", Some(0)));
    let e = run("run", &[&example("cabins.jan"), "hour", "3", "4", "--choices", "2,1,2,2"]);
    assert_eq!((e.stdout.as_str(), e.status), ("cabins = 1\ntimes = 0\n", Some(0)));
}
