//! Texts that nest deep, or are long: answered within seconds on a stack of one megabyte.

use jantsovy_tests::*;
use std::time::{Duration, Instant};

fn answered(name: &str, text: &str, args: &[&str]) -> Ended {
    let dir = scratch(name);
    let file = dir.join("t.jan");
    std::fs::write(&file, text).unwrap();
    let mut words = vec![file.to_str().unwrap()];
    words.extend(args);
    let begun = Instant::now();
    let e = run_small_stack("run", &words);
    let took = begun.elapsed();
    let _ = std::fs::remove_dir_all(&dir);
    assert!(matches!(e.status, Some(0 | 1)), "{name}: status {:?}", e.status);
    assert!(took < Duration::from_secs(60), "{name}: {took:?}");
    e
}

fn with_body(body: &str) -> String {
    format!("width 8; proc f(x) pre yes; post yes; less 0; {{ {body} }}")
}

#[test]
fn a_million_parentheses_open() {
    let e = answered("open-paren", &with_body(&format!("x = {}", "(".repeat(1_000_000))), &["f", "1"]);
    assert!(e.stderr.contains("no text: expected a number"), "{}", e.stderr);
}

#[test]
fn a_million_parentheses_closed() {
    let n = 1_000_000;
    let e = answered("closed-paren", &with_body(&format!("x = {}x{} + 1;", "(".repeat(n), ")".repeat(n))), &["f", "1"]);
    assert_eq!(e.stdout, "x = 2\n");
}

#[test]
fn a_million_brackets() {
    let n = 1_000_000;
    let e = answered("open-bracket", &with_body(&format!("check {}", "[".repeat(n))), &["f", "1"]);
    assert!(e.stderr.contains("no text"), "{}", e.stderr);
    let e = answered("closed-bracket", &with_body(&format!("check {}x == 1{};", "[".repeat(n), "]".repeat(n))), &["f", "1"]);
    assert_eq!(e.stdout, "x = 1\n");
}

#[test]
fn a_million_nots() {
    let e = answered("not", &with_body(&format!("check {}x == 1;", "not ".repeat(1_000_000))), &["f", "1"]);
    assert_eq!(e.stdout, "x = 1\n");
}

#[test]
fn a_hundred_thousand_ifs() {
    let n = 100_000;
    let text = with_body(&format!("{}x = 2;{}", "if yes { ".repeat(n), " } else { }".repeat(n)));
    let e = answered("if", &text, &["f", "1"]);
    assert_eq!(e.stdout, "x = 2\n");
}

#[test]
fn a_hundred_thousand_sums() {
    let e = answered("sums", &with_body(&format!("x = x{};", " + 0".repeat(100_000))), &["f", "7"]);
    assert_eq!(e.stdout, "x = 7\n");
}

#[test]
fn a_note_of_ten_megabytes() {
    let e = answered("note", &format!("# {}\n{}", "n".repeat(10_000_000), with_body("x = x + 1;")), &["f", "7"]);
    assert_eq!(e.stdout, "x = 8\n");
}

#[test]
fn calls_that_never_end() {
    let text = "width 8; proc f(x) pre yes; post yes; less 0; { f(x); }";
    let e = answered("calls", text, &["f", "1", "--fuel", "3000000"]);
    assert_eq!(e.stdout, "late\n");
}

#[test]
fn rounds_that_never_end() {
    let e = answered("rounds", &with_body("while yes keep yes; less 0; { }"), &["f", "1"]);
    assert_eq!(e.stdout, "late\n");
}
