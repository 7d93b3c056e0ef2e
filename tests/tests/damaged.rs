//! Damaged texts: each reads, or is refused with a place; none crashes.

use jantsovy_tests::*;
use std::path::Path;

/// A piece of a text, as the language cuts it: a run of letters and digits, or another byte that is no blank.
fn pieces(text: &str) -> Vec<(usize, usize)> {
    let b = text.as_bytes();
    let mut out = Vec::new();
    let mut i = 0;
    while i < b.len() {
        let start = i;
        if b[i].is_ascii_alphanumeric() || b[i] == b'_' {
            while i < b.len() && (b[i].is_ascii_alphanumeric() || b[i] == b'_') {
                i += 1;
            }
        } else {
            i += 1;
        }
        if !b[start].is_ascii_whitespace() {
            out.push((start, i));
        }
    }
    out
}

fn damaged(text: &str) -> Vec<Vec<u8>> {
    let b = text.as_bytes();
    let mut out: Vec<Vec<u8>> = (0..b.len()).map(|n| b[..n].to_vec()).collect();
    for (i, by) in (0..b.len()).step_by(3).zip([b'{', b'0', b';', 0xff, b'[', b'#', b'=', b'a', 0, b')'].into_iter().cycle()) {
        let mut t = b.to_vec();
        t[i] = by;
        out.push(t);
    }
    for (from, to) in pieces(text) {
        out.push([&b[..from], &b[to..]].concat());
    }
    out
}

/// FILE:LINE:COL with a line and a column that the text has.
fn has_place(message: &str, file: &Path, text: &[u8]) -> bool {
    let Some(rest) = message.strip_prefix(file.to_str().unwrap()) else { return false };
    let mut parts = rest.trim_start_matches(':').splitn(3, ':');
    let (Some(line), Some(column)) = (parts.next().and_then(|n| n.parse::<usize>().ok()), parts.next().and_then(|n| n.parse::<usize>().ok())) else {
        return false;
    };
    let lines: Vec<&[u8]> = text.split(|b| *b == b'\n').collect();
    1 <= line && line <= lines.len() && 1 <= column && column <= lines[line - 1].len() + 1
}

#[test]
fn damaged_texts_are_refused_with_a_place_or_read() {
    let dir = scratch("damaged");
    let file = dir.join("t.jan");
    let mut count = 0;
    let mut refused = 0;
    for text in WORKED {
        for t in damaged(text) {
            std::fs::write(&file, &t).unwrap();
            let e = run("run", &[file.to_str().unwrap(), "f", "1", "2", "--fuel", "1000"]);
            let shown = String::from_utf8_lossy(&t);
            assert!(matches!(e.status, Some(0 | 1)), "status {:?} of {shown}", e.status);
            if e.stderr.contains(": no text: ") || e.stderr.contains(": not sound: ") {
                assert!(has_place(&e.stderr, &file, &t), "no place: {} of {shown}", e.stderr);
                assert_eq!(e.status, Some(1));
                refused += 1;
            } else {
                let read = !e.stdout.is_empty() || e.stderr.contains("there is no procedure") || e.stderr.contains("numbers are given") || e.stderr.contains("is too large");
                assert!(read, "neither read nor refused: {} {} of {shown}", e.stdout, e.stderr);
            }
            count += 1;
        }
    }
    assert!(count >= 200 && refused >= 200, "{count} texts, {refused} refused");
}

#[test]
fn whole_texts_read() {
    let dir = scratch("whole");
    let file = dir.join("t.jan");
    for text in WORKED {
        std::fs::write(&file, text).unwrap();
        let e = run("run", &[file.to_str().unwrap(), "nothing"]);
        assert!(e.stderr.contains("there is no procedure `nothing`"), "{} {}", e.stdout, e.stderr);
    }
}
