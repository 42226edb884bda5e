//! crates/text_cases: texts, and the answer, place and kind that the requirements give each.
//!
//! texts.txt has a text a line, ANSWER PLACE TEXT, with \xNN for a byte and \\ for a backslash; an accepted formula may have
//! its kind, i or r, for the place. What is stated there must be what the second implementation gives.

use crate::reference::operations::read_text;
use crate::reference::tree::kind;
use crate::reference::value::Kind;

// The program's buffer; it would read no more.
const ROOM: usize = 65536;

struct Case {
    stated: String,
    text: Vec<u8>,
}

/// What the program reads, and what it prints.
pub fn files() -> Result<(Vec<u8>, String), String> {
    let cases = include_str!("texts.txt").lines().filter(|line| !line.starts_with('#')).map(case).chain(long_cases());
    let (mut texts, mut printed) = (Vec::new(), String::new());
    for Case { stated, text } in cases {
        let (answer, kind) = judged(&text);
        if stated != answer && stated != format!("0{kind}") {
            return Err(format!("stated {stated}, worked out {answer}{kind}: {}", text.escape_ascii()));
        }
        texts.push(text);
        printed += &format!("{answer}{kind}\n");
    }
    // The last line has no byte 10, and counts.
    let texts = texts.join(&b'\n');
    assert!(texts.len() < ROOM);
    Ok((texts, printed))
}

// The answer and the place, and the letter of an accepted formula's kind.
fn judged(text: &[u8]) -> (String, &'static str) {
    match read_text(text) {
        Err(refusal) => (format!("{} {}", refusal.answer, refusal.place), ""),
        Ok(tree) => ("0 0".into(), if kind(&tree, &mut None) == Kind::Real { " r" } else { " i" }),
    }
}

fn case(line: &str) -> Case {
    let (text, stated) = match line.match_indices(' ').nth(1) {
        Some((end, _)) => (&line[end + 1..], &line[..end]),
        None => ("", line),
    };
    Case { stated: stated.into(), text: unescaped(text.as_bytes()) }
}

fn unescaped(mut text: &[u8]) -> Vec<u8> {
    let mut bytes = Vec::new();
    while let Some((first, rest)) = text.split_first() {
        text = rest;
        bytes.push(match (first, rest) {
            (b'\\', [b'x', a, b, ..]) => {
                text = &rest[3..];
                u8::from_str_radix(&String::from_utf8_lossy(&[*a, *b]), 16).expect("two digits")
            }
            (b'\\', _) => {
                text = &rest[1..];
                b'\\'
            }
            _ => *first,
        });
    }
    bytes
}

// The length is of all bytes, and is looked at before any token.
fn long_cases() -> impl Iterator<Item = Case> {
    let cases = [
        ("0 i", " ".repeat(1023) + "7"),
        ("3 0", " ".repeat(1024) + "7"),
        ("3 0", "$".repeat(1025)),
        ("4 1023", " ".repeat(1023) + "$"),
        ("0 i", "-".repeat(1023) + "7"),
        ("0 r", "1+".repeat(510) + "0.25"),
        ("7 1024", " ".repeat(1024)),
    ];
    cases.into_iter().map(|(stated, text)| Case { stated: stated.into(), text: text.into() })
}
