//! Formulas as they are saved: the text is the second implementation's, it is read as the same tree, it compiles to the same code, and saved
//! again it is the same.

use crate::library::{self, Lent};
use crate::random::{formulas, texts, Random};
use crate::reference::format::format;
use crate::reference::grammar::parse;
use crate::reference::operations::{Report, CODE_BYTES, TEXT_BYTES};
use crate::reference::tree::{Span, Tree};

const SENTINEL: u8 = 0xEE;

/// Saves so many random formulas, damaged ones, long ones and noise, each into a buffer of a random size.
pub fn try_formats(number: u64, seed: u64) -> Result<(), String> {
    println!("seed {seed}");
    let (mut saved, mut answers) = (0u64, [0u64; 16]);
    for case in 0..number {
        let mut random = Random::new(seed, case);
        let expr = text(&mut random);
        let room = if random.one_in(8) { random.below(TEXT_BYTES) } else { TEXT_BYTES + random.below(40) };
        let report = one_text(&expr, room).map_err(|error| format!("{}\n{error}\nto repeat it: host formats {} {seed}", expr.escape_ascii(), case + 1))?;
        answers[report.answer as usize] += 1;
        saved += u64::from(report.answer == 0);
    }
    println!("{number} texts, {saved} saved, 3: {}, 8: {}, 10: {}, 0 differences", answers[3], answers[8], answers[10]);
    Ok(())
}

fn text(random: &mut Random) -> Vec<u8> {
    let formula = formulas::formula(random);
    match random.below(16) {
        0 => texts::damaged(random, &formula),
        1 => texts::long(random),
        2 => texts::noise(random),
        3 => {
            let mut long = formula.clone();
            while long.len() < 400 {
                long.extend_from_slice(random.pick(&["+", "*", "<", "&&", " - ", "**", "=="]).as_bytes());
                long.extend_from_slice(&formulas::formula(random));
            }
            long
        }
        _ => formula,
    }
}

fn refusal(answer: u32, place: usize) -> Report {
    Report { answer, place: place as u32, kind: 0, bits: 0, count: 0, bank: 0, element: 0 }
}

// The text by the library, with sentinels behind it and everywhere on a refusal.
fn one_text(expr: &[u8], room: usize) -> Result<Report, String> {
    let mut out = Lent::new(&vec![SENTINEL; room], expr.len() % 8);
    let report = library::format(&Lent::new(expr, 1), &mut out);
    let mut wanted = vec![SENTINEL; room];
    let expected = match format(expr, room) {
        Ok(text) => {
            wanted[..text.len()].copy_from_slice(text.as_bytes());
            Report { count: text.len() as u32, ..refusal(0, 0) }
        }
        Err(refused) => refusal(refused.answer, refused.place),
    };
    if report != expected || out.content() != wanted || !out.guards_stand() {
        return Err(format!("{report:?}, expected {expected:?}\n{}\n{}", out.content().escape_ascii(), wanted.escape_ascii()));
    }
    if report.answer == 0 {
        again(expr, &wanted[..report.count as usize])?;
    }
    Ok(report)
}

// A tree without its places.
fn placeless(tree: &Tree) -> String {
    let span = |s: &Span| format!("{:?} {} {}", s.bank, s.first, s.count);
    match tree {
        Tree::Literal(v) => format!("{v:?}"),
        Tree::Cell(bank, i) => format!("{bank:?} {i}"),
        Tree::Indexed(bank, t) => format!("{bank:?}[{}]", placeless(t)),
        Tree::Unary(op, _, t) => format!("{op:?}({})", placeless(t)),
        Tree::Binary(op, _, t, u) => format!("{op:?}({}, {})", placeless(t), placeless(u)),
        Tree::Decide(d, t, u) => format!("{d}({}, {})", placeless(t), placeless(u)),
        Tree::If(c, t, u) => format!("If({}, {}, {})", placeless(c), placeless(t), placeless(u)),
        Tree::Tick => "Tick".into(),
        Tree::Since(_, t) => format!("Since({})", placeless(t)),
        Tree::Total(op, s) => format!("{op:?}({})", span(s)),
        Tree::Matching(op, test, t, s) => format!("{op:?} {test:?}({}, {})", placeless(t), span(s)),
    }
}

// The same tree, the same code, and the same bytes.
fn again(expr: &[u8], saved: &[u8]) -> Result<(), String> {
    let trees = [expr, saved].map(|text| parse(text).map(|tree| placeless(&tree)).ok());
    if trees[0].is_none() || trees[0] != trees[1] {
        return Err(format!("saved as {} it is another tree", saved.escape_ascii()));
    }
    let codes = [expr, saved].map(|text| {
        let mut code = Lent::new(&vec![0; CODE_BYTES], 0);
        (library::FULL.compile(&Lent::new(text, 0), &mut code), code)
    });
    if codes[0].0 != codes[1].0 || codes[0].1.content() != codes[1].1.content() {
        return Err(format!("saved as {} it is other code", saved.escape_ascii()));
    }
    let mut out = Lent::new(&[0; TEXT_BYTES], 0);
    let report = library::format(&Lent::new(saved, 2), &mut out);
    let same = report.answer == 0 && report.count as usize == saved.len() && out.content()[..saved.len()] == *saved;
    same.then_some(()).ok_or_else(|| format!("saved again: {}", out.content().escape_ascii()))
}
