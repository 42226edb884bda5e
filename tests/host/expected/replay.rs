//! crates/replay_cases: nights replayed in calls, and what each call prints.

use crate::reference::cards::Card;
use crate::reference::memory::MEMORY_BYTES;
use crate::reference::replay::{call, State, LINE_ROOM};

// The tables of crates/replay_cases/src/main.rt.
const END: u8 = 30;
const ROOMS: [usize; 3] = [4096, 64, 65];
const CALLS: usize = 64;
const SHOWN: usize = 66;
const FAR: u64 = u64::MAX;
const WIDE_TICK: u64 = (1 << 32) + 7;

/// What the program reads, and what it prints.
pub fn files() -> (Vec<u8>, Vec<u8>) {
    let nights = all_nights();
    let input = nights.iter().flat_map(|(book, log)| [&book[..], &[END], &log[..], &[END]].concat()).collect();
    (input, nights.iter().flat_map(|(book, log)| one_night(book, log).into_bytes()).collect())
}

fn one_night(book: &[u8], log: &[u8]) -> String {
    let mut printed = String::new();
    for room in ROOMS {
        let (mut memory, mut state) = (vec![255; MEMORY_BYTES], State::default());
        for _ in 0..CALLS {
            if state.done {
                break;
            }
            let text = call(book, log, &mut memory, room, &mut state);
            printed += &format!("{text}call {} {} {} {}\n", state.at, state.tick, u64::from(state.done), text.len());
        }
    }
    printed + &ends(book)
}

// A memory a byte short, too few bytes lent, a replay that is done, and one that begins beyond the log.
fn ends(book: &[u8]) -> String {
    let dots = |text: &str| text.to_owned() + &".".repeat(SHOWN - text.len());
    let short = "answer=1\nplace=0\n";
    let mut state = State { at: FAR as usize, tick: 7, done: false };
    let refused = call(book, b"", &mut vec![255; MEMORY_BYTES], LINE_ROOM, &mut state);
    let tick = if refused.is_empty() { u64::from(state.tick) } else { WIDE_TICK };
    let mut shown = dots(short).into_bytes();
    shown[..refused.len()].copy_from_slice(refused.as_bytes());
    let shown = String::from_utf8_lossy(&shown).into_owned();
    [
        format!("call {FAR} {WIDE_TICK} 1 {}\n{}", short.len(), dots(short)),
        format!("call {FAR} {WIDE_TICK} 0 0\n{}", dots(short)),
        format!("call 5 {WIDE_TICK} 1 0\n"),
        format!("call {FAR} {tick} 1 {}\n{shown}", refused.len()),
    ]
    .concat()
}

fn book(cards: &[(u32, &str, &str)]) -> Vec<u8> {
    let card =
        |(number, target, expr): &(u32, &str, &str)| Card { number: *number, target: (*target).into(), expr: (*expr).into() };
    cards.iter().flat_map(|found| card(found).bytes()).collect()
}

// Behind each of these lines nothing is replayed.
#[rustfmt::skip]
const BAD: [&str; 30] = [
    "", "D1", "=1", "D1=", "D1=01", "D1=+1", "D1=-0", "D1=2147483648", "D256=1", "D01=1", "V1=-1", "V1=65536", "N1=32768", "X1=2",
    "C64=1", "R1=0x3f800000", "R1=1", "D1=1\r", " D1=1", "D1 =1", "IndexError=1", "tick=0x0000001", "tick=0x000000001",
    "tick=0X00000001", "tick=1", "run=0", "run=01", "run=65", "run=", "target=D1",
];

fn all_nights() -> Vec<(Vec<u8>, Vec<u8>)> {
    let dose = book(&[(1, "D41", "TICKms()"), (2, "C3", "SINCE(D41) >= 1500")]);
    let night = b"tick=0xFFFFFF00\nrun=1\ntick=0x000004DB\nrun=2\nrun=9\ntick=0x000004DC\nrun=2\n".to_vec();
    let banks = book(&[
        (1, "C0", "X63 + C1 > 1"),
        (2, "V255", "V0"),
        (3, "N0", "N255"),
        (5, "D[V1]", "D255"),
        (8, "R9", "R0 * 2"),
        (13, "D0", "1 / X0"),
        (21, "D0", "D1 * D1"),
        (34, "V0", "R1"),
        (64, "D[N1]", "TICKms()"),
    ]);
    let changes = b"X63=1\nC1=1\nV0=65535\nN255=-32768\nD255=-2147483648\nV1=200\nR0=0x40490FDB\ntick=0xffffffff\n".to_vec();
    let runs = b"run=1\nrun=2\nrun=3\nrun=4\nrun=5\nrun=8\nrun=13\nD1=2147483647\nrun=21\nR1=0x7F800000\nrun=34\nN1=-1\nrun=64\nN1=255\nrun=64\n".to_vec();
    let whole = [changes, runs].concat();
    let mut nights = vec![
        (dose.clone(), night.clone()),
        (dose.clone(), Vec::new()),
        (Vec::new(), night.clone()),
        (dose[..dose.len() - 1].to_vec(), night.clone()),
        (dose[1..].to_vec(), Vec::new()),
        (banks, whole),
    ];
    nights.extend(BAD.map(|line| (dose.clone(), [b"tick=0x00000007\nrun=1\n", line.as_bytes(), b"\nrun=2\n"].concat())));
    // Bad lines first.
    nights.extend(BAD[..3].iter().map(|line| (dose.clone(), [line.as_bytes(), b"\nrun=1\n"].concat())));
    // A log cut at every byte.
    nights.extend((0..night.len()).map(|end| (dose.clone(), night[..end].to_vec())));
    nights
}
