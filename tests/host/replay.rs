//! Random nights by both implementations, in calls of any room from any byte, call by call.

use crate::header::ReplayState;
use crate::library::{self, Lent};
use crate::random::{cards as any, images, texts, Random};
use crate::reference::memory::{lent, BANKS};
use crate::reference::replay::{call, State};

const SENTINEL: u8 = 0xC3;
const MOST_CALLS: usize = 200;

pub fn try_replay(number: u64, seed: u64) -> Result<(), String> {
    println!("seed {seed}");
    let (mut calls, mut bytes) = (0, 0);
    for case in 0..number {
        let mut random = Random::new(seed, case);
        let (book, log) = (book(&mut random), night(&mut random));
        let (n, printed) = in_calls(&mut random, &book, &log).map_err(|error| {
            format!(
                "{error}\nbook {}\nlog {}\nto repeat it: host replay {} {seed}",
                book.escape_ascii(),
                log.escape_ascii(),
                case + 1
            )
        })?;
        calls += n;
        bytes += printed;
    }
    println!("{number} random nights replayed in {calls} calls, {bytes} bytes printed, 0 differences");
    Ok(())
}

fn book(random: &mut Random) -> Vec<u8> {
    let file = any::file(&any::cards(random));
    if random.one_in(10) {
        any::damaged(random, &file)
    } else {
        file
    }
}

fn night(random: &mut Random) -> Vec<u8> {
    let mut log: Vec<u8> = (0..random.below(30)).flat_map(|_| line(random).into_bytes()).collect();
    if random.one_in(4) {
        log = texts::damaged(random, &log);
    }
    if random.one_in(8) {
        log.truncate(random.below(log.len() + 1));
    }
    log
}

fn line(random: &mut Random) -> String {
    match random.below(8) {
        0 => format!("tick=0x{:08X}\n", random.tick()),
        1 => format!("tick=0x{:08x}\n", random.tick()),
        2..=4 => {
            let most = *random.pick(&[9, 20, 64, 65]);
            format!("run={}\n", random.below(most) + 1)
        }
        _ => {
            let bank = *random.pick(&BANKS);
            let name = format!("{}{}", char::from(bank.letter()), random.below(bank.cells()));
            let word = random.integer();
            match bank.letter() {
                b'X' | b'C' => format!("{name}={}\n", word & 1),
                b'V' => format!("{name}={}\n", word as u16),
                b'N' => format!("{name}={}\n", word as i16),
                b'D' => format!("{name}={word}\n"),
                _ => format!("{name}=0x{:08X}\n", random.real().to_bits()),
            }
        }
    }
}

// Gives the number of calls and of bytes printed.
fn in_calls(random: &mut Random, book: &[u8], log: &[u8]) -> Result<(usize, usize), String> {
    let mut memory = images::memory(random);
    let mut state = State::default();
    if random.one_in(6) {
        state = State { at: random.below(log.len() + 9), tick: random.tick(), done: random.one_in(9) };
    }
    let mut printed = 0;
    for calls in 0..MOST_CALLS {
        printed += one_call(random, book, log, &mut memory, &mut state)?;
        if state.done {
            return Ok((calls + 1, printed));
        }
    }
    Ok((MOST_CALLS, printed))
}

fn words(state: &State, written: usize) -> ReplayState {
    ReplayState { at: state.at as u64, tick: state.tick.into(), done: state.done.into(), written: written as u64 }
}

fn one_call(random: &mut Random, book: &[u8], log: &[u8], memory: &mut [u8], state: &mut State) -> Result<usize, String> {
    let room = *random.pick(&[63, 64, 65, 101, 300, 4096, 65536]);
    let (cards, night) = (Lent::new(book, random.below(8)), Lent::new(log, random.below(8)));
    let mut image = Lent::new(&lent(memory), random.below(8));
    let mut out = Lent::new(&vec![SENTINEL; room], random.below(8));
    let mut found = words(state, 77);
    library::replay(&cards, &night, &mut image, &mut out, &mut found);
    let text = call(book, log, memory, room, state);
    let mut wanted = text.clone().into_bytes();
    wanted.resize(room, SENTINEL);
    let guards = [&cards, &night, &image, &out].iter().all(|lent| lent.guards_stand());
    let kept = cards.content() == book && night.content() == log;
    let same = image.content() == lent(memory) && out.content() == wanted && found == words(state, text.len());
    if guards && kept && same {
        return Ok(text.len());
    }
    Err(format!("room {room}, expected {state:?} {text:?}, got {found:?} {}", out.content().escape_ascii()))
}
