//! The two images through the library: conversions both ways and their sizes, and every bit between neighbours of both values.

use crate::library::{self, Code, Lent};
use crate::random::images::memory;
use crate::random::Random;
use crate::reference::memory::{pack, unpack, Bank, MEMORY_BYTES, PACKED_BYTES};
use crate::reference::operations::CODE_BYTES;

// What a bit's byte can hold in an old image; any but 0 is on.
const BIT_BYTES: [u8; 5] = [0, 1, 2, 128, 255];
const OLD_BITS: usize = 128;
// What a lent buffer holds before the call.
const SENTINEL: u8 = 0x5A;

pub fn try_images(number: u64, seed: u64) -> Result<(), String> {
    println!("seed {seed}");
    for case in 0..number {
        converted(&mut Random::new(seed, case)).map_err(|wrong| format!("image {case}: {wrong}"))?;
    }
    for old in [MEMORY_BYTES - 1, MEMORY_BYTES, MEMORY_BYTES + 1] {
        for packed in [PACKED_BYTES - 1, PACKED_BYTES, PACKED_BYTES + 1] {
            sized(old, packed).map_err(|wrong| format!("{old} and {packed} bytes: {wrong}"))?;
        }
    }
    for fill in [0, 255] {
        for element in 0..Bank::C.cells() {
            stored(fill, element)?;
            read(fill, element)?;
        }
    }
    println!("{number} images, 0 differences");
    Ok(())
}

fn holds(held: bool, wrong: &str) -> Result<(), String> {
    held.then_some(()).ok_or_else(|| wrong.to_string())
}

fn converted(random: &mut Random) -> Result<(), String> {
    let mut old = memory(random);
    for byte in &mut old[..OLD_BITS] {
        *byte = *random.pick(&BIT_BYTES);
    }
    let (lent, mut image) = (Lent::new(&old, 1), Lent::new(&[SENTINEL; PACKED_BYTES], 3));
    holds(library::pack(&lent, &mut image) == 0, "pack refuses it")?;
    holds(image.content() == pack(&old), "pack gives another image")?;
    let mut back = Lent::new(&[SENTINEL; MEMORY_BYTES], 5);
    holds(library::unpack(&image, &mut back) == 0, "unpack refuses it")?;
    holds(back.content() == unpack(&pack(&old)), "unpack gives another image")?;
    holds(lent.content() == old && image.content() == pack(&old), "what is converted is written")?;
    holds([&lent, &image, &back].iter().all(|lent| lent.guards_stand()), "bytes beside a lent buffer were written")
}

// 0 where both sizes are right; else 1, and the buffer stays.
fn sized(old: usize, packed: usize) -> Result<(), String> {
    let right = old == MEMORY_BYTES && packed == PACKED_BYTES;
    let stays = |buffer: &Lent| right || buffer.content().iter().all(|byte| *byte == SENTINEL);
    let (from, mut to) = (Lent::new(&vec![0; old], 0), Lent::new(&vec![SENTINEL; packed], 0));
    holds(library::pack(&from, &mut to) == u32::from(!right) && stays(&to), "pack")?;
    let (from, mut to) = (Lent::new(&vec![0; packed], 0), Lent::new(&vec![SENTINEL; old], 0));
    holds(library::unpack(&from, &mut to) == u32::from(!right) && stays(&to), "unpack")
}

fn stored(fill: u8, element: usize) -> Result<(), String> {
    let (target, index) = (Lent::new(format!("C{element}").as_bytes(), 0), Lent::new(&[], 0));
    for value in 0..2 {
        let mut memory = Lent::new(&[fill; PACKED_BYTES], 0);
        let report = library::FULL.store((0, value), &mut memory, &target, Code { lent: &index, instructions: 0 }, 0);
        let mut expected = unpack(&[fill; PACKED_BYTES]);
        expected[64 + element] = value as u8;
        holds(report.answer == 0 && memory.content() == pack(&expected), &format!("C{element} = {value} among {fill}"))?;
    }
    Ok(())
}

// A bit that differs from every other.
fn read(fill: u8, element: usize) -> Result<(), String> {
    for (bank, start) in [("X", 0), ("C", 64)] {
        let mut old = unpack(&[fill; PACKED_BYTES]);
        old[start + element] ^= 1;
        let (target, text) = (Lent::new(b"D0", 0), Lent::new(format!("{bank}{element}").as_bytes(), 0));
        let (mut memory, mut code, mut index) = (Lent::new(&pack(&old), 0), Lent::new(&[0; CODE_BYTES], 0), Lent::new(&[0; CODE_BYTES], 0));
        let report = library::FULL.compile_and_run(&target, &text, &mut memory, [&mut code, &mut index], 0);
        holds(report.answer == 0 && report.bits == u32::from(old[start + element]), &format!("{bank}{element} among {fill}"))?;
    }
    Ok(())
}
