//! The writer on pictures that are equal, differ in one bit, or are random, striped or noisy, most of them tall.
use super::damaged::two_frames;
use super::Check;
use crate::bounds::delta_room;
use crate::files;
use crate::pair::{Checked, Player, Twin};
use crate::plain::Sizes;
use crate::random::Random;

/// Row counts at which ops are cut.
const TURNS: [usize; 24] = [1, 2, 3, 4, 5, 6, 7, 8, 126, 127, 128, 129, 130, 131, 253, 254, 255, 256, 257, 258, 259, 260, 381, 511];

/// One pair of pictures, written with room and without, and the delta played.
pub fn pictures(check: &mut Check) -> Checked<()> {
    let random = &mut check.random;
    let sizes = match random.below(16) {
        0 => files::wide_sizes(random),
        2..=4 => files::small_sizes(random),
        1 => Sizes { width: 16, height: 1024, planes: 1 },
        _ => files::tall_sizes(random),
    };
    let (old, new) = match random.below(8) {
        0 => nearly_equal(random, sizes),
        1 => (random.bytes(sizes.frame()), random.bytes(sizes.frame())),
        2 => some_changed(random, sizes),
        3 => every_other_row(random, sizes),
        4 => every_other_byte(random, sizes),
        _ => stretches(random, sizes),
    };
    write(check, sizes, &old, &new)
}

pub fn write(check: &mut Check, sizes: Sizes, old: &[u8], new: &[u8]) -> Checked<()> {
    let numbers = [sizes.width as u64, sizes.height as u64, sizes.planes as u64];
    let (mut was, mut is) = (Twin::new("old", old), Twin::new("new", new));
    let mut size = Twin::new("length", &[0xee; 8]);
    let mut out = Twin::new("out", &vec![0xdd; delta_room(sizes)]);
    if check.pair.write_delta(numbers, &mut was, &mut is, &mut out, &mut size)? != 0 {
        return Err(format!("{sizes:?}: a buffer of the length of anim.h is too short"));
    }
    let length = u64::from_le_bytes(size.bytes().try_into().expect("eight bytes")) as usize;
    for room in [length, length - 1, length + 1, check.random.below(length)] {
        let mut out = Twin::new("out", &vec![0xcc; room]);
        check.pair.write_delta(numbers, &mut was, &mut is, &mut out, &mut size)?;
    }
    turns_into(check, sizes, old, new, &out.bytes()[..length])
}

/// A step with the delta leads from the old picture to the new one.
fn turns_into(check: &mut Check, sizes: Sizes, old: &[u8], new: &[u8], delta: &[u8]) -> Checked<()> {
    let file = two_frames(sizes, &files::plain_body(old, sizes), files::BYTES, delta);
    let mut player = Player::fitting(&mut check.random, &file);
    player.open(&mut check.pair)?;
    player.step_on(&mut check.pair)?;
    if player.b.bytes() != new {
        return Err(format!("{sizes:?}: the written delta doesn't lead to the new picture"));
    }
    Ok(())
}

/// Equal pictures, or two that differ in one bit.
fn nearly_equal(random: &mut Random, sizes: Sizes) -> (Vec<u8>, Vec<u8>) {
    let old = random.bytes(sizes.frame());
    let mut new = old.clone();
    if random.once_in(2) {
        new[random.below(old.len())] ^= 1;
    }
    (old, new)
}

fn some_changed(random: &mut Random, sizes: Sizes) -> (Vec<u8>, Vec<u8>) {
    let old = random.bytes(sizes.frame());
    let rare = random.from_to(1, 30);
    let values = *random.pick(&[1, 2, 256]);
    let new = old.iter().map(|&b| if random.once_in(rare) { random.below(values) as u8 } else { b }).collect();
    (old, new)
}

/// Every second row changed but for a few, so that a column needs about 255 ops or many more.
fn every_other_row(random: &mut Random, sizes: Sizes) -> (Vec<u8>, Vec<u8>) {
    let old = vec![0; sizes.frame()];
    let mut new = old.clone();
    let row = sizes.row();
    let last = random.from_to(250, 260).min(sizes.height);
    let odd = random.below(2);
    for plane in 0..sizes.planes {
        for y in (odd..if random.once_in(3) { sizes.height } else { last }).step_by(2) {
            for x in 0..row {
                new[plane * sizes.plane() + y * row + x] = 1 + random.below(255) as u8;
            }
        }
    }
    (old, new)
}

/// Every second byte changed, so that the record is as long as it can be.
fn every_other_byte(random: &mut Random, sizes: Sizes) -> (Vec<u8>, Vec<u8>) {
    let old = random.bytes(sizes.frame());
    let odd = random.below(2);
    let new = old.iter().enumerate().map(|(k, &b)| if k % 2 == odd { b } else { b ^ 0x55 }).collect();
    (old, new)
}

/// Columns of stretches that are unchanged, of one value, or of many, each as long as ops are cut.
fn stretches(random: &mut Random, sizes: Sizes) -> (Vec<u8>, Vec<u8>) {
    let old = vec![0; sizes.frame()];
    let mut new = old.clone();
    let row = sizes.row();
    for plane in 0..sizes.planes {
        for x in 0..row {
            let mut y = 0;
            while y < sizes.height {
                let length = *random.pick(&TURNS);
                let kind = random.below(3);
                let value = random.from_to(1, 3) as u8;
                for y in y..(y + length).min(sizes.height) {
                    new[plane * sizes.plane() + y * row + x] = match kind {
                        0 => 0,
                        1 => value,
                        _ => random.from_to(1, 255) as u8,
                    };
                }
                y += length;
            }
        }
    }
    if random.once_in(2) {
        // The same stretches with unchanged rows that have a value of their own.
        let old = new.iter().map(|&b| if b == 0 { 2 } else { 0 }).collect();
        let new = new.iter().map(|&b| if b == 0 { 2 } else { b }).collect();
        return (old, new);
    }
    (old, new)
}
