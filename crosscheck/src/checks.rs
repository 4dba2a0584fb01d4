//! The checks: groups of calls that are made on both sides.
pub mod calls;
pub mod colours;
pub mod damaged;
pub mod fences;
pub mod first;
pub mod interleaves;
pub mod large;
pub mod limits;
pub mod listings;
pub mod lists;
pub mod none;
pub mod ops;
pub mod orders;
pub mod records;
pub mod room;
pub mod words;
pub mod writer;

use crate::files::{self, Method, BYTES, LONGS, LONG_WORDS, SHORTS, SHORT_WORDS};
use crate::pair::{Checked, Pair, Player};
use crate::plain::Sizes;
use crate::random::Random;

/// Both sides and where the numbers come from.
pub struct Check {
    pub pair: Pair,
    pub random: Random,
}

/// Opens a file, plays it to its end or first refusal, and takes every step back.
pub fn play(check: &mut Check, file: &[u8]) -> Checked<()> {
    let mut player = Player::fitting(&mut check.random, file);
    if player.open(&mut check.pair)? != 0 {
        return Ok(());
    }
    on_and_back(check, player)
}

/// Plays on to the end or the first refusal, and takes every step back.
pub fn on_and_back(check: &mut Check, mut player: Player) -> Checked<()> {
    let mut past = Vec::new();
    loop {
        let before = (player.screen(), player.now());
        if player.step_on(&mut check.pair)? != 0 {
            break;
        }
        past.push((player.written(), before));
    }
    for (record, (screen, state)) in past.into_iter().rev() {
        if player.step_back(&mut check.pair, &record)? != 0 {
            return Err(format!("a step back to {state:?} with its own record is refused"));
        }
        if (player.screen(), player.now()) != (screen, state) {
            return Err(format!("a step back to {state:?} leads elsewhere"));
        }
    }
    Ok(())
}

/// The parts in one of their orders.
pub fn ordered(mut parts: Vec<Vec<u8>>, mut order: usize) -> Vec<Vec<u8>> {
    let mut out = Vec::new();
    while !parts.is_empty() {
        let many = parts.len();
        out.push(parts.remove(order % many));
        order /= many;
    }
    out
}

/// Small well-formed files of every kind of BODY and delta, and of every kind of first picture.
pub fn small_films(check: &mut Check) -> Vec<Vec<u8>> {
    let sizes = [(16, 2, 1), (20, 3, 2), (32, 3, 1), (33, 2, 3), (64, 5, 1)];
    let random = &mut check.random;
    let mut films = Vec::new();
    for (width, height, planes) in sizes {
        let sizes = Sizes { width, height, planes };
        films.push(files::film(random, sizes, 4, files::Harm::None));
        films.push(every_method(random, sizes));
    }
    for (method, width, height) in [(BYTES, 16, 2), (SHORTS, 20, 2), (LONGS, 32, 2), (LONG_WORDS, 16, 5), (SHORT_WORDS, 16, 2)] {
        films.push(only_deltas(random, Sizes { width, height, planes: 1 }, method));
    }
    films
}

/// A file of a first picture and a frame after it, both of them deltas of this method with a CMAP.
fn only_deltas(random: &mut Random, sizes: Sizes, method: Method) -> Vec<u8> {
    let picture = files::any_picture(random, sizes, 256);
    let first = files::delta_on_black(&picture, sizes, method);
    let next = files::random_delta(random, sizes, method);
    let parts = [files::first_delta_form(sizes, method, 3, &first), files::delta_form(method, 0, 1, &next)];
    files::form(b"ANIM", &parts.map(|part| files::coloured(&part, &random.bytes(6))))
}

/// The methods with an interleave each, and the bytes of a CMAP.
const INTERLEAVED: [(Method, u8, Option<usize>); 5] =
    [(BYTES, 0, Some(3)), (SHORTS, 1, None), (LONGS, 2, Some(6)), (LONG_WORDS, 2, Some(0)), (SHORT_WORDS, 1, Some(9))];

/// A file with a packed BODY and a frame of each method that the picture may have, and of each interleave, most of them with a CMAP.
fn every_method(random: &mut Random, sizes: Sizes) -> Vec<u8> {
    let picture = random.bytes(sizes.frame());
    let body = files::packed_body(&picture, sizes);
    let mut parts = vec![files::coloured(&files::picture_form(sizes, 1, &body), &random.bytes(6))];
    for (method, interleave, cmap) in INTERLEAVED.into_iter().filter(|(method, ..)| method.fits(sizes)) {
        let delta = files::random_delta(random, sizes, method);
        let form = files::delta_form(method, interleave, 3, &delta);
        parts.push(cmap.map_or(form.clone(), |length| files::coloured(&form, &random.bytes(length))));
    }
    files::form(b"ANIM", &parts)
}
