//! Films whose frames are built one and two frames back, in every order.
use super::{on_and_back, play, Check};
use crate::files::{self, Method, METHODS};
use crate::pair::{Checked, Player};
use crate::plain::Sizes;

pub const SIZES: Sizes = Sizes { width: 64, height: 3, planes: 2 };
/// Frames after the first.
const LATER: u32 = 4;

/// A frame after the first: its interleave and its method.
pub type Later = (u8, Method);

/// Every order of interleaves 0, 1 and 2, with each method.
pub fn run(check: &mut Check) -> Checked<()> {
    for number in 0..3u32.pow(LATER) {
        for method in METHODS {
            let later: Vec<Later> = (0..LATER).map(|k| ((number / 3u32.pow(k) % 3) as u8, method)).collect();
            known_pictures(check, SIZES, &later, |picture| by_body(SIZES, picture))?;
            any_deltas(check, &later)?;
        }
    }
    Ok(())
}

/// One film of known pictures, its frames of any interleaves and methods, the first by a BODY or by a delta.
pub fn any_film(check: &mut Check) -> Checked<()> {
    let random = &mut check.random;
    let sizes = files::any_sizes(random);
    let many = random.from_to(1, 4);
    let later: Vec<Later> = (0..many).map(|_| (random.below(3) as u8, files::any_method(random, sizes))).collect();
    let (method, interleave) = (files::any_method(random, sizes), random.byte());
    if random.once_in(2) {
        return known_pictures(check, sizes, &later, |picture| by_body(sizes, picture));
    }
    known_pictures(check, sizes, &later, |picture| by_delta(sizes, method, interleave, picture))
}

/// A film of any pictures that are known, the first in a form of its own.
pub fn known_pictures(check: &mut Check, sizes: Sizes, later: &[Later], first: impl Fn(&[u8]) -> Vec<u8>) -> Checked<()> {
    let random = &mut check.random;
    let values = *random.pick(&[2, 256]);
    let pictures: Vec<Vec<u8>> = (0..=later.len()).map(|_| files::any_picture(random, sizes, values)).collect();
    let first = first(&pictures[0]);
    known_film(check, sizes, later, &pictures, first)
}

/// A film of these pictures, each delta made from the picture that the interleave names: every frame shows its own, on and back.
pub fn known_film(check: &mut Check, sizes: Sizes, later: &[Later], pictures: &[Vec<u8>], first: Vec<u8>) -> Checked<()> {
    let deltas = later.iter().enumerate().map(|(k, (interleave, method))| {
        let named = if *interleave == 1 { k } else { k.saturating_sub(1) };
        files::delta_between(&pictures[named], &pictures[k + 1], sizes, *method)
    });
    let file = film(first, later, deltas);
    let mut player = Player::fitting(&mut check.random, &file);
    player.open(&mut check.pair)?;
    shows(&player, pictures, 0, later)?;
    for far in 1..pictures.len() {
        let mut past = Vec::new();
        for k in 1..=far {
            if player.step_on(&mut check.pair)? != 0 {
                return Err(format!("{later:?}: the step to frame {} isn't taken", k + 1));
            }
            past.push(player.written());
            shows(&player, pictures, k, later)?;
        }
        for k in (0..far).rev() {
            let record = past.pop().expect("a record for each step");
            player.step_back(&mut check.pair, &record)?;
            shows(&player, pictures, k, later)?;
        }
    }
    Ok(())
}

/// Any deltas, played from the pictures that opening gave, and from two that differ.
fn any_deltas(check: &mut Check, later: &[Later]) -> Checked<()> {
    let random = &mut check.random;
    let first = random.bytes(SIZES.frame());
    let deltas: Vec<Vec<u8>> = later.iter().map(|(_, method)| files::random_delta(random, SIZES, *method)).collect();
    let file = film(by_body(SIZES, &first), later, deltas);
    play(check, &file)?;
    let mut player = Player::fitting(&mut check.random, &file);
    player.open(&mut check.pair)?;
    player.a.set(&check.random.bytes(SIZES.frame()));
    player.b.set(&check.random.bytes(SIZES.frame()));
    on_and_back(check, player)
}

/// The FORM of a first picture with a plain BODY.
pub fn by_body(sizes: Sizes, picture: &[u8]) -> Vec<u8> {
    files::picture_form(sizes, 0, &files::plain_body(picture, sizes))
}

/// The FORM of a first picture that is given as a delta.
pub fn by_delta(sizes: Sizes, method: Method, interleave: u8, picture: &[u8]) -> Vec<u8> {
    files::first_delta_form(sizes, method, interleave, &files::delta_on_black(picture, sizes, method))
}

/// A film of a first frame and deltas behind it.
fn film(first: Vec<u8>, later: &[Later], deltas: impl IntoIterator<Item = Vec<u8>>) -> Vec<u8> {
    let mut parts = vec![first];
    parts.extend(later.iter().zip(deltas).map(|((interleave, method), delta)| files::delta_form(*method, *interleave, 1, &delta)));
    files::form(b"ANIM", &parts)
}

/// Picture k is shown, and the one before it, or the first, is hidden.
fn shows(player: &Player, pictures: &[Vec<u8>], k: usize, later: &[Later]) -> Checked<()> {
    let (a, b) = (player.a.bytes(), player.b.bytes());
    let (shown, hidden) = if player.now().shows_a() { (a, b) } else { (b, a) };
    if player.now().frame == k as u64 + 1 && shown == pictures[k] && hidden == pictures[k.saturating_sub(1)] {
        return Ok(());
    }
    Err(format!("{later:?}: at frame {} the shown or the hidden picture isn't the known one", k + 1))
}
