//! Damaged files: cut at every byte, every byte changed, harmed in one chunk, and broken at random.
use super::{play, small_films, Check};
use crate::files::{self, Harm, Method, HARMS, METHODS};
use crate::pair::Checked;
use crate::plain::Sizes;

/// Small files cut at every byte, as they are and with FORM ANIM's length set right.
pub fn cut(check: &mut Check) -> Checked<()> {
    for film in small_films(check) {
        for length in 0..film.len() {
            let mut file = film[..length].to_vec();
            play(check, &file)?;
            if length >= 12 {
                file[4..8].copy_from_slice(&(length as u32 - 8).to_be_bytes());
                play(check, &file)?;
            }
        }
    }
    Ok(())
}

/// Every bit of small files changed, and every byte inverted.
pub fn flipped(check: &mut Check) -> Checked<()> {
    for film in small_films(check) {
        for at in 0..film.len() {
            for change in [1, 2, 4, 8, 16, 32, 64, 128, 255] {
                let mut file = film.clone();
                file[at] ^= change;
                play(check, &file)?;
            }
        }
    }
    Ok(())
}

/// BODY and DLTA, that of a first frame too, cut at every byte in files that are well formed around them.
pub fn cut_contents(check: &mut Check) -> Checked<()> {
    let sizes = Sizes { width: 32, height: 6, planes: 2 };
    let random = &mut check.random;
    let picture: Vec<u8> = (0..sizes.frame()).map(|_| random.below(2) as u8).collect();
    let bodies = [files::plain_body(&picture, sizes), files::packed_body(&picture, sizes), files::ragged_body(random, &picture, sizes)];
    let deltas = METHODS.map(|method| files::random_delta(random, sizes, method));
    for (k, body) in bodies.iter().enumerate() {
        for length in 0..=body.len() {
            let first = files::picture_form(sizes, usize::min(k, 1) as u8, &body[..length]);
            play(check, &files::form(b"ANIM", &[first]))?;
        }
    }
    for (method, delta) in METHODS.into_iter().zip(&deltas) {
        for length in 0..=delta.len() {
            play(check, &two_frames(sizes, &bodies[0], method, &delta[..length]))?;
            play(check, &one_frame(sizes, method, &delta[..length]))?;
        }
    }
    Ok(())
}

/// A file of a plain picture and one delta.
pub fn two_frames(sizes: Sizes, body: &[u8], method: Method, delta: &[u8]) -> Vec<u8> {
    files::form(b"ANIM", &[files::picture_form(sizes, 0, body), files::delta_form(method, 0, 1, delta)])
}

/// A file of a picture that is given as a delta.
pub fn one_frame(sizes: Sizes, method: Method, delta: &[u8]) -> Vec<u8> {
    files::form(b"ANIM", &[files::first_delta_form(sizes, method, 0, delta)])
}

/// One file, well formed or harmed.
pub fn any_film(check: &mut Check) -> Checked<()> {
    let random = &mut check.random;
    let sizes = files::any_sizes(random);
    let harm = *random.pick(&HARMS);
    let frames = random.from_to(1, 5);
    let film = files::film(random, sizes, frames, harm);
    play(check, &film)
}

/// Many deltas for one picture, most of them damaged, and each as a first picture too.
pub fn any_deltas(check: &mut Check) -> Checked<()> {
    let random = &mut check.random;
    let sizes = files::any_sizes(random);
    let body = random.bytes(sizes.frame());
    let method = files::any_method(random, sizes);
    let delta = files::random_delta(random, sizes, method);
    play(check, &two_frames(sizes, &body, method, &delta))?;
    play(check, &one_frame(sizes, method, &delta))?;
    for _ in 0..8 {
        let mut spoilt = delta.clone();
        for _ in 0..check.random.from_to(1, 2) {
            if spoilt.len() > method.pointers() {
                files::damage_delta(&mut check.random, &mut spoilt, method);
            }
        }
        play(check, &two_frames(sizes, &body, method, &spoilt))?;
        play(check, &one_frame(sizes, method, &spoilt))?;
    }
    Ok(())
}

/// Every kind of harm once, for the numbers it gives.
pub fn each_harm(check: &mut Check) -> Checked<()> {
    for harm in HARMS {
        for _ in 0..if harm == Harm::None { 20 } else { 60 } {
            let sizes = files::small_sizes(&mut check.random);
            let film = files::film(&mut check.random, sizes, 3, harm);
            play(check, &film)?;
        }
    }
    Ok(())
}
