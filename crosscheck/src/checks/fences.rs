//! Calls with every buffer between two pages that may not be touched; a touch stops the program.
use super::damaged::{one_frame, two_frames};
use super::Check;
use crate::bounds::{self, delta_room, record_room};
use crate::fence::{Fenced, Side};
use crate::files::{self, Harm, BYTES, HARMS, WORDS};
use crate::pair::Checked;
use crate::plain::{self, Sizes, MAP};
use crate::{cover, library};

pub fn run(check: &mut Check) -> Checked<()> {
    for turn in 0..600 {
        let side = if turn % 2 == 0 { Side::Front } else { Side::Back };
        let sizes = files::any_sizes(&mut check.random);
        let harm = *check.random.pick(&HARMS);
        let film = files::film(&mut check.random, sizes, 3, harm);
        play(check, &film, side)?;
        words(check, sizes, side)?;
        colours(check, sizes, side)?;
        write(check, sizes, side)?;
    }
    Ok(())
}

/// Lists of words at the very end of a file, in a later frame and in the first, half of them damaged.
fn words(check: &mut Check, sizes: Sizes, side: Side) -> Checked<()> {
    let random = &mut check.random;
    let method = *random.pick(&WORDS);
    let mut delta = files::random_delta(random, sizes, method);
    if random.once_in(2) {
        files::damage_delta(random, &mut delta, method);
    }
    let body = random.bytes(sizes.frame());
    play(check, &two_frames(sizes, &body, method, &delta), side)?;
    play(check, &one_frame(sizes, method, &delta), side)
}

/// A CMAP at the very end of a file, in a later frame and in the first, once in three times of a bad length.
fn colours(check: &mut Check, sizes: Sizes, side: Side) -> Checked<()> {
    let random = &mut check.random;
    let harm = if random.once_in(3) { Harm::Colours } else { Harm::None };
    let cmap = files::cmap(random, harm);
    let first = files::picture_form(sizes, 0, &random.bytes(sizes.frame()));
    let later = files::delta_form(BYTES, 0, 1, &files::random_delta(random, sizes, BYTES));
    play(check, &files::form(b"ANIM", &[files::coloured(&first, &cmap)]), side)?;
    play(check, &files::form(b"ANIM", &[first, files::coloured(&later, &cmap)]), side)
}

/// A player's buffers: the state, A, B, the map, the work buffer, the record's and the report.
type Buffers<T> = [T; 7];

/// Opens a file and plays it to its end and back, with the plain side beside it.
fn play(check: &mut Check, file: &[u8], side: Side) -> Checked<()> {
    let length = plain::frame_length(file).unwrap_or(4);
    let lengths = [48, length, length, MAP, length, record_room(length), 40];
    let mut plain: Buffers<Vec<u8>> = std::array::from_fn(|k| vec![k as u8; lengths[k]]);
    let mut fenced = plain.each_ref().map(|bytes| Fenced::new(bytes, side));
    let file = Fenced::new(file, side);
    let [state, a, b, map, ..] = fenced.each_mut().map(Fenced::bytes_mut);
    let opened = library::open(file.bytes(), state, [a, b, map]);
    check.pair.count("anim_open", opened);
    let [state, a, b, map, ..] = plain.each_mut().map(Vec::as_mut_slice);
    equal("anim_open", opened, cover::open(file.bytes(), state, [a, b, map]), &fenced, &plain)?;
    if opened == 0 {
        on_and_back(check, &file, &mut fenced, &mut plain, side)?;
    }
    Ok(())
}

/// Steps on to the end or the first refusal, and takes every step back with a record that lies between fences too.
fn on_and_back(check: &mut Check, file: &Fenced, fenced: &mut Buffers<Fenced>, plain: &mut Buffers<Vec<u8>>, side: Side) -> Checked<()> {
    let opened = plain[..4].to_vec();
    let mut past = Vec::new();
    loop {
        let before = plain[0].clone();
        let [state, a, b, map, work, record, report] = fenced.each_mut().map(Fenced::bytes_mut);
        let answer = library::step_on(file.bytes(), state, [a, b, map], work, record, report);
        check.pair.count("anim_step_on", answer);
        let [state, a, b, map, work, record, report] = plain.each_mut().map(Vec::as_mut_slice);
        equal("anim_step_on", answer, cover::step_on(file.bytes(), state, [a, b, map], work, record, report), fenced, plain)?;
        bounds::step_on(answer, file.bytes(), &before, &plain[5], &plain[6])?;
        row(check, fenced, plain)?;
        if answer != 0 {
            break;
        }
        let length = cover::number_at(&plain[6], 3) as usize;
        past.push(Fenced::new(&plain[5][..length], side));
    }
    while let Some(record) = past.pop() {
        let [state, a, b, map, ..] = fenced.each_mut().map(Fenced::bytes_mut);
        let answer = library::step_back(state, [a, b, map], record.bytes());
        check.pair.count("anim_step_back", answer);
        let [state, a, b, map, ..] = plain.each_mut().map(Vec::as_mut_slice);
        equal("anim_step_back", answer, cover::step_back(state, [a, b, map], record.bytes()), fenced, plain)?;
    }
    if plain[..4] != opened {
        return Err("steps on and back between fences lead elsewhere".into());
    }
    Ok(())
}

/// Asks both sides for the last row of the last plane.
fn row(check: &mut Check, fenced: &Buffers<Fenced>, buffers: &Buffers<Vec<u8>>) -> Checked<()> {
    let [state, a, b, ..] = fenced.each_ref().map(Fenced::bytes);
    let now = cover::state_in(state);
    let (plane, row) = (now.planes.wrapping_sub(1), now.height.wrapping_sub(1));
    let place = library::row_place(plane, row, state, a, b);
    check.pair.calls += 1;
    equal("anim_row_place", place, cover::row(plane, row, &buffers[0], &buffers[1], &buffers[2]).0, fenced, buffers)
}

/// Both sides gave the same answer and left the same bytes.
fn equal(call: &str, library: u64, plain: u64, fenced: &Buffers<Fenced>, buffers: &Buffers<Vec<u8>>) -> Checked<()> {
    if library == plain && fenced.iter().zip(buffers).all(|(fenced, plain)| fenced.bytes() == plain) {
        return Ok(());
    }
    Err(format!("{call} between fences differs: library {library}, plain {plain}, or a buffer"))
}

/// Writes a delta into a buffer that is just long enough.
fn write(check: &mut Check, sizes: Sizes, side: Side) -> Checked<()> {
    let [w, h, p] = [sizes.width as u64, sizes.height as u64, sizes.planes as u64];
    let random = &mut check.random;
    let old: Vec<u8> = (0..sizes.frame()).map(|_| random.below(3) as u8).collect();
    let new: Vec<u8> = old.iter().map(|&b| if random.once_in(3) { random.below(3) as u8 } else { b }).collect();
    let mut wanted = vec![0; delta_room(sizes)];
    let length = plain::write_delta(w, h, p, &old, &new, &mut wanted).map_err(|refusal| format!("refused {refusal:?}"))?;
    let (old, new) = (Fenced::new(&old, side), Fenced::new(&new, side));
    let (mut out, mut size) = (Fenced::new(&vec![9; length], side), Fenced::new(&[0; 8], side));
    let answer = library::write_delta(w, h, p, old.bytes(), new.bytes(), out.bytes_mut(), size.bytes_mut());
    check.pair.count("anim_write_delta", answer);
    if answer != 0 || out.bytes() != &wanted[..length] {
        return Err("anim_write_delta between fences differs".into());
    }
    Ok(())
}
