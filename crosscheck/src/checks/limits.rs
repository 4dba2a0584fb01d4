//! States and sizes at each limit and outside by one, and buffers of wrong lengths.
use super::orders::{delta_frames, file_around, BAD_CMAP};
use super::records::number;
use super::Check;
use crate::files::{self, Harm, BYTES, LONG_WORDS};
use crate::pair::{Checked, Player, Twin};
use crate::plain::{Sizes, State, MAP, MAX_FILE, MAX_FRAME};
use crate::{cover, library};

/// Values around the limits of each field of a state.
fn around(limits: &[u64]) -> Vec<u64> {
    let mut values: Vec<u64> = limits.iter().flat_map(|&n| [n.wrapping_sub(1), n, n.wrapping_add(1)]).collect();
    values.extend([0, 1 << 31, 1 << 32, 1 << 63, u64::MAX]);
    values.sort_unstable();
    values.dedup();
    values
}

/// Makes each call from a state, with buffers of the length its sizes ask for, if they can be had.
fn every_call(check: &mut Check, file: &[u8], state: State) -> Checked<()> {
    let row = state.width.div_ceil(16).wrapping_mul(2);
    let length = row.wrapping_mul(state.height).wrapping_mul(state.planes);
    let length = if length > 2_000_000 { 40 } else { length as usize };
    let mut player = Player::new(&mut check.random, file, length);
    player.set_state(state);
    for (plane, line) in
        [(0, 0), (state.planes.wrapping_sub(1), state.height.wrapping_sub(1)), (state.planes, 0), (0, state.height), (u64::MAX, 1 << 32)]
    {
        player.row(&mut check.pair, plane, line)?;
    }
    let mut record = Vec::new();
    for n in [state.frame, state.next.wrapping_sub(1), 0, 0] {
        number(&mut record, n);
    }
    player.step_back(&mut check.pair, &record)?;
    player.set_state(state);
    player.step_on(&mut check.pair)?;
    let sizes = [state.width, state.height, state.planes];
    let mut out = Twin::new("out", &[3; 64]);
    let mut size = Twin::new("length", &[9; 8]);
    check.pair.write_delta(sizes, &mut player.a.clone(), &mut player.a, &mut out, &mut size)?;
    Ok(())
}

/// Each field at and around its limits, the others within.
pub fn states(check: &mut Check) -> Checked<()> {
    let sizes = Sizes { width: 16, height: 2, planes: 1 };
    let film = files::film(&mut check.random, sizes, 3, Harm::None);
    let mut player = Player::fitting(&mut check.random, &film);
    player.open(&mut check.pair)?;
    let good = player.now();
    let length = film.len() as u64;
    for width in around(&[1, 1_024]) {
        every_call(check, &film, State { width, ..good })?;
    }
    for height in around(&[1, 1_024]) {
        every_call(check, &film, State { height, ..good })?;
    }
    for planes in around(&[1, 8]) {
        every_call(check, &film, State { planes, ..good })?;
    }
    for frame in around(&[1, MAX_FRAME]) {
        every_call(check, &film, State { frame, ..good })?;
        every_call(check, &film, State { frame, next: good.end, ..good })?;
    }
    for next in around(&[12, good.next, good.end]) {
        every_call(check, &film, State { next, ..good })?;
    }
    for end in around(&[12, good.next, good.end, length, MAX_FILE]) {
        every_call(check, &film, State { end, ..good })?;
        every_call(check, &film, State { end, next: end, ..good })?;
    }
    Ok(())
}

/// Every place of a file as the next place, and as the end place.
pub fn places(check: &mut Check) -> Checked<()> {
    for film in super::small_films(check) {
        let mut player = Player::fitting(&mut check.random, &film);
        player.open(&mut check.pair)?;
        let good = player.now();
        for place in 0..film.len() as u64 + 2 {
            for state in [State { next: place, ..good }, State { end: place, ..good }] {
                player.set_state(state);
                player.step_on(&mut check.pair)?;
            }
        }
    }
    Ok(())
}

/// Wrong lengths for a buffer: empty, one byte short, one long, twice as long, and one number of eight bytes short where it has several.
fn wrong(length: usize) -> impl Iterator<Item = usize> {
    [0, length - 1, length + 1, 2 * length].into_iter().chain((length > 8).then(|| length - 8))
}

/// So many bytes, those given again and again.
fn stretched(bytes: &[u8], length: usize) -> Vec<u8> {
    bytes.iter().copied().cycle().take(length).collect()
}

/// Each buffer of each call of each wrong length, in a film that begins with a BODY and in films that begin with a delta, all of them with CMAPs.
pub fn lengths(check: &mut Check) -> Checked<()> {
    let sizes = Sizes { width: 16, height: 2, planes: 1 };
    let random = &mut check.random;
    let films = [super::every_method(random, sizes), super::only_deltas(random, sizes, BYTES), super::only_deltas(random, sizes, LONG_WORDS)];
    for film in films {
        lengths_in(check, &film, sizes.frame())?;
    }
    writer_lengths(check)
}

fn lengths_in(check: &mut Check, film: &[u8], n: usize) -> Checked<()> {
    let mut good = Player::new(&mut check.random, film, n);
    good.open(&mut check.pair)?;
    let before = good.clone();
    good.step_on(&mut check.pair)?;
    let record = good.written();
    for length in wrong(record.len()) {
        good.clone().step_back(&mut check.pair, &stretched(&record, length))?;
    }
    for which in 0..8 {
        let mut player = before.clone();
        player.record.set(&record);
        let bytes = buffer(&mut player, which).bytes().to_vec();
        for length in wrong(bytes.len()) {
            let mut player = player.clone();
            buffer(&mut player, which).set(&stretched(&bytes, length));
            rows(check, &mut player)?;
            player.step_on(&mut check.pair)?;
            player.step_back(&mut check.pair, &record)?;
            player.open(&mut check.pair)?;
            player.step_on(&mut check.pair)?;
        }
    }
    for length in wrong(8) {
        before.frame_size(&mut check.pair, length)?;
    }
    for (state, report) in [(0, 40), (47, 40), (49, 40), (96, 40), (48, 0), (48, 32), (48, 39), (48, 41), (48, 80), (0, 0)] {
        let mut player = Player::new(&mut check.random, film, n + 1);
        player.state.set(&vec![1; state]);
        player.report.set(&vec![1; report]);
        player.open(&mut check.pair)?;
        player.step_on(&mut check.pair)?;
        player.step_back(&mut check.pair, &[])?;
        rows(check, &mut player)?;
    }
    Ok(())
}

/// Asks for a row that is there, and for some of a plane or with a number that no picture has.
fn rows(check: &mut Check, player: &mut Player) -> Checked<()> {
    for (plane, row) in [(0, 1), (8, 1), (0, 1_024), (1 << 32, 1 << 32), (u64::MAX, u64::MAX)] {
        player.row(&mut check.pair, plane, row)?;
    }
    Ok(())
}

/// One of a player's buffers.
fn buffer(player: &mut Player, which: usize) -> &mut Twin {
    match which {
        0 => &mut player.a,
        1 => &mut player.b,
        2 => &mut player.work,
        3 => &mut player.record,
        4 => &mut player.state,
        5 => &mut player.report,
        6 => &mut player.map,
        _ => &mut player.file,
    }
}

/// The writer's buffers, of which the output is right if it is just as long as the delta.
fn writer_lengths(check: &mut Check) -> Checked<()> {
    let sizes = [16, 2, 1];
    let mut good = [Twin::new("old", &[0; 4]), Twin::new("new", &[1, 2, 0, 0]), Twin::new("out", &[7; 80]), Twin::new("length", &[7; 8])];
    let [old, new, out, length] = &mut good;
    check.pair.write_delta(sizes, old, new, out, length)?;
    out.set(&vec![7; usize::from(length.bytes()[0])]);
    for which in 0..good.len() {
        let bytes = good[which].bytes().to_vec();
        for wanted in wrong(bytes.len()) {
            let mut spoilt = good.clone();
            spoilt[which].set(&stretched(&bytes, wanted));
            let [old, new, out, length] = &mut spoilt;
            check.pair.write_delta(sizes, old, new, out, length)?;
        }
    }
    Ok(())
}

/// A file as long as may be, and one byte longer, opened and stepped; its bytes are zeros that take no memory.
pub fn long_file(check: &mut Check) -> Checked<()> {
    let film = files::film(&mut check.random, Sizes { width: 16, height: 2, planes: 1 }, 3, Harm::None);
    let mut player = Player::new(&mut check.random, &film, 4);
    player.open(&mut check.pair)?;
    let opened = player.state.bytes().to_vec();
    for length in [MAX_FILE as usize, MAX_FILE as usize + 1] {
        let mut file = vec![0; length];
        file[..film.len()].copy_from_slice(&film);
        long_open(check, &file, [4, MAP])?;
        long_step(check, &file, &opened)?;
    }
    long_and_wrong(check)
}

/// Files one byte too long that begin with each first frame that may be given as a delta, with a good one behind a bad CMAP, and with each set of the
/// things wrong around a good one, with A and B, and the map, of the right length and too long.
fn long_and_wrong(check: &mut Check) -> Checked<()> {
    let mut file = vec![0; MAX_FILE as usize + 1];
    let mut frames = delta_frames(&[]);
    frames.push(delta_frames(BAD_CMAP).swap_remove(0));
    let around = (0..1 << 4).map(|set| file_around(&frames[0], set));
    for front in frames.iter().map(|frame| file_around(frame, 0)).chain(around) {
        file[..front.len()].copy_from_slice(&front);
        for lengths in [[4, MAP], [5, MAP], [4, MAP + 1]] {
            long_open(check, &file, lengths)?;
        }
    }
    Ok(())
}

/// Asks for the length of the frames, and opens the file with A, B and the map of these lengths.
fn long_open(check: &mut Check, file: &[u8], [frame, map]: [usize; 2]) -> Checked<()> {
    let (mut screen, mut state) = ([vec![1; frame], vec![2; frame], vec![3; map]], [5; 48]);
    let (mut plain_screen, mut plain_state) = (screen.clone(), state);
    let [mut size, mut plain_size] = [[6; 8]; 2];
    let x = library::frame_size(file, &mut size);
    let y = cover::frame_size(file, &mut plain_size);
    check.pair.count("anim_frame_size", x);
    if (x, size) != (y, plain_size) {
        return Err(format!("anim_frame_size of {} bytes differs: library {x}, plain {y}", file.len()));
    }
    let x = library::open(file, &mut state, screen.each_mut().map(Vec::as_mut_slice));
    let y = cover::open(file, &mut plain_state, plain_screen.each_mut().map(Vec::as_mut_slice));
    check.pair.count("anim_open", x);
    if (x, state, screen) == (y, plain_state, plain_screen) {
        return Ok(());
    }
    Err(format!("anim_open of {} bytes differs: library {x}, plain {y}", file.len()))
}

/// Steps on in the file from the state of an opening.
fn long_step(check: &mut Check, file: &[u8], opened: &[u8]) -> Checked<()> {
    let mut player = Player::new(&mut check.random, &[], 4);
    player.state.set(opened);
    player.step_on_in(&mut check.pair, file).map(drop)
}
