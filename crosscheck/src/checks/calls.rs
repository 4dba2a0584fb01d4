//! Long lists of steps on and back, with good and altered records and buffers, and rows in between.
use super::{records, Check};
use crate::files::{self, Harm};
use crate::pair::{Checked, Player};
use crate::plain::{Sizes, State, MAP};

/// One list of calls on one file.
pub fn list(check: &mut Check) -> Checked<()> {
    let sizes = files::small_sizes(&mut check.random);
    let frames = check.random.from_to(2, 9);
    let harm = if check.random.once_in(4) { Harm::Delta } else { Harm::None };
    let film = files::film(&mut check.random, sizes, frames, harm);
    let mut player = Player::fitting(&mut check.random, &film);
    if player.open(&mut check.pair)? != 0 {
        return Ok(());
    }
    let mut past: Vec<Vec<u8>> = Vec::new();
    for _ in 0..60 {
        match check.random.below(11) {
            0..=3 => step_on(check, &mut player, &mut past)?,
            4..=6 => step_back(check, &mut player, &mut past)?,
            7 => other_back(check, &mut player, &mut past)?,
            8 => rows(check, &mut player)?,
            9 => on_again(check, &mut player, &mut past)?,
            _ => other_state(check, &player)?,
        }
    }
    Ok(())
}

/// One long list of calls on one file of many frames.
pub fn long_list(check: &mut Check) -> Checked<()> {
    let sizes = Sizes { width: 40, height: 9, planes: 2 };
    let film = files::film(&mut check.random, sizes, 600, Harm::None);
    let mut player = Player::fitting(&mut check.random, &film);
    player.open(&mut check.pair)?;
    let mut past: Vec<Vec<u8>> = Vec::new();
    let mut on = 6;
    for turn in 0..6_000 {
        if turn % 1_000 == 0 {
            on = check.random.from_to(4, 9);
        }
        match check.random.below(12) {
            0 => other_back(check, &mut player, &mut past)?,
            k if k <= on => step_on(check, &mut player, &mut past)?,
            _ => step_back(check, &mut player, &mut past)?,
        }
    }
    Ok(())
}

/// Steps on, now and then with a record buffer that may be too short.
fn step_on(check: &mut Check, player: &mut Player, past: &mut Vec<Vec<u8>>) -> Checked<()> {
    let record = player.record.clone();
    let short = check.random.once_in(5);
    if short {
        let room = check.random.below(record.bytes().len());
        player.record.set(&record.bytes()[..room]);
    }
    if player.step_on(&mut check.pair)? == 0 {
        past.push(player.written());
    }
    if short {
        player.record = record;
    }
    Ok(())
}

/// Steps on, back, and on again with record buffers that are one byte too short and just long enough.
fn on_again(check: &mut Check, player: &mut Player, past: &mut Vec<Vec<u8>>) -> Checked<()> {
    if player.step_on(&mut check.pair)? != 0 {
        return Ok(());
    }
    let (record, buffer) = (player.written(), player.record.clone());
    player.step_back(&mut check.pair, &record)?;
    for (room, wanted) in [(record.len() - 1, 51), (record.len(), 0)] {
        player.record.set(&buffer.bytes()[..room]);
        if player.step_on(&mut check.pair)? != wanted {
            return Err(format!("a step with a record of {} bytes and a buffer of {room} isn't answered {wanted}", record.len()));
        }
    }
    player.record = buffer;
    past.push(record);
    Ok(())
}

/// Steps back with the latest record, or with any bytes where there is none.
fn step_back(check: &mut Check, player: &mut Player, past: &mut Vec<Vec<u8>>) -> Checked<()> {
    let record = past.pop().unwrap_or_else(|| check.random.bytes(5));
    player.step_back(&mut check.pair, &record).map(drop)
}

/// Steps back with a record that is altered, of another step, or made up.
fn other_back(check: &mut Check, player: &mut Player, past: &mut Vec<Vec<u8>>) -> Checked<()> {
    let kind = check.random.below(3);
    let record = match (kind, past.is_empty()) {
        (0, false) => {
            let mut record = past[past.len() - 1].clone();
            files::damage(&mut check.random, &mut record);
            record
        }
        (1, false) => check.random.pick(past).clone(),
        _ => records::made_up(check, player),
    };
    if player.step_back(&mut check.pair, &record)? == 0 {
        past.pop();
    }
    Ok(())
}

fn rows(check: &mut Check, player: &mut Player) -> Checked<()> {
    let state = player.now();
    let plane = check.random.below(state.planes as usize + 2) as u64;
    let row = check.random.below(state.height as usize + 2) as u64;
    player.row(&mut check.pair, plane, row).map(drop)
}

/// A step on and a step back from a state that no opening gave, now and then with a map of the caller's own.
fn other_state(check: &mut Check, player: &Player) -> Checked<()> {
    let mut player = player.clone();
    let state = player.now();
    let random = &mut check.random;
    let other = match random.below(6) {
        0 => State { frame: random.from_to(0, 3) as u64, ..state },
        1 => State { frame: 1_000_000 - random.below(2) as u64, ..state },
        2 => State { next: state.next - 1, ..state },
        3 => State { end: state.end - random.below(9) as u64, ..state },
        4 => State { width: state.height, height: state.width, ..state },
        _ => State { next: 12, frame: state.frame + 1, ..state },
    };
    player.set_state(other);
    if check.random.once_in(3) {
        player.map.set(&check.random.bytes(MAP));
    }
    let record = records::made_up(check, &player);
    player.step_back(&mut check.pair, &record)?;
    player.set_state(other);
    player.step_on(&mut check.pair).map(drop)
}
