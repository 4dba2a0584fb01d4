//! Step records: good ones, altered ones, and made-up ones.
use super::Check;
use crate::files::{self, Harm};
use crate::pair::{Checked, Player};
use crate::plain::Sizes;
use crate::random::Random;

/// Small records cut and changed at every byte.
pub fn altered(check: &mut Check) -> Checked<()> {
    for _ in 0..12 {
        let sizes = files::small_sizes(&mut check.random);
        let film = files::film(&mut check.random, sizes, 3, Harm::None);
        let mut player = Player::fitting(&mut check.random, &film);
        player.open(&mut check.pair)?;
        while player.step_on(&mut check.pair)? == 0 {
            let record = player.written();
            if record.len() < 200 {
                every_change(check, &player, &record)?;
            }
        }
    }
    Ok(())
}

/// Steps back from a place with each small change of a record.
pub fn every_change(check: &mut Check, player: &Player, record: &[u8]) -> Checked<()> {
    let mut back = |bytes: &[u8]| player.clone().step_back(&mut check.pair, bytes).map(drop);
    for at in 0..=record.len() {
        back(&record[..at])?;
        for byte in [0, 1, 128] {
            back(&[&record[..at], &[byte], &record[at..]].concat())?;
        }
    }
    for at in 0..record.len() {
        for change in [1, 2, 127, 128, 255] {
            let mut other = record.to_vec();
            other[at] ^= change;
            back(&other)?;
        }
        back(&[&record[..at], &record[at + 1..]].concat())?;
    }
    Ok(())
}

/// Numbers at the ends of their forms, in each place of a record.
pub fn numbers(check: &mut Check) -> Checked<()> {
    let forms: [&[u8]; 18] = [
        &[],
        &[0],
        &[1],
        &[2],
        &[0x80, 0],
        &[0x82, 0],
        &[0x7f],
        &[0x80, 1],
        &[0xff, 0x7f],
        &[0x80, 0x80, 1],
        &[0x80, 0x80, 0],
        &[0xff, 0xff, 0xff, 0xff, 0x0f],
        &[0xff, 0xff, 0xff, 0xff, 0x10],
        &[0x80, 0x80, 0x80, 0x80, 0x10],
        &[0x80, 0x80, 0x80, 0x80, 1],
        &[0x80, 0x80, 0x80, 0x80, 0],
        &[0x80, 0x80, 0x80, 0x80, 0x80, 0],
        &[0xff, 0xff, 0xff, 0xff, 0xff, 0x01],
    ];
    let sizes = Sizes { width: 16, height: 2, planes: 1 };
    let film = files::film(&mut check.random, sizes, 3, Harm::None);
    let mut player = Player::fitting(&mut check.random, &film);
    player.open(&mut check.pair)?;
    player.step_on(&mut check.pair)?;
    let mut place = Vec::new();
    number(&mut place, player.now().next - 1);
    let [other, map] = [&player.b, &player.map].map(|twin| twin.bytes().iter().map(|byte| byte ^ 1).collect::<Vec<u8>>());
    let [two, gap, one, next]: [&[u8]; 4] = [&[2], &[0], &[1], &[1, 1]];
    let parts = [two, &place, two, gap, one, &other[..1], next, &other[2..3], two, gap, one, &map[..1], next, &map[2..3]];
    for which in 0..parts.len() {
        for form in forms {
            let mut parts = parts;
            parts[which] = form;
            player.clone().step_back(&mut check.pair, &parts.concat())?;
        }
    }
    Ok(())
}

/// A record with random runs that fit the shown picture and the map, each wrong with some chance.
pub fn made_up(check: &mut Check, player: &Player) -> Vec<u8> {
    let random = &mut check.random;
    let state = player.now();
    let shown = if state.shows_a() { player.a.bytes() } else { player.b.bytes() };
    let mut record = Vec::new();
    number(&mut record, if random.once_in(10) { state.frame + 1 } else { state.frame });
    let place = [state.next.wrapping_sub(1), state.next, 12, 11, random.below(100) as u64][random.below(5)];
    number(&mut record, place.min(u64::from(u32::MAX)));
    made_up_list(random, &mut record, shown);
    if !random.once_in(30) {
        made_up_list(random, &mut record, player.map.bytes());
    }
    record
}

/// Puts a list with random runs that fit these bytes, each wrong with some chance.
fn made_up_list(random: &mut Random, record: &mut Vec<u8>, now: &[u8]) {
    let mut runs = Vec::new();
    let (mut at, mut count) = (0, 0);
    while at < now.len() && !random.once_in(5) {
        let gap = if count == 0 || random.once_in(40) { 0 } else { 1 } + random.below(4);
        let length = if random.once_in(60) { 0 } else { random.from_to(1, 9) };
        if at + gap + length > now.len() && !random.once_in(20) {
            break;
        }
        number(&mut runs, gap as u64);
        number(&mut runs, length as u64);
        let flip = if random.once_in(30) { 0 } else { 1 + random.below(255) as u8 };
        runs.extend((at + gap..at + gap + length).map(|k| now.get(k).unwrap_or(&0) ^ flip));
        at += gap + length;
        count += 1;
    }
    number(record, count + u64::from(random.once_in(30)));
    record.extend(runs);
}

/// The list of the runs in which two pictures or maps differ, with the bytes of the first.
pub fn list_of(old: &[u8], new: &[u8]) -> Vec<u8> {
    let changed: Vec<bool> = old.iter().zip(new).map(|(old, new)| old != new).collect();
    let (mut runs, mut count, mut at, mut gap) = (Vec::new(), 0, 0, 0);
    for stretch in changed.chunk_by(|x, y| x == y) {
        if stretch[0] {
            number(&mut runs, gap);
            number(&mut runs, stretch.len() as u64);
            runs.extend_from_slice(&old[at..at + stretch.len()]);
            count += 1;
        }
        gap = stretch.len() as u64;
        at += stretch.len();
    }
    let mut list = Vec::new();
    number(&mut list, count);
    list.extend(runs);
    list
}

/// Puts a number behind what is there.
pub fn number(out: &mut Vec<u8>, mut n: u64) {
    while n >= 128 {
        out.push(n as u8 | 128);
        n >>= 7;
    }
    out.push(n as u8);
}

/// These bytes, of which some are other ones.
pub fn changed(bytes: &[u8], which: impl Fn(usize) -> bool) -> Vec<u8> {
    bytes.iter().enumerate().map(|(at, byte)| if which(at) { !byte } else { *byte }).collect()
}
