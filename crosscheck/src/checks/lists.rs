//! Records of two lists, the picture's and the map's: good ones, and ones of which either list is wrong.
use super::records::{changed, every_change, list_of, number};
use super::Check;
use crate::pair::{Checked, Player};
use crate::plain::{State, MAP};

/// Which bytes of a picture or of a map change.
type Way<'a> = &'a dyn Fn(usize) -> bool;

/// A step back from a picture and a map to those before.
struct Back {
    player: Player,
    before: [Vec<u8>; 2],
}

impl Back {
    /// From any picture of eight bytes and any map.
    fn new(check: &mut Check, picture: Way, map: Way) -> Back {
        let mut player = Player::new(&mut check.random, &[], 8);
        player.set_state(State { width: 16, height: 4, planes: 1, frame: 2, next: 41, end: 80 });
        let before = [changed(player.b.bytes(), picture), changed(player.map.bytes(), map)];
        Back { player, before }
    }

    /// The record's two lists.
    fn lists(&self) -> [Vec<u8>; 2] {
        let [picture, map] = &self.before;
        [list_of(picture, self.player.b.bytes()), list_of(map, self.player.map.bytes())]
    }

    /// Steps back with a record of these lists, which is good.
    fn takes(&self, check: &mut Check, lists: &[&[u8]]) -> Checked<()> {
        let [picture, map] = self.before.clone();
        self.step(check, lists, 0, [self.player.a.bytes().to_vec(), picture, map])
    }

    /// Steps back with a record of these lists, which is bad: nothing changes.
    fn refuses(&self, check: &mut Check, lists: &[&[u8]]) -> Checked<()> {
        self.step(check, lists, 61, self.player.screen())
    }

    fn step(&self, check: &mut Check, lists: &[&[u8]], wanted: u64, screen: [Vec<u8>; 3]) -> Checked<()> {
        let mut player = self.player.clone();
        let record = record_of(lists);
        let answer = player.step_back(&mut check.pair, &record)?;
        if answer == wanted && player.screen() == screen {
            return Ok(());
        }
        Err(format!("a step back with {record:02x?} answers {answer}, wanted {wanted}; A, B or the map may be other than they should"))
    }
}

/// The record of the step to frame 2 with these lists.
fn record_of(lists: &[&[u8]]) -> Vec<u8> {
    [&[2, 40], &lists.concat()[..]].concat()
}

/// Lists of no run, of one and of several: altered at every byte, without the map's list, without both, with a third, with the map's twice, and in the other
/// order. Then lists of a map over all its bytes, and either list wrong beside a good one.
pub fn run(check: &mut Check) -> Checked<()> {
    let ways: [Way; 5] = [&|_| false, &|at| at == 0, &|at| at % 3 == 1 && at < 9, &|at| (2..7).contains(&at), &|at| at < 8];
    for (picture, map) in ways.into_iter().flat_map(|picture| ways.map(|map| (picture, map))) {
        let back = Back::new(check, picture, map);
        let [first, second] = &back.lists();
        back.takes(check, &[first, second])?;
        every_change(check, &back.player, &record_of(&[first, second]))?;
        for bad in [&[][..], &[&first[..]], &[first, second, &[0]], &[first, second, second]] {
            back.refuses(check, bad)?;
        }
        back.player.clone().step_back(&mut check.pair, &record_of(&[second, first]))?;
    }
    either_wrong(check)
}

fn either_wrong(check: &mut Check) -> Checked<()> {
    const LAST: usize = MAP - 1;
    let ways: [Way; 6] = [&|_| true, &|at| at == LAST, &|at| at >= LAST - 2, &|at| at % 2 == 1, &|at| at == 0 || at == LAST, &|at| at % 129 > 0];
    for way in ways {
        let back = Back::new(check, &|at| at == 1, way);
        let [first, second] = &back.lists();
        back.takes(check, &[first, second])?;
        for wrong in wrong_lists(back.player.map.bytes()) {
            back.refuses(check, &[first, &wrong])?;
        }
        for wrong in wrong_lists(back.player.b.bytes()) {
            back.refuses(check, &[&wrong, second])?;
        }
    }
    Ok(())
}

/// Lists for these bytes with one thing wrong: an old byte that is equal, a run of none, runs that touch, and a run past the last byte.
fn wrong_lists(now: &[u8]) -> Vec<Vec<u8>> {
    let length = now.len();
    let equal = [0, length / 2, length - 1].map(|at| {
        let mut list = list_by(&[(0, length)], now);
        let place = list.len() - length + at;
        list[place] = now[at];
        list
    });
    let none: [&[(usize, usize)]; 4] = [&[(0, 0)], &[(1, 0)], &[(length, 0)], &[(0, 1), (1, 0)]];
    let touching: [&[(usize, usize)]; 2] = [&[(0, 1), (0, 1)], &[(0, 1), (1, 1), (0, 2)]];
    let past: [&[(usize, usize)]; 7] = [
        &[(0, length + 1)],
        &[(1, length)],
        &[(length - 1, 2)],
        &[(length, 1)],
        &[(length + 1, 0)],
        &[(0, 1), (1, length - 1)],
        &[(0, 1), (length - 1, 1)],
    ];
    let wrong = none.iter().chain(&touching).chain(&past);
    wrong.map(|runs| list_by(runs, now)).chain(equal).collect()
}

/// The list of these runs, each a gap and a count, whose old bytes are other than those now.
fn list_by(runs: &[(usize, usize)], now: &[u8]) -> Vec<u8> {
    let (mut list, mut at) = (vec![], 0);
    number(&mut list, runs.len() as u64);
    for (gap, count) in runs {
        number(&mut list, *gap as u64);
        number(&mut list, *count as u64);
        list.extend((at + gap..at + gap + count).map(|place| !now.get(place).unwrap_or(&0)));
        at += gap + count;
    }
    list
}
