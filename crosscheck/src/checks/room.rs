//! Records that are as long as they can be, with the room for every step, with buffers that are just as long, and with one byte less.
use super::records::changed;
use super::Check;
use crate::bounds::record_room;
use crate::files::{self, Method, BYTES, SHORTS, SHORT_WORDS};
use crate::pair::{Checked, Player};
use crate::plain::{Sizes, State, FIRST_PLACE, MAP, MAX_FILE, MAX_FRAME};

/// Frame numbers at the ends of their forms, of one to three bytes.
const FRAMES: [u64; 6] = [2, 0x7f, 0x80, 0x3fff, 0x4000, MAX_FRAME];
/// Places at the ends of their forms, of one to five bytes; the last is as far in the file as the frame can stand.
const PLACES: [u64; 10] = [FIRST_PLACE, 0x7f, 0x80, 0x3fff, 0x4000, 0x1f_ffff, 0x20_0000, 0xfff_ffff, 0x1000_0000, MAX_FILE];
/// The shortest and the longest frame number with its place.
const ENDS: [(u64, u64); 2] = [(2, FIRST_PLACE), (MAX_FRAME, MAX_FILE)];

/// The bytes of the longest frame number and place.
const LONGEST_HEAD: usize = 3 + 5;
/// Pictures and maps up to this length have their longest list of runs searched for.
const SEARCHED: usize = MAP;
/// Frames up to this length have records of their longest list.
const LONGEST: usize = 130;
/// Frames up to this length are changed in every way.
const EVERY_WAY: usize = 8;
/// Frames up to this length have their only run of two bytes at every place.
const EVERY_PLACE: usize = 32;

/// No byte of the map changes, by a frame without a CMAP.
const NO_COLOURS: &[bool] = &[];

pub fn run(check: &mut Check) -> Checked<()> {
    longest_records()?;
    // Zeros that take no memory; both sides read only where a frame stands.
    let mut file = vec![0; MAX_FILE as usize];
    for bytes in (2..=EVERY_WAY).step_by(2) {
        every_way(check, &mut file, bytes)?;
    }
    // From 256 bytes on the number of runs has two bytes.
    for bytes in (2..=LONGEST).step_by(2).chain([252, 254, 256, 258]) {
        longest(check, &mut file, bytes)?;
    }
    with_maps(check, &mut file)?;
    largest(check, &mut file)
}

/// The bytes of a number in groups of seven bits.
fn number_length(n: usize) -> usize {
    1 + n.checked_ilog2().unwrap_or(0) as usize / 7
}

/// The bytes of the list of runs where these bytes change.
fn list_length(changed: &[bool]) -> usize {
    let (mut length, mut runs, mut gap) = (0, 0, 0);
    for stretch in changed.chunk_by(|x, y| x == y) {
        if stretch[0] {
            length += number_length(gap) + number_length(stretch.len()) + stretch.len();
            runs += 1;
        }
        gap = stretch.len();
    }
    number_length(runs) + length
}

/// The longest list of runs for so many bytes: half as many runs, rounded up, each of one byte, but with an even number one of two.
fn longest_list(bytes: usize) -> usize {
    let runs = bytes.div_ceil(2);
    number_length(runs) + 3 * runs + usize::from(bytes > 0 && bytes.is_multiple_of(2))
}

/// The longest list of runs for each number of bytes, by all choices of gaps and counts.
fn searched_lists() -> Vec<usize> {
    // The most bytes of a run that ends so many behind the one before it, or behind the start.
    let most = |least: usize| -> Vec<Option<usize>> {
        let run = |far: usize| (least..far).map(|gap| number_length(gap) + number_length(far - gap) + far - gap).max();
        (0..=SEARCHED).map(run).collect()
    };
    let (first, later) = (most(0), most(1));
    let mut longest = vec![1; SEARCHED + 1];
    // How long so many runs can be, of which the last ends at a place.
    let mut ending = first;
    for runs in 1..=SEARCHED.div_ceil(2) {
        for (end, length) in ending.iter().enumerate().filter_map(|(end, length)| length.map(|length| (end, length))) {
            longest[end] = longest[end].max(number_length(runs) + length);
        }
        let next = |end: usize| (1..=end).filter_map(|far| Some(ending[end - far]? + later[far]?)).max();
        ending = (0..=SEARCHED).map(next).collect();
    }
    // Bytes behind the last run add nothing.
    (1..=SEARCHED).for_each(|bytes| longest[bytes] = longest[bytes].max(longest[bytes - 1]));
    longest
}

/// The longest list of every length is what it is worked out to be. A frame's record with it is at most twice the frame and 12 bytes: 13 of 16 for 2
/// bytes, 16 of 20 for 4, and so on, ever farther away; and the map's list is 1,155 of 1,539.
fn longest_records() -> Checked<()> {
    for (bytes, list) in searched_lists().into_iter().enumerate() {
        if list != longest_list(bytes) || LONGEST_HEAD + list > 2 * bytes + 12 {
            return Err(format!("a list of runs for {bytes} bytes can have {list}"));
        }
    }
    if longest_list(MAP) == 1_155 {
        return Ok(());
    }
    Err(format!("the longest list of a map has {} bytes", longest_list(MAP)))
}

/// Sizes of pictures with so many bytes in all: rows of two bytes, with every number of planes that there can be, and one row in one plane.
fn shapes(bytes: usize) -> impl Iterator<Item = Sizes> {
    let narrow = (1..=8).filter(move |planes| (bytes / 2).is_multiple_of(*planes));
    let narrow = narrow.map(move |planes| Sizes { width: 16, height: bytes / 2 / planes, planes });
    narrow.chain((3..=128).contains(&bytes).then_some(Sizes { width: 8 * bytes, height: 1, planes: 1 }))
}

/// Every set of bytes changed, with every number of planes, and every length of the frame number and the place; one of the records is the longest.
fn every_way(check: &mut Check, file: &mut [u8], bytes: usize) -> Checked<()> {
    let mut most = 0;
    for set in 0..1 << bytes {
        let changed: Vec<bool> = (0..bytes).map(|k| set >> k & 1 == 1).collect();
        for (k, sizes) in shapes(bytes).enumerate() {
            let step = Step::new(check, sizes, BYTES, &changed, NO_COLOURS);
            most = most.max(step.at_each(check, file, k == 0)?);
        }
    }
    is_longest(bytes, 0, most)
}

/// A record of so many bytes is the longest that a frame of so many can have with a CMAP of so many.
fn is_longest(bytes: usize, cmap: usize, record: usize) -> Checked<()> {
    let lists = [bytes, cmap].map(longest_list);
    if record == LONGEST_HEAD + lists[0] + lists[1] {
        return Ok(());
    }
    Err(format!("the longest record for a frame of {bytes} bytes and a CMAP of {cmap} has {record}, with lists of {lists:?}"))
}

/// Records of the longest list: runs of one byte with one between them, and one of two, the first or the last or at every place.
fn longest(check: &mut Check, file: &mut [u8], bytes: usize) -> Checked<()> {
    let methods = [BYTES, SHORTS, SHORT_WORDS].into_iter().cycle();
    for two in (0..bytes / 2).filter(|two| bytes <= EVERY_PLACE || [0, bytes / 2 - 1].contains(two)) {
        let changed = one_of_two(bytes, two);
        for ((k, sizes), method) in shapes(bytes).enumerate().zip(methods.clone()) {
            let step = Step::new(check, sizes, method, &changed, NO_COLOURS);
            is_longest(bytes, 0, step.at_each(check, file, k == 0)?)?;
        }
    }
    Ok(())
}

/// Every second byte changed, the first and the last among them, where such a run has two bytes, if the number of bytes is even.
fn one_of_two(bytes: usize, two: usize) -> Vec<bool> {
    (0..bytes).map(|k| k % 2 == usize::from(bytes.is_multiple_of(2) && k > 2 * two)).collect()
}

/// Records of the longest list for CMAPs of every length, with frames of 2 bytes and with some longer ones, of their longest list too; and maps of which no
/// byte changes, all, every second and every third.
fn with_maps(check: &mut Check, file: &mut [u8]) -> Checked<()> {
    for cmap in (0..=MAP).step_by(3) {
        for bytes in [2, 130, 258].into_iter().take(if cmap % 96 == 0 { 3 } else { 1 }) {
            let colours = one_of_two(cmap, cmap / 4);
            for (k, sizes) in shapes(bytes).enumerate() {
                let step = Step::new(check, sizes, BYTES, &one_of_two(bytes, 0), &colours);
                is_longest(bytes, cmap, step.at_each(check, file, k == 0 && cmap % 96 == 0)?)?;
            }
        }
    }
    let ways: [&dyn Fn(usize) -> bool; 5] = [&|_| false, &|_| true, &|k| k % 2 == 1, &|k| k % 3 == 1, &|k| k == MAP - 1];
    for way in ways {
        let colours: Vec<bool> = (0..MAP).map(way).collect();
        Step::new(check, Sizes { width: 16, height: 2, planes: 1 }, BYTES, &[false; 4], &colours).at_each(check, file, true)?;
    }
    Ok(())
}

/// The largest picture with every second byte changed, every third one, all of them, all but the first and the last, none, and the longest list, each with
/// the longest list of a map.
fn largest(check: &mut Check, file: &mut [u8]) -> Checked<()> {
    let sizes = Sizes { width: 1_024, height: 1_024, planes: 8 };
    let bytes = sizes.frame();
    let ways: [&dyn Fn(usize) -> bool; 5] = [&|k| k % 2 == 0, &|k| k % 3 == 1, &|_| true, &|k| k > 0 && k < bytes - 1, &|_| false];
    let ways = ways.map(|way| (0..bytes).map(way).collect::<Vec<bool>>());
    let mut most = 0;
    let colours = one_of_two(MAP, 0);
    for changed in ways.iter().chain([&one_of_two(bytes, bytes / 4)]) {
        most = most.max(Step::new(check, sizes, BYTES, changed, &colours).at_each(check, file, false)?);
    }
    is_longest(bytes, MAP, most)
}

/// A step on from any picture and any map, of which some bytes change.
struct Step {
    player: Player,
    form: Vec<u8>,
    new: Vec<u8>,
    lists: usize,
}

impl Step {
    /// Some bytes of the picture change, and of the map those of a CMAP of so many; with none there is no CMAP.
    fn new(check: &mut Check, sizes: Sizes, method: Method, picture: &[bool], colours: &[bool]) -> Step {
        let mut player = Player::new(&mut check.random, &[], sizes.frame());
        let old = player.a.bytes().to_vec();
        let new = changed(&old, |at| picture[at]);
        player.b.set(&old);
        let [width, height, planes] = [sizes.width as u64, sizes.height as u64, sizes.planes as u64];
        player.set_state(State { width, height, planes, frame: 1, next: 0, end: 0 });
        let mut form = files::delta_form(method, 0, 1, &files::delta_between(&old, &new, sizes, method));
        if !colours.is_empty() {
            form = files::coloured(&form, &changed(&player.map.bytes()[..colours.len()], |at| colours[at]));
        }
        Step { player, form, new, lists: list_length(picture) + list_length(colours) }
    }

    /// Takes the step with every length of the frame number and the place, or with the shortest and the longest; answers the longest record's length.
    fn at_each(&self, check: &mut Check, file: &mut [u8], all: bool) -> Checked<usize> {
        let heads = FRAMES.into_iter().flat_map(|frame| PLACES.map(|place| (frame, place)));
        let heads: Vec<(u64, u64)> = if all { heads.collect() } else { ENDS.to_vec() };
        let mut most = 0;
        for (frame, place) in heads {
            most = most.max(self.at(check, file, frame, place.min(MAX_FILE - self.form.len() as u64))?);
        }
        Ok(most)
    }

    /// Takes the step to a frame number, from a place of the file; answers the record's length.
    fn at(&self, check: &mut Check, file: &mut [u8], frame: u64, place: u64) -> Checked<usize> {
        let part = place as usize..place as usize + self.form.len();
        file[part.clone()].copy_from_slice(&self.form);
        let state = State { frame: frame - 1, next: place, end: part.end as u64, ..self.player.now() };
        let length = number_length(frame as usize) + number_length(place as usize) + self.lists;
        for (room, wanted) in [(record_room(self.new.len()), 0), (length, 0), (length - 1, 51)] {
            let mut player = self.player.clone();
            player.set_state(state);
            player.record.set(&vec![0x6b; room]);
            let answer = player.step_on_in(&mut check.pair, file)?;
            let written = if answer == 0 { player.written().len() } else { length };
            if answer != wanted || written != length || player.work.bytes() != self.new {
                return Err(format!(
                    "{state:?}: a step with a record of {length} bytes and a buffer of {room} answers {answer}, with a record of {written}"
                ));
            }
        }
        if file[part.clone()] != self.form {
            return Err("a step on changes the file".into());
        }
        file[part].fill(0);
        Ok(length)
    }
}
