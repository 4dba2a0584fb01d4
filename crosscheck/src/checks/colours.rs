//! The colours of frames: CMAPs of every length and in every place of a frame, each byte of the map changed, and films whose maps are known.
use super::records::{changed, list_of, number};
use super::{ordered, Check};
use crate::files::{self, chunk, Harm, BYTES};
use crate::pair::{Checked, Player};
use crate::plain::{Sizes, State, MAP};
use crate::random::Random;

/// What a frame's colours must come to: they go over the map, or the frame is refused.
type Wanted<'a> = Result<&'a [u8], u64>;

const SIZES: Sizes = Sizes { width: 16, height: 2, planes: 1 };

/// How a frame is met: opened with a BODY, opened as a delta, or stepped on to.
#[derive(Clone, Copy, Debug, PartialEq, Eq)]
enum Met {
    Body,
    Delta,
    Later,
}

pub fn run(check: &mut Check) -> Checked<()> {
    for met in [Met::Body, Met::Delta, Met::Later] {
        lengths(check, met)?;
        places(check, met)?;
        twice(check, met)?;
        beside_refused(check, met)?;
    }
    each_change(check)?;
    each_room(check)?;
    own_maps(check)?;
    opened_again(check)?;
    for planes in 1..=8 {
        known_film(check, Sizes { width: 20, height: 3, planes }, 7)?;
    }
    known_film(check, SIZES, 150)
}

/// One film of known maps.
pub fn any_film(check: &mut Check) -> Checked<()> {
    let sizes = files::small_sizes(&mut check.random);
    let frames = check.random.from_to(2, 9);
    known_film(check, sizes, frames)
}

/// A delta of one changed byte.
fn delta() -> Vec<u8> {
    files::delta_on_black(&[0, 7, 0, 0], SIZES, BYTES)
}

impl Met {
    /// The chunks of such a frame without a CMAP.
    fn chunks(self) -> Vec<Vec<u8>> {
        let bmhd = chunk(b"BMHD", &files::bmhd(SIZES, 0));
        let [anhd, dlta] = [chunk(b"ANHD", &files::anhd(BYTES, 0, 1)), chunk(b"DLTA", &delta())];
        match self {
            Met::Body => vec![bmhd, chunk(b"BODY", &[0, 7, 0, 0])],
            Met::Delta => vec![bmhd, anhd, dlta],
            Met::Later => vec![anhd, dlta],
        }
    }

    /// Meets a frame of these chunks with any map: its colours go over it, or over zeros if it is opened; if it is refused the map stays.
    fn meet(self, check: &mut Check, chunks: &[Vec<u8>], wanted: Wanted) -> Checked<()> {
        let frame = files::form(b"ILBM", chunks);
        if self == Met::Later {
            let mut player = at_frame_1(check, &frame);
            return step(check, &mut player, wanted);
        }
        let mut player = Player::new(&mut check.random, &files::form(b"ANIM", &[frame]), SIZES.frame());
        let before = player.map.bytes().to_vec();
        let answer = player.open(&mut check.pair)?;
        let after = wanted.map_or(before, |colours| laid_over(&[0; MAP], colours));
        if (answer, player.map.bytes()) == (wanted.err().unwrap_or(0), &after) {
            return Ok(());
        }
        Err(format!("{self:?}: opening answers {answer}, or the map isn't the known one"))
    }
}

/// A player of any map at the first of two frames; the second is this FORM.
fn at_frame_1(check: &mut Check, frame: &[u8]) -> Player {
    let first = files::picture_form(SIZES, 0, &[0; 4]);
    let file = files::form(b"ANIM", &[first.clone(), frame.to_vec()]);
    let mut player = Player::new(&mut check.random, &file, SIZES.frame());
    let [next, end] = [12 + first.len(), file.len()].map(|place| place as u64);
    player.set_state(State { width: 16, height: 2, planes: 1, frame: 1, next, end });
    player
}

/// These colours in the places of a map's first ones.
fn laid_over(map: &[u8], colours: &[u8]) -> Vec<u8> {
    [colours, &map[colours.len()..]].concat()
}

/// Steps on, back and on again: the step back leads to where it was before. Or the step is refused.
fn step(check: &mut Check, player: &mut Player, wanted: Wanted) -> Checked<()> {
    let before = (player.screen(), player.now());
    let Some(record) = step_on(check, player, wanted)? else {
        return Ok(());
    };
    player.step_back(&mut check.pair, &record)?;
    if (player.screen(), player.now()) != before {
        return Err(format!("{:?}: a step on and back leads elsewhere", before.1));
    }
    step_on(check, player, wanted).map(drop)
}

/// Steps on: the colours go over the map, and the record, which is handed back, is the known one. Or the step is refused and the map stays.
fn step_on(check: &mut Check, player: &mut Player, wanted: Wanted) -> Checked<Option<Vec<u8>>> {
    let (before, state) = (player.screen(), player.now());
    let answer = player.step_on(&mut check.pair)?;
    if answer != wanted.err().unwrap_or(0) || player.map.bytes() != laid_over(&before[2], wanted.unwrap_or_default()) {
        return Err(format!("{state:?}: the step to the next frame answers {answer}, or the map isn't the known one"));
    }
    if answer != 0 {
        return Ok(None);
    }
    let record = player.written();
    if record == known_record(&state, &before, &player.screen()) {
        return Ok(Some(record));
    }
    Err(format!("{state:?}: the record of the step to the next frame isn't the known one: {record:02x?}"))
}

/// The record of a step from a state, by A, B and the map before and after.
fn known_record(state: &State, before: &[Vec<u8>; 3], after: &[Vec<u8>; 3]) -> Vec<u8> {
    let mut record = Vec::new();
    number(&mut record, state.frame + 1);
    number(&mut record, state.next);
    let hidden = usize::from(state.shows_a());
    for list in [hidden, 2] {
        record.extend(list_of(&before[list], &after[list]));
    }
    record
}

/// What comes of a CMAP, by its length.
fn wanted(cmap: &[u8]) -> Wanted<'_> {
    if cmap.len().is_multiple_of(3) && cmap.len() <= MAP {
        Ok(cmap)
    } else {
        Err(37)
    }
}

/// A CMAP of every length up to more than twice the map's, and of some whose low two bytes are those of a good one.
fn lengths(check: &mut Check, met: Met) -> Checked<()> {
    for length in (0..=2 * MAP + 6).chain([65_535, 65_536, 65_537, 65_538, 65_539, 65_542, 131_075]) {
        let cmap = check.random.bytes(length);
        let chunks = [&[chunk(b"CMAP", &cmap)][..], &met.chunks()].concat();
        met.meet(check, &chunks, wanted(&cmap))?;
    }
    Ok(())
}

/// A CMAP in every order of the frame's chunks.
fn places(check: &mut Check, met: Met) -> Checked<()> {
    for length in [0, 3, 9, 768, 1, 5, 771] {
        let cmap = check.random.bytes(length);
        let chunks = [&met.chunks()[..], &[chunk(b"CMAP", &cmap)]].concat();
        for order in 0..(1..=chunks.len()).product() {
            met.meet(check, &ordered(chunks.clone(), order), wanted(&cmap))?;
        }
    }
    Ok(())
}

/// Two CMAPs, of which the first counts, good or bad: side by side, and with the other chunks between them.
fn twice(check: &mut Check, met: Met) -> Checked<()> {
    const LENGTHS: [usize; 9] = [0, 3, 6, 9, 768, 1, 4, 769, 771];
    for (first, second) in LENGTHS.into_iter().flat_map(|first| LENGTHS.map(|second| (first, second))) {
        let [first, second] = [first, second].map(|length| check.random.bytes(length));
        let [front, behind] = [&first, &second].map(|cmap| vec![chunk(b"CMAP", cmap)]);
        for order in [[&front[..], &behind, &met.chunks()], [&front, &met.chunks(), &behind], [&met.chunks(), &front, &behind]] {
            met.meet(check, &order.concat(), wanted(&first))?;
        }
    }
    Ok(())
}

/// A good CMAP and a bad one in a frame whose last chunk, BODY or DLTA, is cut at every byte: the bad one is told before.
fn beside_refused(check: &mut Check, met: Met) -> Checked<()> {
    let chunks = met.chunks();
    let (last, others) = chunks.split_last().expect("some chunks");
    let length = u32::from_be_bytes([last[4], last[5], last[6], last[7]]) as usize;
    let id = [last[0], last[1], last[2], last[3]];
    for cut in 0..length {
        let refusal = match met {
            Met::Body => 25,
            _ if cut < 64 => 41,
            _ => 42,
        };
        for (cmap, refusal) in [(&[1, 2, 3][..], refusal), (&[1, 2], 37)] {
            let chunks = [&[chunk(b"CMAP", cmap), chunk(&id, &last[8..8 + cut])][..], others].concat();
            met.meet(check, &chunks, Err(refusal))?;
        }
    }
    Ok(())
}

/// A later frame of one changed byte with this CMAP.
fn later(cmap: &[u8]) -> Vec<u8> {
    files::coloured(&files::delta_form(BYTES, 0, 1, &delta()), cmap)
}

/// Steps on from any map to a frame with a CMAP of so many bytes, of which some change.
fn step_changing(check: &mut Check, length: usize, which: impl Fn(usize) -> bool) -> Checked<()> {
    let map = check.random.bytes(MAP);
    let cmap = changed(&map[..length], which);
    let mut player = at_frame_1(check, &later(&cmap));
    player.map.set(&map);
    step(check, &mut player, Ok(&cmap))
}

/// Each byte of the map changed alone, by the shortest CMAP and by the longest, and all but that one; each set of bytes of three colours; and of CMAPs of
/// every length no byte, all, every second, every third, two of three, and stretches of 127.
fn each_change(check: &mut Check) -> Checked<()> {
    for byte in 0..MAP {
        step_changing(check, byte / 3 * 3 + 3, |at| at == byte)?;
        step_changing(check, MAP, |at| at == byte)?;
        step_changing(check, MAP, |at| at != byte)?;
    }
    for set in 0..1 << 9 {
        step_changing(check, 9, |at| set >> at & 1 == 1)?;
    }
    let ways: [&dyn Fn(usize) -> bool; 7] =
        [&|_| false, &|_| true, &|at| at % 2 == 0, &|at| at % 2 == 1, &|at| at % 3 == 0, &|at| at % 3 > 0, &|at| at % 128 < 127];
    for length in (0..=MAP).step_by(3) {
        ways.iter().try_for_each(|way| step_changing(check, length, way))?;
    }
    Ok(())
}

/// A step that changes picture and map, with a record buffer of every length up to the record's: only the last one is enough.
fn each_room(check: &mut Check) -> Checked<()> {
    let before = at_frame_1(check, &later(&[7; 27]));
    let mut player = before.clone();
    player.step_on(&mut check.pair)?;
    let length = player.written().len();
    for room in 0..=length {
        let mut player = before.clone();
        player.record.set(&vec![9; room]);
        let answer = player.step_on(&mut check.pair)?;
        let stays = player.screen() == before.screen();
        if (answer, stays) != if room < length { (51, true) } else { (0, false) } {
            return Err(format!("a step with a record of {length} bytes and a buffer of {room} answers {answer}"));
        }
    }
    Ok(())
}

/// A step whose CMAP changes every third byte, taken back with other maps than it left: with the one before it, whose bytes are equal; with one of other
/// bytes everywhere, of which only those in the record are replaced; and with any.
fn own_maps(check: &mut Check) -> Checked<()> {
    for length in [3, 27, MAP] {
        let changes = |at: usize| at < length && at % 3 == 1;
        let before = check.random.bytes(MAP);
        let mut player = at_frame_1(check, &later(&changed(&before, changes)[..length]));
        player.map.set(&before);
        player.step_on(&mut check.pair)?;
        let other = changed(&before, |_| true);
        let restored = changed(&before, |at| !changes(at));
        let any = check.random.bytes(MAP);
        for (map, wanted) in [(&before, Some((61, &before))), (&other, Some((0, &restored))), (&any, None)] {
            let mut player = player.clone();
            player.map.set(map);
            let answer = player.step_back(&mut check.pair, &player.written())?;
            if wanted.is_some_and(|(refusal, map)| (refusal, &map[..]) != (answer, player.map.bytes())) {
                return Err(format!("a step back with another map answers {answer}, or the map isn't the known one"));
            }
        }
    }
    Ok(())
}

/// A file opened after a step: the map is cleared and has the file's first colours. Or it is refused, and the map stays.
fn opened_again(check: &mut Check) -> Checked<()> {
    for (body, cmap) in [(4, 0), (4, 3), (4, 6), (3, 3), (4, 7)] {
        let mut player = at_frame_1(check, &later(&[9; 9]));
        player.step_on(&mut check.pair)?;
        let before = player.screen();
        let cmap = vec![5; cmap];
        player.file.set(&files::form(b"ANIM", &[files::coloured(&files::picture_form(SIZES, 0, &vec![1; body]), &cmap)]));
        let answer = player.open(&mut check.pair)?;
        let wanted = if answer == 0 { [vec![1; 4], vec![1; 4], laid_over(&[0; MAP], &cmap)] } else { before };
        if player.screen() != wanted {
            return Err(format!("a file opened again answers {answer}, or the map isn't the known one"));
        }
    }
    Ok(())
}

/// A film of so many frames with any CMAPs, or none: at each frame the map is zeros with the CMAPs up to it laid over.
fn known_film(check: &mut Check, sizes: Sizes, frames: usize) -> Checked<()> {
    let (mut maps, mut parts) = (vec![vec![0; MAP]], vec![]);
    for frame in 0..frames {
        let form = any_form(&mut check.random, sizes, frame == 0);
        let cmap = if check.random.once_in(4) { None } else { Some(files::cmap(&mut check.random, Harm::None)) };
        maps.push(laid_over(&maps[frame], cmap.as_deref().unwrap_or_default()));
        parts.push(cmap.map_or(form.clone(), |cmap| files::coloured(&form, &cmap)));
    }
    let mut player = Player::fitting(&mut check.random, &files::form(b"ANIM", &parts));
    player.open(&mut check.pair)?;
    walk(check, &mut player, &maps[1..])
}

/// Any frame without a CMAP, the first one by a BODY or by a delta.
fn any_form(random: &mut Random, sizes: Sizes, first: bool) -> Vec<u8> {
    let method = files::any_method(random, sizes);
    let delta = files::random_delta(random, sizes, method);
    match (first, random.once_in(2)) {
        (true, true) => files::picture_form(sizes, 0, &random.bytes(sizes.frame())),
        (true, false) => files::first_delta_form(sizes, method, 0, &delta),
        (false, _) => files::delta_form(method, random.below(3) as u8, 1, &delta),
    }
}

/// Steps on to the last frame, back to the first, and then on and back by chance: each frame has its map, and shows and hides what it did before.
fn walk(check: &mut Check, player: &mut Player, maps: &[Vec<u8>]) -> Checked<()> {
    let (mut seen, mut past, last) = (vec![player.screen()], Vec::<Vec<u8>>::new(), maps.len() - 1);
    for turn in 0..6 * maps.len() {
        let on = match turn / maps.len() {
            _ if past.is_empty() || past.len() == last => past.is_empty(),
            0 | 1 => turn < maps.len(),
            _ => check.random.once_in(2),
        };
        let answer = if on { player.step_on(&mut check.pair)? } else { player.step_back(&mut check.pair, &past.pop().expect("a record"))? };
        if on {
            past.push(player.written());
        }
        let (at, screen) = (past.len(), player.screen());
        if at == seen.len() {
            seen.push(screen.clone());
        }
        if answer != 0 || screen[2] != maps[at] || screen != seen[at] {
            return Err(format!("at frame {} of {} a step answers {answer}, or the map or a picture isn't the known one", at + 1, maps.len()));
        }
    }
    Ok(())
}
