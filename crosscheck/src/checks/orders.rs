//! Every set of things that are wrong at once, so that the order of refusals shows.
use super::Check;
use crate::files::{self, words, Method, BYTES, LONGS, WORDS};
use crate::pair::{Checked, Player, Twin};
use crate::plain::{Sizes, State, MAP};

/// Whether a thing is in a set.
fn has(set: u32, thing: u32) -> bool {
    set >> thing & 1 == 1
}

const SIZES: Sizes = Sizes { width: 16, height: 2, planes: 1 };

/// A chunk that passes its parent.
const BROKEN: &[u8] = b"ANNO\0\0\0\x09ab";
/// A CMAP of four bytes.
pub const BAD_CMAP: &[u8] = b"CMAP\0\0\0\x04abcd";
/// A CMAP of one colour.
const GOOD_CMAP: &[u8] = b"CMAP\0\0\0\x03abc\0";

/// BMHD and BODY, each as it should be, missing or bad, a bad CMAP, and a broken chunk behind them.
fn first_frame(set: u32) -> Vec<u8> {
    let mut header = files::bmhd(SIZES, 0);
    if has(set, 0) {
        header[9] = 1;
    }
    let body = if has(set, 1) { vec![1; 3] } else { vec![1; 4] };
    let mut parts = vec![];
    if !has(set, 2) {
        parts.push(files::chunk(b"BMHD", &header));
    }
    if !has(set, 3) {
        parts.push(files::chunk(b"BODY", &body));
    }
    if has(set, 4) {
        parts.push(BAD_CMAP.to_vec());
    }
    if has(set, 5) {
        parts.push(BROKEN.to_vec());
    }
    files::form(b"ILBM", &parts)
}

/// A file of this frame with a set of four things wrong around it: a FORM of three bytes before it, the type, and the outer length too small and too
/// large.
pub fn file_around(frame: &[u8], set: u32) -> Vec<u8> {
    let mut parts = vec![];
    if has(set, 0) {
        parts.push(files::chunk(b"FORM", b"ILB"));
    }
    parts.push(frame.to_vec());
    let mut file = files::form(if has(set, 1) { b"ANIN" } else { b"ANIM" }, &parts);
    if has(set, 2) {
        file[7] = 3;
    }
    if has(set, 3) {
        file[4] = 1;
    }
    file
}

/// Lengths of A, B, the map and the state: each set of A and B too long and the map too long, and with none and all of these a state of 47 bytes.
const LENGTHS: [[usize; 4]; 6] = [[4, 4, MAP, 48], [5, 5, MAP, 48], [4, 4, MAP + 1, 48], [5, 5, MAP + 1, 48], [4, 4, MAP, 47], [5, 5, MAP + 1, 47]];
/// A alone and B alone too long.
const ALONE: [[usize; 4]; 2] = [[5, 4, MAP, 48], [4, 5, MAP, 48]];

/// Opens a frame with each set of four things wrong around it, with A, B, the map and the state of each of these lengths.
fn open_around(check: &mut Check, frame: &[u8]) -> Checked<()> {
    open_each(check, &file_around(frame, 0), &ALONE)?;
    (0..1 << 4).try_for_each(|set| open_each(check, &file_around(frame, set), &LENGTHS))
}

/// Opens each of these frames with each of the lengths of A, B, the map and the state.
fn open_lengths(check: &mut Check, frames: &[Vec<u8>]) -> Checked<()> {
    let lengths = [&LENGTHS[..], &ALONE].concat();
    frames.iter().try_for_each(|frame| open_each(check, &file_around(frame, 0), &lengths))
}

/// Asks for the length of a file's frames, and opens it with A, B, the map and the state of each of these lengths.
fn open_each(check: &mut Check, file: &[u8], lengths: &[[usize; 4]]) -> Checked<()> {
    let mut player = Player::new(&mut check.random, file, 4);
    for length in [8, 7] {
        player.frame_size(&mut check.pair, length)?;
    }
    for &[a, b, map, state] in lengths {
        player.a.set(&check.random.bytes(a));
        player.b.set(&check.random.bytes(b));
        player.map.set(&check.random.bytes(map));
        player.state.set(&check.random.bytes(state));
        player.open_only(&mut check.pair)?;
    }
    Ok(())
}

/// Opening with each set of six things wrong in the frame, and those around it.
pub fn openings(check: &mut Check) -> Checked<()> {
    for set in 0..1 << 6 {
        open_around(check, &first_frame(set))?;
    }
    Ok(())
}

/// Each of these contents as a chunk, and none.
fn each(id: &[u8; 4], contents: impl Iterator<Item = Vec<u8>>) -> Vec<Vec<u8>> {
    contents.map(|contents| files::chunk(id, &contents)).chain([vec![]]).collect()
}

/// DLTA with each of so many sets of its things wrong, of 63 bytes, empty, and missing.
fn delta_chunks(sets: u32) -> Vec<Vec<u8>> {
    let short = [63, 0].map(|length| delta(0)[..length].to_vec());
    each(b"DLTA", (0..sets).map(delta).chain(short))
}

/// ANHD of a method with each set of its things wrong, and missing.
fn header_chunks(method: Method) -> Vec<Vec<u8>> {
    each(b"ANHD", (0..32).map(|set| header(method, set)))
}

/// BMHD good, with masking 1, with compression 2, of width 0, of 19 bytes, and missing.
fn bmhd_chunks() -> Vec<Vec<u8>> {
    let good = files::bmhd(SIZES, 0);
    let with = |at: usize, byte: u8| {
        let mut header = good.clone();
        header[at] = byte;
        header
    };
    each(b"BMHD", [good.clone(), with(9, 1), with(10, 2), with(1, 0), good[..19].to_vec()].into_iter())
}

/// Each choice of one chunk from every list.
fn choices(lists: &[Vec<Vec<u8>>]) -> Vec<Vec<u8>> {
    let mut choices = vec![vec![]];
    for chunks in lists {
        choices = choices.iter().flat_map(|front| chunks.iter().map(|chunk| [&front[..], chunk].concat())).collect();
    }
    choices
}

/// FORMs ILBM of each such choice.
fn good_forms(lists: &[Vec<Vec<u8>>]) -> Vec<Vec<u8>> {
    choices(lists).into_iter().map(|chunks| files::form(b"ILBM", &[chunks])).collect()
}

/// FORMs of each such choice: ILBM and of another type, with a broken chunk behind the others and without.
fn forms(lists: &[Vec<Vec<u8>>]) -> Vec<Vec<u8>> {
    let lists = [lists, &[vec![vec![], BROKEN.to_vec()]]].concat();
    choices(&lists).into_iter().flat_map(|chunks| [b"ILBM", b"ILBN"].map(|kind| files::form(kind, std::slice::from_ref(&chunks)))).collect()
}

/// First frames that may be given as a delta: each choice of a DLTA, ANHD, BMHD and BODY that is good, bad or missing, behind this CMAP, if it is one.
/// The first of them is good.
pub fn delta_frames(cmap: &[u8]) -> Vec<Vec<u8>> {
    // A Same of none is left out: nothing is wrong with it.
    forms(&[vec![cmap.to_vec()], delta_chunks(8), header_chunks(BYTES), bmhd_chunks(), body_chunks()])
}

/// BODY good, too short, empty, and missing.
fn body_chunks() -> Vec<Vec<u8>> {
    each(b"BODY", [4, 3, 0].into_iter().map(|length| vec![1; length]))
}

/// Opening each such frame with each set of the things wrong around it, and with A alone and B alone too long.
pub fn delta_openings(check: &mut Check) -> Checked<()> {
    delta_frames(&[]).iter().try_for_each(|frame| open_around(check, frame))
}

/// Opening each such frame behind a CMAP that is bad and one that is good, with each of the lengths.
pub fn colour_openings(check: &mut Check) -> Checked<()> {
    [BAD_CMAP, GOOD_CMAP].into_iter().try_for_each(|cmap| open_lengths(check, &delta_frames(cmap)))
}

/// Opening each first frame of words: each choice of some of the DLTAs, and of ANHD, BMHD and BODY, each DLTA with each ANHD, and some of these behind a
/// bad CMAP.
pub fn word_openings(check: &mut Check) -> Checked<()> {
    for method in WORDS {
        let headers = header_chunks(method);
        let good_bmhd = vec![files::chunk(b"BMHD", &files::bmhd(SIZES, 0))];
        open_lengths(check, &forms(&[some_words(method), headers.clone(), bmhd_chunks(), body_chunks()]))?;
        open_lengths(check, &good_forms(&[all_words(method), headers.clone(), good_bmhd.clone()]))?;
        open_lengths(check, &good_forms(&[vec![BAD_CMAP.to_vec()], some_words(method), headers, good_bmhd]))?;
    }
    Ok(())
}

/// ANHD with each of its things wrong. The first is long data, for which the rows are too narrow, or for a method of words the bit that says so.
fn header(method: Method, set: u32) -> Vec<u8> {
    let mut header = files::anhd(if has(set, 0) && method == BYTES { LONGS } else { method }, 0, 1);
    if has(set, 0) {
        header[23] = 1;
    }
    if has(set, 1) {
        header[20] = 1;
    }
    if has(set, 2) {
        header[18] = 3;
    }
    if has(set, 3) {
        header[0] = 4;
    }
    if has(set, 4) {
        header.truncate(39);
    }
    header
}

/// A delta of two columns with its things wrong: the last item missing, an op past the last row, a pointer into the pointers. A Same of none is one of
/// the things though nothing is wrong with it; where no op passes the last row it comes last, and the missing item is its own.
fn delta(set: u32) -> Vec<u8> {
    let mut delta = vec![0; 64];
    delta[3] = if has(set, 2) { 63 } else { 64 };
    delta.extend([1, 0x82, 1, 2]);
    let column: &[u8] = match (has(set, 3), has(set, 1)) {
        (false, false) => &[1, 0x82, 3, 4],
        (true, false) => &[2, 0x82, 3, 4, 0, 0, 5],
        (false, true) => &[2, 1, 0x82, 3, 4],
        (true, true) => &[3, 0, 0, 5, 1, 0x82, 3, 4],
    };
    delta.extend(column);
    if has(set, 0) {
        delta.pop();
    }
    delta
}

/// A DLTA with a list of words for the picture's only plane.
fn words_at(pointer: u8, list: &[u8]) -> Vec<u8> {
    let mut delta = vec![0; 32];
    delta[3] = pointer;
    delta.extend_from_slice(list);
    delta
}

/// DLTA of words good and in each way bad: of an op and an end the offset, the count, a word or the end missing, the move or the run beyond the plane,
/// and a pointer into the pointers; of 31 bytes, empty, and missing.
fn some_words(method: Method) -> Vec<Vec<u8>> {
    let (many, item) = (method.words(SIZES), method.item);
    let good = [&words::run_head(0, 1)[..], &vec![7; item], &words::END].concat();
    let beyond = words::run_head(many, 0);
    let passing = words::run_head(0, many + 1);
    let lists = [&good, &good[..4 + item], &good[..3 + item], &good[..3], &good[..1], &beyond, &beyond[..2], &passing];
    let deltas = lists.into_iter().map(|list| words_at(32, list)).chain([words_at(31, &good), words_at(31, &beyond)]);
    each(b"DLTA", deltas.chain([vec![0; 31], vec![]]))
}

/// DLTA of words with each set of a pointer into the pointers, a move beyond the plane and a run past its last word, for one word and for a run,
/// whole and cut at each byte of the list; of 31 bytes, empty, and missing.
fn all_words(method: Method) -> Vec<Vec<u8>> {
    let mut deltas = vec![];
    let many = method.words(SIZES);
    for by in [0, many] {
        let heads = [(words::word_head(by).to_vec(), 1), (words::run_head(by, 1).to_vec(), 1), (words::run_head(by, many + 1).to_vec(), many + 1)];
        for (head, count) in heads {
            let list = [head, vec![7; count * method.item], words::END.to_vec()].concat();
            deltas.extend((0..=list.len()).flat_map(|length| [32, 31].map(|pointer| words_at(pointer, &list[..length]))));
        }
    }
    each(b"DLTA", deltas.into_iter().chain([vec![0; 31], vec![]]))
}

/// Stepping on to each choice of a DLTA and ANHD that is good, bad or missing, without a CMAP, behind a bad one and behind a good one, with each set of
/// six things wrong around it.
pub fn steps_on(check: &mut Check) -> Checked<()> {
    let cmaps = [&[], BAD_CMAP, GOOD_CMAP].map(<[u8]>::to_vec).to_vec();
    steps_each(check, &forms(&[cmaps, delta_chunks(16), header_chunks(BYTES)]))
}

/// Stepping on to each choice of a DLTA of words and ANHD, some of them behind a bad CMAP, in the same way.
pub fn word_steps(check: &mut Check) -> Checked<()> {
    for method in WORDS {
        let headers = header_chunks(method);
        steps_each(check, &forms(&[some_words(method), headers.clone()]))?;
        steps_each(check, &good_forms(&[all_words(method), headers.clone()]))?;
        steps_each(check, &good_forms(&[vec![BAD_CMAP.to_vec()], some_words(method), headers]))?;
    }
    Ok(())
}

/// Steps on to each of these frames with each set of six things wrong around it.
fn steps_each(check: &mut Check, frames: &[Vec<u8>]) -> Checked<()> {
    for frame in frames {
        let file = files::form(b"ANIM", &[first_frame(0), frame.to_vec()]);
        (0..1 << 6).try_for_each(|set| step_around(check, &file, set))?;
    }
    Ok(())
}

/// Steps on to a file's second frame with a set of things wrong: the frame number, the end place, the frames' lengths, the map's, the record's and the
/// report's.
fn step_around(check: &mut Check, file: &[u8], set: u32) -> Checked<()> {
    let frame = if has(set, 0) { 1_000_000 } else { 2 };
    let next = first_frame(0).len() as u64 + 12;
    let end = file.len() as u64 + u64::from(has(set, 1));
    let mut player = Player::new(&mut check.random, file, if has(set, 2) { 6 } else { 4 });
    player.set_state(State { width: 16, height: 2, planes: 1, frame, next, end });
    if has(set, 3) {
        player.record.set(&[8; 2]);
    }
    if has(set, 4) {
        player.report.set(&[6; 39]);
    }
    if has(set, 5) {
        player.map.set(&[5; MAP + 1]);
    }
    player.step_on(&mut check.pair).map(drop)
}

/// A record's two lists with a set of things wrong in them. In the picture's list: an old byte that is equal, runs that touch, and one past the last byte;
/// in the map's the same; a list that is missing, and a byte behind the last.
fn wrong_lists(set: u32) -> Vec<u8> {
    let list = |set: u32, past: &[u8]| {
        let (old, gap) = (if has(set, 0) { 7 } else { 8 }, u8::from(!has(set, 1)));
        let count = if has(set, 2) { past } else { &[1] };
        [&[2, 0, 1, old, gap], count, &[8]].concat()
    };
    let map_list = if has(set, 6) { vec![] } else { list(set >> 3, &[0xff, 5]) };
    let behind: &[u8] = if has(set, 7) { &[0] } else { &[] };
    [&list(set, &[3]), &map_list, behind].concat()
}

/// Stepping back with each set of fifteen things wrong.
pub fn steps_back(check: &mut Check) -> Checked<()> {
    for set in 0..1 << 15 {
        let frame = [2, 3, 1, 1][(set & 3) as usize];
        let place = if has(set, 2) { 41 } else { 40 };
        let record = [&[frame, place], &wrong_lists(set >> 3)[..]].concat();
        let mut player = Player::new(&mut check.random, &[], if has(set, 11) { 3 } else { 4 });
        player.b.set(&[7; 4][..player.a.bytes().len()]);
        player.map.set(&vec![7; if has(set, 12) { MAP + 1 } else { MAP }]);
        let planes = if has(set, 13) { 9 } else { 1 };
        player.set_state(State { width: 16, height: 2, planes, frame: 2, next: 41, end: 80 });
        if has(set, 14) {
            player.state.set(&[1; 49]);
        }
        player.step_back(&mut check.pair, &record)?;
    }
    Ok(())
}

/// Heights: one within the limits, the first above them, and far ones.
const HEIGHTS: [u64; 4] = [2, 1_025, 1 << 32, u64::MAX];
/// Planes for a picture of one plane: the one it has, the first that it hasn't, the first that no picture has, and far ones.
const PLANES: [u64; 6] = [0, 1, 8, 1 << 32, 1 << 63, u64::MAX];
/// Rows for a picture of two rows, likewise.
const ROWS: [u64; 6] = [1, 2, 1_024, 1 << 32, 1 << 63, u64::MAX];

/// A player without a file at frame 2 of such a height, with A and B as long as for height 2.
fn standing(check: &mut Check, height: u64) -> Player {
    let mut player = Player::new(&mut check.random, &[], 4);
    player.set_state(State { width: 16, height, planes: 1, frame: 2, next: 41, end: 80 });
    player
}

/// Each plane and row with each set of three things wrong, and each height.
pub fn rows(check: &mut Check) -> Checked<()> {
    for (height, set) in HEIGHTS.into_iter().flat_map(|height| (0..1 << 3).map(move |set| (height, set))) {
        let mut player = standing(check, height);
        if has(set, 0) {
            player.a.set(&[1; 3]);
        }
        if has(set, 1) {
            player.b.set(&[1; 5]);
        }
        if has(set, 2) {
            player.state.set(&[1; 47]);
        }
        for (plane, row) in PLANES.into_iter().flat_map(|plane| ROWS.map(|row| (plane, row))) {
            player.row(&mut check.pair, plane, row)?;
        }
    }
    Ok(())
}

/// The writer with each set of four things wrong, and each height.
pub fn deltas(check: &mut Check) -> Checked<()> {
    for (height, set) in HEIGHTS.into_iter().flat_map(|height| (0..1 << 4).map(move |set| (height, set))) {
        let mut old = Twin::new("old", if has(set, 0) { &[1; 3] } else { &[1; 4] });
        let mut new = Twin::new("new", if has(set, 1) { &[2; 5] } else { &[2; 4] });
        let mut out = Twin::new("out", if has(set, 2) { &[3; 64] } else { &[3; 90] });
        let mut length = Twin::new("length", if has(set, 3) { &[3; 7] } else { &[3; 8] });
        check.pair.write_delta([16, height, 1], &mut old, &mut new, &mut out, &mut length)?;
    }
    Ok(())
}
