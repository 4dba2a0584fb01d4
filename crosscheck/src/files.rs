//! Makers of chunks, pictures, deltas and whole files, well formed or damaged.
pub mod columns;
pub mod words;

use crate::bounds::delta_room;
use crate::plain::{self, Sizes, MAP};
use crate::random::Random;

/// A method, and the bytes of its items or words.
#[derive(Clone, Copy, Debug, PartialEq, Eq)]
pub struct Method {
    pub number: u8,
    pub item: usize,
}

pub const BYTES: Method = Method { number: 5, item: 1 };
pub const SHORTS: Method = Method { number: 7, item: 2 };
pub const LONGS: Method = Method { number: 7, item: 4 };
pub const LONG_WORDS: Method = Method { number: 2, item: 4 };
pub const SHORT_WORDS: Method = Method { number: 3, item: 2 };
/// The methods whose lists go down columns.
pub const VERTICAL: [Method; 3] = [BYTES, SHORTS, LONGS];
/// The methods whose lists are of words.
pub const WORDS: [Method; 2] = [LONG_WORDS, SHORT_WORDS];
pub const METHODS: [Method; 5] = [BYTES, SHORTS, LONGS, LONG_WORDS, SHORT_WORDS];

impl Method {
    /// Whether its lists are of words.
    pub fn of_words(self) -> bool {
        WORDS.contains(&self)
    }

    /// The bytes of its pointers.
    pub fn pointers(self) -> usize {
        if self.of_words() {
            32
        } else {
            64
        }
    }

    /// Whether pictures of these sizes may have it: rows must have whole columns, but not whole words.
    pub fn fits(self, sizes: Sizes) -> bool {
        self.of_words() || sizes.row().is_multiple_of(self.item)
    }

    /// How many whole words a plane has.
    pub fn words(self, sizes: Sizes) -> usize {
        sizes.plane() / self.item
    }
}

/// The methods that pictures of these sizes may have.
pub fn fitting(sizes: Sizes) -> impl Iterator<Item = Method> {
    METHODS.into_iter().filter(move |method| method.fits(sizes))
}

/// One of the methods that pictures of these sizes may have.
pub fn any_method(random: &mut Random, sizes: Sizes) -> Method {
    *random.pick(&fitting(sizes).collect::<Vec<Method>>())
}

/// A chunk with its pad.
pub fn chunk(id: &[u8; 4], contents: &[u8]) -> Vec<u8> {
    let mut all = id.to_vec();
    all.extend((contents.len() as u32).to_be_bytes());
    all.extend_from_slice(contents);
    if contents.len() % 2 == 1 {
        all.push(0x77);
    }
    all
}

/// A FORM of parts.
pub fn form(kind: &[u8; 4], parts: &[Vec<u8>]) -> Vec<u8> {
    let mut contents = kind.to_vec();
    contents.extend(parts.concat());
    chunk(b"FORM", &contents)
}

/// BMHD's contents.
pub fn bmhd(sizes: Sizes, compression: u8) -> Vec<u8> {
    let mut all = vec![0; 20];
    all[..2].copy_from_slice(&(sizes.width as u16).to_be_bytes());
    all[2..4].copy_from_slice(&(sizes.height as u16).to_be_bytes());
    all[8] = sizes.planes as u8;
    all[10] = compression;
    all
}

/// ANHD's contents.
pub fn anhd(method: Method, interleave: u8, time: u32) -> Vec<u8> {
    let mut all = vec![0; 40];
    all[0] = method.number;
    all[14..18].copy_from_slice(&time.to_be_bytes());
    all[18] = interleave;
    all[23] = u8::from(method == LONGS);
    all
}

/// A FORM with a CMAP behind its other chunks.
pub fn coloured(form: &[u8], cmap: &[u8]) -> Vec<u8> {
    chunk(b"FORM", &[&form[8..], &chunk(b"CMAP", cmap)].concat())
}

/// The FORM of a first picture with a BODY.
pub fn picture_form(sizes: Sizes, compression: u8, body: &[u8]) -> Vec<u8> {
    form(b"ILBM", &[chunk(b"BMHD", &bmhd(sizes, compression)), chunk(b"BODY", body)])
}

/// The FORM of a first picture that is given as a delta.
pub fn first_delta_form(sizes: Sizes, method: Method, interleave: u8, delta: &[u8]) -> Vec<u8> {
    let chunks = [chunk(b"BMHD", &bmhd(sizes, 1)), chunk(b"ANHD", &anhd(method, interleave, 2)), chunk(b"DLTA", delta)];
    form(b"ILBM", &chunks)
}

/// The FORM of a later frame.
pub fn delta_form(method: Method, interleave: u8, time: u32, delta: &[u8]) -> Vec<u8> {
    form(b"ILBM", &[chunk(b"ANHD", &anhd(method, interleave, time)), chunk(b"DLTA", delta)])
}

/// The rows of a frame in BODY's order.
fn body_rows(frame: &[u8], sizes: Sizes) -> impl Iterator<Item = &[u8]> {
    let row = sizes.row();
    (0..sizes.height * sizes.planes).map(move |k| {
        let at = (k % sizes.planes) * sizes.plane() + (k / sizes.planes) * row;
        &frame[at..at + row]
    })
}

/// A plain BODY's contents.
pub fn plain_body(frame: &[u8], sizes: Sizes) -> Vec<u8> {
    body_rows(frame, sizes).flatten().copied().collect()
}

/// A packed BODY's contents as a packer would write it.
pub fn packed_body(frame: &[u8], sizes: Sizes) -> Vec<u8> {
    let mut out = Vec::new();
    body_rows(frame, sizes).for_each(|row| pack_row(row, &mut out));
    out
}

fn pack_row(row: &[u8], out: &mut Vec<u8>) {
    let mut at = 0;
    while at < row.len() {
        let run = row[at..].iter().take(128).take_while(|&&x| x == row[at]).count();
        if run >= 3 || run == row.len() - at && run > 1 {
            out.extend([(257 - run) as u8, row[at]]);
            at += run;
        } else {
            let rest = &row[at..row.len().min(at + 128)];
            let literal = rest.windows(3).position(|w| w[0] == w[1] && w[1] == w[2]).unwrap_or(rest.len());
            out.push((literal - 1) as u8);
            out.extend_from_slice(&rest[..literal]);
            at += literal;
        }
    }
}

/// A packed BODY's contents with runs cut anywhere and bytes 128 between.
pub fn ragged_body(random: &mut Random, frame: &[u8], sizes: Sizes) -> Vec<u8> {
    let mut out = Vec::new();
    for row in body_rows(frame, sizes) {
        let mut at = 0;
        while at < row.len() {
            if random.once_in(8) {
                out.push(128);
            }
            let run = row[at..].iter().take(128).take_while(|&&x| x == row[at]).count();
            let count = random.from_to(1, (row.len() - at).min(128));
            if run >= 2 && count <= run && count > 1 {
                out.extend([(257 - count) as u8, row[at]]);
            } else {
                out.push((count - 1) as u8);
                out.extend_from_slice(&row[at..at + count]);
            }
            at += count;
        }
    }
    out
}

/// Any well-formed delta.
pub fn random_delta(random: &mut Random, sizes: Sizes, method: Method) -> Vec<u8> {
    let mut out = vec![0; method.pointers()];
    let values = *random.pick(&[1, 2, 3, 256]);
    let calm = random.from_to(1, 12);
    let mut latest = None;
    for plane in 0..sizes.planes {
        if random.once_in(4) {
            set_pointers(&mut out, method, plane, (0, random.below(200) as u32));
            continue;
        }
        if let (true, Some(places)) = (random.once_in(6), latest) {
            set_pointers(&mut out, method, plane, places);
            continue;
        }
        let (ops, data) = if method.of_words() {
            (words::random_list(random, method.words(sizes), method.item, values, calm), vec![])
        } else {
            random_lists(random, sizes, method.item, values, calm)
        };
        junk(random, &mut out);
        let at = out.len() as u32;
        let places = if random.once_in(2) { (at, at + ops.len() as u32) } else { (at + data.len() as u32, at) };
        let parts = if places.0 == at { [ops, data] } else { [data, ops] };
        out.extend(parts.concat());
        set_pointers(&mut out, method, plane, places);
        latest = Some(places);
    }
    junk(random, &mut out);
    out
}

/// Sometimes puts a few bytes behind all.
fn junk(random: &mut Random, out: &mut Vec<u8>) {
    if random.once_in(3) {
        let length = random.below(5);
        out.extend(random.bytes(length));
    }
}

fn set_pointer(delta: &mut [u8], pointer: usize, place: u32) {
    delta[4 * pointer..4 * pointer + 4].copy_from_slice(&place.to_be_bytes());
}

/// Sets a plane's pointers to its lists; lists of words have no data list beside them.
pub fn set_pointers(delta: &mut [u8], method: Method, plane: usize, (ops, data): (u32, u32)) {
    set_pointer(delta, plane, ops);
    if !method.of_words() {
        set_pointer(delta, plane + 8, data);
    }
}

/// The op list and the data list of a plane; the data list is empty for items of one byte.
fn random_lists(random: &mut Random, sizes: Sizes, items: usize, values: usize, calm: usize) -> (Vec<u8>, Vec<u8>) {
    let (mut ops, mut data) = (Vec::new(), Vec::new());
    for _ in 0..sizes.row() / items {
        let start = ops.len();
        ops.push(0);
        let (mut y, mut count) = (0, 0);
        while count < 255 && !random.once_in(calm) {
            let left = sizes.height - y;
            let kind = if left == 0 || random.once_in(6) { random.from_to(1, 2) } else { random.below(3) };
            let most = if kind == 1 { 255 } else { 127 }.min(left);
            let rows = match random.below(8) {
                0 if kind > 0 => 0,
                0..=2 => most,
                _ => random.from_to(1, most.max(1)).min(most),
            };
            match kind {
                0 => ops.push(rows as u8),
                1 => ops.extend([0, rows as u8]),
                _ => ops.push(128 + rows as u8),
            }
            let given = [0, 1, rows][kind] * items;
            let list = if items == 1 { &mut ops } else { &mut data };
            list.extend((0..given).map(|_| random.below(values) as u8));
            y += rows;
            count += 1;
        }
        ops[start] = count as u8;
    }
    (ops, data)
}

/// The delta of items of 2 or 4 bytes that turns the old frame into the new one, for method 7.
fn method_7(old_frame: &[u8], new_frame: &[u8], sizes: Sizes, items: usize) -> Vec<u8> {
    let mut out = vec![0; 64];
    let row = sizes.row();
    let planes = old_frame.chunks_exact(sizes.plane()).zip(new_frame.chunks_exact(sizes.plane()));
    for (plane, (old, new)) in planes.enumerate() {
        let (mut ops, mut data) = (Vec::new(), Vec::new());
        for x in (0..row).step_by(items) {
            let column = |plane| -> Vec<&[u8]> { <[u8]>::chunks_exact(plane, row).map(|line| &line[x..x + items]).collect() };
            if !method_7_column(&column(old), &column(new), &mut ops, &mut data) {
                return method_7_whole(new_frame, sizes, items);
            }
        }
        place_lists(&mut out, plane, &ops, &data);
    }
    out
}

/// The delta that turns the old frame into the new one.
pub fn delta_between(old: &[u8], new: &[u8], sizes: Sizes, method: Method) -> Vec<u8> {
    match method {
        BYTES => method_5(old, new, sizes),
        SHORTS | LONGS => method_7(old, new, sizes, method.item),
        _ => of_words(old, new, sizes, method.item),
    }
}

/// The delta of method 5 that the writer makes.
fn method_5(old: &[u8], new: &[u8], sizes: Sizes) -> Vec<u8> {
    let mut out = vec![0; delta_room(sizes)];
    let [w, h, p] = [sizes.width as u64, sizes.height as u64, sizes.planes as u64];
    let length = plain::write_delta(w, h, p, old, new, &mut out).expect("room");
    out.truncate(length);
    out
}

/// The delta of words of so many bytes that turns the old frame into the new one, whose bytes that no word reaches must be equal.
fn of_words(old: &[u8], new: &[u8], sizes: Sizes, item: usize) -> Vec<u8> {
    let mut out = vec![0; 32];
    let planes = old.chunks_exact(sizes.plane()).zip(new.chunks_exact(sizes.plane()));
    for (plane, (old, new)) in planes.enumerate().filter(|(_, (old, new))| old != new) {
        let at = out.len() as u32;
        set_pointer(&mut out, plane, at);
        out.extend(words::list_between(old, new, item));
    }
    out
}

/// Gives a picture those bytes of another that no word of four bytes reaches.
pub fn keep_rest(from: &[u8], picture: &mut [u8], sizes: Sizes) {
    let whole = sizes.plane() / 4 * 4;
    for (from, plane) in from.chunks_exact(sizes.plane()).zip(picture.chunks_exact_mut(sizes.plane())) {
        plane[whole..].copy_from_slice(&from[whole..]);
    }
}

/// Any picture of bytes below a number that each method can draw on a black one.
pub fn any_picture(random: &mut Random, sizes: Sizes, values: usize) -> Vec<u8> {
    let mut picture: Vec<u8> = (0..sizes.frame()).map(|_| random.below(values) as u8).collect();
    keep_rest(&vec![0; sizes.frame()], &mut picture, sizes);
    picture
}

/// The delta that draws a picture on a black one.
pub fn delta_on_black(picture: &[u8], sizes: Sizes, method: Method) -> Vec<u8> {
    delta_between(&vec![0; picture.len()], picture, sizes, method)
}

/// Writes a column as Skips, Sames and Uniqs; false if it would need too many ops.
fn method_7_column(old: &[&[u8]], new: &[&[u8]], ops: &mut Vec<u8>, data: &mut Vec<u8>) -> bool {
    let start = ops.len();
    ops.push(0);
    let (mut y, mut count) = (0, 0);
    while let Some(gap) = (y..old.len()).position(|y| old[y] != new[y]) {
        let skips = (0..gap).step_by(127).map(|from| (gap - from).min(127) as u8);
        count += skips.len() + 1;
        ops.extend(skips);
        y += gap;
        let rows = (y..old.len()).take(127).take_while(|&y| old[y] != new[y]).count();
        let changed = &new[y..y + rows];
        if rows > 1 && changed.iter().all(|item| *item == changed[0]) {
            ops.extend([0, rows as u8]);
            data.extend_from_slice(changed[0]);
        } else {
            ops.push(128 + rows as u8);
            data.extend(changed.concat());
        }
        y += rows;
    }
    ops[start] = count as u8;
    count <= 255
}

/// The delta of method 7 that gives every row.
fn method_7_whole(new: &[u8], sizes: Sizes, items: usize) -> Vec<u8> {
    let mut out = vec![0; 64];
    let row = sizes.row();
    for (plane, frame) in new.chunks_exact(sizes.plane()).enumerate() {
        let (mut ops, mut data) = (Vec::new(), Vec::new());
        for x in (0..row).step_by(items) {
            ops.push(sizes.height.div_ceil(127) as u8);
            ops.extend((0..sizes.height).step_by(127).map(|y| 128 + (sizes.height - y).min(127) as u8));
            frame.chunks_exact(row).for_each(|line| data.extend_from_slice(&line[x..x + items]));
        }
        place_lists(&mut out, plane, &ops, &data);
    }
    out
}

/// Puts a plane's two lists behind a delta, and sets its pointers to them.
pub fn place_lists(out: &mut Vec<u8>, plane: usize, ops: &[u8], data: &[u8]) {
    let at = out.len() as u32;
    set_pointer(out, plane, at);
    set_pointer(out, plane + 8, at + ops.len() as u32);
    out.extend_from_slice(ops);
    out.extend_from_slice(data);
}

/// Spoils bytes in one of many ways.
pub fn damage(random: &mut Random, bytes: &mut Vec<u8>) {
    if bytes.is_empty() {
        bytes.push(random.byte());
        return;
    }
    let at = random.below(bytes.len());
    match random.below(8) {
        0 => bytes[at] ^= 1 << random.below(8),
        1 | 2 => bytes[at] = *random.pick(&[0, 1, 2, 63, 64, 126, 127, 128, 129, 254, 255]),
        3 => bytes.truncate(at),
        4 => bytes.truncate(bytes.len() - 1),
        5 => bytes.insert(at, random.byte()),
        6 => drop(bytes.remove(at)),
        _ => bytes.push(random.byte()),
    }
}

/// Offsets and counts at the ends of what they can be.
const WORD_ENDS: [[u8; 2]; 7] = [[0, 0], [0, 1], [127, 255], [128, 0], [255, 253], [255, 254], [255, 255]];

/// Spoils a delta, its pointers more often than the rest, and in lists of words whole offsets and counts too.
pub fn damage_delta(random: &mut Random, delta: &mut Vec<u8>, method: Method) {
    let first = method.pointers();
    if random.once_in(3) {
        let place = *random.pick(&[0, 1, first - 1, first, first + 1, delta.len() - 1, delta.len(), delta.len() + 1, 0xffff_ffff]);
        let pointer = random.below(first / 4);
        set_pointer(delta, pointer, place as u32);
    } else if method.of_words() && delta.len() > first + 1 && random.once_in(2) {
        let at = random.from_to(first, delta.len() - 2);
        delta[at..at + 2].copy_from_slice(&random.pick(&WORD_ENDS)[..]);
    } else {
        damage(random, delta);
    }
}

/// What is to be wrong in a file.
#[derive(Clone, Copy, PartialEq, Eq, Debug)]
pub enum Harm {
    None,
    Delta,
    AnimHeader,
    PictureHeader,
    Body,
    Colours,
    Missing,
    Bytes,
}

pub const HARMS: [Harm; 8] = [Harm::None, Harm::Delta, Harm::AnimHeader, Harm::PictureHeader, Harm::Body, Harm::Colours, Harm::Missing, Harm::Bytes];

/// A file of some frames, with other chunks in between, well formed but for the harm.
pub fn film(random: &mut Random, sizes: Sizes, frames: usize, harm: Harm) -> Vec<u8> {
    let mut parts = vec![];
    let harmed = random.from_to(2, frames.max(2));
    parts.extend(other_chunk(random));
    parts.push(first_frame(random, sizes, harm));
    for frame in 2..=frames {
        parts.extend(other_chunk(random));
        parts.push(later_frame(random, sizes, if frame == harmed { harm } else { Harm::None }));
    }
    parts.extend(other_chunk(random));
    let mut file = form(b"ANIM", &parts);
    if random.once_in(4) {
        let behind = random.below(12);
        file.extend(random.bytes(behind));
    }
    if harm == Harm::Bytes {
        for _ in 0..random.from_to(1, 3) {
            damage(random, &mut file);
        }
    }
    file
}

/// Sometimes a chunk that is to be passed over.
fn other_chunk(random: &mut Random) -> Option<Vec<u8>> {
    let length = random.below(9);
    let contents = random.bytes(length);
    match random.below(12) {
        0 => Some(chunk(b"ANNO", &contents)),
        1 => Some(chunk(b"LIST", &contents)),
        2 => Some(form(b"8SVX", &[contents])),
        3 => Some(chunk(b"ILBM", &contents)),
        _ => None,
    }
}

/// Lengths of a CMAP that are refused.
pub const BAD_LENGTHS: [usize; 11] = [1, 2, 4, 5, 8, 766, 767, 769, 770, 771, 2 * MAP];

/// A CMAP's contents: of a few colours, of many or of all, and of one, two or all values; of a bad length if that is the harm.
pub fn cmap(random: &mut Random, harm: Harm) -> Vec<u8> {
    let colours = match random.below(8) {
        0 => 256,
        1 => random.below(257),
        _ => random.below(9),
    };
    let length = if harm == Harm::Colours { *random.pick(&BAD_LENGTHS) } else { 3 * colours };
    let values = *random.pick(&[1, 2, 256]);
    (0..length).map(|_| random.below(values) as u8).collect()
}

/// Once in three times a CMAP, and always where its length is to be bad.
fn cmap_chunk(random: &mut Random, harm: Harm) -> Option<Vec<u8>> {
    let there = harm == Harm::Colours || random.once_in(3);
    there.then(|| chunk(b"CMAP", &cmap(random, harm)))
}

/// Whether a first frame has a BODY and a delta: half of them a BODY, a third a delta, the others both.
const FIRSTS: [(bool, bool); 6] = [(true, false), (true, false), (true, false), (true, true), (false, true), (false, true)];

/// A first frame with a BODY, with a delta, or with both, of which the BODY counts; one whose BODY is harmed has no delta.
fn first_frame(random: &mut Random, sizes: Sizes, harm: Harm) -> Vec<u8> {
    let packed = random.once_in(2);
    let (body, delta) = if harm == Harm::Body { (true, false) } else { *random.pick(&FIRSTS) };
    let mut parts = vec![chunk(b"BMHD", &first_bmhd(random, sizes, packed, harm))];
    let mut behind: Vec<&[u8; 4]> = vec![b"DLTA", b"ANHD", b"BMHD", b"CMAP"];
    if body {
        parts.push(chunk(b"BODY", &first_body(random, sizes, packed, harm)));
        behind.push(b"BODY");
    }
    if delta {
        let harmed = random.once_in(2);
        parts.extend(delta_chunks(random, sizes, if harmed { harm } else { Harm::None }, true));
    }
    if harm == Harm::Missing && random.once_in(3) {
        parts.remove(random.below(parts.len()));
    }
    let colours = if random.once_in(3) { harm } else { Harm::None };
    parts.extend(cmap_chunk(random, colours));
    mix(random, &mut parts, &behind);
    form(b"ILBM", &parts)
}

fn first_bmhd(random: &mut Random, sizes: Sizes, packed: bool, harm: Harm) -> Vec<u8> {
    let mut header = bmhd(sizes, u8::from(packed));
    header[9] = *random.pick(&[0, 0, 2, 3, 255]);
    if harm == Harm::PictureHeader {
        match random.below(4) {
            0 => damage(random, &mut header),
            1 => header[random.below(4)] = random.byte(),
            2 => header[random.from_to(8, 10)] = random.below(10) as u8,
            _ => header[9] = 1,
        }
    }
    header
}

fn first_body(random: &mut Random, sizes: Sizes, packed: bool, harm: Harm) -> Vec<u8> {
    let values = *random.pick(&[1, 2, 256]);
    let frame: Vec<u8> = (0..sizes.frame()).map(|_| random.below(values) as u8).collect();
    let mut body = if packed { ragged_body(random, &frame, sizes) } else { plain_body(&frame, sizes) };
    if harm == Harm::Body {
        damage(random, &mut body);
    } else if random.once_in(4) {
        body.push(random.byte());
    }
    body
}

fn later_frame(random: &mut Random, sizes: Sizes, harm: Harm) -> Vec<u8> {
    let mut parts = delta_chunks(random, sizes, harm, false);
    parts.extend(cmap_chunk(random, harm));
    mix(random, &mut parts, &[b"BODY", b"DLTA", b"ANHD", b"BMHD", b"CMAP"]);
    form(b"ILBM", &parts)
}

/// ANHD and DLTA, one of them left away if that is the harm; the interleave of a first frame is any byte.
fn delta_chunks(random: &mut Random, sizes: Sizes, harm: Harm, first: bool) -> Vec<Vec<u8>> {
    let unfit = harm == Harm::AnimHeader && random.once_in(3);
    let method = if unfit { *random.pick(&METHODS) } else { any_method(random, sizes) };
    let time = random.number() as u32 >> random.below(32);
    let interleave = if first { random.byte() } else { *random.pick(&[0, 1, 2]) };
    let mut header = anhd(method, interleave, time);
    if harm == Harm::AnimHeader {
        match random.below(4) {
            0 => header.truncate(random.below(41)),
            1 => header[0] = random.below(9) as u8,
            2 => header[18] = *random.pick(&[3, 4, 127, 128, 255]),
            _ => header[random.from_to(20, 23)] = random.byte() >> random.below(8),
        }
    } else if random.once_in(5) {
        header.push(9);
    }
    let mut delta = random_delta(random, sizes, method);
    if harm == Harm::Delta {
        damage_delta(random, &mut delta, method);
    }
    let mut parts = vec![chunk(b"ANHD", &header), chunk(b"DLTA", &delta)];
    if harm == Harm::Missing {
        parts.remove(random.below(2));
    }
    parts
}

/// Sometimes changes the order, puts another chunk in, and puts a chunk of one of these ids behind all.
fn mix(random: &mut Random, parts: &mut Vec<Vec<u8>>, behind: &[&[u8; 4]]) {
    if random.once_in(3) && parts.len() > 1 {
        let by = random.from_to(1, parts.len() - 1);
        parts.rotate_left(by);
    }
    if random.once_in(4) {
        let at = random.below(parts.len() + 1);
        let length = random.below(4);
        let id = *random.pick(&[b"CAMG", b"FORM", b"ANNO"]);
        parts.insert(at, chunk(id, &random.bytes(length)));
    }
    if random.once_in(6) {
        let id = *random.pick(behind);
        parts.push(chunk(id, &random.bytes(3)));
    }
}

/// Sizes of small pictures.
pub fn small_sizes(random: &mut Random) -> Sizes {
    Sizes { width: random.from_to(1, 70), height: random.from_to(1, 12), planes: random.from_to(1, 8).min(random.from_to(1, 8)) }
}

/// Sizes of pictures, most of them small.
pub fn any_sizes(random: &mut Random) -> Sizes {
    match random.below(40) {
        0..=2 => tall_sizes(random),
        3 => wide_sizes(random),
        _ => small_sizes(random),
    }
}

/// Sizes of wide pictures, whose records have numbers of two and three bytes.
pub fn wide_sizes(random: &mut Random) -> Sizes {
    Sizes { width: random.from_to(300, 1024), height: random.from_to(20, 200), planes: random.from_to(1, 4) }
}

/// Sizes of tall and narrow pictures.
pub fn tall_sizes(random: &mut Random) -> Sizes {
    Sizes { width: *random.pick(&[1, 16, 17, 40]), height: random.from_to(100, 1024), planes: random.from_to(1, 2) }
}
