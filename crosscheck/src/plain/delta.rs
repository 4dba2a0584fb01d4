//! ANHD, the deltas of methods 5 and 7, and which deltas are of words.
use super::ops::Count;
use super::{be32, colours, iff, need, words, Answer, Refusal, Refusal::*, Sizes};
use crate::faults::broken;

/// What the items of a delta are.
#[derive(Clone, Copy, Debug, PartialEq, Eq)]
pub enum Items {
    /// Method 5: bytes that follow their ops.
    Bytes,
    /// Method 7, short: two bytes each, in a data list.
    Shorts,
    /// Method 7, long: four bytes each, in a data list.
    Longs,
    /// Method 2: words of four bytes that follow their offsets.
    LongWords,
    /// Method 3: words of two bytes that follow their offsets.
    ShortWords,
}

impl Items {
    /// What the items of a method with such option bits are.
    fn of(method: u8, bits: u64) -> Items {
        match (method, bits) {
            (2, _) if broken("method-2-short") => Items::ShortWords,
            (3, _) if broken("method-3-long") => Items::LongWords,
            (4, _) if broken("method-4-taken") => Items::LongWords,
            (2, _) => Items::LongWords,
            (3, _) => Items::ShortWords,
            (7, 0) => Items::Shorts,
            (7, _) => Items::Longs,
            _ => Items::Bytes,
        }
    }

    /// Whether they are words, as in methods 2 and 3.
    pub fn are_words(self) -> bool {
        matches!(self, Items::LongWords | Items::ShortWords)
    }

    /// How many columns a plane has; lists of words go down none.
    pub fn columns(self, sizes: Sizes) -> usize {
        match self {
            Items::Bytes => sizes.row(),
            Items::Shorts => sizes.row() / 2,
            Items::Longs => sizes.row() / 4,
            Items::LongWords | Items::ShortWords => 0,
        }
    }
}

/// What ANHD says of a frame.
pub struct Header {
    pub method: u64,
    pub time: u64,
    /// 1 is one frame back, 0 and 2 are two.
    pub interleave: u8,
    pub items: Items,
}

impl Header {
    /// Reads ANHD; the interleave of a first frame isn't looked at.
    pub fn read(anhd: &[u8], sizes: Sizes, first: bool) -> Answer<Header> {
        if broken("method-before-length") {
            need(anhd.first().is_none_or(|&method| method_read(method, first)), UnknownMethod)?;
        }
        need(anhd.len() >= 40, ShortAnhd)?;
        need(anhd.len() == 40 || !broken("anhd-exactly"), ShortAnhd)?;
        let (method, interleave, bits) = (anhd[0], anhd[18], be32(&anhd[20..]));
        let items = Items::of(method, bits);
        need(method_read(method, first), UnknownMethod)?;
        need(interleave_read(interleave) || !interleave_asked(items, first), UnknownInterleave)?;
        need(bits == 0 || bits_read(items, bits, first), UnknownOptions)?;
        let whole = sizes.row().is_multiple_of(4) || first && broken("first-odd-columns");
        let in_fours = items == Items::Longs || items == Items::LongWords && broken("words-odd-columns-refused");
        need(!in_fours || whole, OddLongColumns)?;
        Ok(Header { method: u64::from(method), time: be32(&anhd[14..]), interleave, items })
    }
}

/// Whether frames of this method are read, first ones and later ones alike.
fn method_read(method: u8, first: bool) -> bool {
    match method {
        0 => first && broken("first-method-0-taken"),
        2 => !(first && broken("first-method-2-refused")),
        3 => !(first && broken("first-method-3-refused")),
        4 => broken("method-4-taken"),
        5 => !(first && broken("first-method-5-refused")),
        7 => !(first && broken("first-method-7-refused")),
        _ => false,
    }
}

/// Whether these option bits may be set: bit 0 of method 7, for long data.
fn bits_read(items: Items, bits: u64, first: bool) -> bool {
    match items {
        Items::Shorts | Items::Longs if bits == 1 => true,
        Items::LongWords if bits == 1 && broken("words-long-bit") => true,
        _ if items.are_words() && broken("words-options-free") => true,
        _ if items.are_words() && first && broken("first-words-options-free") => true,
        _ => first && broken("first-options-free"),
    }
}

/// Whether the interleave is asked for: not in a first frame.
fn interleave_asked(items: Items, first: bool) -> bool {
    if items.are_words() && broken(if first { "first-words-interleave-asked" } else { "words-interleave-free" }) {
        return first;
    }
    !first || broken("first-interleave-asked")
}

/// Whether a later frame may have this interleave.
fn interleave_read(interleave: u8) -> bool {
    match interleave {
        1 => !broken("one-back-refused"),
        3 => broken("three-back-taken"),
        _ => interleave <= 2,
    }
}

/// A later frame: its header, its DLTA and its CMAP, if it has one.
pub struct Frame<'a> {
    pub header: Header,
    pub dlta: &'a [u8],
    cmap: Option<&'a [u8]>,
}

/// Finds the parts of a later frame and reads its header.
pub fn find(frame: &[u8], sizes: Sizes) -> Answer<Frame<'_>> {
    let [anhd, dlta, cmap] = iff::find(frame, [b"ANHD", b"DLTA", b"CMAP"])?;
    if let (Some(anhd), None, true) = (anhd, dlta, broken("header-before-missing-delta")) {
        Header::read(anhd, sizes, false)?;
    }
    let early = |refusal| colours::asked_first(cmap, refusal, false);
    let dlta = dlta.ok_or(early(NoDelta))?;
    let anhd = anhd.ok_or(early(length_first(dlta, NoDelta, "delta-length-before-31")))?;
    let header = Header::read(anhd, sizes, false).map_err(|refusal| early(length_first(dlta, refusal, "delta-length-before-32")))?;
    Ok(Frame { header, dlta, cmap })
}

impl<'a> Frame<'a> {
    /// The frame's colours.
    pub fn colours(&self, sizes: Sizes) -> Answer<&'a [u8]> {
        if broken("later-colours-not-read") {
            return Ok(&[]);
        }
        let asked = colours::read(self.cmap);
        if asked.is_err() {
            let shortest = if self.header.items.are_words() { 32 } else { 64 };
            need(self.dlta.len() >= shortest || !broken("colours-after-delta-length"), BadPointer)?;
            check_early(self.dlta, sizes, self.header.items, "colours-after-delta")?;
        }
        asked
    }
}

/// Walks the delta before its turn, if this fault is chosen.
pub fn check_early(dlta: &[u8], sizes: Sizes, items: Items, fault: &str) -> Answer<()> {
    if broken(fault) {
        check(dlta, sizes, items)?;
    }
    Ok(())
}

/// The refusal, or 41 if this fault is chosen and DLTA is under 32 bytes, too short for every method, as if its length were asked for before.
pub fn length_first(dlta: &[u8], refusal: Refusal, fault: &str) -> Refusal {
    if dlta.len() < 32 && broken(fault) {
        BadPointer
    } else {
        refusal
    }
}

/// Walks the whole delta and finds its first fault, or how many ops its lists have; those of words aren't counted.
pub fn check(dlta: &[u8], sizes: Sizes, items: Items) -> Answer<u64> {
    match items {
        Items::Bytes => walk::<1>(dlta, sizes, |_| ()),
        Items::Shorts => walk::<2>(dlta, sizes, |_| ()),
        Items::Longs => walk::<4>(dlta, sizes, |_| ()),
        Items::LongWords => words::check::<4>(dlta, sizes),
        Items::ShortWords => words::check::<2>(dlta, sizes),
    }
}

/// Draws the delta into a frame up to its first fault.
pub fn draw(dlta: &[u8], sizes: Sizes, items: Items, frame: &mut [u8]) -> Answer<()> {
    match items {
        Items::Bytes => draw_items::<1>(dlta, sizes, frame),
        Items::Shorts => draw_items::<2>(dlta, sizes, frame),
        Items::Longs => draw_items::<4>(dlta, sizes, frame),
        Items::LongWords => words::draw::<4>(dlta, sizes, frame),
        Items::ShortWords => words::draw::<2>(dlta, sizes, frame),
    }
}

/// Items for successive rows of a column, the first of them at a place of the frame.
enum Put<'a> {
    Uniq { at: usize, items: &'a [u8] },
    Same { at: usize, rows: usize, item: &'a [u8] },
}

fn draw_items<const W: usize>(dlta: &[u8], sizes: Sizes, frame: &mut [u8]) -> Answer<()> {
    let down = if broken("one-byte-down") { 1 } else { sizes.row() };
    let walked = walk::<W>(dlta, sizes, |put| match put {
        Put::Uniq { mut at, items } => {
            for item in items.chunks_exact(W) {
                frame[at..at + W].copy_from_slice(item);
                at += down;
            }
        }
        Put::Same { mut at, rows, item } => {
            let item: [u8; W] = item.try_into().expect("one item");
            for _ in 0..rows {
                frame[at..at + W].copy_from_slice(&item);
                at += down;
            }
        }
    });
    walked.map(drop)
}

/// Walks every list of a vertical delta of items of W bytes, and answers how many ops they have.
fn walk<'a, const W: usize>(dlta: &'a [u8], sizes: Sizes, mut put: impl FnMut(Put<'a>)) -> Answer<u64> {
    need(dlta.len() >= 64, BadPointer)?;
    let mut count = Count::default();
    for plane in 0..sizes.planes {
        if be32(&dlta[4 * plane..]) == 0 {
            count.not_read(sizes.row() / W);
            continue;
        }
        let ops = list_at(dlta, plane)?;
        let data = if W == 1 { &[] } else { list_at(dlta, plane + 8)? };
        count.list(dlta.len() - ops.len(), plane + 1 == sizes.planes);
        walk_plane::<W>(ops, data, sizes, plane * sizes.plane(), &mut count, &mut put)?;
    }
    count.not_there(&dlta[4 * sizes.planes..32]);
    Ok(count.total())
}

/// What stands from a pointer's place on.
fn list_at(dlta: &[u8], pointer: usize) -> Answer<&[u8]> {
    let at = be32(&dlta[4 * pointer..]) as usize;
    let low = broken("pointer-below-64") || at == 0 && pointer >= 8 && broken("data-pointer-0");
    need((64..=dlta.len()).contains(&at) || at < 64 && low, BadPointer)?;
    need(at < dlta.len() || !broken("pointer-at-end"), BadPointer)?;
    Ok(&dlta[at..])
}

/// Walks the list of a plane that begins at a place of the frame, and counts its ops.
fn walk_plane<'a, const W: usize>(
    mut ops: &'a [u8],
    mut data: &'a [u8],
    sizes: Sizes,
    at: usize,
    count: &mut Count,
    put: &mut impl FnMut(Put<'a>),
) -> Answer<()> {
    let row = sizes.row();
    let all_data = data;
    for column in 0..row / W {
        if broken("data-starts-anew") {
            data = all_data;
        }
        let (mut y, mut left) = (0, take_byte(&mut ops)?);
        while left > 0 {
            left -= 1;
            let op = usize::from(take_byte(&mut ops)?);
            let rows = match op {
                0 => usize::from(take_byte(&mut ops)?),
                1..=127 => op,
                _ => op - 128,
            };
            count.op(op, rows, column + 1 == row / W, ops.len());
            left += u8::from(rows == 0 && broken("none-not-counted"));
            if rows == 0 && none_misread::<W>(op, &mut ops, &mut data, &mut y, sizes.height)? {
                continue;
            }
            let rows = if rows == 0 && op == 0 && broken("same-of-none-256") { 256 } else { rows };
            let drawn = if rows == 0 && y < sizes.height && broken("same-of-none-drawn") { 1 } else { rows };
            let list = if W == 1 { &mut ops } else { &mut data };
            if broken("items-before-last-row") {
                let items = [W, 0, rows * W][usize::from(op > 0) + usize::from(op > 127)];
                need(items <= list.len(), DeltaTooShort)?;
            }
            let passes = y + rows > sizes.height;
            need(!passes || (1..=127).contains(&op) && broken("skip-past-last-row"), OpPastLastRow)?;
            let at = at + y * row + column * W;
            y += rows;
            match op {
                0 => put(Put::Same { at, rows: drawn, item: take(list, W)? }),
                1..=127 => (),
                _ => put(Put::Uniq { at, items: take(list, rows * W)? }),
            }
        }
    }
    Ok(())
}

/// The wrong readings of an op of none; true if nothing of the op is left.
fn none_misread<'a, const W: usize>(op: usize, ops: &mut &'a [u8], data: &mut &'a [u8], y: &mut usize, height: usize) -> Answer<bool> {
    need(!broken("none-refused"), OpPastLastRow)?;
    need(*y < height || !broken("none-at-end"), OpPastLastRow)?;
    if broken(if op == 0 { "same-of-none-down" } else { "uniq-of-none-down" }) && *y < height {
        *y += 1;
    }
    let list = if W == 1 { &mut *ops } else { data };
    if op > 0 {
        if broken("uniq-of-none-item") {
            take(list, W)?;
        }
        return Ok(false);
    }
    if broken("same-of-none-absent-item") && list.len() < W {
        *list = &[];
        return Ok(true);
    }
    if broken("same-of-none-item-inline") {
        take(ops, W)?;
        return Ok(true);
    }
    Ok(broken("same-of-none-no-item") || *y == height && broken("same-of-none-at-end"))
}

/// Takes a byte off the front.
fn take_byte(list: &mut &[u8]) -> Answer<u8> {
    let (&first, rest) = list.split_first().ok_or(DeltaTooShort)?;
    *list = rest;
    Ok(first)
}

/// Takes some bytes off the front.
pub fn take<'a>(list: &mut &'a [u8], count: usize) -> Answer<&'a [u8]> {
    need(count <= list.len(), DeltaTooShort)?;
    let (first, rest) = list.split_at(count);
    *list = rest;
    Ok(first)
}
