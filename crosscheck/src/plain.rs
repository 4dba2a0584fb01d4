//! Document 01, with the change requests that have landed, in plain Rust, written from the papers and not from the proved library.
//!
//! A refused call changes nothing that it was lent, but for `step_on`'s work buffer under `NoRoom`.
mod colours;
mod delta;
mod iff;
mod list;
mod ops;
mod picture;
mod record;
mod words;
mod writer;

pub use colours::MAP;
pub use list::list;
pub use record::parts;
pub use writer::write_delta;

use crate::faults::broken;
use record::Front;
use Refusal::*;

pub const MAX_SIDE: u64 = 1_024;
pub const MAX_PLANES: u64 = 8;
pub const MAX_FRAME: u64 = 1_000_000;
pub const MAX_FILE: u64 = 2_147_483_647;
/// The first place where a chunk can stand in FORM ANIM.
pub const FIRST_PLACE: u64 = 12;

/// The refusals with their numbers. 44 is retired: it isn't used again.
#[derive(Clone, Copy, Debug, PartialEq, Eq)]
pub enum Refusal {
    OutsideLimits = 11,
    BufferLength = 12,
    FileTooLong = 13,
    NoSuchRow = 14,
    ChunkPastParent = 21,
    NotFormAnim = 22,
    NoPicture = 23,
    BadBmhd = 24,
    BadBody = 25,
    NoDelta = 31,
    ShortAnhd = 32,
    UnknownMethod = 33,
    UnknownInterleave = 34,
    UnknownOptions = 35,
    OddLongColumns = 36,
    BadColours = 37,
    BadPointer = 41,
    DeltaTooShort = 42,
    OpPastLastRow = 43,
    WordPastPlane = 45,
    NoRoom = 51,
    LastFrame = 53,
    BadRecord = 61,
    OtherRecord = 62,
}

impl Refusal {
    pub fn number(self) -> u64 {
        self as u64
    }
}

/// A value, or the first refusal.
pub type Answer<T> = Result<T, Refusal>;

/// The refusal unless the condition holds.
fn need(holds: bool, refusal: Refusal) -> Answer<()> {
    if holds {
        Ok(())
    } else {
        Err(refusal)
    }
}

/// A picture's sizes within the limits.
#[derive(Clone, Copy, Debug, PartialEq, Eq)]
pub struct Sizes {
    pub width: usize,
    pub height: usize,
    pub planes: usize,
}

impl Sizes {
    pub fn new(width: u64, height: u64, planes: u64) -> Option<Sizes> {
        let widest = if broken("wide-by-one") { MAX_SIDE + 1 } else { MAX_SIDE };
        let within = (1..=widest).contains(&width) && (1..=MAX_SIDE).contains(&height) && (1..=MAX_PLANES).contains(&planes);
        within.then_some(Sizes { width: width as usize, height: height as usize, planes: planes as usize })
    }

    /// Bytes per row.
    pub fn row(self) -> usize {
        self.width.div_ceil(16) * 2
    }

    /// Bytes per plane.
    pub fn plane(self) -> usize {
        self.height * self.row()
    }

    /// Bytes per frame.
    pub fn frame(self) -> usize {
        self.planes * self.plane()
    }
}

/// Where a player stands.
#[derive(Clone, Copy, Debug, Default, PartialEq, Eq)]
pub struct State {
    pub width: u64,
    pub height: u64,
    pub planes: u64,
    pub frame: u64,
    pub next: u64,
    pub end: u64,
}

impl State {
    /// The sizes of a state that is within the limits.
    fn sizes(&self) -> Answer<Sizes> {
        let sizes = Sizes::new(self.width, self.height, self.planes).ok_or(OutsideLimits)?;
        need((1..=MAX_FRAME).contains(&self.frame), OutsideLimits)?;
        need(FIRST_PLACE <= self.next && self.next <= self.end && self.end <= MAX_FILE, OutsideLimits)?;
        Ok(sizes)
    }

    /// Odd frames are shown in A.
    pub fn shows_a(&self) -> bool {
        self.frame % 2 == 1
    }
}

/// What a step on reports of the new frame.
#[derive(Clone, Copy, Debug, PartialEq, Eq)]
pub struct Report {
    pub method: u64,
    pub time: u64,
    pub changed: u64,
    pub record_length: u64,
    /// The ops of the lists that were read; 0 where they are of words.
    pub ops: u64,
}

/// A, B and the map, as they are lent to a call.
pub type Screen<'a> = [&'a mut [u8]; 3];

/// Whether a map has its length, or one that is taken because this fault is chosen.
fn is_map(map: &[u8], longer: &str, shorter: &str) -> bool {
    map.len() == MAP || map.len() > MAP && broken(longer) || map.len() + 1 == MAP && broken(shorter)
}

/// Opens a file: A and B get its first picture, and the map its colours.
pub fn open(file: &[u8], screen: Screen) -> Answer<State> {
    let map_early = screen[2].len() != MAP && broken("map-length-before-24");
    let first = picture::find(file).map_err(|refusal| if refusal == BadBmhd && map_early { BufferLength } else { refusal })?;
    first.fill(screen)?;
    let sizes = first.sizes;
    Ok(State {
        width: sizes.width as u64,
        height: sizes.height as u64,
        planes: sizes.planes as u64,
        frame: 1,
        next: first.next as u64,
        end: first.end as u64,
    })
}

/// The length of the frames of a file, for which opening asks.
pub fn frame_length(file: &[u8]) -> Answer<usize> {
    let first = picture::find(file)?;
    first.read_early("length-asks-header")?;
    first.ask_colours("length-asks-colours")?;
    Ok(first.sizes.frame())
}

/// Asks for 11, 12 and 53 before a step on, with A, B and the work buffer of these lengths.
fn may_step_on(file: &[u8], state: &State, frames: [usize; 3], map: &[u8]) -> Answer<Sizes> {
    if broken("lengths-before-limits") {
        let row = state.width.div_ceil(16).wrapping_mul(2);
        let length = row.wrapping_mul(state.height).wrapping_mul(state.planes);
        need(frames.map(|n| n as u64) == [length; 3], BufferLength)?;
    }
    need(map.len() == MAP || !broken("map-length-before-11"), BufferLength)?;
    let sizes = state.sizes()?;
    need(state.end <= file.len() as u64, OutsideLimits)?;
    need(frames == [sizes.frame(); 3], BufferLength)?;
    let map_fits = is_map(map, "long-map-stepped-on", "short-map-stepped-on");
    need(map_fits || broken("map-length-after-53"), BufferLength)?;
    need(state.frame < MAX_FRAME || broken("last-frame-after-end"), LastFrame)?;
    need(map_fits, BufferLength)?;
    Ok(sizes)
}

/// The picture that a frame is built on: the shown one if its interleave is 1, else the hidden one. The black one is for a fault alone.
fn basis<'a>(interleave: u8, frame: u64, shown: &'a [u8], hidden: &'a [u8], black: &'a [u8]) -> &'a [u8] {
    match interleave {
        _ if frame == 2 && broken("frame-2-on-black") => black,
        _ if frame == 2 && broken("frame-2-on-shown") => shown,
        _ if frame == 2 && broken("frame-2-on-hidden") => hidden,
        1 if !broken("one-back-as-two") => shown,
        0 if broken("zero-as-one-back") => shown,
        2 if broken("two-as-one-back") => shown,
        _ => hidden,
    }
}

/// Steps on to the next frame; `None` is End.
pub fn step_on(file: &[u8], state: &mut State, [a, b, map]: Screen, work: &mut [u8], rec: &mut [u8]) -> Answer<Option<Report>> {
    let sizes = may_step_on(file, state, [a.len(), b.len(), work.len()], map)?;
    let Some(form) = iff::next_frame(&file[..state.end as usize], state.next as usize)? else {
        if broken("end-clears-map") {
            map.fill(0);
        }
        return Ok(None);
    };
    need(state.frame < MAX_FRAME, LastFrame)?;
    let frame = delta::find(form.contents, sizes)?;
    let (header, dlta) = (&frame.header, frame.dlta);
    let colours = frame.colours(sizes);
    if colours.is_err() && broken("refused-colours-change-map") {
        map.fill(0);
    }
    let colours = colours::front(map, colours?, sizes.planes);

    let (shown, hidden) = if state.shows_a() { (a, b) } else { (b, a) };
    let black = vec![0; if broken("frame-2-on-black") { sizes.frame() } else { 0 }];
    let basis = basis(header.interleave, state.frame + 1, shown, hidden, &black);
    if broken("drawn-before-checked") || header.items.are_words() && broken("words-half-drawn") {
        work.copy_from_slice(basis);
        delta::draw(dlta, sizes, header.items, work)?;
    }
    let mut ops = 0;
    if !(broken("first-delta-only") && state.frame > 1) {
        let checked = delta::check(dlta, sizes, header.items);
        colours::lay_refused(&checked, map, &colours, "refused-delta-changes-map");
        ops = checked?;
        if broken("full-record-hides-frame") {
            let mut drawn = basis.to_vec();
            delta::draw(dlta, sizes, header.items, &mut drawn)?;
            record::write([hidden, &drawn], [&map[..colours.len()], &colours], state.frame + 1, state.next, rec)?;
        }
        work.copy_from_slice(basis);
        delta::draw(dlta, sizes, header.items, work)?;
    }
    let before: &[u8] = if broken("record-of-shown") { basis } else { hidden };
    let written = record::write([before, work], [&map[..colours.len()], &colours], state.frame + 1, state.next, rec);
    colours::lay_refused(&written, map, &colours, "full-record-changes-map");
    let written = written?;
    hidden.copy_from_slice(work);
    if broken("one-back-in-both") && header.interleave == 1 {
        shown.copy_from_slice(work);
    }
    colours::lay(map, &colours);
    state.frame += 1;
    state.next = form.next as u64;
    if broken("ops-of-no-change") && written.changed == 0 {
        ops = 0;
    }
    Ok(Some(Report { method: header.method, time: header.time, changed: written.changed, record_length: written.length, ops }))
}

/// The most ops that the lists of the next frame can have, by its header and its pointers; `None` if there is no frame.
pub fn most_ops(file: &[u8], state: &State) -> Answer<Option<u64>> {
    let sizes = state.sizes()?;
    let Some(form) = iff::next_frame(&file[..state.end as usize], state.next as usize)? else {
        return Ok(None);
    };
    let frame = delta::find(form.contents, sizes)?;
    Ok(Some(ops::most(frame.dlta, sizes, frame.header.items)))
}

/// Steps back with the record of the step that led here.
pub fn step_back(state: &mut State, [a, b, map]: Screen, rec: &[u8]) -> Answer<()> {
    let length = state.sizes()?.frame();
    need(a.len() == length && b.len() == length, BufferLength)?;
    let map_fits = is_map(map, "long-map-stepped-back", "short-map-stepped-back");
    need(map_fits || broken("map-length-after-61"), BufferLength)?;
    let shown = if state.shows_a() { a } else { b };
    if broken("other-before-bad") {
        need(rec.first() == Some(&(state.frame as u8)), OtherRecord)?;
    }
    let past = record::read(rec, shown, map);
    if past.is_err() {
        map_list_late(state, shown, rec)?;
    }
    let past = past?;
    need(map_fits, BufferLength)?;
    let taken = leads_to(state, &past.front);
    if taken && !broken("back-counts-only") || broken("restored-before-62") {
        past.put_back(shown, map);
    }
    need(taken, OtherRecord)?;
    state.frame -= 1;
    state.next = past.front.place;
    Ok(())
}

/// Whether the numbers of a record are those of a step that led here.
fn leads_to(state: &State, front: &Front) -> bool {
    let last = if broken("place-at-next") { state.next } else { state.next - 1 };
    front.frame >= 2 && front.frame == state.frame && (FIRST_PLACE..=last).contains(&front.place)
}

/// What comes of a record that is refused with 61 where its map's list is read too late.
fn map_list_late(state: &State, shown: &mut [u8], rec: &[u8]) -> Answer<()> {
    let Some(front) = Front::read(rec, shown) else {
        return Ok(());
    };
    if broken("picture-before-map-list") {
        front.put_back(shown);
    }
    need(leads_to(state, &front) || !broken("other-before-map-list"), OtherRecord)
}

/// The place of a row of a plane in A and in B, of whose lengths it is told.
pub fn row_place(plane: u64, row: u64, state: &State, a: usize, b: usize) -> Answer<usize> {
    let sizes = state.sizes()?;
    if broken("far-row-before-lengths") {
        need(plane < MAX_PLANES && row < MAX_SIDE, NoSuchRow)?;
    }
    need(a == sizes.frame() && b == sizes.frame(), BufferLength)?;
    need(plane < state.planes && row < state.height, NoSuchRow)?;
    Ok((plane as usize * sizes.height + row as usize) * sizes.row())
}

/// Two bytes as a big-endian number.
fn be16(bytes: &[u8]) -> u64 {
    u64::from(u16::from_be_bytes([bytes[0], bytes[1]]))
}

/// Four bytes as a big-endian number.
fn be32(bytes: &[u8]) -> u64 {
    u64::from(u32::from_be_bytes([bytes[0], bytes[1], bytes[2], bytes[3]]))
}

#[cfg(test)]
mod tests;
