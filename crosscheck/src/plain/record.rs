//! Step records: what a step changed, so that it can be taken back.
use super::{need, Answer, Refusal::*};
use crate::faults::broken;
use std::borrow::Cow;

/// A stretch of changed bytes, and the unchanged bytes before it.
struct Run {
    gap: usize,
    count: usize,
}

/// Bytes before and after a step.
pub type Change<'a> = [&'a [u8]; 2];

/// The runs of a change, how many bytes they have, and the bytes before it.
struct Changed<'a> {
    runs: Vec<Run>,
    bytes: usize,
    old: &'a [u8],
}

impl<'a> Changed<'a> {
    fn new([old, new]: Change<'a>) -> Changed<'a> {
        let runs = runs(old, new);
        let bytes = runs.iter().map(|run| run.count).sum();
        Changed { runs, bytes, old }
    }

    /// How long the list of its runs is.
    fn length(&self) -> usize {
        let numbers: usize = self.runs.iter().map(|run| number_length(run.gap as u64) + number_length(run.count as u64)).sum();
        number_length(self.runs.len() as u64) + numbers + self.bytes
    }

    /// Puts the list of its runs.
    fn put(&self, out: &mut Cursor) {
        out.number(self.runs.len() as u64);
        let mut place = 0;
        for run in &self.runs {
            place += run.gap;
            out.number(run.gap as u64);
            out.number(run.count as u64);
            out.bytes(&self.old[place..place + run.count]);
            place += run.count;
        }
    }
}

/// How many bytes of the picture changed, and how long the record is.
pub struct Written {
    pub changed: u64,
    pub length: u64,
}

/// Writes the record of a step that changes a picture and a map, or refuses and leaves the buffer as it was.
pub fn write(picture: Change, map: Change, frame: u64, place: u64, out: &mut [u8]) -> Answer<Written> {
    let map = if broken("new-colours-recorded") { [map[1], map[0]] } else { map };
    let (picture, map) = (Changed::new(picture), Changed::new(map));
    let lists: &[&Changed] = match () {
        _ if broken("record-without-map") => &[&picture],
        _ if broken("no-list-of-no-colours") && map.runs.is_empty() => &[&picture],
        _ if broken("map-before-picture") => &[&map, &picture],
        _ => &[&picture, &map],
    };
    let head = [frame, place];
    let length = head.iter().map(|&n| number_length(n)).sum::<usize>() + lists.iter().map(|list| list.length()).sum::<usize>();
    need(length <= out.len(), NoRoom)?;

    let mut out = Cursor { out, at: 0 };
    head.iter().for_each(|&n| out.number(n));
    lists.iter().for_each(|list| list.put(&mut out));
    let changed = picture.bytes + if broken("changed-counts-colours") { map.bytes } else { 0 };
    let length = length - if broken("record-length-of-picture") { map.length() } else { 0 };
    Ok(Written { changed: changed as u64, length: length as u64 })
}

/// The longest stretches of changed bytes, in order.
fn runs(old: &[u8], new: &[u8]) -> Vec<Run> {
    let mut runs = Vec::new();
    let (mut old, mut new) = (old, new);
    loop {
        let gap = equal_bytes(old, new);
        if gap == old.len() {
            return runs;
        }
        let count = changed_bytes(&old[gap..], &new[gap..]);
        runs.push(Run { gap, count });
        (old, new) = (&old[gap + count..], &new[gap + count..]);
    }
}

/// How many bytes are equal before the first that changed.
fn equal_bytes(old: &[u8], new: &[u8]) -> usize {
    prefix(old, new, |differences| differences, |x, y| x == y)
}

/// How many bytes changed before the first that is equal.
fn changed_bytes(old: &[u8], new: &[u8]) -> usize {
    const LOW: u64 = 0x0101_0101_0101_0101;
    let zero_bytes = |d: u64| d.wrapping_sub(LOW) & !d & (LOW << 7);
    prefix(old, new, zero_bytes, |x, y| x != y)
}

/// How many bytes come before the first that stops, eight at a time; `stops` has its lowest bit set in that byte.
#[inline(always)]
fn prefix(old: &[u8], new: &[u8], stops: impl Fn(u64) -> u64, goes_on: impl Fn(u8, u8) -> bool) -> usize {
    let mut at = 0;
    for (x, y) in old.chunks_exact(8).zip(new.chunks_exact(8)) {
        let stop = stops(word(x) ^ word(y));
        if stop != 0 {
            return at + stop.trailing_zeros() as usize / 8;
        }
        at += 8;
    }
    at + old[at..].iter().zip(&new[at..]).take_while(|(&x, &y)| goes_on(x, y)).count()
}

fn word(bytes: &[u8]) -> u64 {
    u64::from_le_bytes(bytes.try_into().expect("eight bytes"))
}

/// Groups of seven bits that a number takes.
fn number_length(n: u64) -> usize {
    match n {
        0..=0x7f => 1,
        0x80..=0x3fff => 2,
        0x4000..=0x1f_ffff => 3,
        0x20_0000..=0xfff_ffff => 4,
        _ => 5,
    }
}

/// A place in a buffer that is long enough.
struct Cursor<'a> {
    out: &'a mut [u8],
    at: usize,
}

impl Cursor<'_> {
    fn number(&mut self, mut n: u64) {
        while n >= 128 {
            self.out[self.at] = n as u8 | 128;
            self.at += 1;
            n >>= 7;
        }
        self.out[self.at] = n as u8;
        self.at += 1;
    }

    fn bytes(&mut self, bytes: &[u8]) {
        self.out[self.at..self.at + bytes.len()].copy_from_slice(bytes);
        self.at += bytes.len();
    }
}

/// A list of runs that reads well for the bytes that it is to be put back into.
struct List<'a> {
    runs: u64,
    bytes: &'a [u8],
}

impl<'a> List<'a> {
    /// Takes a list for these bytes off the front; whether they are a map's is for faults alone.
    fn take(rest: &mut &'a [u8], now: &[u8], map: bool) -> Option<List<'a>> {
        let wrong = |fault: &str, map_fault: &str| broken(fault) || map && broken(map_fault);
        let runs = take_number(rest)?;
        let bytes = *rest;
        let mut left = now;
        for k in 0..runs {
            let gap = take_number(rest)? as usize;
            let count = take_number(rest)? as usize;
            let touches = gap == 0 && k > 0 && !wrong("zero-gap", "zero-gap-of-colours");
            let none = count == 0 && !wrong("zero-count", "zero-count-of-colours");
            if touches || none || gap + count > left.len() || count > rest.len() {
                return None;
            }
            let (now, below) = left[gap..].split_at(count);
            let (old, behind) = rest.split_at(count);
            if now.iter().zip(old).any(|(x, y)| x == y) && !wrong("equal-old-byte", "equal-old-colours") {
                return None;
            }
            (left, *rest) = (below, behind);
        }
        Some(List { runs, bytes })
    }

    /// Puts the old bytes back.
    fn put_back(&self, now: &mut [u8]) {
        let mut rest = self.bytes;
        let mut at = 0;
        for _ in 0..self.runs {
            at += take_number(&mut rest).expect("a gap") as usize;
            let count = take_number(&mut rest).expect("a count") as usize;
            let (old, behind) = rest.split_at(count);
            now[at..at + count].copy_from_slice(old);
            at += count;
            rest = behind;
        }
    }
}

/// The front of a record, which reads well for a picture, and what stands behind it.
pub struct Front<'a> {
    pub frame: u64,
    pub place: u64,
    picture: List<'a>,
    behind: &'a [u8],
}

impl<'a> Front<'a> {
    pub fn read(record: &'a [u8], shown: &[u8]) -> Option<Front<'a>> {
        let mut behind = record;
        let frame = take_number(&mut behind)?;
        let place = take_number(&mut behind)?;
        let picture = List::take(&mut behind, shown, false)?;
        Some(Front { frame, place, picture, behind })
    }

    /// Puts the picture's old bytes back.
    pub fn put_back(&self, shown: &mut [u8]) {
        self.picture.put_back(shown);
    }
}

/// A record that reads well for a picture and a map.
pub struct Past<'a> {
    pub front: Front<'a>,
    map: List<'a>,
}

/// Reads a whole record for the picture and the map that it is to be put back into.
pub fn read<'a>(record: &'a [u8], shown: &[u8], map: &[u8]) -> Answer<Past<'a>> {
    read_well(record, shown, map).ok_or(BadRecord)
}

fn read_well<'a>(record: &'a [u8], shown: &[u8], map: &[u8]) -> Option<Past<'a>> {
    let front = Front::read(record, shown)?;
    let mut rest = front.behind;
    if rest.is_empty() && broken("map-list-free") {
        rest = &[0];
    }
    let map = List::take(&mut rest, &read_for(map), true)?;
    let whole = rest.is_empty() || broken("bytes-behind-map-list");
    whole.then_some(Past { front, map })
}

/// The bytes that a map's list is read for: the map.
fn read_for(map: &[u8]) -> Cow<'_, [u8]> {
    match () {
        _ if broken("map-ends-at-767") => Cow::Borrowed(&map[..map.len() - 1]),
        _ if broken("map-ends-at-769") => Cow::Owned([map, &[0]].concat()),
        _ => Cow::Borrowed(map),
    }
}

impl Past<'_> {
    /// Puts the old bytes back.
    pub fn put_back(&self, shown: &mut [u8], map: &mut [u8]) {
        self.front.put_back(shown);
        match () {
            _ if broken("map-not-restored") => (),
            _ if broken("map-ends-at-769") => {
                let mut longer = read_for(map).into_owned();
                self.map.put_back(&mut longer);
                map.copy_from_slice(&longer[..map.len()]);
            }
            _ => self.map.put_back(map),
        }
    }
}

/// How long the parts of a record are: frame number, place and the picture's list, and the map's list.
pub fn parts(record: &[u8]) -> Option<[usize; 2]> {
    let mut rest = record;
    take_number(&mut rest)?;
    take_number(&mut rest)?;
    pass_list(&mut rest)?;
    Some([record.len() - rest.len(), rest.len()])
}

/// Takes a list off the front, whatever it is for.
fn pass_list(rest: &mut &[u8]) -> Option<()> {
    for _ in 0..take_number(rest)? {
        take_number(rest)?;
        let count = take_number(rest)? as usize;
        *rest = rest.get(count..)?;
    }
    Some(())
}

/// Takes a number off the front, if it is in its shortest form and below 2^32.
fn take_number(rest: &mut &[u8]) -> Option<u64> {
    let mut n = 0;
    for group in 0..5 {
        let (&byte, behind) = rest.split_first()?;
        *rest = behind;
        n |= u64::from(byte & 127) << (7 * group);
        if byte < 128 {
            let shortest = byte > 0 || group == 0 || broken("long-numbers");
            return (shortest && (n < 1 << 32 || broken("wide-numbers"))).then_some(n);
        }
    }
    None
}
