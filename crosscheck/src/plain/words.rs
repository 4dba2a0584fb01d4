//! The deltas of methods 2 and 3: lists of words that go through a whole plane.
use super::delta::take;
use super::{be16, be32, need, Answer, Refusal, Refusal::*, Sizes};
use crate::faults::broken;

/// The bytes of the eight pointers.
const POINTERS: usize = 32;
/// The offset that ends a list, -1.
const END: usize = 0xffff;
/// The first offset that is negative, -32,768.
const NEGATIVE: usize = 0x8000;

/// Walks the whole delta of words of W bytes and finds its first fault, or that it has no ops that count.
pub fn check<const W: usize>(dlta: &[u8], sizes: Sizes) -> Answer<u64> {
    let mut ops = 0;
    walk::<W>(dlta, sizes, |_, _| ops += 1)?;
    Ok(if broken("ops-of-words") { ops } else { 0 })
}

/// Draws the delta of words of W bytes into a frame up to its first fault.
pub fn draw<const W: usize>(dlta: &[u8], sizes: Sizes, frame: &mut [u8]) -> Answer<()> {
    let mut drawn = vec![false; if broken("first-words-win") { frame.len() } else { 0 }];
    walk::<W>(dlta, sizes, |at, words| {
        if !draw_wrong::<W>(frame, sizes, at, words, &mut drawn) {
            frame[at..at + words.len()].copy_from_slice(words);
        }
    })
}

/// Walks every list; each word, or all words of a run, are put at a place of the frame.
fn walk<'a, const W: usize>(dlta: &'a [u8], sizes: Sizes, mut put: impl FnMut(usize, &'a [u8])) -> Answer<()> {
    need(dlta.len() >= shortest(sizes), BadPointer)?;
    need(!broken("words-pointers-first") || (0..sizes.planes).all(|plane| good_pointer(dlta, plane)), BadPointer)?;
    let mut place = 0;
    for plane in 0..if broken("words-pointers-all-read") { 8 } else { sizes.planes } {
        need(good_pointer(dlta, plane), BadPointer)?;
        let at = pointer(dlta, plane);
        if at == 0 {
            continue;
        }
        let list = &dlta[at..if broken("lists-apart") { next_list(dlta, at) } else { dlta.len() }];
        let mut walk = Walk::<W> { list, sizes, words: whole_words::<W>(sizes), place };
        if plane < sizes.planes && !(walk.words == 0 && broken("no-word-not-read")) {
            let start = plane * sizes.plane();
            walk.plane(|place, words| put(start + place * W, words))?;
        }
        place = if broken("place-runs-on") { walk.place } else { 0 };
    }
    Ok(())
}

/// The shortest DLTA's length.
fn shortest(sizes: Sizes) -> usize {
    match () {
        _ if broken("words-length-64") => 64,
        _ if broken("words-length-by-planes") => 4 * sizes.planes,
        _ => POINTERS,
    }
}

/// The pointer of a plane.
fn pointer(dlta: &[u8], plane: usize) -> usize {
    be32(&dlta[4 * plane..]) as usize
}

/// Whether the pointer of a plane is one that may stand there.
fn good_pointer(dlta: &[u8], plane: usize) -> bool {
    let least = if broken("words-pointer-64") { 64 } else { POINTERS };
    let last = if broken("words-pointer-at-end") { dlta.len() - 1 } else { dlta.len() };
    match pointer(dlta, plane) {
        0 => !broken("words-pointer-0-refused"),
        31 => broken("words-pointer-31"),
        at => (least..=last).contains(&at),
    }
}

/// Where the next list behind a place begins, or DLTA's end.
fn next_list(dlta: &[u8], at: usize) -> usize {
    (0..8).map(|plane| pointer(dlta, plane)).filter(|&other| other > at).min().unwrap_or(dlta.len()).min(dlta.len())
}

/// How many words fit whole into a plane.
fn whole_words<const W: usize>(sizes: Sizes) -> usize {
    match () {
        _ if broken("rest-reached") => sizes.plane().div_ceil(W),
        _ if broken("words-by-rows") => sizes.row() / W * sizes.height,
        _ => sizes.plane() / W,
    }
}

/// A list on its way through a plane of so many words.
struct Walk<'a, const W: usize> {
    list: &'a [u8],
    sizes: Sizes,
    words: usize,
    place: usize,
}

impl<'a, const W: usize> Walk<'a, W> {
    /// Walks on to the end of the list.
    fn plane(&mut self, mut put: impl FnMut(usize, &'a [u8])) -> Answer<()> {
        loop {
            if self.list.is_empty() && broken("list-without-end") {
                return Ok(());
            }
            let offset = self.number("long-offsets")?;
            if offset == END && !broken("minus-1-a-run") {
                return Ok(());
            }
            if is_word(offset) {
                let (at, word) = self.word(offset)?;
                put(at, word);
            } else {
                let (at, words) = self.run(offset)?;
                put(at, words);
            }
            if self.place + 1 == self.words && broken("list-ends-with-plane") {
                return Ok(());
            }
        }
    }

    /// Moves on by an offset that isn't negative, and takes the word that goes there; the place stays on it.
    fn word(&mut self, offset: usize) -> Answer<(usize, &'a [u8])> {
        need(W <= self.list.len() || !broken("data-before-move"), DeltaTooShort)?;
        let at = self.move_on(offset, self.place + offset == self.words && broken("word-just-beyond"))?;
        need(at + 1 != self.words || !broken("last-word-refused"), past_plane())?;
        need(!self.over_rows(at, 1), past_plane())?;
        self.place = at + usize::from(broken("place-past-word"));
        let word = take(&mut self.list, W)?;
        Ok((at, self.within(at, word)))
    }

    /// Moves on by a negative offset, and takes a count and the words that go there; the place is then on the last of them.
    fn run(&mut self, offset: usize) -> Answer<(usize, &'a [u8])> {
        need(self.list.len() >= 2 || !broken("count-before-move"), DeltaTooShort)?;
        let by = run_moves(offset);
        let at = self.move_on(by, self.place + by == self.words && self.none_beyond())?;
        let count = self.count()?;
        need(count * W <= self.list.len() || !broken("data-before-run"), DeltaTooShort)?;
        need(count <= self.words - at || broken("run-past-plane"), past_plane())?;
        need(count == 0 || count != self.words - at || !broken("run-to-end-refused"), past_plane())?;
        need(!self.over_rows(at, count), past_plane())?;
        self.place = if count == 0 && broken("run-of-none-stays") { at - by } else { after_run(at, count) };
        let words = take(&mut self.list, if broken("run-bytes-wrap") { count * W % 65_536 } else { count * W })?;
        Ok((at, self.within(at, words)))
    }

    /// Moves on by so many words to a place in the plane, unless what is beyond is wrongly taken.
    fn move_on(&mut self, by: usize, taken: bool) -> Answer<usize> {
        self.place = match () {
            _ if broken("offset-from-start") => by,
            _ if broken("place-wraps") => (self.place + by) % 65_536,
            _ => self.place + by,
        };
        need(self.place < self.words || taken, past_plane())?;
        Ok(self.place)
    }

    /// Takes two bytes as a number, or four of which two count if method 2 is so misread.
    fn number(&mut self, long: &str) -> Answer<usize> {
        if W == 4 && broken(long) {
            take(&mut self.list, 2)?;
        }
        Ok(be16(take(&mut self.list, 2)?) as usize)
    }

    /// Takes the count of a run.
    fn count(&mut self) -> Answer<usize> {
        Ok(match self.number("long-counts")? {
            0 if broken("run-of-none-65536") => 65_536,
            count if count >= NEGATIVE && broken("count-signed") => 0,
            count => count,
        })
    }

    /// Whether a run of none just beyond the plane is wrongly taken.
    fn none_beyond(&self) -> bool {
        let taken = broken("run-of-none-beyond") || self.words == 0 && broken("no-word-run-of-none");
        taken && self.list.starts_with(&[0, 0])
    }

    /// Whether one of so many words lies over two rows and is wrongly refused.
    fn over_rows(&self, at: usize, count: usize) -> bool {
        let row = self.sizes.row();
        broken("word-over-rows-refused") && (at..at + count).any(|k| k * W / row != (k * W + W - 1) / row)
    }

    /// The bytes that lie in the plane: all of them unless words beyond it are wrongly taken.
    fn within(&self, at: usize, words: &'a [u8]) -> &'a [u8] {
        if broken("rest-reached") || broken("run-past-plane") || broken("word-just-beyond") {
            let room = self.sizes.plane().saturating_sub(at * W);
            return &words[..words.len().min(room)];
        }
        words
    }
}

/// The refusal of a word or move beyond the plane.
fn past_plane() -> Refusal {
    if broken("past-plane-43") {
        OpPastLastRow
    } else {
        WordPastPlane
    }
}

/// Whether an offset is followed by one word, and not by a run.
fn is_word(offset: usize) -> bool {
    match offset {
        0x7fff => !broken("most-offset-a-run"),
        0x8000 => broken("least-offset-a-word") || broken("offset-unsigned"),
        _ => offset < NEGATIVE || broken("offset-unsigned"),
    }
}

/// How far a negative offset moves on: by its absolute value less 2.
fn run_moves(offset: usize) -> usize {
    let more = match () {
        _ if broken("run-moves-one-more") => 1,
        _ if broken("run-moves-two-more") => 2,
        _ if broken("run-moves-four-more") => 4,
        _ => 0,
    };
    (END - 1).saturating_sub(offset) + more
}

/// The place after a run: on its last word, or where it began if it has none.
fn after_run(at: usize, count: usize) -> usize {
    match count {
        0 if broken("run-of-none-back") => at.saturating_sub(1),
        0 if broken("run-of-none-on") => at + 1,
        _ if broken("place-past-run") => at + count,
        _ if broken("place-at-run-start") => at,
        _ => at + count.saturating_sub(1),
    }
}

/// Draws words in a wrong way; false if no such fault is chosen.
fn draw_wrong<const W: usize>(frame: &mut [u8], sizes: Sizes, at: usize, words: &[u8], drawn: &mut [bool]) -> bool {
    if broken("first-words-win") {
        for (at, &byte) in (at..).zip(words) {
            if !drawn[at] {
                (frame[at], drawn[at]) = (byte, true);
            }
        }
        return true;
    }
    if broken("run-of-one-word") {
        frame[at..at + words.len()].chunks_exact_mut(W).for_each(|word| word.copy_from_slice(&words[..W]));
        return true;
    }
    if broken("words-reversed") {
        for (to, word) in frame[at..].chunks_exact_mut(W).zip(words.chunks_exact(W)) {
            to.iter_mut().zip(word.iter().rev()).for_each(|(to, from)| *to = *from);
        }
        return true;
    }
    if broken("words-go-down") && sizes.row().is_multiple_of(W) {
        let start = at - at % sizes.plane();
        for (k, word) in (at % sizes.plane() / W..).zip(words.chunks_exact(W)) {
            let at = start + k % sizes.height * sizes.row() + k / sizes.height * W;
            frame[at..at + W].copy_from_slice(word);
        }
        return true;
    }
    false
}
