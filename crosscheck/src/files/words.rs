//! Lists of words, as methods 2 and 3 have them.
use crate::random::Random;

/// The most words that one op moves on by, to one word and to a run.
const MOST_TO_WORD: usize = 32_767;
const MOST_TO_RUN: usize = 32_766;
/// The most words of a run.
const MOST_IN_RUN: usize = 65_535;

/// What ends a list.
pub const END: [u8; 2] = [255, 255];

/// The offset that moves on by so many words to one word.
pub fn word_head(by: usize) -> [u8; 2] {
    (by as u16).to_be_bytes()
}

/// The offset and the count of a run that moves on by so many words and has so many.
pub fn run_head(by: usize, count: usize) -> [u8; 4] {
    let ([a, b], [c, d]) = ((65_534 - by as u16).to_be_bytes(), (count as u16).to_be_bytes());
    [a, b, c, d]
}

/// The list of words of so many bytes that turns the old plane into the new one; bytes behind the last whole word must be equal.
pub fn list_between(old: &[u8], new: &[u8], item: usize) -> Vec<u8> {
    let changed: Vec<bool> = old.chunks_exact(item).zip(new.chunks_exact(item)).map(|(old, new)| old != new).collect();
    let mut list = Vec::new();
    let (mut place, mut at) = (0, 0);
    while let Some(gap) = changed[at..].iter().position(|changed| *changed) {
        let start = at + gap;
        let count = changed[start..].iter().take_while(|changed| **changed).count();
        at = start + count;
        for (k, words) in new[start * item..at * item].chunks(MOST_IN_RUN * item).enumerate() {
            put(&mut list, if k == 0 { start - place } else { 1 }, words, item);
        }
        place = at - 1;
    }
    list.extend(END);
    list
}

/// Moves on by so many words, with runs of none where one op can't, and puts one word or a run of them.
fn put(list: &mut Vec<u8>, mut by: usize, words: &[u8], item: usize) {
    let count = words.len() / item;
    while by > if count == 1 { MOST_TO_WORD } else { MOST_TO_RUN } {
        list.extend(run_head(MOST_TO_RUN, 0));
        by -= MOST_TO_RUN;
    }
    if count == 1 {
        list.extend(word_head(by));
    } else {
        list.extend(run_head(by, count));
    }
    list.extend_from_slice(words);
}

/// Any well-formed list for a plane of so many words; its bytes are below a number, and a turn is its last once in `calm` times.
pub fn random_list(random: &mut Random, words: usize, item: usize, values: usize, calm: usize) -> Vec<u8> {
    let mut list = Vec::new();
    let mut place = 0;
    while words > 0 && !random.once_in(calm) {
        let far = (words - place - 1).min(MOST_TO_RUN);
        let by = match random.below(8) {
            0 | 1 => 0,
            2 => far,
            3 => random.from_to(0, far),
            _ => random.from_to(0, far.min(9)),
        };
        place += by;
        let left = (words - place).min(MOST_IN_RUN);
        let count = match random.below(12) {
            0..=4 => None,
            5 | 6 => Some(0),
            7 => Some(left),
            8 => Some(random.from_to(1, left)),
            _ => Some(random.from_to(1, left.min(9))),
        };
        match count {
            None => list.extend(word_head(by)),
            Some(count) => list.extend(run_head(by, count)),
        }
        let count = count.unwrap_or(1);
        list.extend((0..count * item).map(|_| random.below(values) as u8));
        place += count.saturating_sub(1);
    }
    list.extend(END);
    list
}
