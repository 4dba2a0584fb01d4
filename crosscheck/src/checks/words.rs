//! Lists of words, of methods 2 and 3, in a later frame and in the first: every short list for small pictures, offsets and counts at their ends,
//! deltas of several planes cut at every byte and with pointers to every place, and known pictures.
use super::damaged::{one_frame, two_frames};
use super::{interleaves, play, Check};
use crate::files::{self, words, Method, LONG_WORDS, SHORT_WORDS, WORDS};
use crate::pair::Checked;
use crate::plain::Sizes;

/// An op: how many words it moves on by, and the count if it is a run.
pub type Op = (usize, Option<usize>);

/// Widths and heights of small pictures of one plane with a method: with no whole word; with one, alone and with a rest behind it; with two, each in a
/// row of its own, one of them over two rows with a rest behind it, and with short ones; with three, one of them over two rows, and with short ones.
const SMALL: [(usize, usize, Method); 9] = [
    (16, 1, LONG_WORDS),
    (16, 2, LONG_WORDS),
    (16, 3, LONG_WORDS),
    (16, 1, SHORT_WORDS),
    (32, 2, LONG_WORDS),
    (16, 5, LONG_WORDS),
    (16, 2, SHORT_WORDS),
    (48, 2, LONG_WORDS),
    (48, 1, SHORT_WORDS),
];

/// Widths and heights of pictures for offsets and counts at their ends, with a rest and without.
const MIDDLE: [(usize, usize); 5] = [(16, 1), (16, 3), (48, 3), (64, 9), (1, 127)];

pub fn run(check: &mut Check) -> Checked<()> {
    for (width, height, method) in SMALL {
        short_lists(check, Sizes { width, height, planes: 1 }, method)?;
    }
    for method in WORDS {
        for (width, height) in MIDDLE {
            ends(check, Sizes { width, height, planes: 1 }, method)?;
        }
        for planes in [1, 2, 8] {
            planes_and_pointers(check, Sizes { width: 16, height: 7, planes }, method)?;
        }
        known(check, method)?;
    }
    far(check)
}

/// The bytes of a list; its words are of bytes 1, 2, 3 and so on, and of an op's words there are no more than so many.
pub fn list(ops: &[Op], item: usize, most: usize) -> Vec<u8> {
    let (mut out, mut byte) = (Vec::new(), 0u8);
    for &(by, count) in ops {
        match count {
            None => out.extend(words::word_head(by)),
            Some(count) => out.extend(words::run_head(by, count)),
        }
        for _ in 0..count.unwrap_or(1).min(most) * item {
            byte = byte.wrapping_add(1);
            out.push(byte);
        }
    }
    out.extend(words::END);
    out
}

/// A delta of one list.
pub fn delta_of(list: &[u8]) -> Vec<u8> {
    let mut delta = vec![0; 32];
    delta[3] = 32;
    delta.extend_from_slice(list);
    delta
}

/// Plays the delta as a later frame, on a picture of any bytes, and as the first.
fn play_both(check: &mut Check, sizes: Sizes, method: Method, delta: &[u8]) -> Checked<()> {
    let body = check.random.bytes(sizes.frame());
    play(check, &two_frames(sizes, &body, method, delta))?;
    play(check, &one_frame(sizes, method, delta))
}

/// The list of no op, and every list of one to three ops, each of one word or of a run of at most one word more than the plane has, at any place up to
/// the first beyond it; lists of one and two ops are also cut at each byte of the last op and of the end.
fn short_lists(check: &mut Check, sizes: Sizes, method: Method) -> Checked<()> {
    let many = method.words(sizes);
    let counts = || (0..=many + 1).map(Some).chain([None]);
    let ops: Vec<Op> = (0..=many).flat_map(|by| counts().map(move |count| (by, count))).collect();
    play_both(check, sizes, method, &delta_of(&words::END))?;
    let mut lists: Vec<Vec<Op>> = vec![vec![]];
    for length in 1..=3 {
        lists = lists.iter().flat_map(|front| ops.iter().map(move |op| [&front[..], &[*op]].concat())).collect();
        for ops in &lists {
            let delta = delta_of(&list(ops, method.item, usize::MAX));
            play_both(check, sizes, method, &delta)?;
            let front = 32 + list(&ops[..length - 1], method.item, usize::MAX).len() - 2;
            for cut in front..if length < 3 { delta.len() } else { 0 } {
                play_both(check, sizes, method, &delta[..cut])?;
            }
        }
    }
    Ok(())
}

/// Numbers at the ends of what an offset or a count can be, and those around a number, up to the most.
fn around(number: usize, most: usize) -> Vec<usize> {
    let mut all = vec![0, 1, 2, number.saturating_sub(1), number, number + 1, 32_765, 32_766, 32_767, 32_768, 65_534, 65_535];
    all.retain(|n| *n <= most);
    all.sort_unstable();
    all.dedup();
    all
}

/// Each offset and count at its ends and around what the plane has, from its first word and from its last, alone and with an op behind it, with its
/// words and without them.
fn ends(check: &mut Check, sizes: Sizes, method: Method) -> Checked<()> {
    let many = method.words(sizes);
    let mut ops: Vec<Op> = around(many, 32_767).into_iter().map(|by| (by, None)).collect();
    for by in around(many, 32_766) {
        let left = many.saturating_sub(by);
        ops.extend(around(left, 65_535).into_iter().map(|count| (by, Some(count))));
    }
    let starts: [&[Op]; 2] = [&[], &[(many.saturating_sub(1), Some(0))]];
    let behinds: [&[Op]; 4] = [&[], &[(0, None)], &[(1, None)], &[(0, Some(0))]];
    for op in ops {
        for before in starts {
            for behind in behinds {
                for most in [0, many + 2] {
                    let list = list(&[before, &[op], behind].concat(), method.item, most);
                    play_both(check, sizes, method, &delta_of(&list))?;
                }
            }
        }
    }
    let whole = list(&[(0, Some(65_535))], method.item, usize::MAX);
    play_both(check, sizes, method, &delta_of(&whole))
}

/// A delta of as many lists as a picture can have planes, and one of zeros, cut at every byte; the first with each of its pointers at every place,
/// inside the pointers, at and inside the lists, and behind them, and with the last one that is read good and bad.
fn planes_and_pointers(check: &mut Check, sizes: Sizes, method: Method) -> Checked<()> {
    let mut delta = vec![0; 32];
    for plane in 0..8 {
        delta[4 * plane + 3] = delta.len() as u8;
        delta.extend(list(&[(plane % 2, Some(1 + plane / 4)), (0, None)], method.item, usize::MAX));
    }
    for cut in 0..=delta.len() {
        play_both(check, sizes, method, &delta[..cut])?;
        play_both(check, sizes, method, &vec![0; cut])?;
    }
    for last in [delta[4 * sizes.planes - 1], 31] {
        delta[4 * sizes.planes - 1] = last;
        for pointer in 0..8 {
            for place in (0..delta.len() as u32 + 3).chain([0x100, 0x2000, 0x20_0000, 0x2000_0000, 0x8000_0020, 0xffff_ffff]) {
                let mut delta = delta.clone();
                delta[4 * pointer..4 * pointer + 4].copy_from_slice(&place.to_be_bytes());
                play_both(check, sizes, method, &delta)?;
            }
        }
    }
    Ok(())
}

/// Films of known pictures, with a rest and without, by a BODY and by a delta.
fn known(check: &mut Check, method: Method) -> Checked<()> {
    for (width, height, planes) in [(16, 1, 1), (16, 3, 2), (48, 3, 1), (33, 9, 8), (64, 40, 2), (1, 127, 3)] {
        let sizes = Sizes { width, height, planes };
        let later = [(0, method), (1, method), (2, method)];
        interleaves::known_pictures(check, sizes, &later, |picture| interleaves::by_body(sizes, picture))?;
        interleaves::known_pictures(check, sizes, &later, |picture| interleaves::by_delta(sizes, method, 9, picture))?;
    }
    Ok(())
}

/// Heights of pictures 1,024 wide with a method: planes of 32,768 words, of a row less and of a row more, and of 65,536.
const FAR: [(usize, Method); 5] = [(1_024, LONG_WORDS), (512, SHORT_WORDS), (511, SHORT_WORDS), (513, SHORT_WORDS), (1_024, SHORT_WORDS)];

/// Lists that go as far as an op can, in planes that are as long.
fn far(check: &mut Check) -> Checked<()> {
    let lists: [&[Op]; 16] = [
        &[(32_767, None)],
        &[(32_766, None), (1, None)],
        &[(32_766, Some(0)), (0, None)],
        &[(32_766, Some(1)), (1, None)],
        &[(32_766, Some(2)), (0, None)],
        &[(32_766, Some(3))],
        &[(0, Some(32_767)), (1, None)],
        &[(0, Some(32_768)), (0, None)],
        &[(0, Some(32_769))],
        &[(1, Some(32_768))],
        &[(0, Some(65_535)), (1, None)],
        &[(1, Some(65_535)), (0, None)],
        &[(2, Some(65_535))],
        &[(32_766, Some(0)), (32_766, Some(0)), (3, None)],
        &[(32_767, None), (32_767, None), (2, None)],
        &[(32_766, Some(32_770)), (0, Some(1))],
    ];
    for (height, method) in FAR {
        let sizes = Sizes { width: 1_024, height, planes: 1 };
        for ops in lists {
            play_both(check, sizes, method, &delta_of(&list(ops, method.item, usize::MAX)))?;
        }
        far_pictures(check, sizes, method)?;
    }
    Ok(())
}

/// A film of pictures of which the second differs in the last word alone, the third in every word, and the fourth in every second one.
fn far_pictures(check: &mut Check, sizes: Sizes, method: Method) -> Checked<()> {
    let first = files::any_picture(&mut check.random, sizes, 256);
    let length = first.len();
    let changed = |from: &[u8], which: &dyn Fn(usize) -> bool| -> Vec<u8> {
        from.iter().enumerate().map(|(at, byte)| if which(at) { !byte } else { *byte }).collect()
    };
    let second = changed(&first, &|at| at + 1 == length);
    let third = changed(&second, &|_| true);
    let fourth = changed(&third, &|at| at / method.item % 2 == 1);
    let later = [(1, method); 3];
    let by_body = interleaves::by_body(sizes, &first);
    interleaves::known_film(check, sizes, &later, &[first, second, third, fourth], by_body)
}
