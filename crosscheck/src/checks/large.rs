//! The largest pictures, of every method, as first pictures too.
use super::damaged::{one_frame, two_frames};
use super::{play, Check};
use crate::files::{self, LONGS, LONG_WORDS, METHODS, SHORTS, SHORT_WORDS};
use crate::pair::Checked;
use crate::plain::Sizes;

pub fn run(check: &mut Check) -> Checked<()> {
    let sizes = Sizes { width: 1024, height: 1024, planes: 8 };
    let old = check.random.bytes(sizes.frame());
    let body = files::plain_body(&old, sizes);
    for method in METHODS {
        let delta = files::random_delta(&mut check.random, sizes, method);
        play(check, &two_frames(sizes, &body, method, &delta))?;
        play(check, &one_frame(sizes, method, &delta))?;
        play(check, &one_frame(sizes, method, &files::delta_on_black(&old, sizes, method)))?;
    }
    let few = old.iter().map(|&b| if check.random.once_in(20_000) { !b } else { b }).collect::<Vec<u8>>();
    for method in [SHORTS, LONGS, LONG_WORDS, SHORT_WORDS] {
        let delta = files::delta_between(&old, &few, sizes, method);
        play(check, &two_frames(sizes, &body, method, &delta))?;
    }
    let other = check.random.bytes(sizes.frame());
    super::writer::write(check, sizes, &old, &few)?;
    super::writer::write(check, sizes, &old, &other)
}
