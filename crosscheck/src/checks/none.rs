//! Uniqs and Sames of none in every place of a column.
use super::damaged::two_frames;
use super::{play, Check};
use crate::files::columns::{self, Op};
use crate::files::VERTICAL;
use crate::pair::Checked;
use crate::plain::Sizes;

const NONE: [Op; 2] = [Op::Uniq(0), Op::Same(0)];
/// Skips of one and two rows, Uniqs and Sames of none, one and two.
const OPS: [Op; 8] = [Op::Uniq(0), Op::Same(0), Op::Skip(1), Op::Skip(2), Op::Uniq(1), Op::Uniq(2), Op::Same(1), Op::Same(2)];

/// Every list of one to three ops with one of none among them, and lists of 255 ops that are all, or all but the last, of none.
pub fn run(check: &mut Check) -> Checked<()> {
    for list in columns::short(&OPS, 3) {
        if list.iter().any(|op| NONE.contains(op)) {
            columns(check, &list)?;
        }
    }
    for last in [Op::Uniq(0), Op::Same(0), Op::Uniq(2)] {
        let mut list = NONE.repeat(127);
        list.push(last);
        columns(check, &list)?;
    }
    Ok(())
}

/// The list in the first and in the last of two columns of two rows, with items of each width, and with the last item whole, cut and missing.
fn columns(check: &mut Check, list: &[Op]) -> Checked<()> {
    for (method, last) in VERTICAL.into_iter().flat_map(|method| [(method, false), (method, true)]) {
        let sizes = Sizes { width: 16 * method.item, height: 2, planes: 1 };
        let columns = if last { [&[Op::Uniq(2)], list] } else { [list, &[Op::Uniq(2)]] };
        let delta = columns::delta(&columns, method.item);
        let body = check.random.bytes(sizes.frame());
        for missing in 0..=method.item {
            play(check, &two_frames(sizes, &body, method, &delta[..delta.len() - missing]))?;
        }
    }
    Ok(())
}
