//! The writer of method 5 deltas.
use super::{need, Answer, Refusal::*, Sizes};
use crate::faults::broken;

/// The shortest run of one new value that is worth a Same.
const LEAST_SAME: usize = 4;
const MOST_OPS: usize = 255;

/// Writes the delta that turns the old frame into the new one, and answers its length.
pub fn write_delta(width: u64, height: u64, planes: u64, old: &[u8], new: &[u8], out: &mut [u8]) -> Answer<usize> {
    let sizes = Sizes::new(width, height, planes).ok_or(OutsideLimits)?;
    need(old.len() == sizes.frame() && new.len() == sizes.frame(), BufferLength)?;
    let delta = delta(old, new, sizes);
    out.get_mut(..delta.len()).ok_or(NoRoom)?.copy_from_slice(&delta);
    Ok(delta.len())
}

fn delta(old: &[u8], new: &[u8], sizes: Sizes) -> Vec<u8> {
    let mut list = vec![0; 64];
    list.reserve(sizes.frame() + sizes.frame() / 8);
    let planes = old.chunks_exact(sizes.plane()).zip(new.chunks_exact(sizes.plane()));
    for (plane, (old, new)) in planes.enumerate() {
        if old != new {
            let place = list.len() as u32;
            list[4 * plane..4 * plane + 4].copy_from_slice(&place.to_be_bytes());
            write_plane(old, new, sizes.row(), &mut list);
        }
    }
    list
}

fn write_plane(old: &[u8], new: &[u8], row: usize, list: &mut Vec<u8>) {
    let (mut was, mut is) = (Vec::new(), Vec::new());
    for column in 0..row {
        was.clear();
        is.clear();
        was.extend(old[column..].iter().step_by(row));
        is.extend(new[column..].iter().step_by(row));
        write_column(&was, &is, list);
    }
}

fn write_column(old: &[u8], new: &[u8], list: &mut Vec<u8>) {
    let start = list.len();
    list.push(0);
    let mut ops = Ops { count: 0, list };
    ops.changes(old, new);
    let most = if broken("ops-past-255") { MOST_OPS + 1 } else { MOST_OPS };
    if ops.count > most {
        ops.count = 0;
        ops.list.truncate(start + 1);
        ops.uniqs(if broken("whole-column-short") { &new[..new.len() - 1] } else { new });
    }
    let count = ops.count as u8;
    list[start] = count;
}

/// The ops of a column, counted.
struct Ops<'a> {
    count: usize,
    list: &'a mut Vec<u8>,
}

impl Ops<'_> {
    /// Skips and stretches up to the last changed row.
    fn changes(&mut self, old: &[u8], new: &[u8]) {
        let mut at = 0;
        while let Some(gap) = (at..old.len()).position(|y| old[y] != new[y]) {
            self.skips(gap);
            at += gap;
            let length = (at..old.len()).take_while(|&y| old[y] != new[y]).count();
            let end = at + length;
            at += self.stretch(&new[at..end], &new[end..]);
        }
    }

    /// A stretch of changed rows; answers how many rows it went down.
    fn stretch(&mut self, rows: &[u8], after: &[u8]) -> usize {
        let least = if broken("same-of-three") { 3 } else { LEAST_SAME };
        let (mut written, mut at) = (0, 0);
        while at < rows.len() {
            let value = rows[at];
            let mut run = rows[at..].iter().take_while(|&&x| x == value).count();
            if broken("same-past-stretch") && at + run == rows.len() && run >= least {
                run += after.iter().take_while(|&&x| x == value).count();
            }
            if run >= least {
                self.uniqs(&rows[written..at]);
                self.sames(run, value);
                written = at + run;
            }
            at += run;
        }
        if written < at {
            self.uniqs(&rows[written..]);
        }
        at
    }

    fn skips(&mut self, rows: usize) {
        for count in cut(rows, if broken("skip-of-128") { 128 } else { 127 }) {
            self.count += 1;
            self.list.push(count);
        }
    }

    fn sames(&mut self, rows: usize, value: u8) {
        for count in cut(rows, if broken("same-of-254") { 254 } else { 255 }) {
            self.count += 1;
            self.list.extend([0, count, value]);
        }
        if broken("same-of-none-written") && rows.is_multiple_of(255) {
            self.count += 1;
            self.list.extend([0, 0, value]);
        }
    }

    fn uniqs(&mut self, rows: &[u8]) {
        for part in rows.chunks(if broken("uniq-of-126") { 126 } else { 127 }) {
            self.count += 1;
            self.list.push(128 + part.len() as u8);
            self.list.extend_from_slice(part);
        }
        if broken("uniq-of-none-written") && rows.len().is_multiple_of(127) && !rows.is_empty() {
            self.count += 1;
            self.list.push(128);
        }
    }
}

/// So many rows in parts of the most and the rest; a rest of 0 is no part.
fn cut(rows: usize, most: usize) -> impl Iterator<Item = u8> {
    (0..rows).step_by(most).map(move |from| most.min(rows - from) as u8)
}
