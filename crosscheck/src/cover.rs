//! The rules of the C interface over the plain functions: states, reports and lengths are numbers of eight bytes, low byte first.
use crate::faults::broken;
use crate::plain::{self, Answer, Report, Screen, State};

/// The number of a state, report or length slice of a wrong length.
const WRONG_LENGTH: u64 = 11;
const END: u64 = 1;

/// The number at such a place of numbers of eight bytes.
pub fn number_at(bytes: &[u8], k: usize) -> u64 {
    u64::from_le_bytes(bytes[8 * k..8 * k + 8].try_into().expect("eight bytes"))
}

pub fn state_in(bytes: &[u8]) -> State {
    let n = |k| number_at(bytes, k);
    State { width: n(0), height: n(1), planes: n(2), frame: n(3), next: n(4), end: n(5) }
}

pub fn state_bytes(s: State) -> Vec<u8> {
    numbers(&[s.width, s.height, s.planes, s.frame, s.next, s.end])
}

pub fn numbers(of: &[u64]) -> Vec<u8> {
    of.iter().flat_map(|n| n.to_le_bytes()).collect()
}

pub fn frame_size(file: &[u8], size: &mut [u8]) -> u64 {
    if size.len() != 8 {
        return WRONG_LENGTH;
    }
    let asked = plain::frame_length(file);
    if let Ok(n) = asked {
        size.copy_from_slice(&numbers(&[n as u64]));
    }
    number(asked)
}

pub fn open(file: &[u8], state: &mut [u8], screen: Screen) -> u64 {
    if state.len() != 48 {
        return WRONG_LENGTH;
    }
    let opened = plain::open(file, screen);
    state.copy_from_slice(&state_bytes(opened.unwrap_or_default()));
    number(opened)
}

pub fn step_on(file: &[u8], state: &mut [u8], screen: Screen, work: &mut [u8], record: &mut [u8], report: &mut [u8]) -> u64 {
    if state.len() != 48 || !is_report(report.len()) {
        return WRONG_LENGTH;
    }
    let mut now = state_in(state);
    match plain::step_on(file, &mut now, screen, work, record) {
        Ok(Some(r)) => {
            state.copy_from_slice(&state_bytes(now));
            report.copy_from_slice(&report_bytes(r)[..report.len()]);
            0
        }
        Ok(None) => END,
        Err(refusal) => refusal.number(),
    }
}

/// Whether a report has so many bytes.
fn is_report(length: usize) -> bool {
    match length {
        32 => broken("report-of-32"),
        40 => !broken("report-of-40-refused"),
        _ => false,
    }
}

fn report_bytes(r: Report) -> Vec<u8> {
    if broken("ops-before-record-length") {
        return numbers(&[r.method, r.time, r.changed, r.ops, r.record_length]);
    }
    numbers(&[r.method, r.time, r.changed, r.record_length, r.ops])
}

pub fn step_back(state: &mut [u8], screen: Screen, record: &[u8]) -> u64 {
    if state.len() != 48 {
        return WRONG_LENGTH;
    }
    let mut now = state_in(state);
    let taken = plain::step_back(&mut now, screen, record);
    if taken.is_ok() {
        state.copy_from_slice(&state_bytes(now));
    }
    number(taken)
}

/// A row's place, 0 if it is refused, and the number of the refusal.
pub fn row(plane: u64, row: u64, state: &[u8], a: &[u8], b: &[u8]) -> (u64, u64) {
    if state.len() != 48 {
        return (0, WRONG_LENGTH);
    }
    match plain::row_place(plane, row, &state_in(state), a.len(), b.len()) {
        Ok(at) => (at as u64, 0),
        Err(refusal) => (0, refusal.number()),
    }
}

pub fn write_delta(width: u64, height: u64, planes: u64, old: &[u8], new: &[u8], out: &mut [u8], length: &mut [u8]) -> u64 {
    if length.len() != 8 {
        return WRONG_LENGTH;
    }
    let written = plain::write_delta(width, height, planes, old, new, out);
    if let Ok(n) = written {
        length.copy_from_slice(&numbers(&[n as u64]));
    }
    number(written)
}

/// 0, or the refusal's number.
fn number<T>(answer: Answer<T>) -> u64 {
    answer.err().map_or(0, |refusal| refusal.number())
}
