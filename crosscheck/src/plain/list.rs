//! The listing of a file.
use super::{frame_length, open, step_on, MAP};

const MAX_FILE: usize = 65_536;
const MAX_FRAME: usize = 16_384;

/// The whole output of the listing program.
pub fn list(file: &[u8]) -> String {
    if file.len() > MAX_FILE {
        return "too large\n".into();
    }
    let length = match frame_length(file) {
        Ok(length) if length > MAX_FRAME => return "too large\n".into(),
        Ok(length) => length,
        Err(refusal) => return format!("refused {}\n", refusal.number()),
    };
    let (mut a, mut b, mut work) = (vec![0; length], vec![0; length], vec![0; length]);
    let mut map = vec![0; MAP];
    let mut record = vec![0; 2 * (length + MAP) + 32];
    let mut state = match open(file, [&mut a, &mut b, &mut map]) {
        Ok(state) => state,
        Err(refusal) => return format!("refused {}\n", refusal.number()),
    };
    let mut lines = format!("picture {}x{}x{}\n", state.width, state.height, state.planes);
    loop {
        match step_on(file, &mut state, [&mut a, &mut b, &mut map], &mut work, &mut record) {
            Ok(Some(r)) => {
                lines += &format!("frame {} method {} time {} changed {} record {}\n", state.frame, r.method, r.time, r.changed, r.record_length)
            }
            Ok(None) => return lines + &format!("end {}\n", state.frame),
            Err(refusal) => return lines + &format!("refused {}\n", refusal.number()),
        }
    }
}
