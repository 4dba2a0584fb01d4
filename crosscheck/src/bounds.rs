//! How long buffers must be, as include/anim.h works it out, and what holds of every step on.
use crate::cover;
use crate::faults::broken;
use crate::pair::Checked;
use crate::plain::{self, Sizes, State};

/// The most bytes of a record's frame number, place and picture runs.
fn picture_room(frame: usize) -> usize {
    2 * frame + if broken("room-of-8") { 8 } else { 12 }
}

/// The most bytes of a record's map runs.
fn map_room() -> usize {
    if broken("map-room-of-1154") {
        1_154
    } else {
        1_539
    }
}

/// A record buffer that is long enough for every step.
pub fn record_room(frame: usize) -> usize {
    picture_room(frame) + map_room()
}

/// A delta buffer that is long enough for every delta.
pub fn delta_room(sizes: Sizes) -> usize {
    64 + sizes.row() * sizes.planes * (sizes.height * 3 / 2 + 2)
}

/// What holds of the answer to a step on from a state, by the record buffer and the report that it leaves: with the room for every step it isn't 51, and
/// a step that is taken has a record with both parts within their rooms, and reports no more ops than its frame can have. Neither comes where the state or
/// the report has a wrong length.
pub fn step_on(answer: u64, file: &[u8], before: &[u8], record: &[u8], report: &[u8]) -> Checked<()> {
    if ![0, 51].contains(&answer) {
        return Ok(());
    }
    if (before.len(), report.len()) != (48, 40) {
        return Err(format!("a step on with a state of {} bytes and a report of {} is answered {answer}", before.len(), report.len()));
    }
    let state = cover::state_in(before);
    let sizes = Sizes::new(state.width, state.height, state.planes).ok_or(format!("{answer} is answered for sizes outside the limits"))?;
    if answer == 51 {
        return short_of_room(sizes, record.len());
    }
    few_ops(file, &state, cover::number_at(report, 4))?;
    record.get(..cover::number_at(report, 3) as usize).map_or(Err("a record is longer than its buffer".into()), |record| short_parts(sizes, record))
}

/// A record was too long for a buffer, which must have had less than the room for every step.
fn short_of_room(sizes: Sizes, room: usize) -> Checked<()> {
    let enough = record_room(sizes.frame());
    if room < enough {
        return Ok(());
    }
    Err(format!("a step on with a record buffer of {room} bytes, where {enough} are enough, is refused with 51"))
}

/// A record was written, whose two parts must be within their rooms.
fn short_parts(sizes: Sizes, record: &[u8]) -> Checked<()> {
    let [picture, map] = plain::parts(record).ok_or("a record that was written can't be read")?;
    if picture <= picture_room(sizes.frame()) && map <= map_room() {
        return Ok(());
    }
    Err(format!("a record for a frame of {} bytes has parts of {picture} and {map} bytes", sizes.frame()))
}

/// A step to the next frame reported so many ops, which must be no more than the frame can have.
fn few_ops(file: &[u8], state: &State, ops: u64) -> Checked<()> {
    match plain::most_ops(file, state) {
        Ok(Some(most)) if ops <= most => Ok(()),
        Ok(Some(most)) => Err(format!("a step on reports {ops} ops, where its frame can have {most}")),
        other => Err(format!("a step on is taken where no frame can be read: {other:?}")),
    }
}
