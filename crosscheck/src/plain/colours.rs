//! The colours of a frame, and the map that they go over.
use super::{need, Answer, Refusal, Refusal::*};
use crate::faults::broken;
use std::borrow::Cow;

/// Bytes of a colour.
const COLOUR: usize = 3;
/// Bytes of the map, 256 colours.
pub const MAP: usize = 256 * COLOUR;

/// The colours of a frame by its CMAP; without one there are none.
pub fn read(cmap: Option<&[u8]>) -> Answer<&[u8]> {
    let colours = cmap.unwrap_or_default();
    if let Some(misread) = misread(colours) {
        return misread;
    }
    need(colours.len().is_multiple_of(COLOUR) && colours.len() <= MAP, BadColours)?;
    need(cmap.is_none() || !colours.is_empty() || !broken("no-colours-refused"), BadColours)?;
    Ok(colours)
}

/// The wrong readings of a CMAP's length.
fn misread(colours: &[u8]) -> Option<Answer<&[u8]>> {
    let length = colours.len();
    let whole = length / COLOUR * COLOUR;
    match length {
        MAP if broken("all-colours-refused") => Some(Err(BadColours)),
        _ if length > MAP && broken("many-colours-cut") => Some(Ok(&colours[..MAP])),
        _ if length > MAP && broken("many-colours-passed-over") => Some(Ok(&[])),
        _ if length > 65_535 && broken("colours-by-low-bytes") => Some(read(Some(&colours[..length % 65_536]))),
        _ if whole < length && length < MAP && broken("odd-colours-cut") => Some(Ok(&colours[..whole])),
        _ if whole < length && length < MAP && broken("odd-colours-whole") => Some(Ok(colours)),
        _ => None,
    }
}

/// What the first bytes of a map become by these colours of a frame with so many planes; the bytes behind stay.
pub fn front<'a>(map: &[u8], colours: &'a [u8], planes: usize) -> Cow<'a, [u8]> {
    let colours = &colours[..colours.len().min(map.len())];
    let mut laid = match () {
        _ if colours.is_empty() && broken("map-dropped-without-colours") => vec![0; map.len()],
        _ if colours.is_empty() => return Cow::Borrowed(colours),
        _ if broken("from-colour-1") => [&map[..COLOUR], colours].concat(),
        _ if broken("colours-from-last") => [&map[..map.len() - colours.len()], colours].concat(),
        _ if broken("others-cleared") => [colours, &vec![0; map.len() - colours.len()]].concat(),
        _ if broken("colours-by-planes") => colours.iter().copied().take(COLOUR << planes).collect(),
        _ => return Cow::Borrowed(colours),
    };
    laid.truncate(map.len());
    Cow::Owned(laid)
}

/// Puts the first bytes of a map.
pub fn lay(map: &mut [u8], front: &[u8]) {
    map[..front.len()].copy_from_slice(front);
}

/// Puts the first bytes of a map for a refused answer, if this fault is chosen.
pub fn lay_refused<T>(answer: &Answer<T>, map: &mut [u8], front: &[u8], fault: &str) {
    if answer.is_err() && broken(fault) {
        lay(map, front);
    }
}

/// The refusal, or 37 if the colours are bad and a fault is chosen by which they are asked for before it.
pub fn asked_first(cmap: Option<&[u8]>, refusal: Refusal, first: bool) -> Refusal {
    let before = match (refusal, first) {
        (NoDelta, true) => broken("first-colours-before-31"),
        (BadBmhd, _) => broken("first-colours-before-24"),
        (BufferLength, _) => broken("first-colours-before-12"),
        (OddLongColumns, true) if broken("first-colours-before-36") => true,
        (_, true) => broken("first-colours-before-32"),
        (NoDelta, false) => broken("colours-before-31"),
        (OddLongColumns, false) if broken("colours-before-36") => true,
        (_, false) => broken("colours-before-32"),
    };
    if before && read(cmap).is_err() {
        BadColours
    } else {
        refusal
    }
}
