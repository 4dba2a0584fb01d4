//! Chunks of IFF.
use super::{be32, need, Answer, Refusal::*};
use crate::faults::broken;

/// A chunk in a parent, and where the one after it would stand.
pub struct Chunk<'a> {
    pub id: &'a [u8],
    pub contents: &'a [u8],
    pub next: usize,
}

/// The chunk at a place; header, contents and pad lie inside the parent.
fn chunk_at(parent: &[u8], at: usize) -> Answer<Chunk<'_>> {
    let rest = &parent[at..];
    need(rest.len() >= 8, ChunkPastParent)?;
    let (header, rest) = rest.split_at(8);
    let length = be32(&header[4..]) as usize;
    let pad = if broken("pad-not-passed") { 0 } else { length % 2 };
    need(length + pad <= rest.len(), ChunkPastParent)?;
    Ok(Chunk { id: &header[..4], contents: &rest[..length], next: at + 8 + length + pad })
}

/// Where FORM ANIM ends.
pub fn anim_end(file: &[u8]) -> Answer<usize> {
    need(file.len() >= 12, ChunkPastParent)?;
    need(&file[..4] == b"FORM" && &file[8..12] == b"ANIM", NotFormAnim)?;
    let length = be32(&file[4..]) as usize;
    need(length >= 4 && length + 8 <= file.len(), ChunkPastParent)?;
    need(length.is_multiple_of(2) || length + 8 < file.len() || !broken("anim-pad-asked"), ChunkPastParent)?;
    Ok(length + 8)
}

/// The first FORM ILBM from a place on, its type left away.
pub fn next_frame(parent: &[u8], at: usize) -> Answer<Option<Chunk<'_>>> {
    let frame = next_form(parent, at, |kind| kind == b"ILBM")?;
    if frame.is_none() && broken("other-form-walked") {
        let other = next_form(parent, at, |_| true)?;
        other.map(|other| find(other.contents, [])).transpose()?;
    }
    Ok(frame)
}

/// The first FORM of such a type from a place on, its type left away.
pub fn next_form(parent: &[u8], mut at: usize, wanted: impl Fn(&[u8]) -> bool) -> Answer<Option<Chunk<'_>>> {
    while at < parent.len() {
        let chunk = chunk_at(parent, at)?;
        if chunk.id == b"FORM" && !(broken("short-form-passed") && chunk.contents.len() < 4) {
            need(chunk.contents.len() >= 4, ChunkPastParent)?;
            let (kind, contents) = chunk.contents.split_at(4);
            if wanted(kind) {
                return Ok(Some(Chunk { contents, ..chunk }));
            }
        }
        at = chunk.next;
    }
    Ok(None)
}

/// Whether the chunks found are enough: of BMHD, BODY, ANHD and DLTA those of one picture, or ANHD and DLTA. The last is CMAP, which need not be there.
fn enough(found: &[Option<&[u8]>]) -> bool {
    match found.iter().map(Option::is_some).collect::<Vec<bool>>()[..] {
        [bmhd, body, anhd, dlta, _] => bmhd && (body || anhd && dlta),
        [anhd, dlta, _] => anhd && dlta,
        _ => true,
    }
}

/// Whether a chunk counts, where one of its id may have been found before: only the first does.
fn counts(found: Option<&[u8]>, chunk: &Chunk) -> bool {
    let shorter = chunk.id == b"BODY" && found.is_some_and(|found| chunk.contents.len() < found.len());
    found.is_none() || broken("last-chunk-counts") || shorter && broken("shorter-body-counts") || chunk.id == b"CMAP" && counts_later(found, chunk)
}

/// The wrong choices of a CMAP behind another.
fn counts_later(found: Option<&[u8]>, chunk: &Chunk) -> bool {
    let length = found.map_or(0, <[u8]>::len);
    let good = |length: usize| length.is_multiple_of(3) && length <= 768;
    broken("last-cmap-counts")
        || length == 0 && broken("empty-cmap-passed-over")
        || chunk.contents.len() > length && broken("longer-cmap-counts")
        || !good(length) && good(chunk.contents.len()) && broken("good-cmap-counts")
}

/// The contents of the first chunk of each id, with the whole parent walked.
pub fn find<'a, const N: usize>(parent: &'a [u8], ids: [&[u8; 4]; N]) -> Answer<[Option<&'a [u8]>; N]> {
    let mut found = [None; N];
    let mut at = 0;
    while at < parent.len() {
        if broken("frame-not-walked") && enough(&found) {
            break;
        }
        let chunk = chunk_at(parent, at)?;
        let behind = chunk.id == b"CMAP" && broken("cmap-behind-passed-over") && enough(&found);
        for (slot, id) in found.iter_mut().zip(ids) {
            if chunk.id == id && counts(*slot, &chunk) && !behind {
                *slot = Some(chunk.contents);
            }
        }
        at = chunk.next;
    }
    Ok(found)
}
