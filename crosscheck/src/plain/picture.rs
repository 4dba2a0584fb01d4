//! The first picture: BMHD, and BODY or else a delta on a black picture.
use super::delta::{self, Header};
use super::{be16, colours, iff, is_map, need, Answer, Refusal, Refusal::*, Screen, Sizes, MAX_FILE};
use crate::faults::broken;

/// The contents of a chunk, if it is there.
type Found<'a> = Option<&'a [u8]>;

/// What a first picture is given by.
enum Given<'a> {
    Body(&'a [u8]),
    Delta { anhd: &'a [u8], dlta: &'a [u8] },
}

impl Given<'_> {
    /// The refusal, or 41 if this fault is chosen and there is a delta under 32 bytes.
    fn length_first(&self, refusal: Refusal, fault: &str) -> Refusal {
        match self {
            Given::Body(_) => refusal,
            Given::Delta { dlta, .. } => delta::length_first(dlta, refusal, fault),
        }
    }
}

/// A file's first picture, not yet drawn.
pub struct First<'a> {
    pub sizes: Sizes,
    pub next: usize,
    pub end: usize,
    packed: bool,
    given: Given<'a>,
    cmap: Found<'a>,
}

/// Finds the first picture and reads its BMHD.
pub fn find(file: &[u8]) -> Answer<First<'_>> {
    need(file.len() as u64 <= MAX_FILE, FileTooLong)?;
    let end = iff::anim_end(file)?;
    let frame = iff::next_frame(&file[..end], 12)?;
    if frame.is_none() && broken("type-asked-last") {
        let other = iff::next_form(&file[..end], 12, |_| true)?;
        other.map(|other| read(&other, end)).transpose()?;
    }
    read(&frame.ok_or(NoPicture)?, end)
}

/// Walks the frame and reads its BMHD.
fn read<'a>(frame: &iff::Chunk<'a>, end: usize) -> Answer<First<'a>> {
    let [bmhd, body, anhd, dlta, cmap] = iff::find(frame.contents, [b"BMHD", b"BODY", b"ANHD", b"DLTA", b"CMAP"])?;
    need(body.or(anhd).is_some() || !broken("header-before-picture"), NoDelta)?;
    let bmhd = bmhd.ok_or(NoPicture)?;
    if body.or(dlta).is_some() {
        bmhd_early(bmhd)?;
    }
    let early = |refusal| colours::asked_first(cmap, refusal, true);
    let given = given(body, anhd, dlta).map_err(early)?;
    let asked = read_bmhd(bmhd, body.is_some() || !broken("compression-free"));
    let (sizes, packed) = asked.map_err(|refusal| early(given.length_first(refusal, "first-delta-length-before-24")))?;
    if let (Some(_), Some(anhd), true) = (body, anhd, broken("body-asks-header")) {
        Header::read(anhd, sizes, true)?;
    }
    Ok(First { sizes, next: frame.next, end, packed, given, cmap })
}

/// BODY, or where there is none the delta with its header.
fn given<'a>(body: Found<'a>, anhd: Found<'a>, dlta: Found<'a>) -> Answer<Given<'a>> {
    let body = body.filter(|body| !(body.is_empty() && broken("empty-body-passed-over")));
    match (body, dlta) {
        (Some(_), Some(dlta)) if broken("body-passed-over") => Ok(Given::Delta { anhd: anhd.ok_or(NoDelta)?, dlta }),
        (Some(body), _) => Ok(Given::Body(body)),
        (None, Some(_)) if broken("first-delta-refused") => Err(NoPicture),
        (None, Some(_)) if anhd.is_none() && broken("first-without-header-23") => Err(NoPicture),
        (None, Some(dlta)) => {
            let anhd = anhd.ok_or(delta::length_first(dlta, NoDelta, "first-delta-length-before-31"))?;
            Ok(Given::Delta { anhd, dlta })
        }
        (None, None) if anhd.is_some() && broken("first-without-delta-31") => Err(NoDelta),
        (None, None) => Err(NoPicture),
    }
}

/// Asks for 24, or for a part of it, before a first frame's 31, if such a fault is chosen.
fn bmhd_early(bmhd: &[u8]) -> Answer<()> {
    need(bmhd.len() == 20 || !broken("bmhd-length-before-31"), BadBmhd)?;
    need(bmhd.len() != 20 || sizes_in(bmhd).is_ok() || !broken("bmhd-sizes-before-31"), BadBmhd)?;
    need(read_bmhd(bmhd, true).is_ok() || !broken("bmhd-before-header"), BadBmhd)
}

/// The sizes in a BMHD of 20 bytes.
fn sizes_in(bmhd: &[u8]) -> Answer<Sizes> {
    Sizes::new(be16(bmhd), be16(&bmhd[2..]), u64::from(bmhd[8])).ok_or(BadBmhd)
}

/// The sizes in BMHD, and whether BODY is packed.
fn read_bmhd(bmhd: &[u8], compression_asked: bool) -> Answer<(Sizes, bool)> {
    need(bmhd.len() == 20, BadBmhd)?;
    let (masking, compression) = (bmhd[9], bmhd[10]);
    let sizes = sizes_in(bmhd)?;
    need(masking != 1 && (compression <= 1 || !compression_asked), BadBmhd)?;
    need(masking == 0 || !broken("masking-above-1"), BadBmhd)?;
    Ok((sizes, compression == 1))
}

impl<'a> First<'a> {
    /// Fills A and B with the picture and the map with its colours, or refuses and leaves all three as they were.
    pub fn fill(&self, [a, b, map]: Screen) -> Answer<()> {
        self.read_early("lengths-after-header")?;
        let length = self.sizes.frame();
        let refusal = self.given.length_first(BufferLength, "first-delta-length-before-12");
        need(a.len() == length && b.len() == length, colours::asked_first(self.cmap, refusal, true))?;
        let map_fits = is_map(map, "long-map-opened", "short-map-opened");
        if !map_fits {
            self.ask_colours("first-map-length-after-37")?;
        }
        need(map_fits, refusal)?;
        let drawn = match self.given {
            Given::Body(body) => self.draw_body(body, a),
            Given::Delta { anhd, dlta } => self.draw_delta(anhd, dlta, a),
        };
        if clears_map(&drawn) {
            map.fill(0);
        }
        let colours = drawn?;
        if !(matches!(self.given, Given::Delta { .. }) && broken("first-in-a-only")) {
            b.copy_from_slice(a);
        }
        colours::lay(map, &colours::front(map, colours, self.sizes.planes));
        Ok(())
    }

    /// Reads a first delta's header before its turn, if this fault is chosen.
    pub fn read_early(&self, fault: &str) -> Answer<()> {
        match self.given {
            Given::Delta { anhd, .. } if broken(fault) => Header::read(anhd, self.sizes, true).map(drop),
            _ => Ok(()),
        }
    }

    /// Asks for 37 before its turn, if this fault is chosen.
    pub fn ask_colours(&self, fault: &str) -> Answer<()> {
        if broken(fault) {
            self.colours()?;
        }
        Ok(())
    }

    /// The picture's colours.
    fn colours(&self) -> Answer<&'a [u8]> {
        match self.given {
            Given::Body(_) if broken("colours-beside-body-not-read") => Ok(&[]),
            Given::Delta { .. } if broken("first-delta-colours-not-read") => Ok(&[]),
            _ => colours::read(self.cmap),
        }
    }

    /// Draws BODY, and hands the colours back.
    fn draw_body(&self, body: &[u8], frame: &mut [u8]) -> Answer<&'a [u8]> {
        let colours = self.colours();
        if colours.is_err() && broken("colours-after-body") {
            self.unpack(body, &mut vec![0; frame.len()])?;
        }
        let colours = colours?;
        self.unpack(body, frame)?;
        Ok(colours)
    }

    /// Draws a delta on a black picture, and hands the colours back.
    fn draw_delta(&self, anhd: &[u8], dlta: &[u8], frame: &mut [u8]) -> Answer<&'a [u8]> {
        let asked = Header::read(anhd, self.sizes, true);
        let early = |refusal| colours::asked_first(self.cmap, refusal, true);
        let header = asked.map_err(|refusal| early(self.given.length_first(refusal, "first-delta-length-before-32")))?;
        let colours = self.colours();
        if colours.is_err() {
            delta::check_early(dlta, self.sizes, header.items, "first-colours-after-delta")?;
        }
        let colours = colours?;
        if broken("first-black-early") {
            frame.fill(0);
        }
        if !(broken("first-half-drawn") || header.items.are_words() && broken("first-words-half-drawn")) {
            delta::check(dlta, self.sizes, header.items)?;
        }
        if !broken("first-on-buffer") {
            frame.fill(if broken("first-on-ones") { 255 } else { 0 });
        }
        delta::draw(dlta, self.sizes, header.items, frame)?;
        Ok(colours)
    }

    /// Unpacks BODY into a frame, or refuses and leaves it as it was.
    fn unpack(&self, body: &[u8], frame: &mut [u8]) -> Answer<()> {
        if self.packed {
            self.unpack_packed(body, frame)
        } else {
            self.unpack_plain(body, frame)
        }
    }

    /// Where a row of BODY goes: each row has all its planes in turn.
    fn places(&self) -> impl Iterator<Item = usize> {
        let (sizes, row) = (self.sizes, self.sizes.row());
        let by_plane = broken("body-plane-by-plane");
        (0..sizes.height * sizes.planes).map(move |k| {
            let (y, plane) = (k / sizes.planes, k % sizes.planes);
            if by_plane {
                k * row
            } else {
                plane * sizes.plane() + y * row
            }
        })
    }

    fn unpack_plain(&self, body: &[u8], frame: &mut [u8]) -> Answer<()> {
        need(body.len() >= self.sizes.frame(), BadBody)?;
        need(body.len() == self.sizes.frame() || !broken("body-exactly"), BadBody)?;
        let row = self.sizes.row();
        for (at, from) in self.places().zip(body.chunks_exact(row)) {
            frame[at..at + row].copy_from_slice(from);
        }
        Ok(())
    }

    fn unpack_packed(&self, body: &[u8], frame: &mut [u8]) -> Answer<()> {
        let row = self.sizes.row();
        let mut rest = body;
        for _ in 0..self.sizes.height * self.sizes.planes {
            check_row(&mut rest, row)?;
        }
        let mut rest = body;
        for at in self.places() {
            draw_row(&mut rest, &mut frame[at..at + row]);
        }
        Ok(())
    }
}

/// Whether the map is cleared: if the picture is drawn.
fn clears_map(drawn: &Answer<&[u8]>) -> bool {
    match drawn {
        Ok(_) => !broken("opening-keeps-map"),
        Err(BadColours) if broken("refused-colours-clear-map") => true,
        Err(_) => broken("refused-opening-clears-map"),
    }
}

/// How many copies the byte 128 makes: none.
fn copies_of_128() -> usize {
    if broken("repeat-128") {
        129
    } else {
        0
    }
}

/// Passes over a packed row and takes it off the front.
fn check_row(rest: &mut &[u8], mut left: usize) -> Answer<()> {
    while left > 0 {
        let (&n, behind) = rest.split_first().ok_or(BadBody)?;
        let (taken, drawn) = match n {
            0..=127 => (usize::from(n) + 1, usize::from(n) + 1),
            128 if copies_of_128() == 0 => (0, 0),
            128 => (1, copies_of_128()),
            129..=255 => (1, 257 - usize::from(n)),
        };
        need(drawn <= left && taken <= behind.len(), BadBody)?;
        left -= drawn;
        *rest = &behind[taken..];
    }
    Ok(())
}

/// Unpacks a row that was checked and takes it off the front.
fn draw_row(rest: &mut &[u8], mut row: &mut [u8]) {
    while !row.is_empty() {
        let (n, behind) = (rest[0], &rest[1..]);
        match n {
            0..=127 => {
                let (here, below) = row.split_at_mut(usize::from(n) + 1);
                here.copy_from_slice(&behind[..here.len()]);
                *rest = &behind[here.len()..];
                row = below;
            }
            128 if copies_of_128() == 0 => *rest = behind,
            128..=255 => {
                let count = if n == 128 { copies_of_128() } else { 257 - usize::from(n) };
                let (here, below) = row.split_at_mut(count);
                here.fill(behind[0]);
                *rest = &behind[1..];
                row = below;
            }
        }
    }
}
