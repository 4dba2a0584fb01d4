//! Listings through the library and in plain Rust: of the outside files, and of files at the listing program's two limits.
use super::{play, Check};
use crate::pair::{Checked, Player};
use crate::plain::Sizes;
use crate::{cover, files, plain, vectors};

const TOO_LARGE: &str = "too large\n";

pub fn run(check: &mut Check) -> Checked<()> {
    for vector in vectors::all()? {
        let listings = [("library", list(check, &vector.file)?), ("plain", plain::list(&vector.file))];
        for (side, listing) in listings {
            if listing != vector.listing {
                return Err(format!("the listing of {} differs\n  wanted: {}\n  {side}: {listing}", vector.name, vector.listing));
            }
        }
        play(check, &vector.file)?;
    }
    large(check)
}

/// Files of 65,536 bytes and one more, and frames of 16,384 bytes and of one row more, with a BODY that is too short and with a delta that is bad: its
/// ANHD empty, or missing, which is told before the length.
fn large(check: &mut Check) -> Checked<()> {
    let sizes = Sizes { width: 1024, height: 128, planes: 1 };
    let higher = Sizes { height: 129, ..sizes };
    let body = files::chunk(b"BODY", &check.random.bytes(sizes.frame()));
    let [anhd, dlta, empty] = [files::chunk(b"ANHD", &files::anhd(files::BYTES, 9, 0)), files::chunk(b"DLTA", &[0; 64]), files::chunk(b"ANHD", &[])];
    listed(check, sizes, &[&body], 65_536, "picture 1024x128x1\nend 1\n")?;
    listed(check, sizes, &[&body], 65_537, TOO_LARGE)?;
    listed(check, higher, &[&body], 65_536, TOO_LARGE)?;
    listed(check, sizes, &[&anhd, &dlta], 65_536, "picture 1024x128x1\nend 1\n")?;
    listed(check, sizes, &[&empty, &dlta], 65_536, "refused 32\n")?;
    listed(check, higher, &[&empty, &dlta], 65_536, TOO_LARGE)?;
    listed(check, higher, &[&dlta], 65_536, "refused 31\n")?;
    listed(check, higher, &[&dlta], 65_537, TOO_LARGE)
}

/// The listing of a first frame with BMHD and these chunks, in a file of such a length, on both sides.
fn listed(check: &mut Check, sizes: Sizes, chunks: &[&[u8]], length: usize, wanted: &str) -> Checked<()> {
    let mut parts = vec![files::chunk(b"BMHD", &files::bmhd(sizes, 0))];
    parts.extend(chunks.iter().map(|chunk| chunk.to_vec()));
    let mut file = files::form(b"ANIM", &[files::form(b"ILBM", &parts)]);
    file.resize(length, 0);
    for (side, listing) in [("library", list(check, &file)?), ("plain", plain::list(&file))] {
        if listing != wanted {
            return Err(format!("the listing of {length} bytes differs\n  wanted: {wanted}\n  {side}: {listing}"));
        }
    }
    Ok(())
}

/// The listing, with the library's steps.
fn list(check: &mut Check, file: &[u8]) -> Checked<String> {
    let mut player = Player::fitting(&mut check.random, file);
    let (refused, frame) = player.frame_size(&mut check.pair, 8)?;
    if file.len() > 65_536 || refused == 0 && cover::number_at(&frame, 0) > 16_384 {
        return Ok(TOO_LARGE.into());
    }
    let opened = player.open(&mut check.pair)?;
    if opened != 0 {
        return Ok(format!("refused {opened}\n"));
    }
    let state = player.now();
    let mut lines = format!("picture {}x{}x{}\n", state.width, state.height, state.planes);
    loop {
        let answer = player.step_on(&mut check.pair)?;
        let frame = player.now().frame;
        match answer {
            0 => {
                let n = |k| cover::number_at(player.report.bytes(), k);
                lines += &format!("frame {frame} method {} time {} changed {} record {}\n", n(0), n(1), n(2), n(3));
            }
            1 => return Ok(lines + &format!("end {frame}\n")),
            refusal => return Ok(lines + &format!("refused {refusal}\n")),
        }
    }
}
