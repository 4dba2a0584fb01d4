//! The outside files and their listings: those of the program `listing_vectors`.
use std::path::{Path, PathBuf};

/// A file and its listing.
pub struct Vector {
    pub name: String,
    pub file: Vec<u8>,
    pub listing: String,
}

/// All of them, in order.
pub fn all() -> Result<Vec<Vector>, String> {
    let folder = Path::new(env!("CARGO_MANIFEST_DIR")).join("../crates/listing_vectors");
    let listings = String::from_utf8_lossy(&read(folder.join("stdout"))?).into_owned();
    let mut vectors: Vec<Vector> = Vec::new();
    for line in listings.lines() {
        if line.ends_with(".anim") {
            let file = read(folder.join("data").join(line))?;
            vectors.push(Vector { name: line.into(), file, listing: String::new() });
        } else if let Some(last) = vectors.last_mut() {
            last.listing += line;
            last.listing.push('\n');
        }
    }
    Ok(vectors)
}

fn read(path: PathBuf) -> Result<Vec<u8>, String> {
    std::fs::read(&path).map_err(|e| format!("{}: {e}", path.display()))
}
