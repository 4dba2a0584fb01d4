//! The bench examples of document 01 that are about parts, ops of none, first pictures given as deltas, lists of words, ops counted, colours, and the
//! outside listings.
use super::delta::{check, draw, Items};
use super::*;
use crate::files;

const SMALL: Sizes = Sizes { width: 16, height: 2, planes: 1 };

/// A delta with its first list at 64.
fn delta_of(list: &[u8]) -> Vec<u8> {
    let mut dlta = vec![0; 64];
    dlta[3] = 64;
    dlta.extend_from_slice(list);
    dlta
}

fn drawn(list: &[u8]) -> Answer<Vec<u8>> {
    let mut frame = vec![0; 4];
    check(&delta_of(list), SMALL, Items::Bytes)?;
    draw(&delta_of(list), SMALL, Items::Bytes, &mut frame)?;
    Ok(frame)
}

/// A packed row of two bytes in a file, opened.
fn unpacked(body: &[u8]) -> Answer<[u8; 2]> {
    let sizes = Sizes { width: 16, height: 1, planes: 1 };
    let file = files::form(b"ANIM", &[files::picture_form(sizes, 1, body)]);
    let (mut a, mut b) = ([1; 2], [2; 2]);
    open(&file, [&mut a, &mut b, &mut [3; MAP]]).map(|_| a)
}

#[test]
fn numbers_of_a_record() {
    let mut out = [0xee; 6];
    assert_eq!(record::write([&[7; 4]; 2], [&[]; 2], 300, 127, &mut out).unwrap().length, 5);
    assert_eq!(out, [0xac, 2, 0x7f, 0, 0, 0xee]);
    let past = record::read(&out[..5], &[7; 4], &[8; MAP]).unwrap();
    assert_eq!((past.front.frame, past.front.place), (300, 127));
    assert_eq!(record::read(&[0x80, 0, 64, 0, 0], &[7; 4], &[8; MAP]).err(), Some(BadRecord));
}

#[test]
fn rows_of_byte_run_1() {
    assert_eq!(unpacked(&[0x80, 0xff, 7]), Ok([7, 7]));
    assert_eq!(unpacked(&[2, 1, 2, 3]), Err(BadBody));
}

#[test]
fn lists_of_method_5() {
    assert_eq!(drawn(&[1, 0x82, 0xaa, 0xbb, 0]), Ok(vec![0xaa, 0, 0xbb, 0]));
    assert_eq!(drawn(&[1, 0, 2, 0xcc, 0]), Ok(vec![0xcc, 0, 0xcc, 0]));
    assert_eq!(drawn(&[2, 1, 0x81, 0xdd, 0]), Ok(vec![0, 0, 0xdd, 0]));
    assert_eq!(drawn(&[1, 2, 0]), Ok(vec![0; 4]));
    assert_eq!(drawn(&[1, 3, 0]), Err(OpPastLastRow));
    assert_eq!(drawn(&[1, 0x82, 0xaa, 0xbb]), Err(DeltaTooShort));
    assert_eq!(drawn(&[]), Err(DeltaTooShort));
}

#[test]
fn ops_of_none() {
    assert_eq!(drawn(&[3, 0x80, 0x82, 0xaa, 0xbb, 0x80, 0]), Ok(vec![0xaa, 0, 0xbb, 0]));
    assert_eq!(drawn(&[3, 1, 0, 0, 0xcc, 0x81, 0xdd, 0]), Ok(vec![0, 0, 0xdd, 0]));
    assert_eq!(drawn(&[2, 2, 0, 0, 0xcc, 1, 0x81, 0xee]), Ok(vec![0, 0xee, 0, 0]));
    assert_eq!(drawn(&[0, 1, 0, 0]), Err(DeltaTooShort));
}

#[test]
fn pointer_into_the_pointers() {
    let mut dlta = delta_of(&[0, 0]);
    dlta[3] = 63;
    assert_eq!(check(&dlta, SMALL, Items::Bytes), Err(BadPointer));
}

#[test]
fn data_of_method_7() {
    let mut dlta = delta_of(&[1, 0x82, 0xaa, 0x11, 0xbb, 0x22]);
    dlta[35] = 66;
    let mut frame = vec![0; 4];
    assert_eq!(draw(&dlta, SMALL, Items::Shorts, &mut frame), Ok(()));
    assert_eq!(frame, [0xaa, 0x11, 0xbb, 0x22]);
}

#[test]
fn record_of_a_step() {
    let (old, new) = ([0; 4], [0xaa, 0, 0xbb, 0]);
    let mut out = [0xee; 11];
    let written = record::write([&old, &new], [&[]; 2], 2, 64, &mut out).unwrap();
    assert_eq!((written.changed, written.length), (2, 10));
    assert_eq!(out, [2, 0x40, 2, 0, 1, 0, 1, 1, 0, 0, 0xee]);
    let (mut back, mut map) = (new, [8; MAP]);
    record::read(&out[..10], &new, &map).unwrap().put_back(&mut back, &mut map);
    assert_eq!((back, map), (old, [8; MAP]));
    assert_eq!(record::read(&out[..9], &new, &map).err(), Some(BadRecord));
}

#[test]
fn record_of_a_step_with_colours() {
    let mut map = [8; MAP];
    let mut out = [0xee; 14];
    let written = record::write([&[0; 4], &[0, 1, 0, 0]], [&map[..6], &[9, 9, 8, 8, 8, 9]], 2, 64, &mut out).unwrap();
    assert_eq!((written.changed, written.length), (1, 14));
    assert_eq!(out, [2, 0x40, 1, 1, 1, 0, 2, 0, 2, 8, 8, 3, 1, 8]);
    assert_eq!(parts(&out), Some([6, 8]));
    colours::lay(&mut map, &[9, 9, 8, 8, 8, 9]);
    let mut picture = [0, 1, 0, 0];
    record::read(&out, &picture, &map).unwrap().put_back(&mut picture, &mut map);
    assert_eq!((picture, map), ([0; 4], [8; MAP]));
}

/// Whether such a list of a map's runs reads well behind a picture's list of none, where each byte of the map is 8.
fn map_list_reads(list: &[u8]) -> bool {
    record::read(&[&[2, 0x40, 0], list].concat(), &[0; 4], &[8; MAP]).is_ok()
}

#[test]
fn lists_of_a_map() {
    assert!(map_list_reads(&[0]) && map_list_reads(&[1, 0, 1, 9]) && map_list_reads(&[2, 0, 1, 9, 1, 1, 9]));
    assert!(map_list_reads(&[1, 0xff, 5, 1, 9]));
    for bad in [&[][..], &[1], &[1, 0, 1], &[1, 0, 1, 8], &[1, 0, 0], &[1, 0x80, 6, 1, 9], &[2, 0, 1, 9, 0, 1, 9], &[0, 0]] {
        assert!(!map_list_reads(bad), "{bad:?}");
    }
}

#[test]
fn written_deltas() {
    let mut out = vec![0; 100];
    assert_eq!(write_delta(16, 2, 1, &[0; 4], &[0xaa, 0, 0xbb, 0], &mut out), Ok(69));
    assert_eq!(&out[..69], delta_of(&[1, 0x82, 0xaa, 0xbb, 0]));
    assert_eq!(write_delta(16, 2, 1, &[7; 4], &[7; 4], &mut out), Ok(64));
    assert_eq!(&out[..64], [0; 64]);
}

/// A chunk's id and contents.
type Part<'a> = (&'a [u8; 4], &'a [u8]);

/// What opening leaves in A where the first frame has BMHD and these chunks; B is the same.
fn opened(chunks: &[Part]) -> Answer<[u8; 4]> {
    let mut parts = vec![files::chunk(b"BMHD", &files::bmhd(SMALL, 0))];
    parts.extend(chunks.iter().map(|(id, contents)| files::chunk(id, contents)));
    let file = files::form(b"ANIM", &[files::form(b"ILBM", &parts)]);
    let (mut a, mut b, mut map) = ([1; 4], [2; 4], [3; MAP]);
    let answer = open(&file, [&mut a, &mut b, &mut map]);
    assert_eq!((b, map), if answer.is_ok() { (a, [0; MAP]) } else { ([2; 4], [3; MAP]) });
    answer.map(|_| a)
}

#[test]
fn first_pictures_given_as_deltas() {
    let (anhd, dlta) = (files::anhd(files::BYTES, 77, 0), delta_of(&[1, 0x82, 0xaa, 0xbb, 0]));
    let [anhd, dlta]: [Part; 2] = [(b"ANHD", &anhd), (b"DLTA", &dlta)];
    let [short, body]: [Part; 2] = [(b"ANHD", &[5; 39]), (b"BODY", &[1, 2, 3, 4])];
    assert_eq!(opened(&[anhd, dlta]), Ok([0xaa, 0, 0xbb, 0]));
    assert_eq!(opened(&[dlta, anhd, body]), Ok([1, 2, 3, 4]));
    assert_eq!(opened(&[short, dlta, body]), Ok([1, 2, 3, 4]));
    assert_eq!(opened(&[short, dlta]), Err(ShortAnhd));
    assert_eq!(opened(&[dlta]), Err(NoDelta));
    assert_eq!(opened(&[anhd]), Err(NoPicture));
    assert_eq!(opened(&[anhd, (b"DLTA", &dlta.1[..68])]), Err(DeltaTooShort));
}

/// A delta of words with lists for its planes, the first at 32.
fn words_of(lists: &[&[u16]]) -> Vec<u8> {
    let mut dlta = vec![0; 32];
    for (plane, list) in lists.iter().enumerate() {
        dlta[4 * plane + 3] = dlta.len() as u8;
        dlta.extend(list.iter().flat_map(|word| word.to_be_bytes()));
    }
    dlta
}

/// What a delta of words makes of a black picture.
fn words_drawn(dlta: &[u8], sizes: Sizes, items: Items) -> Answer<Vec<u8>> {
    let mut frame = vec![0; sizes.frame()];
    check(dlta, sizes, items)?;
    draw(dlta, sizes, items, &mut frame)?;
    Ok(frame)
}

/// The words of a picture of one column that such a list of short words gives.
fn short_words(height: usize, list: &[u16]) -> Answer<Vec<u16>> {
    let frame = words_drawn(&words_of(&[list]), Sizes { width: 16, height, planes: 1 }, Items::ShortWords)?;
    Ok(frame.chunks_exact(2).map(|word| u16::from_be_bytes([word[0], word[1]])).collect())
}

const END: u16 = 0xffff;
/// The offset of a run that moves on by none.
const HERE: u16 = 0xfffe;

#[test]
fn lists_of_short_words() {
    assert_eq!(short_words(3, &[END]), Ok(vec![0; 3]));
    assert_eq!(short_words(3, &[1, 7, 1, 8, END]), Ok(vec![0, 7, 8]));
    assert_eq!(short_words(3, &[2, 7, 0, 8, END]), Ok(vec![0, 0, 8]));
    assert_eq!(short_words(3, &[HERE - 1, 2, 7, 8, 0, 9, END]), Ok(vec![0, 7, 9]));
    assert_eq!(short_words(3, &[HERE, 3, 5, 6, 7, HERE, 1, 8, END]), Ok(vec![5, 6, 8]));
    assert_eq!(short_words(3, &[HERE - 2, 0, 0, 7, END]), Ok(vec![0, 0, 7]));
    assert_eq!(short_words(3, &[HERE - 2, 0, 1, 7, END]), Err(WordPastPlane));
}

#[test]
fn order_in_an_op_of_words() {
    assert_eq!(short_words(3, &[]), Err(DeltaTooShort));
    assert_eq!(short_words(3, &[0, 7]), Err(DeltaTooShort));
    assert_eq!(short_words(3, &[3]), Err(WordPastPlane));
    assert_eq!(short_words(3, &[2]), Err(DeltaTooShort));
    assert_eq!(short_words(3, &[HERE - 3]), Err(WordPastPlane));
    assert_eq!(short_words(3, &[HERE - 3, 0, END]), Err(WordPastPlane));
    assert_eq!(short_words(3, &[HERE - 2]), Err(DeltaTooShort));
    assert_eq!(short_words(3, &[HERE - 2, 2]), Err(WordPastPlane));
    assert_eq!(short_words(3, &[HERE - 2, 1]), Err(DeltaTooShort));
    assert_eq!(short_words(3, &[HERE, 65_535]), Err(WordPastPlane));
}

#[test]
fn lists_of_long_words() {
    let long = |sizes, list: &[u16]| words_drawn(&words_of(&[list]), sizes, Items::LongWords);
    let [none, rest] = [1, 3].map(|height| Sizes { width: 16, height, planes: 1 });
    assert_eq!(long(rest, &[0, 0x102, 0x304, END]), Ok(vec![1, 2, 3, 4, 0, 0]));
    assert_eq!(long(rest, &[1, 0x102, 0x304, END]), Err(WordPastPlane));
    assert_eq!(long(rest, &[HERE, 2, 1, 2, 3, 4, END]), Err(WordPastPlane));
    assert_eq!(long(none, &[END]), Ok(vec![0; 2]));
    assert_eq!(long(none, &[0, 1, 2, END]), Err(WordPastPlane));
    assert_eq!(long(none, &[HERE, 0, END]), Err(WordPastPlane));
}

#[test]
fn planes_of_words() {
    let sizes = Sizes { width: 16, height: 2, planes: 3 };
    let mut dlta = words_of(&[&[1, 0x102, END], &[END], &[HERE, 1, 0x304, END]]);
    assert_eq!(words_drawn(&dlta, sizes, Items::ShortWords), Ok(vec![0, 0, 1, 2, 0, 0, 0, 0, 3, 4, 0, 0]));
    dlta[7] = 32;
    dlta[11] = 0;
    assert_eq!(words_drawn(&dlta, sizes, Items::ShortWords), Ok(vec![0, 0, 1, 2, 0, 0, 1, 2, 0, 0, 0, 0]));
    dlta[11] = 31;
    assert_eq!(words_drawn(&dlta, sizes, Items::ShortWords), Err(BadPointer));
    assert_eq!(words_drawn(&[0; 32], sizes, Items::LongWords), Ok(vec![0; 12]));
    assert_eq!(words_drawn(&[0; 31], sizes, Items::LongWords), Err(BadPointer));
}

/// How many ops a list of method 5 has for a picture with two columns of two rows.
fn ops_of(list: &[u8]) -> Answer<u64> {
    check(&delta_of(list), SMALL, Items::Bytes)
}

#[test]
fn ops_of_a_list() {
    assert_eq!(ops_of(&[0, 0]), Ok(0));
    assert_eq!(ops_of(&[1, 0x82, 0xaa, 0xbb, 0]), Ok(1));
    assert_eq!(ops_of(&[0, 2, 1, 0x81, 0xdd]), Ok(2));
    assert_eq!(ops_of(&[3, 0x80, 0, 0, 7, 1, 1, 0, 2, 9]), Ok(4));
    assert_eq!(ops_of(&[2, 2, 1, 0]), Err(OpPastLastRow));
    assert_eq!(ops_of(&[&[255][..], &[0x80; 255], &[255], &[0x80; 255]].concat()), Ok(510));
}

#[test]
fn ops_of_planes() {
    let sizes = Sizes { planes: 4, ..SMALL };
    let mut dlta = delta_of(&[2, 1, 0x81, 0xdd, 0, 1, 1]);
    (dlta[7], dlta[11], dlta[19]) = (64, 68, 64);
    assert_eq!(check(&dlta, sizes, Items::Bytes), Ok(2 + 2 + 1));
    assert_eq!(ops::most(&dlta, sizes, Items::Bytes), 255 * 2 * 3);
    assert_eq!(check(&[0; 64], sizes, Items::Shorts), Ok(0));
    assert_eq!(ops::most(&dlta, sizes, Items::Shorts), 255 * 3);
    assert_eq!(check(&words_of(&[&[1, 0x102, END]]), SMALL, Items::ShortWords), Ok(0));
    assert_eq!(ops::most(&dlta, sizes, Items::ShortWords), 0);
}

#[test]
fn ops_of_a_step() {
    let later = files::delta_form(files::BYTES, 0, 3, &delta_of(&[1, 0x82, 0xaa, 0xbb, 1, 0x80]));
    let file = files::form(b"ANIM", &[files::picture_form(SMALL, 0, &[0; 4]), later]);
    let ([mut a, mut b, mut work], mut map, mut rec) = ([[0; 4]; 3], [0; MAP], [0; 20]);
    let mut state = open(&file, [&mut a, &mut b, &mut map]).unwrap();
    assert_eq!(most_ops(&file, &state), Ok(Some(510)));
    let report = step_on(&file, &mut state, [&mut a, &mut b, &mut map], &mut work, &mut rec);
    assert_eq!(report, Ok(Some(Report { method: 5, time: 3, changed: 2, record_length: 10, ops: 2 })));
    assert_eq!(most_ops(&file, &state), Ok(None));
}

/// The first bytes of the map that opening leaves where the first frame has these CMAPs; the others are 0.
fn first_colours(cmaps: &[&[u8]]) -> Answer<[u8; 6]> {
    let mut form = files::picture_form(SMALL, 0, &[0; 4]);
    cmaps.iter().for_each(|cmap| form = files::coloured(&form, cmap));
    let mut map = [9; MAP];
    open(&files::form(b"ANIM", &[form]), [&mut [0; 4], &mut [0; 4], &mut map])?;
    let (front, others) = map.split_at(6);
    assert_eq!(others, [0; MAP - 6]);
    Ok(front.try_into().expect("six bytes"))
}

#[test]
fn colours_of_a_first_frame() {
    assert_eq!(first_colours(&[]), Ok([0; 6]));
    assert_eq!(first_colours(&[&[]]), Ok([0; 6]));
    assert_eq!(first_colours(&[&[1, 2, 3]]), Ok([1, 2, 3, 0, 0, 0]));
    assert_eq!(first_colours(&[&[1, 2, 3, 4, 5, 6], &[7, 8, 9], &[7]]), Ok([1, 2, 3, 4, 5, 6]));
    assert_eq!(first_colours(&[&[0; 768]]), Ok([0; 6]));
    for length in [1, 2, 4, 767, 769, 771] {
        assert_eq!(first_colours(&[&vec![1; length], &[1, 2, 3]]), Err(BadColours));
    }
}

#[test]
fn colours_of_later_frames() {
    let later = files::delta_form(files::BYTES, 0, 1, &[0; 64]);
    let first = files::coloured(&files::picture_form(SMALL, 0, &[0; 4]), &[1, 2, 3, 4, 5, 6]);
    let file = files::form(b"ANIM", &[first, files::coloured(&later, &[1, 9, 9]), later.clone(), files::coloured(&later, &[0; 4])]);
    let ([mut a, mut b, mut work], mut map, mut rec) = ([[0; 4]; 3], [7; MAP], [0; 20]);
    let mut state = open(&file, [&mut a, &mut b, &mut map]).unwrap();
    assert_eq!(map[..7], [1, 2, 3, 4, 5, 6, 0]);
    let report = step_on(&file, &mut state, [&mut a, &mut b, &mut map], &mut work, &mut rec).unwrap().unwrap();
    assert_eq!((report.changed, report.record_length, &rec[2..8], &map[..7]), (0, 8, &[0, 1, 1, 2, 2, 3][..], &[1, 9, 9, 4, 5, 6, 0][..]));
    let after = (state, map);
    assert!(step_on(&file, &mut state, [&mut a, &mut b, &mut map], &mut work, &mut [0; 20]).is_ok());
    assert_eq!(step_on(&file, &mut state, [&mut a, &mut b, &mut map], &mut work, &mut [0; 20]), Err(BadColours));
    assert_eq!((state.frame, map), (3, after.1));
    state = after.0;
    assert_eq!(step_back(&mut state, [&mut a, &mut b, &mut map], &rec[..8]), Ok(()));
    assert_eq!((state.frame, &map[..7]), (1, &[1, 2, 3, 4, 5, 6, 0][..]));
}

#[test]
fn outside_listings() {
    let vectors = crate::vectors::all().unwrap();
    for vector in &vectors {
        assert_eq!(list(&vector.file), vector.listing, "{}", vector.name);
    }
    assert_eq!(vectors.len(), 168);
}
