//! First pictures that are given as deltas: known ones and black ones, with a BODY beside them, with bad pointers, and with chunks that are
//! missing or there twice.
use super::{interleaves, ordered, Check};
use crate::files::{self, chunk, Method, METHODS};
use crate::pair::{Checked, Player};
use crate::plain::Sizes;
use crate::random::Random;

/// What an opening must answer: the picture of A and B, or a refusal.
type Wanted<'a> = Result<&'a [u8], u64>;

const WIDE: Sizes = Sizes { width: 64, height: 5, planes: 3 };
const SIZES: [Sizes; 5] = [
    Sizes { width: 1, height: 1, planes: 1 },
    WIDE,
    Sizes { width: 17, height: 2, planes: 8 },
    Sizes { width: 33, height: 9, planes: 2 },
    Sizes { width: 16, height: 300, planes: 1 },
];

/// Orders of four chunks.
const ORDERS: usize = 24;

pub fn run(check: &mut Check) -> Checked<()> {
    for sizes in SIZES {
        for method in files::fitting(sizes).filter(|method| method.words(sizes) > 0) {
            let first = First::new(&mut check.random, sizes, method);
            missing(check, &first)?;
            twice(check, &first)?;
            black(check, &first)?;
            pointers(check, &first)?;
        }
    }
    for method in METHODS {
        let first = First::new(&mut check.random, WIDE, method);
        every_byte(check, &first)?;
        beside_body(check, &first)?;
        films(check, method)?;
    }
    Ok(())
}

/// A picture by its chunks' contents; the BODY is that of another picture.
struct First {
    sizes: Sizes,
    method: Method,
    picture: Vec<u8>,
    other: Vec<u8>,
    bmhd: Vec<u8>,
    body: Vec<u8>,
    anhd: Vec<u8>,
    dlta: Vec<u8>,
}

impl First {
    fn new(random: &mut Random, sizes: Sizes, method: Method) -> First {
        let values = *random.pick(&[2, 256]);
        let mut picture = files::any_picture(random, sizes, values);
        let mut other: Vec<u8> = (0..sizes.frame()).map(|_| random.below(values) as u8).collect();
        (picture[0], other[0]) = (1, 0);
        let (body, dlta) = (files::plain_body(&other, sizes), files::delta_on_black(&picture, sizes, method));
        let anhd = files::anhd(method, random.byte(), 1);
        First { sizes, method, picture, other, bmhd: files::bmhd(sizes, 0), body, anhd, dlta }
    }

    /// The chunks BMHD, ANHD and DLTA.
    fn delta_chunks(&self) -> Vec<Vec<u8>> {
        self.with_delta(&self.dlta)
    }

    /// The same with another delta.
    fn with_delta(&self, dlta: &[u8]) -> Vec<Vec<u8>> {
        vec![chunk(b"BMHD", &self.bmhd), chunk(b"ANHD", &self.anhd), chunk(b"DLTA", dlta)]
    }

    /// Opens a frame of these chunks with A and B of any content, and holds what it leaves against what is wanted.
    fn open(&self, check: &mut Check, chunks: &[Vec<u8>], wanted: Wanted) -> Checked<()> {
        let file = files::form(b"ANIM", &[files::form(b"ILBM", chunks)]);
        let mut player = Player::new(&mut check.random, &file, self.sizes.frame());
        let before = (player.a.bytes().to_vec(), player.b.bytes().to_vec());
        let answer = player.open(&mut check.pair)?;
        let (a, b) = (player.a.bytes(), player.b.bytes());
        let holds = match wanted {
            Ok(picture) => answer == 0 && a == picture && b == picture,
            Err(refusal) => answer == refusal && (a, b) == (&before.0, &before.1) && player.state.bytes() == [0; 48],
        };
        if holds {
            return Ok(());
        }
        let wanted = wanted.err().unwrap_or(0);
        Err(format!("{:?}: opening answers {answer}, wanted {wanted}; A or B may be other than they should", self.sizes))
    }
}

/// Each set of the four chunks, in each order.
fn missing(check: &mut Check, first: &First) -> Checked<()> {
    for set in 0..1 << 4 {
        let [bmhd, body, anhd, dlta] = [1, 2, 4, 8].map(|bit| set & bit > 0);
        let wanted = match (bmhd, body, dlta, anhd) {
            (false, ..) | (_, false, false, _) => Err(23),
            (_, true, ..) => Ok(&first.other[..]),
            (_, _, _, false) => Err(31),
            _ => Ok(&first.picture[..]),
        };
        let mut chunks = first.delta_chunks();
        chunks.push(chunk(b"BODY", &first.body));
        let there = [bmhd, anhd, dlta, body];
        let chunks: Vec<Vec<u8>> = chunks.into_iter().zip(there).filter(|(_, there)| *there).map(|(chunk, _)| chunk).collect();
        for order in 0..ORDERS {
            first.open(check, &ordered(chunks.clone(), order), wanted)?;
        }
    }
    Ok(())
}

/// Each chunk twice, good behind bad and bad behind good, and one BODY that is bad beside a delta that is good.
fn twice(check: &mut Check, first: &First) -> Checked<()> {
    let parts = [(b"BMHD", 24), (b"ANHD", 32), (b"DLTA", 41)];
    for (k, (id, refusal)) in parts.into_iter().enumerate() {
        for bad in [vec![], vec![9; 3], vec![0; 19]] {
            let (mut before, mut behind) = (first.delta_chunks(), first.delta_chunks());
            before.insert(k, chunk(id, &bad));
            behind.insert(k + 1, chunk(id, &bad));
            first.open(check, &before, Err(refusal))?;
            first.open(check, &behind, Ok(&first.picture))?;
        }
    }
    for length in [0, 1, first.body.len() - 1] {
        let [short, whole] = [&first.body[..length], &first.body].map(|body| vec![chunk(b"BODY", body)]);
        let delta = first.delta_chunks();
        first.open(check, &[&delta[..], &short, &whole].concat(), Err(25))?;
        first.open(check, &[&delta[..], &whole, &short].concat(), Ok(&first.other))?;
        first.open(check, &[&short[..], &delta].concat(), Err(25))?;
    }
    Ok(())
}

/// Deltas that change nothing, with pointers that aren't read and bytes behind them.
fn black(check: &mut Check, first: &First) -> Checked<()> {
    let zeros = vec![0; first.sizes.frame()];
    let all = first.method.pointers();
    for (read, behind) in [(all, 0), (all, 9), (4 * first.sizes.planes, 0), (4 * first.sizes.planes, 9)] {
        let mut dlta = vec![0; read];
        dlta.resize(all + behind, 255);
        first.open(check, &first.with_delta(&dlta), Ok(&zeros))?;
    }
    Ok(())
}

/// Each of the eight or sixteen pointers to places that no list has; those that aren't read may be any.
fn pointers(check: &mut Check, first: &First) -> Checked<()> {
    let all = first.method.pointers();
    for pointer in 0..all / 4 {
        let read = pointer % 8 < first.sizes.planes && (pointer < 8 || first.method.number == 7);
        for place in [0, 1, all - 1, first.dlta.len() + 1, u32::MAX as usize] {
            let mut dlta = first.dlta.clone();
            dlta[4 * pointer..4 * pointer + 4].copy_from_slice(&(place as u32).to_be_bytes());
            if place > 0 || pointer >= 8 {
                let wanted = if read { Err(41) } else { Ok(&first.picture[..]) };
                first.open(check, &first.with_delta(&dlta), wanted)?;
            }
        }
    }
    Ok(())
}

/// Every masking, compression, method and interleave, and every highest and lowest byte of the option bits.
fn every_byte(check: &mut Check, first: &First) -> Checked<()> {
    for byte in 0..=255 {
        let mut with = |id: &[u8; 4], at: usize, wanted: Wanted| {
            let mut chunks = first.delta_chunks();
            let changed = chunks.iter_mut().find(|chunk| chunk.starts_with(id)).expect("one of the three");
            changed[8 + at] = byte;
            first.open(check, &chunks, wanted)
        };
        let good = Ok(&first.picture[..]);
        with(b"BMHD", 9, if byte == 1 { Err(24) } else { good })?;
        with(b"BMHD", 10, if byte > 1 { Err(24) } else { good })?;
        with(b"ANHD", 18, good)?;
        with(b"ANHD", 20, if byte > 0 { Err(35) } else { good })?;
        if byte > u8::from(first.method.number == 7) {
            with(b"ANHD", 23, Err(35))?;
        }
        if ![2, 3, 5, 7].contains(&byte) {
            with(b"ANHD", 0, Err(33))?;
        }
    }
    Ok(())
}

/// A BODY with ANHD and DLTA beside it, each good and bad in many ways, in each order.
fn beside_body(check: &mut Check, first: &First) -> Checked<()> {
    let with = |bytes: &[u8], at: usize, byte: u8| -> Vec<u8> {
        let mut bytes = bytes.to_vec();
        bytes[at] = byte;
        bytes
    };
    let (anhd, dlta) = (&first.anhd, &first.dlta);
    let headers = [vec![], anhd[..39].to_vec(), anhd.clone(), with(anhd, 0, 0), with(anhd, 18, 3), with(anhd, 20, 1)];
    let below = first.method.pointers() - 1;
    let deltas = [vec![], dlta[..below].to_vec(), dlta.clone(), with(dlta, 3, below as u8), dlta[..dlta.len() - 1].to_vec()];
    for header in &headers {
        for delta in &deltas {
            let chunks = [(b"BMHD", &first.bmhd), (b"BODY", &first.body), (b"ANHD", header), (b"DLTA", delta)];
            let chunks = chunks.map(|(id, contents)| chunk(id, contents));
            for order in 0..ORDERS {
                first.open(check, &ordered(chunks.to_vec(), order), Ok(&first.other))?;
            }
        }
    }
    Ok(())
}

/// Films that begin with a delta, with every order of the interleaves 0, 1 and 2 in three later frames.
fn films(check: &mut Check, method: Method) -> Checked<()> {
    let sizes = interleaves::SIZES;
    for number in 0..27 {
        let later = [number / 9, number / 3 % 3, number % 3].map(|interleave| (interleave, method));
        interleaves::known_pictures(check, sizes, &later, |picture| interleaves::by_delta(sizes, method, number, picture))?;
    }
    Ok(())
}
