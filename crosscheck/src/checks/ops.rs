//! The number of ops that a step reports, held against what its lists were made of.
use super::{words, Check};
use crate::files::columns::{self, Op};
use crate::files::{self, Method, BYTES, LONGS, LONG_WORDS, SHORTS, SHORT_WORDS, VERTICAL, WORDS};
use crate::pair::{Checked, Player};
use crate::plain::Sizes;

/// The ops that a step must report, or the number with which it must be refused.
type Wanted = Result<u64, u64>;

/// The most ops of a column.
const MOST: usize = 255;

pub fn run(check: &mut Check) -> Checked<()> {
    for method in VERTICAL {
        short_lists(check, method)?;
        columns_of_many(check, method)?;
        planes_read(check, method)?;
        lists_in_lists(check, method)?;
        lists_at_each_place(check, method)?;
        largest(check, method)?;
    }
    lists_of_words(check)?;
    one_film(check)
}

/// Sizes of a picture with so many columns of a method.
fn sizes_of(method: Method, columns: usize, height: usize, planes: usize) -> Sizes {
    Sizes { width: 8 * method.item * columns, height, planes }
}

/// A film of a black picture and of these deltas.
fn film(sizes: Sizes, deltas: &[(Method, Vec<u8>)]) -> Vec<u8> {
    let mut parts = vec![files::first_delta_form(sizes, BYTES, 0, &[0; 64])];
    parts.extend(deltas.iter().map(|(method, delta)| files::delta_form(*method, 0, 1, delta)));
    files::form(b"ANIM", &parts)
}

/// Steps on to this delta, for what is wanted.
fn counted(check: &mut Check, sizes: Sizes, method: Method, delta: Vec<u8>, wanted: Wanted) -> Checked<()> {
    let mut player = Player::new(&mut check.random, &film(sizes, &[(method, delta)]), sizes.frame());
    player.open_only(&mut check.pair)?;
    reports(check, &mut player, wanted).map_err(|e| format!("{e}\n  {sizes:?}, {method:?}"))
}

/// Steps on, for what is wanted.
fn reports(check: &mut Check, player: &mut Player, wanted: Wanted) -> Checked<()> {
    let answer = player.step_on(&mut check.pair)?;
    let reported = if answer == 0 { Ok(player.ops()) } else { Err(answer) };
    if reported == wanted {
        return Ok(());
    }
    Err(format!("a step on answers the ops or the refusal {reported:?}, wanted {wanted:?}"))
}

/// Every list of at most three ops, of none up to three rows, in the first and in the last of two columns of three rows.
fn short_lists(check: &mut Check, method: Method) -> Checked<()> {
    const OTHER: [Op; 2] = [Op::Skip(1), Op::Same(0)];
    let ops: Vec<Op> = (1..=3).map(Op::Skip).chain((0..=3).flat_map(|rows| [Op::Uniq(rows), Op::Same(rows)])).collect();
    let sizes = sizes_of(method, 2, 3, 1);
    for list in columns::short(&ops, 3) {
        let rows: usize = list.iter().map(|op| op.rows()).sum();
        let wanted = if rows > sizes.height { Err(43) } else { Ok((list.len() + OTHER.len()) as u64) };
        for columns in [[&list[..], &OTHER], [&OTHER, &list[..]]] {
            counted(check, sizes, method, columns::delta(&columns, method.item), wanted)?;
        }
    }
    Ok(())
}

/// Ops of each kind, of none and of one row, and all kinds in turn.
const KINDS: [&[Op]; 6] = [
    &[Op::Uniq(0)],
    &[Op::Same(0)],
    &[Op::Skip(1)],
    &[Op::Uniq(1)],
    &[Op::Same(1)],
    &[Op::Skip(1), Op::Uniq(0), Op::Same(1), Op::Same(0), Op::Uniq(1)],
];

/// A column of so many ops, these in turn.
fn column(kind: &[Op], many: usize) -> Vec<Op> {
    kind.iter().copied().cycle().take(many).collect()
}

/// Two columns of 0, 1, 254 and 255 ops each, of every kind.
fn columns_of_many(check: &mut Check, method: Method) -> Checked<()> {
    let many = [0, 1, MOST - 1, MOST];
    for (first, last) in many.into_iter().flat_map(|first| many.map(|last| (first, last))) {
        for kind in KINDS {
            let delta = columns::delta(&[column(kind, first), column(kind, last)], method.item);
            counted(check, sizes_of(method, 2, MOST, 1), method, delta, Ok((first + last) as u64))?;
        }
    }
    Ok(())
}

/// Pictures of one to eight planes with every set of planes that are read. Plane p's list has 2^p ops, so that the set itself is the number of ops; the
/// planes that aren't there have lists too.
fn planes_read(check: &mut Check, method: Method) -> Checked<()> {
    let mut all = vec![0; 64];
    for plane in 0..8 {
        let mut columns = [vec![], vec![]];
        columns[plane % 2] = column(KINDS[plane % 2], 1 << plane);
        let (ops, data) = columns::lists(&columns, method.item);
        files::place_lists(&mut all, plane, &ops, &data);
    }
    for (planes, set) in (1..=8).flat_map(|planes| (0..1 << planes).map(move |set| (planes, set))) {
        let mut delta = all.clone();
        for plane in (0..planes).filter(|plane| set >> plane & 1 == 0) {
            files::set_pointers(&mut delta, method, plane, (0, check.random.number() as u32));
        }
        counted(check, sizes_of(method, 2, 1, planes), method, delta, Ok(set))?;
    }
    Ok(())
}

/// A list in a delta: where its ops and its data begin, and how many ops it has.
struct List {
    ops: usize,
    data: usize,
    many: u64,
}

/// Three lists of two columns, the items of the second being the bytes of the first, and those of the third the bytes of the second.
fn nested(method: Method) -> (Vec<u8>, Vec<List>) {
    let (ops, data) = columns::lists(&[column(KINDS[0], 3), column(KINDS[5], 4)], method.item);
    let mut lists = vec![List { ops: 0, data: ops.len(), many: 7 }];
    let mut bytes = [ops, data].concat();
    for many in [1, 2] {
        bytes.resize(bytes.len().next_multiple_of(method.item), 0);
        let front = [2, 1, 128 + (bytes.len() / method.item) as u8];
        let last = [vec![many], vec![1; usize::from(many)]].concat();
        let items = if method == BYTES { front.len() } else { front.len() + last.len() };
        for list in &mut lists {
            list.ops += items;
            list.data += items;
        }
        lists.push(List { ops: 0, data: items, many: 2 + u64::from(many) });
        bytes = if method == BYTES { [&front[..], &bytes, &last].concat() } else { [&front[..], &last, &bytes].concat() };
    }
    (bytes, lists)
}

/// Four planes, each of which isn't read or has one of the lists that lie one in another, in every choice.
fn lists_in_lists(check: &mut Check, method: Method) -> Checked<()> {
    let (bytes, lists) = nested(method);
    for choice in 0..4usize.pow(4) {
        let mut delta = [vec![0; 64], bytes.clone()].concat();
        let mut wanted = 0;
        for plane in 0..4 {
            if let Some(list) = lists.get(choice >> (2 * plane) & 3) {
                files::set_pointers(&mut delta, method, plane, (64 + list.ops as u32, 64 + list.data as u32));
                wanted += list.many;
            }
        }
        counted(check, sizes_of(method, 2, 40, 4), method, delta, Ok(wanted))?;
    }
    Ok(())
}

/// Eight planes with lists in bytes that are all equal, so that one begins at each place: n is n Skips of n rows in every column, and 128 as many Uniqs
/// of none. The planes share one list, or begin a few bytes behind one another.
fn lists_at_each_place(check: &mut Check, method: Method) -> Checked<()> {
    for byte in [0, 1, 2, 3, 4, 5, 128] {
        for apart in [0, 1, 2, 3, 5, 8, 130] {
            let mut delta = vec![0; 64];
            delta.resize(64 + 7 * apart + 2 * (usize::from(byte) + 1), byte);
            let length = delta.len() as u32;
            for plane in 0..8 {
                files::set_pointers(&mut delta, method, plane, ((64 + plane * apart) as u32, length));
            }
            counted(check, sizes_of(method, 2, 25, 8), method, delta, Ok(8 * 2 * u64::from(byte)))?;
        }
    }
    Ok(())
}

/// Columns, heights and planes of small pictures.
const SMALL: [(usize, usize, usize); 5] = [(2, 1, 1), (2, 2, 8), (4, 3, 2), (6, 1, 3), (16, 5, 8)];

/// As many ops as there can be, 255 in every column of every plane: in small pictures, whose planes have lists of their own, and in the largest one,
/// whose planes share one list.
fn largest(check: &mut Check, method: Method) -> Checked<()> {
    for kind in &KINDS[..2] {
        for (columns, height, planes) in SMALL {
            let (ops, data) = columns::lists(&vec![column(kind, MOST); columns], method.item);
            let mut delta = vec![0; 64];
            (0..planes).for_each(|plane| files::place_lists(&mut delta, plane, &ops, &data));
            counted(check, sizes_of(method, columns, height, planes), method, delta, Ok((MOST * columns * planes) as u64))?;
        }
    }
    let columns = 128 / method.item;
    let (ops, data) = columns::lists(&vec![column(KINDS[5], MOST); columns], method.item);
    let mut delta = vec![0; 64];
    (0..8).for_each(|plane| files::set_pointers(&mut delta, method, plane, (64, 64 + ops.len() as u32)));
    counted(check, sizes_of(method, columns, 1_024, 8), method, [delta, ops, data].concat(), Ok((MOST * columns * 8) as u64))
}

/// Lists of words report no ops: one of an end alone, one word, a run, a run of none, several of them, and any that are well formed.
fn lists_of_words(check: &mut Check) -> Checked<()> {
    let lists: [&[words::Op]; 5] = [&[], &[(1, None)], &[(0, Some(2))], &[(1, Some(0))], &[(0, None), (1, Some(0)), (0, Some(1)), (1, None)]];
    for method in WORDS {
        let sizes = Sizes { width: 32, height: 4, planes: 3 };
        for list in lists {
            let mut delta = words::delta_of(&words::list(list, method.item, usize::MAX));
            files::set_pointers(&mut delta, method, 2, (32, 0));
            counted(check, sizes, method, delta, Ok(0))?;
        }
        for _ in 0..40 {
            let sizes = files::small_sizes(&mut check.random);
            let delta = files::random_delta(&mut check.random, sizes, method);
            counted(check, sizes, method, delta, Ok(0))?;
        }
    }
    Ok(())
}

/// A film with frames of every method, each of which reports its own ops, on, back, and on again.
fn one_film(check: &mut Check) -> Checked<()> {
    let sizes = Sizes { width: 64, height: 2, planes: 1 };
    let many = [(BYTES, 255), (SHORT_WORDS, 0), (SHORTS, 254), (LONGS, 0), (LONG_WORDS, 0), (LONGS, 3), (BYTES, 1)];
    let deltas = many.map(|(method, many)| {
        let mut columns = vec![vec![]; sizes.row() / method.item];
        columns[0] = column(&[Op::Uniq(0), Op::Same(0)], many);
        (method, if method.of_words() { vec![0; 32] } else { columns::delta(&columns, method.item) })
    });
    let mut player = Player::fitting(&mut check.random, &film(sizes, &deltas));
    player.open(&mut check.pair)?;
    for _ in 0..2 {
        let mut past = Vec::new();
        for (_, many) in many {
            reports(check, &mut player, Ok(many as u64))?;
            past.push(player.written());
        }
        reports(check, &mut player, Err(1))?;
        for record in past.iter().rev() {
            player.step_back(&mut check.pair, record)?;
        }
    }
    Ok(())
}
