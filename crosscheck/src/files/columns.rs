//! Lists of ops that go down columns, as methods 5 and 7 have them.

/// An op and its rows.
#[derive(Clone, Copy, Debug, PartialEq, Eq)]
pub enum Op {
    Skip(u8),
    Uniq(u8),
    Same(u8),
}

impl Op {
    /// How many rows it goes down.
    pub fn rows(self) -> usize {
        let (Op::Skip(rows) | Op::Uniq(rows) | Op::Same(rows)) = self;
        usize::from(rows)
    }

    /// How many items it has.
    fn items(self) -> usize {
        match self {
            Op::Skip(_) => 0,
            Op::Uniq(_) => self.rows(),
            Op::Same(_) => 1,
        }
    }

    /// Puts its own bytes behind a list.
    fn put(self, list: &mut Vec<u8>) {
        match self {
            Op::Skip(rows) => list.push(rows),
            Op::Uniq(rows) => list.push(128 + rows),
            Op::Same(rows) => list.extend([0, rows]),
        }
    }
}

/// The op list and the data list of these columns; items of one byte stand in the op list. The items are of bytes 1, 2, 3 and so on.
pub fn lists<C: AsRef<[Op]>>(columns: &[C], item: usize) -> (Vec<u8>, Vec<u8>) {
    let (mut ops, mut data, mut byte) = (Vec::new(), Vec::new(), 0u8);
    for column in columns.iter().map(C::as_ref) {
        ops.push(column.len() as u8);
        for op in column {
            op.put(&mut ops);
            let list = if item == 1 { &mut ops } else { &mut data };
            for _ in 0..op.items() * item {
                byte = byte.wrapping_add(1);
                list.push(byte);
            }
        }
    }
    (ops, data)
}

/// A delta of one plane with these columns.
pub fn delta<C: AsRef<[Op]>>(columns: &[C], item: usize) -> Vec<u8> {
    let mut delta = vec![0; 64];
    let (ops, data) = lists(columns, item);
    super::place_lists(&mut delta, 0, &ops, &data);
    delta
}

/// Every list of at most so many of these ops, shorter ones first.
pub fn short(ops: &[Op], most: usize) -> Vec<Vec<Op>> {
    let mut lists = vec![vec![]];
    let mut from = 0;
    for _ in 0..most {
        let longer: Vec<Vec<Op>> = lists[from..].iter().flat_map(|front: &Vec<Op>| ops.iter().map(move |op| [&front[..], &[*op]].concat())).collect();
        from = lists.len();
        lists.extend(longer);
    }
    lists
}
