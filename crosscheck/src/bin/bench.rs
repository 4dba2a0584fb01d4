//! Times the library against plain Rust on the same input, in turns, best of several.
//!
//!     bench [--times] [--turns N] [--only WORD,WORD]
//!
//! A case is run N times (25 unless said), and for a fifth of a second at least. The table has ratios,
//! library / plain Rust; with --times microseconds stand beside them.
//! With --only a case is run if it has all the words: open or step or write, the width, light or heavy or noise,
//! the method's items (1, 2 or 4 bytes, long-words, short-words), one-back or two-back, and colours or no-colours; for opening packed or plain, or delta
//! and the items.
use crosscheck::bounds::{delta_room, record_room};
use crosscheck::files::{self, Method, BYTES, LONGS, LONG_WORDS, SHORTS, SHORT_WORDS};
use crosscheck::plain::{self, Screen, Sizes, State, MAP};
use crosscheck::random::Random;
use crosscheck::{cover, library};
use std::hint::black_box;
use std::time::{Duration, Instant};

const SIZES: [Sizes; 3] =
    [Sizes { width: 320, height: 200, planes: 5 }, Sizes { width: 640, height: 512, planes: 8 }, Sizes { width: 1024, height: 1024, planes: 8 }];
const CHANGES: [&str; 3] = ["light", "heavy", "noise"];
/// Bytes of a CMAP of 32 colours.
const CMAP: usize = 96;

/// A later frame: its method, its interleave, and the bytes of its CMAP.
struct Later {
    name: &'static str,
    method: Method,
    interleave: u8,
    cmap: usize,
}

impl Later {
    const fn new(name: &'static str, method: Method, interleave: u8, cmap: usize) -> Later {
        Later { name, method, interleave, cmap }
    }
}

const LATER: [Later; 7] = [
    Later::new("method 5", BYTES, 0, 0),
    Later::new("7 short", SHORTS, 0, 0),
    Later::new("7 long", LONGS, 0, 0),
    Later::new("method 2", LONG_WORDS, 0, 0),
    Later::new("method 3", SHORT_WORDS, 0, 0),
    Later::new("5, one back", BYTES, 1, 0),
    Later::new("5, 32 colours", BYTES, 0, CMAP),
];
/// Methods of a first picture.
const FIRST_METHODS: [(&str, Method); 5] = [
    ("delta, method 5", BYTES),
    ("delta, 7 short", SHORTS),
    ("delta, 7 long", LONGS),
    ("delta, method 2", LONG_WORDS),
    ("delta, method 3", SHORT_WORDS),
];

/// The word of `--only` for a method's items.
fn items(method: Method) -> String {
    match method {
        LONG_WORDS => "long-words".into(),
        SHORT_WORDS => "short-words".into(),
        _ => method.item.to_string(),
    }
}

/// How long a case is run at least, so that the best times of short calls settle.
const SETTLED: Duration = Duration::from_millis(200);

/// The best time of each side, in seconds.
#[derive(Clone, Copy)]
struct Best {
    library: f64,
    plain: f64,
}

impl Best {
    fn new() -> Best {
        Best { library: f64::MAX, plain: f64::MAX }
    }

    fn cell(&self, times: bool) -> String {
        let ratio = format!("{:.2}", self.library / self.plain);
        if times {
            format!("{ratio} ({:.1} / {:.1})", self.library * 1e6, self.plain * 1e6)
        } else {
            ratio
        }
    }
}

/// Runs something and keeps its time if it is the best.
fn time<T>(best: &mut f64, run: impl FnOnce() -> T) -> T {
    let start = Instant::now();
    let answer = black_box(run());
    *best = best.min(start.elapsed().as_secs_f64());
    answer
}

/// Turns of a case: so many, and until its times have settled.
fn turns(least: usize) -> impl Iterator<Item = usize> {
    let start = Instant::now();
    (0..).take_while(move |&turn| turn < least || start.elapsed() < SETTLED)
}

/// A picture with runs and noise, as drawings have them.
fn picture(random: &mut Random, sizes: Sizes) -> Vec<u8> {
    let mut frame = Vec::with_capacity(sizes.frame());
    while frame.len() < sizes.frame() {
        let count = random.from_to(1, 24);
        if random.once_in(3) {
            frame.extend(random.bytes(count));
        } else {
            let value = random.byte();
            frame.extend(std::iter::repeat_n(value, 2 * count));
        }
    }
    frame.truncate(sizes.frame());
    frame
}

/// The picture after it: boxes changed until about so many bytes of a hundred differ, or all of it.
fn next_picture(random: &mut Random, sizes: Sizes, old: &[u8], change: &str) -> Vec<u8> {
    let wanted = match change {
        "light" => old.len() * 2 / 100,
        "heavy" => old.len() * 40 / 100,
        _ => return random.bytes(old.len()),
    };
    let mut new = old.to_vec();
    let mut changed = 0;
    while changed < wanted {
        let plane = random.below(sizes.planes) * sizes.plane();
        let (wide, high) = (random.from_to(1, 6), random.from_to(4, 24));
        let (x, y) = (random.below(sizes.row() - wide + 1), random.below(sizes.height - high + 1));
        let (filled, value) = (random.once_in(2), random.byte());
        for at in (y..y + high).flat_map(|y| (x..x + wide).map(move |x| plane + y * sizes.row() + x)) {
            let before = new[at] != old[at];
            new[at] = if filled { value } else { random.byte() };
            changed = changed + usize::from(new[at] != old[at]) - usize::from(before);
        }
    }
    new
}

/// A film of a plain picture and a later frame; each has a CMAP of any colours where the later one is to have one.
fn film(random: &mut Random, sizes: Sizes, body: &[u8], later: &Later, delta: &[u8]) -> Vec<u8> {
    let parts = [files::picture_form(sizes, 0, body), files::delta_form(later.method, later.interleave, 1, delta)];
    if later.cmap == 0 {
        return files::form(b"ANIM", &parts);
    }
    files::form(b"ANIM", &parts.map(|part| files::coloured(&part, &random.bytes(later.cmap))))
}

/// The buffers of one side; A, B and the map stand together.
struct Side {
    screen: [Vec<u8>; 3],
    work: Vec<u8>,
    record: Vec<u8>,
}

impl Side {
    fn new(sizes: Sizes) -> Side {
        let frame = vec![0; sizes.frame()];
        Side { screen: [frame.clone(), frame.clone(), vec![0; MAP]], work: frame, record: vec![0; record_room(sizes.frame())] }
    }
}

fn lent(screen: &mut [Vec<u8>; 3]) -> Screen<'_> {
    screen.each_mut().map(Vec::as_mut_slice)
}

fn opening(least: usize, file: &[u8], sizes: Sizes) -> Best {
    let mut best = Best::new();
    let (mut l, mut p) = (Side::new(sizes), Side::new(sizes));
    let mut state = [0; 48];
    for _ in turns(least) {
        let x = time(&mut best.library, || library::open(black_box(file), &mut state, lent(&mut l.screen)));
        let y = time(&mut best.plain, || plain::open(black_box(file), lent(&mut p.screen)));
        assert!(x == 0 && y == Ok(cover::state_in(&state)) && l.screen == p.screen);
    }
    best
}

/// A step on and back again: the best time of each.
fn steps(least: usize, file: &[u8], sizes: Sizes) -> (Best, Best) {
    let (mut on, mut back) = (Best::new(), Best::new());
    let (mut l, mut p) = (Side::new(sizes), Side::new(sizes));
    let (mut state, mut report) = ([0; 48], [0; 40]);
    assert_eq!(library::open(file, &mut state, lent(&mut l.screen)), 0);
    let mut now: State = plain::open(file, lent(&mut p.screen)).expect("it opens");
    for _ in turns(least) {
        let x = time(&mut on.library, || library::step_on(black_box(file), &mut state, lent(&mut l.screen), &mut l.work, &mut l.record, &mut report));
        let y = time(&mut on.plain, || plain::step_on(black_box(file), &mut now, lent(&mut p.screen), &mut p.work, &mut p.record));
        let length = y.expect("a step").expect("a frame").record_length as usize;
        assert!(x == 0 && l.screen == p.screen && l.record[..length] == p.record[..length]);
        let x = time(&mut back.library, || library::step_back(&mut state, lent(&mut l.screen), black_box(&l.record[..length])));
        let y = time(&mut back.plain, || plain::step_back(&mut now, lent(&mut p.screen), black_box(&p.record[..length])));
        assert!(x == 0 && y.is_ok() && l.screen == p.screen);
    }
    (on, back)
}

fn writing(least: usize, old: &[u8], new: &[u8], sizes: Sizes) -> Best {
    let mut best = Best::new();
    let [w, h, p] = [sizes.width as u64, sizes.height as u64, sizes.planes as u64];
    let (mut out, mut other) = (vec![0; delta_room(sizes)], vec![0; delta_room(sizes)]);
    let mut length = [0; 8];
    for _ in turns(least) {
        let x = time(&mut best.library, || library::write_delta(w, h, p, black_box(old), new, &mut out, &mut length));
        let y = time(&mut best.plain, || plain::write_delta(w, h, p, black_box(old), new, &mut other));
        assert!(x == 0 && y == Ok(u64::from_le_bytes(length) as usize) && out == other);
    }
    best
}

/// What was asked for.
struct Words {
    times: bool,
    turns: usize,
    only: Vec<String>,
}

impl Words {
    fn read() -> Words {
        let args: Vec<String> = std::env::args().collect();
        let after = |name: &str| args.iter().position(|word| word == name).and_then(|k| args.get(k + 1));
        Words {
            times: args.iter().any(|word| word == "--times"),
            turns: after("--turns").and_then(|n| n.parse().ok()).unwrap_or(25),
            only: after("--only").map_or(vec![], |words| words.split(',').map(String::from).collect()),
        }
    }

    /// Whether a case with these words is to be run.
    fn wants(&self, case: &[&str]) -> bool {
        self.only.iter().all(|word| case.contains(&word.as_str()))
    }
}

/// The lines of each table.
#[derive(Default)]
struct Tables {
    open: Vec<String>,
    on: Vec<String>,
    back: Vec<String>,
    write: Vec<String>,
}

fn bench_opening(words: &Words, tables: &mut Tables, sizes: Sizes, old: &[u8]) {
    let width = sizes.width.to_string();
    let mut line = format!("| {} |", name(sizes));
    for (kind, compression, body) in [("packed", 1, files::packed_body(old, sizes)), ("plain", 0, files::plain_body(old, sizes))] {
        let file = files::form(b"ANIM", &[files::picture_form(sizes, compression, &body)]);
        let wanted = words.wants(&["open", &width, kind]);
        line += &cell(words, wanted.then(|| opening(words.turns, &file, sizes)));
    }
    for (_, method) in FIRST_METHODS {
        let best = words.wants(&["open", &width, "delta", &items(method)]).then(|| {
            let first = files::first_delta_form(sizes, method, 0, &files::delta_on_black(old, sizes, method));
            opening(words.turns, &files::form(b"ANIM", &[first]), sizes)
        });
        line += &cell(words, best);
    }
    tables.open.push(line);
}

fn bench_change(words: &Words, tables: &mut Tables, random: &mut Random, sizes: Sizes, [old, new]: [&[u8]; 2], change: &str) {
    let width = sizes.width.to_string();
    let body = files::plain_body(old, sizes);
    let start = format!("| {} | {change} |", name(sizes));
    let (mut on_line, mut back_line) = (start.clone(), start.clone());
    for later in &LATER {
        let back = ["two-back", "one-back"][usize::from(later.interleave)];
        let colours = if later.cmap > 0 { "colours" } else { "no-colours" };
        let steps = words.wants(&["step", &width, change, &items(later.method), back, colours]).then(|| {
            let delta = files::delta_between(old, new, sizes, later.method);
            steps(words.turns, &film(random, sizes, &body, later, &delta), sizes)
        });
        on_line += &cell(words, steps.map(|s| s.0));
        back_line += &cell(words, steps.map(|s| s.1));
    }
    let wanted = words.wants(&["write", &width, change]);
    let written = wanted.then(|| writing(words.turns, old, new, sizes));
    tables.on.push(on_line);
    tables.back.push(back_line);
    tables.write.push(start + &cell(words, written));
}

fn cell(words: &Words, best: Option<Best>) -> String {
    best.map_or(" |".into(), |best| format!(" {} |", best.cell(words.times)))
}

fn name(sizes: Sizes) -> String {
    format!("{} x {} x {}", sizes.width, sizes.height, sizes.planes)
}

fn main() {
    let words = Words::read();
    let mut random = Random::new(5);
    let mut tables = Tables::default();
    for sizes in SIZES {
        let old = picture(&mut random, sizes);
        bench_opening(&words, &mut tables, sizes, &old);
        for change in CHANGES {
            let new = next_picture(&mut random, sizes, &old, change);
            bench_change(&words, &mut tables, &mut random, sizes, [&old, &new], change);
        }
    }
    println!("Ratios, library / plain Rust{}; below 1 the library is faster.", if words.times { " (microseconds of each)" } else { "" });
    let names: Vec<&str> = LATER.iter().map(|later| later.name).collect();
    table("Opening", &[&["sizes", "ByteRun1", "plain BODY"][..], &FIRST_METHODS.map(|m| m.0)].concat(), &tables.open);
    table("Step on, record included", &[&["sizes", "changes"][..], &names].concat(), &tables.on);
    table("Step back", &[&["sizes", "changes"][..], &names].concat(), &tables.back);
    table("Writer", &["sizes", "changes", "method 5"], &tables.write);
}

fn table(title: &str, heads: &[&str], lines: &[String]) {
    let rule = "|---".repeat(heads.len());
    println!("\n{title}\n\n| {} |\n{rule}|\n{}", heads.join(" | "), lines.join("\n"));
}
