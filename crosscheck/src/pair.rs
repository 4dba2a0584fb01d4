//! Each call made on both sides, and everything compared after it.
use crate::bounds::{self, record_room};
use crate::plain::{self, State, MAP};
use crate::random::Random;
use crate::{cover, library};
use std::collections::BTreeMap;

/// What differed, in words.
pub type Checked<T> = Result<T, String>;

const GUARD: usize = 16;

/// A buffer of each side, with guard bytes around what is lent.
#[derive(Clone, Default)]
pub struct Twin {
    name: &'static str,
    library: Vec<u8>,
    plain: Vec<u8>,
}

impl Twin {
    pub fn new(name: &'static str, bytes: &[u8]) -> Twin {
        let mut all = vec![0x5a; GUARD];
        all.extend_from_slice(bytes);
        all.extend_from_slice(&[0xa5; GUARD]);
        Twin { name, library: all.clone(), plain: all }
    }

    /// What the library's side holds.
    pub fn bytes(&self) -> &[u8] {
        &self.library[GUARD..self.library.len() - GUARD]
    }

    pub fn set(&mut self, bytes: &[u8]) {
        *self = Twin::new(self.name, bytes);
    }

    fn len(&self) -> usize {
        self.library.len() - 2 * GUARD
    }

    fn library(&mut self) -> &mut [u8] {
        let end = self.library.len() - GUARD;
        &mut self.library[GUARD..end]
    }

    fn plain(&mut self) -> &mut [u8] {
        let end = self.plain.len() - GUARD;
        &mut self.plain[GUARD..end]
    }

    fn plain_bytes(&self) -> &[u8] {
        &self.plain[GUARD..self.plain.len() - GUARD]
    }

    /// Where the two sides differ first, the guards counted too.
    fn difference(&self) -> Option<String> {
        if self.library == self.plain {
            return None;
        }
        let at = self.library.iter().zip(&self.plain).position(|(x, y)| x != y)?;
        let place = at as i64 - GUARD as i64;
        Some(format!("  {} of {} bytes, first at {place}: library {:02x}, plain {:02x}", self.name, self.len(), self.library[at], self.plain[at]))
    }
}

/// Both sides, with the calls and their answers counted.
#[derive(Default)]
pub struct Pair {
    pub calls: u64,
    pub answers: BTreeMap<(&'static str, u64), u64>,
}

impl Pair {
    /// Counts a call and its answer.
    pub fn count(&mut self, call: &'static str, answer: u64) {
        self.calls += 1;
        *self.answers.entry((call, answer)).or_default() += 1;
    }

    /// Compares the answers and every buffer.
    fn compare(&mut self, call: &'static str, library: u64, plain: u64, buffers: &[&Twin]) -> Checked<u64> {
        self.count(call, library);
        let mut lines: Vec<String> = buffers.iter().filter_map(|twin| twin.difference()).collect();
        if library != plain {
            lines.insert(0, format!("  answer: library {library}, plain {plain}"));
        }
        if lines.is_empty() {
            return Ok(library);
        }
        lines.insert(0, format!("{call} differs"));
        lines.extend(buffers.iter().map(|twin| kept(twin)));
        Err(lines.join("\n"))
    }

    pub fn write_delta(&mut self, sizes: [u64; 3], old: &mut Twin, new: &mut Twin, out: &mut Twin, length: &mut Twin) -> Checked<u64> {
        let [w, h, p] = sizes;
        let x = library::write_delta(w, h, p, old.bytes(), new.bytes(), out.library(), length.library());
        let y = cover::write_delta(w, h, p, old.plain_bytes(), new.plain_bytes(), out.plain(), length.plain());
        let call = format!("sizes {w} x {h} x {p}");
        self.compare("anim_write_delta", x, y, &[old, new, out, length]).map_err(|e| format!("{e}\n  {call}"))
    }
}

/// A buffer after the call in words, or where it was saved if it is long.
fn kept(twin: &Twin) -> String {
    if twin.len() > 600 {
        let path = std::env::temp_dir().join(format!("crosscheck-{}.bin", twin.name));
        let saved = std::fs::write(&path, twin.bytes()).map_or("not saved".into(), |()| path.display().to_string());
        return format!("  {} (library, after): {} bytes, {saved}", twin.name, twin.len());
    }
    let hex: Vec<String> = twin.bytes().iter().map(|b| format!("{b:02x}")).collect();
    format!("  {} (library, after): {}", twin.name, hex.join(" "))
}

/// A player's buffers on both sides.
#[derive(Clone)]
pub struct Player {
    pub file: Twin,
    pub state: Twin,
    pub a: Twin,
    pub b: Twin,
    pub map: Twin,
    pub work: Twin,
    pub record: Twin,
    pub report: Twin,
}

impl Player {
    /// Buffers of any content for a file and its frames' length.
    pub fn new(random: &mut Random, file: &[u8], frame: usize) -> Player {
        Player {
            file: Twin::new("file", file),
            state: Twin::new("state", &random.bytes(48)),
            a: Twin::new("a", &random.bytes(frame)),
            b: Twin::new("b", &random.bytes(frame)),
            map: Twin::new("map", &random.bytes(MAP)),
            work: Twin::new("work", &random.bytes(frame)),
            record: Twin::new("record", &random.bytes(record_room(frame))),
            report: Twin::new("report", &random.bytes(40)),
        }
    }

    /// Buffers that are as long as the file's frames, or short ones if it has none.
    pub fn fitting(random: &mut Random, file: &[u8]) -> Player {
        Player::new(random, file, plain::frame_length(file).unwrap_or(8))
    }

    pub fn now(&self) -> State {
        cover::state_in(self.state.bytes())
    }

    /// What A, B and the map hold.
    pub fn screen(&self) -> [Vec<u8>; 3] {
        [&self.a, &self.b, &self.map].map(|twin| twin.bytes().to_vec())
    }

    pub fn set_state(&mut self, state: State) {
        self.state.set(&cover::state_bytes(state));
    }

    /// Asks for the length of the file's frames, with so many bytes for the answer; answers the refusal and those bytes.
    pub fn frame_size(&self, pair: &mut Pair, length: usize) -> Checked<(u64, Vec<u8>)> {
        let mut size = Twin::new("size", &vec![0x3c; length]);
        let x = library::frame_size(self.file.bytes(), size.library());
        let y = cover::frame_size(self.file.plain_bytes(), size.plain());
        let answer = pair.compare("anim_frame_size", x, y, &[&self.file, &size])?;
        Ok((answer, size.bytes().to_vec()))
    }

    /// Opens the file, and asks for the length of its frames before.
    pub fn open(&mut self, pair: &mut Pair) -> Checked<u64> {
        for length in [8, 7] {
            self.frame_size(pair, length)?;
        }
        self.open_only(pair)
    }

    /// Opens the file.
    pub fn open_only(&mut self, pair: &mut Pair) -> Checked<u64> {
        let x = library::open(self.file.bytes(), self.state.library(), [self.a.library(), self.b.library(), self.map.library()]);
        let y = cover::open(self.file.plain_bytes(), self.state.plain(), [self.a.plain(), self.b.plain(), self.map.plain()]);
        pair.compare("anim_open", x, y, &[&self.file, &self.state, &self.a, &self.b, &self.map])
    }

    /// Steps on in the player's file.
    pub fn step_on(&mut self, pair: &mut Pair) -> Checked<u64> {
        let file = std::mem::take(&mut self.file);
        let answer = self.step_on_by(pair, [file.bytes(), file.plain_bytes()], Some(&file));
        self.file = file;
        answer
    }

    /// Steps on in a file that is lent to both sides, too long for a copy each.
    pub fn step_on_in(&mut self, pair: &mut Pair, file: &[u8]) -> Checked<u64> {
        self.step_on_by(pair, [file, file], None)
    }

    /// Steps on by a file for each side; where they are copies they are compared too.
    fn step_on_by(&mut self, pair: &mut Pair, files: [&[u8]; 2], copies: Option<&Twin>) -> Checked<u64> {
        let before = self.state.bytes().to_vec();
        let screen = [self.a.library(), self.b.library(), self.map.library()];
        let x = library::step_on(files[0], self.state.library(), screen, self.work.library(), self.record.library(), self.report.library());
        let screen = [self.a.plain(), self.b.plain(), self.map.plain()];
        let y = cover::step_on(files[1], self.state.plain(), screen, self.work.plain(), self.record.plain(), self.report.plain());
        let lent = [&self.state, &self.a, &self.b, &self.map, &self.work, &self.record, &self.report];
        let buffers: Vec<&Twin> = copies.into_iter().chain(lent).collect();
        let answer = pair.compare("anim_step_on", x, y, &buffers).map_err(|e| from_state(e, &before))?;
        bounds::step_on(answer, files[0], &before, self.record.bytes(), self.report.bytes()).map_err(|e| from_state(e, &before))?;
        Ok(answer)
    }

    pub fn step_back(&mut self, pair: &mut Pair, record: &[u8]) -> Checked<u64> {
        let before = self.state.bytes().to_vec();
        let record = Twin::new("record", record);
        let x = library::step_back(self.state.library(), [self.a.library(), self.b.library(), self.map.library()], record.bytes());
        let y = cover::step_back(self.state.plain(), [self.a.plain(), self.b.plain(), self.map.plain()], record.plain_bytes());
        pair.compare("anim_step_back", x, y, &[&self.state, &self.a, &self.b, &self.map, &record]).map_err(|e| from_state(e, &before))
    }

    /// Asks for a row's place and for its refusal.
    pub fn row(&mut self, pair: &mut Pair, plane: u64, row: u64) -> Checked<u64> {
        let place = library::row_place(plane, row, self.state.bytes(), self.a.bytes(), self.b.bytes());
        let refusal = library::row_refusal(plane, row, self.state.bytes(), self.a.bytes(), self.b.bytes());
        let plain = cover::row(plane, row, self.state.plain_bytes(), self.a.plain_bytes(), self.b.plain_bytes());
        let buffers = [&self.state, &self.a, &self.b];
        let asked = |e: String| format!("{e}\n  plane {plane}, row {row}");
        if place != plain.0 {
            return Err(asked(format!("anim_row_place differs: library {place}, plain {}", plain.0)));
        }
        pair.calls += 1;
        pair.compare("anim_row_refusal", refusal, plain.1, &buffers).map_err(asked)
    }

    /// The record that the last step on wrote.
    pub fn written(&self) -> Vec<u8> {
        let length = cover::number_at(self.report.bytes(), 3);
        self.record.bytes()[..length as usize].to_vec()
    }

    /// How many ops the last step on reported.
    pub fn ops(&self) -> u64 {
        cover::number_at(self.report.bytes(), 4)
    }
}

fn from_state(difference: String, before: &[u8]) -> String {
    if before.len() == 48 {
        format!("{difference}\n  from {:?}", cover::state_in(before))
    } else {
        difference
    }
}
