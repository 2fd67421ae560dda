//! The yardstick of machine.py and lines.py: the whole machine in plain Rust, as straightforward as can be.
//! machine run IMAGE FRAMES EVENTS SEED [trace] [log] fires one worker's draws; machine replay IMAGE FRAMES LOG [trace] [log] fires
//! the entries of a log. FRAMES and LOG are files with the lines of these sections. Both print the report of the mode.
//!
//! `rustc --test` builds its tests: rows worked by hand.
mod board;
mod pipeline;
mod rv32;

use board::{Board, Frame};
use pipeline::{Core, Demand, Kind};
use std::fmt::Write as _;
use std::io::Write as _;

/// The kinds in the order in which they are drawn.
const KINDS: [Kind; 9] = [
    Kind::Fetch,
    Kind::Decode,
    Kind::Execute,
    Kind::Ram,
    Kind::Mmio,
    Kind::Writeback,
    Kind::Boot,
    Kind::Shift,
    Kind::Arrive,
];
const LETTERS: &[u8; 9] = b"FDXRMWBSA";
const ENTRIES_IN_A_LINE: usize = 32;

pub struct Event {
    is_load: bool,
    address: u32,
    value: u32,
}

#[derive(Clone, Copy)]
struct Entry {
    worker: u8,
    kind: Kind,
}

pub struct Machine {
    core: Core,
    board: Board,
    log: Vec<Entry>,
    pub trace: Vec<Event>,
}

impl Machine {
    pub fn boot(code: &[u32], entry: u32, frames: Vec<Frame>, events: usize) -> Machine {
        Machine {
            core: Core::boot(code, entry),
            board: Board::boot(frames),
            log: Vec::with_capacity(events),
            trace: Vec::with_capacity(events / 4 + 1),
        }
    }

    fn enabled(&self, kind: Kind) -> bool {
        self.core.enabled(kind) || self.core.halted.is_none() && self.board.enabled(kind)
    }

    fn fire(&mut self, worker: u8, kind: Kind) {
        match kind {
            Kind::Boot | Kind::Shift | Kind::Arrive => self.board.act(kind),
            _ => self.step(kind),
        }
        self.log.push(Entry { worker, kind });
    }

    fn step(&mut self, kind: Kind) {
        let demand = if kind == Kind::Mmio { self.core.demand() } else { None };
        let mut reply = 0;
        match demand {
            Some(Demand::Read { address }) => {
                reply = self.board.read(address);
                self.trace.push(Event { is_load: true, address, value: reply });
            }
            Some(Demand::Write { address, value }) => {
                self.board.write(address, value);
                self.trace.push(Event { is_load: false, address, value });
            }
            None => {}
        }
        self.core.fire(kind, reply);
    }

    /// One worker's draws, up to so many entries of the log or accesses of devices.
    pub fn draw(&mut self, seed: u32, events: usize, accesses: usize) {
        let mut draws = Draws::new(seed);
        let mut place = draws.next() as usize % KINDS.len();
        while self.log.len() < events && self.trace.len() < accesses && self.core.halted.is_none() {
            if self.enabled(KINDS[place]) {
                self.fire(0, KINDS[place]);
                place = draws.next() as usize % KINDS.len();
            } else {
                place = (place + 1) % KINDS.len();
            }
        }
    }

    /// Fires the entries of a log. The place of the first that can't be fired is the error.
    fn replay(&mut self, log: &[Entry]) -> Result<(), usize> {
        for (place, entry) in log.iter().enumerate() {
            if !self.enabled(entry.kind) {
                return Err(place);
            }
            self.fire(entry.worker, entry.kind);
        }
        Ok(())
    }

    fn report(&self, with_trace: bool, with_log: bool) -> String {
        let mut text = format!(
            "events {}\ndone {}\nretired {}\nmmio {}\narrived {}\nlamp {}\nend {}\n",
            self.log.len(),
            self.core.done(),
            self.core.retired,
            self.trace.len(),
            self.board.arrived,
            if self.board.lamp() { "on" } else { "off" },
            self.core.halted.map_or("running".to_string(), |cause| format!("halted {cause}")),
        );
        if with_trace {
            text.push_str("trace\n");
            for event in &self.trace {
                let kind = if event.is_load { "ld" } else { "st" };
                writeln!(text, "{kind} {:08x} {:08x}", event.address, event.value).unwrap();
            }
        }
        if with_log {
            text.push_str("log\n");
            for entries in self.log.chunks(ENTRIES_IN_A_LINE) {
                for entry in entries {
                    text.push(LETTERS[entry.kind as usize] as char);
                    text.push((b'0' + entry.worker) as char);
                }
                text.push('\n');
            }
        }
        text
    }
}

/// The draws of worker 0: a generator by shifts and exclusive or.
pub struct Draws {
    state: u32,
}

impl Draws {
    pub fn new(seed: u32) -> Draws {
        let state = seed ^ 0x9E37_79B9;
        Draws { state: if state == 0 { 1 } else { state } }
    }

    pub fn next(&mut self) -> u32 {
        self.state ^= self.state << 13;
        self.state ^= self.state >> 17;
        self.state ^= self.state << 5;
        self.state
    }
}

/// The code and the entry of an image: the code's words stand last, how many there are is the third word, the entry the fourth.
fn code_of(image: &[u8]) -> (Vec<u32>, u32) {
    let words: Vec<u32> = image
        .chunks_exact(4)
        .map(|bytes| u32::from_le_bytes(bytes.try_into().unwrap()))
        .collect();
    (words[words.len() - words[2] as usize..].to_vec(), words[3])
}

fn frame_of(line: &str) -> Frame {
    let digits = line.strip_prefix('!').unwrap_or(line);
    let byte = |at: usize| u8::from_str_radix(&digits[at..at + 2], 16).expect("hexadecimal digits");
    Frame {
        bytes: (0..digits.len()).step_by(2).map(byte).collect(),
        error: line.starts_with('!'),
    }
}

fn frames_of(text: &str) -> Vec<Frame> {
    text.lines().filter(|line| !line.is_empty()).map(frame_of).collect()
}

fn log_of(text: &str) -> Vec<Entry> {
    let mut log = Vec::new();
    for line in text.lines() {
        for pair in line.as_bytes().chunks_exact(2) {
            let place = LETTERS.iter().position(|letter| *letter == pair[0]).expect("a kind");
            log.push(Entry { worker: pair[1] - b'0', kind: KINDS[place] });
        }
    }
    log
}

fn main() {
    let words: Vec<String> = std::env::args().skip(1).collect();
    let words: Vec<&str> = words.iter().map(String::as_str).collect();
    let [mode @ ("run" | "replay"), image, frames, third, rest @ ..] = words.as_slice() else {
        panic!("usage: machine run IMAGE FRAMES EVENTS SEED [trace] [log], or machine replay IMAGE FRAMES LOG [trace] [log]");
    };
    let (code, entry) = code_of(&std::fs::read(image).expect("an image"));
    let frames = frames_of(&std::fs::read_to_string(frames).expect("frames"));
    let (machine, fired) = if *mode == "run" {
        let events: usize = third.parse().expect("a number of events");
        let mut machine = Machine::boot(&code, entry, frames, events);
        machine.draw(rest[0].parse().expect("a seed"), events, usize::MAX);
        (machine, Ok(()))
    } else {
        let log = log_of(&std::fs::read_to_string(third).expect("a log"));
        let mut machine = Machine::boot(&code, entry, frames, log.len());
        let fired = machine.replay(&log);
        (machine, fired)
    };
    let text = match fired {
        Ok(()) => machine.report(rest.contains(&"trace"), rest.contains(&"log")),
        Err(at) => format!("event {at} guard false\n"),
    };
    std::io::stdout().write_all(text.as_bytes()).expect("standard output");
}

#[cfg(test)]
mod tests {
    use super::*;

    /// A machine of these words that fired kinds, told by their letters.
    fn fired(code: &[u32], frames: &str, letters: &str) -> (Machine, Result<(), usize>) {
        let log: String = letters.split_whitespace().map(|letter| format!("{letter}0")).collect();
        let mut machine = Machine::boot(code, 0, frames_of(frames), log.len());
        let ended = machine.replay(&log_of(&log));
        (machine, ended)
    }

    /// A load of a device behind a branch that is taken is fetched and dropped.
    #[test]
    fn a_load_that_is_passed_over_never_happens() {
        let code = [0x1002_40B7, 0x0000_0463, 0x0480_A103, 0x0000_006F];
        let (machine, ended) = fired(&code, "", "F F D F D F X X");
        assert_eq!(ended, Ok(()));
        assert!(!machine.enabled(Kind::Decode));
        let (machine, ended) = fired(&code, "", "F F D F D F X X W W D X D X");
        assert_eq!(ended, Ok(()));
        assert_eq!((machine.trace.len(), machine.core.done(), machine.core.retired), (0, 2, 2));
        assert_eq!((machine.core.registers[1], machine.core.pc), (0x1002_4000, 12));
    }

    /// Twelve additions in three orders of steps.
    #[test]
    fn orders_of_steps_lead_to_the_same() {
        let code: Vec<u32> = [0x0010_8093; 12].into_iter().chain([0x0000_006F]).collect();
        let alone = "F D X W ".repeat(12);
        let ahead = format!("F F {}D X W", "D X W F ".repeat(11));
        let pairs = "F D F X W D X W ".repeat(6);
        for letters in [alone, ahead, pairs] {
            let (machine, ended) = fired(&code, "", &letters);
            assert_eq!(ended, Ok(()));
            assert_eq!((machine.core.registers[1], machine.core.retired, machine.core.done()), (12, 12, 12));
        }
    }

    /// What can't be fired is told by its place.
    #[test]
    fn the_first_step_that_cannot_be_fired_is_told() {
        let code = [0x0000_006F];
        for (letters, place) in [("D", 0), ("F F F", 2), ("A", 0), ("S", 0), ("B B", 1), ("F M", 1)] {
            assert_eq!(fired(&code, "01", letters).1, Err(place), "{letters}");
        }
        let (machine, ended) = fired(&code, "", "F B D");
        assert_eq!(ended, Ok(()));
        let report = "events 3\ndone 0\nretired 0\nmmio 0\narrived 0\nlamp off\nend running\nlog\nF0B0D0\n";
        assert_eq!(machine.report(false, true), report);
    }

    /// A halt isn't counted as done, and then nothing is enabled, of the board neither.
    #[test]
    fn nothing_is_fired_after_a_halt() {
        let (machine, ended) = fired(&[0x0010_0073], "", "F D X W B");
        assert_eq!((ended, machine.core.done()), (Err(4), 0));
        assert!(machine.report(false, false).ends_with("end halted ebreak\n"));
    }

    /// The first draw of seed 0: 0x9E3779B9 and its three shifts. A seed that would lead to 0 begins at 1.
    #[test]
    fn draws_follow_the_shifts() {
        let mut draws = Draws::new(0);
        let x = 0x9E37_79B9u32;
        let x = x ^ 0xEF37_2000;
        let x = x ^ 0x0000_3880;
        let x = x ^ 0x200C_2720;
        assert_eq!(draws.next(), x);
        assert_eq!(Draws::new(0x9E37_79B9).state, 1);
    }
}
