//! The yardstick of runs.py, and what counts the instructions of quality.py: an interpreter of RV32IM in plain Rust, as
//! straightforward as can be, which decodes each word as it comes to it.
//!
//! interpreter run IMAGE STEPS runs the code of an image without replies, and prints the report of `isa --trace`.
//! interpreter switch FILE REPLIES runs the code of an image, or a flat program at address 0, up to the first write to the lamp's
//! register. REPLIES is a file with the lines of that section. It prints the same report, with the number of words before it.
mod rv32;

use rv32::{bits, calculate, immediate_b, immediate_i, immediate_j, immediate_s, multiply_or_divide};
use std::fmt::Write as _;
use std::io::Write as _;

/// The GPIO register with the lamp's bit.
const LAMP: u32 = 0x1001_200C;
/// Where a run to the lamp's switch is given up.
const MOST_STEPS: u32 = 100_000_000;

pub struct Event {
    is_load: bool,
    address: u32,
    value: u32,
}

pub enum Stepped {
    Committed,
    WantsReply,
    Halted(&'static str),
}

pub struct Machine {
    registers: [u32; 32],
    pc: u32,
    code_bytes: u32,
    ram: Vec<u8>,
    replies: std::vec::IntoIter<u32>,
    pub trace: Vec<Event>,
}

impl Machine {
    pub fn boot((code, entry): &(Vec<u32>, u32), replies: Vec<u32>) -> Machine {
        Machine {
            registers: [0; 32],
            pc: *entry,
            code_bytes: 4 * code.len() as u32,
            ram: rv32::ram_of(code),
            replies: replies.into_iter(),
            trace: Vec::new(),
        }
    }

    fn set(&mut self, rd: u32, value: u32) {
        if rd != 0 {
            self.registers[rd as usize] = value;
        }
    }

    fn load(&mut self, rd: u32, address: u32, funct3: u32) -> Result<(), Stepped> {
        let width = 1 << (funct3 & 3);
        let value = if rv32::is_in_ram(address, width) {
            rv32::load(&self.ram, address, funct3)
        } else if rv32::is_device_word(address, width) {
            let value = self.replies.next().ok_or(Stepped::WantsReply)?;
            self.trace.push(Event { is_load: true, address, value });
            value
        } else {
            return Err(Stepped::Halted("bad-access"));
        };
        self.set(rd, value);
        Ok(())
    }

    fn store(&mut self, address: u32, value: u32, funct3: u32) -> Result<(), Stepped> {
        let width = 1 << funct3;
        if rv32::is_in_ram(address, width) {
            if address < self.code_bytes {
                return Err(Stepped::Halted("store-to-code"));
            }
            rv32::store(&mut self.ram, address, value, funct3);
        } else if rv32::is_device_word(address, width) {
            self.trace.push(Event { is_load: false, address, value });
        } else {
            return Err(Stepped::Halted("bad-access"));
        }
        Ok(())
    }

    pub fn step(&mut self) -> Stepped {
        if self.pc % 4 != 0 || self.pc >= self.code_bytes {
            return Stepped::Halted("bad-pc");
        }
        let place = self.pc as usize;
        let word = u32::from_le_bytes(self.ram[place..place + 4].try_into().unwrap());
        match self.execute(word) {
            Ok(next) => {
                self.pc = next;
                Stepped::Committed
            }
            Err(stepped) => stepped,
        }
    }

    fn execute(&mut self, word: u32) -> Result<u32, Stepped> {
        let rd = bits(word, 11, 7);
        let funct3 = bits(word, 14, 12);
        let funct7 = bits(word, 31, 25);
        let a = self.registers[bits(word, 19, 15) as usize];
        let b = self.registers[bits(word, 24, 20) as usize];
        let mut next = self.pc.wrapping_add(4);
        match (bits(word, 6, 0), funct3) {
            (0x37, _) => self.set(rd, word & 0xFFFF_F000),
            (0x17, _) => self.set(rd, self.pc.wrapping_add(word & 0xFFFF_F000)),
            (0x6F, _) => {
                self.set(rd, next);
                next = self.pc.wrapping_add(immediate_j(word));
            }
            (0x67, 0) => {
                self.set(rd, next);
                next = a.wrapping_add(immediate_i(word)) & !1;
            }
            (0x63, 0 | 1 | 4..=7) => {
                if rv32::branches(funct3, a, b) {
                    next = self.pc.wrapping_add(immediate_b(word));
                }
            }
            (0x03, 0..=2 | 4 | 5) => self.load(rd, a.wrapping_add(immediate_i(word)), funct3)?,
            (0x23, 0..=2) => self.store(a.wrapping_add(immediate_s(word)), b, funct3)?,
            (0x13, 1) if funct7 != 0 => return Err(Stepped::Halted("unknown-word")),
            (0x13, 5) if funct7 & !0x20 != 0 => return Err(Stepped::Halted("unknown-word")),
            (0x13, _) => self.set(rd, calculate(funct3, funct3 == 5 && funct7 == 0x20, a, immediate_i(word))),
            (0x33, _) if funct7 == 1 => self.set(rd, multiply_or_divide(funct3, a, b)),
            (0x33, _) if funct7 == 0 => self.set(rd, calculate(funct3, false, a, b)),
            (0x33, 0 | 5) if funct7 == 0x20 => self.set(rd, calculate(funct3, true, a, b)),
            (0x0F, 0) => {}
            _ if word == 0x0000_0073 => return Err(Stepped::Halted("ecall")),
            _ if word == 0x0010_0073 => return Err(Stepped::Halted("ebreak")),
            _ => return Err(Stepped::Halted("unknown-word")),
        }
        Ok(next)
    }
}

/// The code and the entry of an image: its words stand last, how many there are is its third word, and the entry its fourth.
/// What is no image is a flat program.
pub fn code_of(file: &[u8]) -> (Vec<u32>, u32) {
    let words: Vec<u32> = file
        .chunks_exact(4)
        .map(|bytes| u32::from_le_bytes(bytes.try_into().unwrap()))
        .collect();
    if file.starts_with(b"LBIM") {
        (words[words.len() - words[2] as usize..].to_vec(), words[3])
    } else {
        (words, 0)
    }
}

fn replies_of(text: &str) -> Vec<u32> {
    text.lines()
        .map(|line| u32::from_str_radix(line, 16).expect("a reply"))
        .collect()
}

fn report(machine: &Machine, done: u32, ending: &str) -> String {
    let mut text = format!("done {done}\nmmio {}\nend {ending}\ntrace\n", machine.trace.len());
    for event in &machine.trace {
        let kind = if event.is_load { "ld" } else { "st" };
        writeln!(text, "{kind} {:08x} {:08x}", event.address, event.value).unwrap();
    }
    text
}

/// Runs up to so many steps, or to the lamp's switch where that is asked for. The answer is how many were done, and the ending.
fn run(machine: &mut Machine, steps: u32, to_switch: bool) -> (u32, String) {
    for done in 0..steps {
        if to_switch && machine.trace.last().is_some_and(|event| !event.is_load && event.address == LAMP) {
            return (done, "switched".to_string());
        }
        match machine.step() {
            Stepped::Committed => {}
            Stepped::WantsReply => return (done, "wants-reply".to_string()),
            Stepped::Halted(cause) => return (done, format!("halted {cause}")),
        }
    }
    (steps, "running".to_string())
}

fn main() {
    let words: Vec<String> = std::env::args().collect();
    let words: Vec<&str> = words.iter().map(String::as_str).collect();
    let [_, mode @ ("run" | "switch"), file, last] = words.as_slice() else {
        panic!("usage: interpreter run IMAGE STEPS, or interpreter switch FILE REPLIES");
    };
    let code = code_of(&std::fs::read(file).expect("an image or a program"));
    let text = if *mode == "run" {
        let mut machine = Machine::boot(&code, Vec::new());
        let (done, ending) = run(&mut machine, last.parse().expect("a number of steps"), false);
        report(&machine, done, &ending)
    } else {
        let replies = std::fs::read_to_string(last).expect("replies");
        let mut machine = Machine::boot(&code, replies_of(&replies));
        let (done, ending) = run(&mut machine, MOST_STEPS, true);
        format!("words {}\n{}", code.0.len(), report(&machine, done, &ending))
    };
    std::io::stdout().write_all(text.as_bytes()).expect("standard output");
}
