//! A plain pipelined core of the processor's rows, for core.rs and machine.rs. It decodes each word when it decodes the item.
use super::rv32::{self, bits};
use std::collections::VecDeque;

/// How many items each queue between two stages holds.
const QUEUE_ITEMS: usize = 2;
const TABLE_PLACES: usize = 16;

/// The kinds of steps, in their order. The last three are the board's.
#[derive(Clone, Copy, PartialEq)]
pub enum Kind {
    Fetch,
    Decode,
    Execute,
    Ram,
    Mmio,
    Writeback,
    Boot,
    Shift,
    Arrive,
}

/// The access of a device that waits at the front of the last queue.
#[derive(Clone, Copy)]
pub enum Demand {
    Read { address: u32 },
    Write { address: u32, value: u32 },
}

#[derive(Clone, Copy)]
enum Instr {
    Lui { rd: u32, upper: u32 },
    Auipc { rd: u32, upper: u32 },
    Jal { rd: u32, offset: u32 },
    Jalr { rd: u32, rs1: u32, offset: u32 },
    Branch { funct3: u32, rs1: u32, rs2: u32, offset: u32 },
    Load { funct3: u32, rd: u32, rs1: u32, offset: u32 },
    Store { funct3: u32, rs1: u32, rs2: u32, offset: u32 },
    Immediate { funct3: u32, is_other: bool, rd: u32, rs1: u32, value: u32 },
    Register { funct3: u32, is_other: bool, rd: u32, rs1: u32, rs2: u32 },
    Multiply { funct3: u32, rd: u32, rs1: u32, rs2: u32 },
    Fence,
    Ecall,
    Ebreak,
}

impl Instr {
    fn decode(word: u32) -> Option<Instr> {
        let (rd, rs1, rs2) = (bits(word, 11, 7), bits(word, 19, 15), bits(word, 24, 20));
        let (funct3, funct7) = (bits(word, 14, 12), bits(word, 31, 25));
        let upper = word & 0xFFFF_F000;
        let instruction = match (bits(word, 6, 0), funct3) {
            (0x37, _) => Instr::Lui { rd, upper },
            (0x17, _) => Instr::Auipc { rd, upper },
            (0x6F, _) => Instr::Jal { rd, offset: rv32::immediate_j(word) },
            (0x67, 0) => Instr::Jalr { rd, rs1, offset: rv32::immediate_i(word) },
            (0x63, 0 | 1 | 4..=7) => Instr::Branch { funct3, rs1, rs2, offset: rv32::immediate_b(word) },
            (0x03, 0..=2 | 4 | 5) => Instr::Load { funct3, rd, rs1, offset: rv32::immediate_i(word) },
            (0x23, 0..=2) => Instr::Store { funct3, rs1, rs2, offset: rv32::immediate_s(word) },
            (0x13, 1) if funct7 != 0 => return None,
            (0x13, 5) if funct7 & !0x20 != 0 => return None,
            (0x13, _) => {
                let is_other = funct3 == 5 && funct7 == 0x20;
                Instr::Immediate { funct3, is_other, rd, rs1, value: rv32::immediate_i(word) }
            }
            (0x33, _) if funct7 == 1 => Instr::Multiply { funct3, rd, rs1, rs2 },
            (0x33, _) if funct7 == 0 => Instr::Register { funct3, is_other: false, rd, rs1, rs2 },
            (0x33, 0 | 5) if funct7 == 0x20 => Instr::Register { funct3, is_other: true, rd, rs1, rs2 },
            (0x0F, 0) => Instr::Fence,
            _ if word == 0x0000_0073 => Instr::Ecall,
            _ if word == 0x0010_0073 => Instr::Ebreak,
            _ => return None,
        };
        Some(instruction)
    }

    /// The registers that it reads, 0 where there is none.
    fn reads(self) -> (u32, u32) {
        match self {
            Instr::Jalr { rs1, .. } | Instr::Load { rs1, .. } | Instr::Immediate { rs1, .. } => (rs1, 0),
            Instr::Branch { rs1, rs2, .. } | Instr::Store { rs1, rs2, .. } => (rs1, rs2),
            Instr::Register { rs1, rs2, .. } | Instr::Multiply { rs1, rs2, .. } => (rs1, rs2),
            _ => (0, 0),
        }
    }

    /// The register that it writes, 0 where there is none.
    fn writes(self) -> u32 {
        match self {
            Instr::Lui { rd, .. } | Instr::Auipc { rd, .. } | Instr::Jal { rd, .. } | Instr::Jalr { rd, .. } => rd,
            Instr::Load { rd, .. } | Instr::Immediate { rd, .. } | Instr::Register { rd, .. } | Instr::Multiply { rd, .. } => rd,
            _ => 0,
        }
    }
}

#[derive(Clone, Copy)]
struct FetchItem {
    pc: u32,
    word: Option<u32>,
    predicted: u32,
    epoch: bool,
}

impl FetchItem {
    fn instruction(&self) -> Option<Instr> {
        self.word.and_then(Instr::decode)
    }
}

#[derive(Clone, Copy)]
struct DecodeItem {
    fetched: FetchItem,
    instruction: Option<Instr>,
    left: u32,
    right: u32,
}

#[derive(Clone, Copy)]
enum Outcome {
    Plain { rd: u32, value: u32 },
    Load { funct3: u32, rd: u32, address: u32, is_device: bool, served: Option<u32> },
    Store { funct3: u32, address: u32, value: u32, is_device: bool, served: bool },
    Halt { cause: &'static str },
}

impl Outcome {
    fn destination(&self) -> u32 {
        match *self {
            Outcome::Plain { rd, .. } | Outcome::Load { rd, .. } => rd,
            _ => 0,
        }
    }

    fn is_served(&self) -> bool {
        matches!(self, Outcome::Load { served: Some(_), .. } | Outcome::Store { served: true, .. })
    }

    /// Whether it is an access that isn't served yet, and of a device or of RAM.
    fn waits_for(&self, device: bool) -> bool {
        match *self {
            Outcome::Load { is_device, served: None, .. } | Outcome::Store { is_device, served: false, .. } => is_device == device,
            _ => false,
        }
    }
}

pub struct Core {
    code: Vec<u32>,
    pub pc: u32,
    epoch: bool,
    table: [Option<(u32, u32)>; TABLE_PLACES],
    fetched: VecDeque<FetchItem>,
    decoded: VecDeque<DecodeItem>,
    executed: VecDeque<Outcome>,
    pub registers: [u32; 32],
    ram: Vec<u8>,
    pub retired: u64,
    pub halted: Option<&'static str>,
}

impl Core {
    pub fn boot(code: &[u32], entry: u32) -> Core {
        Core {
            code: code.to_vec(),
            pc: entry,
            epoch: false,
            table: [None; TABLE_PLACES],
            fetched: VecDeque::with_capacity(QUEUE_ITEMS),
            decoded: VecDeque::with_capacity(QUEUE_ITEMS),
            executed: VecDeque::with_capacity(QUEUE_ITEMS),
            registers: [0; 32],
            ram: rv32::ram_of(code),
            retired: 0,
            halted: None,
        }
    }

    pub fn enabled(&self, kind: Kind) -> bool {
        self.halted.is_none()
            && match kind {
                Kind::Fetch => self.fetched.len() < QUEUE_ITEMS,
                Kind::Decode => self.can_decode(),
                Kind::Execute => self
                    .decoded
                    .front()
                    .is_some_and(|item| item.fetched.epoch != self.epoch || self.executed.len() < QUEUE_ITEMS),
                Kind::Ram => self.executed.front().is_some_and(|outcome| outcome.waits_for(false)),
                Kind::Mmio => self.executed.front().is_some_and(|outcome| outcome.waits_for(true)),
                Kind::Writeback => self
                    .executed
                    .front()
                    .is_some_and(|outcome| !outcome.waits_for(false) && !outcome.waits_for(true)),
                Kind::Boot | Kind::Shift | Kind::Arrive => false,
            }
    }

    fn can_decode(&self) -> bool {
        let Some(item) = self.fetched.front() else {
            return false;
        };
        let instruction = item.instruction();
        let (left, right) = instruction.map_or((0, 0), Instr::reads);
        let written = instruction.map_or(0, Instr::writes);
        let is_free = |register: u32| register == 0 || register != left && register != right && register != written;
        self.decoded.len() < QUEUE_ITEMS
            && self.decoded.iter().all(|item| is_free(item.instruction.map_or(0, Instr::writes)))
            && self.executed.iter().all(|outcome| is_free(outcome.destination()))
    }

    pub fn demand(&self) -> Option<Demand> {
        match self.executed.front() {
            Some(&Outcome::Load { address, is_device: true, served: None, .. }) => Some(Demand::Read { address }),
            Some(&Outcome::Store { address, value, is_device: true, served: false, .. }) => Some(Demand::Write { address, value }),
            _ => None,
        }
    }

    pub fn done(&self) -> u64 {
        self.retired + self.executed.front().is_some_and(Outcome::is_served) as u64
    }

    /// Fires a kind that is enabled. The reply is that of a read of a device.
    pub fn fire(&mut self, kind: Kind, reply: u32) {
        match kind {
            Kind::Fetch => self.fetch(),
            Kind::Decode => self.decode(),
            Kind::Execute => self.execute(),
            Kind::Ram => self.access_ram(),
            Kind::Mmio => match self.executed.front_mut() {
                Some(Outcome::Load { served, .. }) => *served = Some(reply),
                Some(Outcome::Store { served, .. }) => *served = true,
                _ => {}
            },
            Kind::Writeback => self.write_back(),
            Kind::Boot | Kind::Shift | Kind::Arrive => {}
        }
    }

    fn fetch(&mut self) {
        let word = if self.pc % 4 == 0 { self.code.get(self.pc as usize / 4).copied() } else { None };
        let predicted = match self.table[bits(self.pc, 5, 2) as usize] {
            Some((tag, target)) if tag == self.pc => target,
            _ => self.pc.wrapping_add(4),
        };
        self.fetched.push_back(FetchItem { pc: self.pc, word, predicted, epoch: self.epoch });
        self.pc = predicted;
    }

    fn decode(&mut self) {
        if let Some(fetched) = self.fetched.pop_front() {
            let instruction = fetched.instruction();
            let (left, right) = instruction.map_or((0, 0), Instr::reads);
            let (left, right) = (self.registers[left as usize], self.registers[right as usize]);
            self.decoded.push_back(DecodeItem { fetched, instruction, left, right });
        }
    }

    fn execute(&mut self) {
        let Some(item) = self.decoded.pop_front() else {
            return;
        };
        if item.fetched.epoch != self.epoch {
            return;
        }
        let (outcome, next) = self.outcome(&item);
        self.executed.push_back(outcome);
        if !matches!(outcome, Outcome::Halt { .. }) && next != item.fetched.predicted {
            self.epoch = !self.epoch;
            self.pc = next;
            self.table[bits(item.fetched.pc, 5, 2) as usize] = Some((item.fetched.pc, next));
        }
    }

    /// The outcome of an item and the next pc; of a halt its own.
    fn outcome(&self, item: &DecodeItem) -> (Outcome, u32) {
        let pc = item.fetched.pc;
        let (left, right) = (item.left, item.right);
        let next = pc.wrapping_add(4);
        let plain = |rd, value| (Outcome::Plain { rd, value }, next);
        let halt = |cause| (Outcome::Halt { cause }, pc);
        if item.fetched.word.is_none() {
            return halt("bad-pc");
        }
        let Some(instruction) = item.instruction else {
            return halt("unknown-word");
        };
        match instruction {
            Instr::Lui { rd, upper } => plain(rd, upper),
            Instr::Auipc { rd, upper } => plain(rd, pc.wrapping_add(upper)),
            Instr::Jal { rd, offset } => (Outcome::Plain { rd, value: next }, pc.wrapping_add(offset)),
            Instr::Jalr { rd, offset, .. } => (Outcome::Plain { rd, value: next }, left.wrapping_add(offset) & !1),
            Instr::Branch { funct3, offset, .. } => {
                let target = if rv32::branches(funct3, left, right) { pc.wrapping_add(offset) } else { next };
                (Outcome::Plain { rd: 0, value: 0 }, target)
            }
            Instr::Immediate { funct3, is_other, rd, value, .. } => plain(rd, rv32::calculate(funct3, is_other, left, value)),
            Instr::Register { funct3, is_other, rd, .. } => plain(rd, rv32::calculate(funct3, is_other, left, right)),
            Instr::Multiply { funct3, rd, .. } => plain(rd, rv32::multiply_or_divide(funct3, left, right)),
            Instr::Fence => plain(0, 0),
            Instr::Ecall => halt("ecall"),
            Instr::Ebreak => halt("ebreak"),
            Instr::Load { funct3, rd, offset, .. } => {
                let (address, width) = (left.wrapping_add(offset), 1 << (funct3 & 3));
                let is_device = rv32::is_device_word(address, width);
                if !is_device && !rv32::is_in_ram(address, width) {
                    return halt("bad-access");
                }
                (Outcome::Load { funct3, rd, address, is_device, served: None }, next)
            }
            Instr::Store { funct3, offset, .. } => {
                let (address, width) = (left.wrapping_add(offset), 1 << funct3);
                let is_device = rv32::is_device_word(address, width);
                if !is_device && !rv32::is_in_ram(address, width) {
                    return halt("bad-access");
                }
                if !is_device && (address as usize) < 4 * self.code.len() {
                    return halt("store-to-code");
                }
                (Outcome::Store { funct3, address, value: right, is_device, served: false }, next)
            }
        }
    }

    fn access_ram(&mut self) {
        match self.executed.front_mut() {
            Some(Outcome::Load { funct3, address, served, .. }) => *served = Some(rv32::load(&self.ram, *address, *funct3)),
            Some(Outcome::Store { funct3, address, value, served, .. }) => {
                rv32::store(&mut self.ram, *address, *value, *funct3);
                *served = true;
            }
            _ => {}
        }
    }

    fn write_back(&mut self) {
        let (rd, value) = match self.executed.front() {
            Some(&Outcome::Halt { cause }) => {
                self.halted = Some(cause);
                return;
            }
            Some(&Outcome::Plain { rd, value }) => (rd, value),
            Some(&Outcome::Load { rd, served: Some(value), .. }) => (rd, value),
            _ => (0, 0),
        };
        if rd != 0 {
            self.registers[rd as usize] = value;
        }
        self.executed.pop_front();
        self.retired += 1;
    }
}
