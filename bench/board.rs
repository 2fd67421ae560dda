//! A plain board for machine.rs: GPIO and SPI registers, and an Ethernet chip behind SPI that takes the frames of a script.
use super::pipeline::Kind;
use std::collections::VecDeque;

const SPI_BYTES: usize = 8;
const MOST_STATUSES: usize = 16;
const MOST_DATA_BYTES: usize = 16_384;

#[derive(Clone)]
pub struct Frame {
    pub bytes: Vec<u8>,
    pub error: bool,
}

/// The Ethernet chip. It keeps the bytes of the transaction that is under way.
#[derive(Default)]
struct Lan {
    awake: bool,
    transaction: Vec<u8>,
    kept: u32,
    statuses: VecDeque<u32>,
    data: VecDeque<u32>,
    hardware: u32,
    mac_command: u32,
    mac_data: u32,
    mac_control: u32,
}

impl Lan {
    fn exchange(&mut self, byte: u8) -> u8 {
        self.transaction.push(byte);
        let length = self.transaction.len();
        let at = |place: usize| self.transaction[place] as u32;
        match (self.transaction[0], length) {
            (0x0B, 5) => self.kept = self.read(256 * at(1) + at(2)),
            (0x02, 7) => {
                let value = at(3) | at(4) << 8 | at(5) << 16 | at(6) << 24;
                self.write(256 * at(1) + at(2), value);
            }
            _ => {}
        }
        if self.transaction[0] == 0x0B && (5..=8).contains(&length) {
            self.kept.to_le_bytes()[length - 5]
        } else {
            0xFF
        }
    }

    fn read(&mut self, register: u32) -> u32 {
        if !self.awake {
            return 0;
        }
        match register {
            0x00 => self.data.pop_front().unwrap_or(0),
            0x40 => self.statuses.pop_front().unwrap_or(0),
            0x64 => 0x8765_4321,
            0x74 => self.hardware,
            0x7C => (self.statuses.len() as u32) << 16 | 4 * self.data.len() as u32,
            0xA4 => {
                let value = self.mac_command;
                self.mac_command &= 0x7FFF_FFFF;
                value
            }
            0xA8 => self.mac_data,
            _ => 0,
        }
    }

    fn write(&mut self, register: u32, value: u32) {
        if !self.awake {
            return;
        }
        match register {
            0x74 => self.hardware = value,
            0xA4 => {
                self.mac_command = value;
                if value >> 30 == 2 && value & 0xFF == 1 {
                    self.mac_control = self.mac_data;
                }
            }
            0xA8 => self.mac_data = value,
            _ => {}
        }
    }

    fn accepts(&self, frame: &Frame) -> bool {
        let is_receiving = self.awake && self.mac_control & 4 != 0;
        let data_bytes = 4 * self.data.len() + frame.bytes.len().div_ceil(4) * 4;
        is_receiving && self.statuses.len() < MOST_STATUSES && data_bytes <= MOST_DATA_BYTES
    }

    fn arrive(&mut self, frame: &Frame) {
        self.statuses.push_back((frame.bytes.len() as u32) << 16 | (frame.error as u32) << 15);
        for bytes in frame.bytes.chunks(4) {
            let mut word = [0; 4];
            word[..bytes.len()].copy_from_slice(bytes);
            self.data.push_back(u32::from_le_bytes(word));
        }
    }
}

pub struct Board {
    output_enable: u32,
    output_value: u32,
    function_enable: u32,
    chip_select: u32,
    send: VecDeque<u8>,
    receive: VecDeque<u8>,
    lan: Lan,
    frames: Vec<Frame>,
    pub arrived: usize,
}

impl Board {
    pub fn boot(frames: Vec<Frame>) -> Board {
        Board {
            output_enable: 0,
            output_value: 0,
            function_enable: 0,
            chip_select: 0,
            send: VecDeque::new(),
            receive: VecDeque::new(),
            lan: Lan::default(),
            frames,
            arrived: 0,
        }
    }

    pub fn read(&mut self, address: u32) -> u32 {
        match address {
            0x1001_2008 => self.output_enable,
            0x1001_200C => self.output_value,
            0x1001_2038 => self.function_enable,
            0x1002_4018 => self.chip_select,
            0x1002_4048 if self.send.len() == SPI_BYTES => 0x8000_0000,
            0x1002_404C => self.receive.pop_front().map_or(0x8000_0000, u32::from),
            _ => 0,
        }
    }

    pub fn write(&mut self, address: u32, value: u32) {
        match address {
            0x1001_2008 => self.output_enable = value,
            0x1001_200C => self.output_value = value,
            0x1001_2038 => self.function_enable = value,
            0x1002_4018 => {
                self.chip_select = value & 3;
                if self.chip_select != 2 {
                    self.lan.transaction.clear();
                }
            }
            0x1002_4048 if self.send.len() < SPI_BYTES => self.send.push_back(value as u8),
            _ => {}
        }
    }

    pub fn enabled(&self, kind: Kind) -> bool {
        match kind {
            Kind::Boot => !self.lan.awake,
            Kind::Shift => !self.send.is_empty() && self.receive.len() < SPI_BYTES,
            Kind::Arrive => self.frames.get(self.arrived).is_some_and(|frame| self.lan.accepts(frame)),
            _ => false,
        }
    }

    pub fn act(&mut self, kind: Kind) {
        match kind {
            Kind::Boot => self.lan.awake = true,
            Kind::Shift => {
                if let Some(byte) = self.send.pop_front() {
                    let answer = if self.chip_select == 2 { self.lan.exchange(byte) } else { 0xFF };
                    self.receive.push_back(answer);
                }
            }
            Kind::Arrive => {
                self.lan.arrive(&self.frames[self.arrived]);
                self.arrived += 1;
            }
            _ => {}
        }
    }

    pub fn lamp(&self) -> bool {
        self.output_value >> 23 & 1 == 1
    }
}
