//! The yardstick of runs.py for the mode `interp`: an interpreter of the source language in plain Rust, as straightforward as
//! can be, which walks the tree of the text. Each call has its variables in a map.
//!
//! source IMAGE FUEL [trace] reads what `interp` reads from the standard input, the text and the replies, and prints the report
//! of `interp`, with its trace where that is asked for. The image is that of the text: it tells where the blocks of memory
//! stand. The rules aren't tried, so the text has to keep them.
pub mod reader;
#[allow(dead_code)] // (of RV32IM only the memory map is needed)
mod rv32;

use reader::{Allocation, Callee, Command, Error, Expression, Function, Operator};
use std::collections::HashMap;
use std::fmt::Write as _;
use std::io::{Read as _, Write as _};

/// Where the stack begins; it grows downwards.
const STACK_TOP: u32 = rv32::RAM_BYTES as u32;
/// The word of an image with the number of its functions; their frames follow.
const FUNCTIONS_WORD: usize = 4;

pub struct Event {
    is_load: bool,
    address: u32,
    value: u32,
}

/// How a run ends.
pub enum End {
    Spent,
    Starved,
    Undefined(&'static str),
}

/// What stands at an address.
#[derive(Clone, Copy)]
enum Cell {
    NotOwned,
    Unset,
    Holds(u8),
}

/// How many bytes a function's frame has, and the offsets of its blocks in text order.
pub struct Frame {
    size: u32,
    offsets: Vec<u32>,
}

/// A call that runs: its variables, and where its blocks stand.
struct Call<'a> {
    variables: HashMap<&'a str, u32>,
    offsets: &'a [u32],
}

impl Call<'_> {
    fn variable(&self, name: &str) -> Result<u32, End> {
        self.variables.get(name).copied().ok_or(End::Undefined("unset-variable"))
    }
}

pub struct Machine<'a> {
    functions: HashMap<&'a str, (&'a Function, &'a Frame)>,
    memory: Vec<Cell>,
    stack: u32,
    replies: std::vec::IntoIter<u32>,
    pub trace: Vec<Event>,
    fuel: u32,
}

impl<'a> Machine<'a> {
    pub fn new(program: &'a [Function], frames: &'a [Frame], replies: Vec<u32>, fuel: u32) -> Machine<'a> {
        let framed = program.iter().zip(frames);
        Machine {
            functions: framed.map(|(function, frame)| (function.name.as_str(), (function, frame))).collect(),
            memory: vec![Cell::NotOwned; STACK_TOP as usize],
            stack: STACK_TOP,
            replies: replies.into_iter(),
            trace: Vec::new(),
            fuel,
        }
    }

    /// `init` once, then `loop` for ever.
    pub fn run(&mut self) -> End {
        let mut name = "init";
        loop {
            if let Err(end) = self.call(name, Vec::new()) {
                return end;
            }
            name = "loop";
        }
    }

    fn spend(&mut self) -> Result<(), End> {
        self.fuel = self.fuel.checked_sub(1).ok_or(End::Spent)?;
        Ok(())
    }

    /// Calls a function. The answer is its results.
    fn call(&mut self, name: &str, arguments: Vec<u32>) -> Result<Vec<u32>, End> {
        let (function, frame) = self.functions[name];
        self.spend()?;
        let variables = function.parameters.iter().map(String::as_str).zip(arguments).collect();
        let mut call = Call { variables, offsets: &frame.offsets };
        self.stack -= frame.size;
        self.block(&mut call, &function.body)?;
        self.stack += frame.size;
        function.results.iter().map(|name| call.variable(name)).collect()
    }

    fn block(&mut self, call: &mut Call<'a>, commands: &'a [Command]) -> Result<(), End> {
        for command in commands {
            self.command(call, command)?;
        }
        Ok(())
    }

    fn command(&mut self, call: &mut Call<'a>, command: &'a Command) -> Result<(), End> {
        match command {
            Command::Skip => {}
            Command::Set(name, value) => {
                let value = self.value(call, value)?;
                call.variables.insert(name, value);
            }
            Command::Unset(name) => {
                call.variables.remove(name.as_str());
            }
            Command::Store(width, address, value) => {
                let address = self.value(call, address)?;
                let value = self.value(call, value)?;
                self.store(*width, address, value)?;
            }
            Command::Allocate(allocation, block) => self.allocate(call, allocation, block)?,
            Command::If(condition, yes, no) => {
                let chosen = if self.value(call, condition)? != 0 { yes } else { no };
                self.block(call, chosen)?;
            }
            Command::While(condition, block) => {
                while self.value(call, condition)? != 0 {
                    self.spend()?;
                    self.block(call, block)?;
                }
            }
            Command::Call(targets, callee, arguments) => {
                let arguments = self.values(call, arguments)?;
                let results = match callee {
                    Callee::Function(name) => self.call(name, arguments)?,
                    Callee::Read => vec![self.read(arguments[0])?],
                    Callee::Write => self.write(arguments[0], arguments[1])?,
                };
                call.variables.extend(targets.iter().map(String::as_str).zip(results));
            }
        }
        Ok(())
    }

    /// Runs a block whose bytes are owned meanwhile.
    fn allocate(&mut self, call: &mut Call<'a>, block: &'a Allocation, body: &'a [Command]) -> Result<(), End> {
        let address = self.stack + call.offsets[block.place];
        let range = address as usize..(address + block.bytes) as usize;
        self.memory[range.clone()].fill(Cell::Unset);
        call.variables.insert(&block.name, address);
        self.block(call, body)?;
        self.memory[range].fill(Cell::NotOwned);
        Ok(())
    }

    fn values(&self, call: &Call, expressions: &[Expression]) -> Result<Vec<u32>, End> {
        expressions.iter().map(|expression| self.value(call, expression)).collect()
    }

    fn value(&self, call: &Call, expression: &Expression) -> Result<u32, End> {
        match expression {
            Expression::Number(number) => Ok(*number),
            Expression::Variable(name) => call.variable(name),
            Expression::Load(width, address) => self.load(*width, self.value(call, address)?),
            Expression::Operation(operator, sides) => {
                let left = self.value(call, &sides.0)?;
                let right = self.value(call, &sides.1)?;
                Ok(calculate(*operator, left, right))
            }
        }
    }

    /// The bytes from an address on, the least significant first.
    fn load(&self, width: u32, address: u32) -> Result<u32, End> {
        let mut value = 0;
        for place in 0..width {
            match self.memory.get(address.wrapping_add(place) as usize) {
                Some(Cell::Holds(byte)) => value |= (*byte as u32) << (8 * place),
                Some(Cell::Unset) => return Err(End::Undefined("unset-byte")),
                Some(Cell::NotOwned) | None => return Err(End::Undefined("not-owned")),
            }
        }
        Ok(value)
    }

    fn store(&mut self, width: u32, address: u32, value: u32) -> Result<(), End> {
        for place in 0..width {
            match self.memory.get_mut(address.wrapping_add(place) as usize) {
                Some(Cell::NotOwned) | None => return Err(End::Undefined("not-owned")),
                Some(cell) => *cell = Cell::Holds((value >> (8 * place)) as u8),
            }
        }
        Ok(())
    }

    fn read(&mut self, address: u32) -> Result<u32, End> {
        check_device(address)?;
        let value = self.replies.next().ok_or(End::Starved)?;
        self.trace.push(Event { is_load: true, address, value });
        Ok(value)
    }

    /// Writes to a device, which has no results.
    fn write(&mut self, address: u32, value: u32) -> Result<Vec<u32>, End> {
        check_device(address)?;
        self.trace.push(Event { is_load: false, address, value });
        Ok(Vec::new())
    }
}

fn check_device(address: u32) -> Result<(), End> {
    if address % 4 != 0 {
        Err(End::Undefined("unaligned"))
    } else if rv32::is_device_word(address, 4) {
        Ok(())
    } else {
        Err(End::Undefined("out-of-range"))
    }
}

fn calculate(operator: Operator, a: u32, b: u32) -> u32 {
    match operator {
        Operator::Add => a.wrapping_add(b),
        Operator::Subtract => a.wrapping_sub(b),
        Operator::Multiply => a.wrapping_mul(b),
        Operator::UpperProduct => ((a as u64 * b as u64) >> 32) as u32,
        Operator::Divide => a.checked_div(b).unwrap_or(u32::MAX),
        Operator::Remainder => a.checked_rem(b).unwrap_or(a),
        Operator::And => a & b,
        Operator::Or => a | b,
        Operator::ExclusiveOr => a ^ b,
        Operator::ShiftRight => a >> (b & 31),
        Operator::ShiftLeft => a << (b & 31),
        Operator::ShiftRightSigned => (a as i32 >> (b & 31)) as u32,
        Operator::LessSigned => ((a as i32) < b as i32) as u32,
        Operator::Less => (a < b) as u32,
        Operator::Equal => (a == b) as u32,
    }
}

/// The frames of an image, one for each function in text order.
pub fn frames_of(image: &[u8]) -> Vec<Frame> {
    let mut words = image.chunks_exact(4).map(|bytes| u32::from_le_bytes(bytes.try_into().unwrap()));
    let mut next = || words.next().expect("a whole image");
    let header: Vec<u32> = (0..=FUNCTIONS_WORD).map(|_| next()).collect();
    let mut frames = Vec::new();
    for _ in 0..header[FUNCTIONS_WORD] {
        let (size, sites) = (next(), next());
        frames.push(Frame { size, offsets: (0..sites).map(|_| next()).collect() });
    }
    frames
}

/// The text and the replies of an input, which the line `%%` parts.
fn parts_of(input: &str) -> (String, Vec<u32>) {
    let mut lines = input.lines();
    let mut text = String::new();
    for line in lines.by_ref().take_while(|line| *line != "%%") {
        text.push_str(line);
        text.push('\n');
    }
    let replies = lines.filter(|line| !line.is_empty());
    (text, replies.map(|line| u32::from_str_radix(line, 16).expect("a reply")).collect())
}

/// Runs the program of an input, and answers the report.
fn report(input: &str, frames: &[Frame], fuel: u32, with_trace: bool) -> String {
    let (text, replies) = parts_of(input);
    let program = match reader::program_of(text.as_bytes()) {
        Ok(program) => program,
        Err(Error(at)) => panic!("text at {at}"),
    };
    let mut machine = Machine::new(&program, frames, replies, fuel);
    let ending = match machine.run() {
        End::Spent => "spent".to_string(),
        End::Starved => "starved".to_string(),
        End::Undefined(reason) => format!("undefined {reason}"),
    };
    let mut report = format!("mmio {}\nend {ending}\n", machine.trace.len());
    if with_trace {
        append_trace(&mut report, &machine.trace);
    }
    report
}

/// Adds the part of a report that has the events.
pub fn append_trace(report: &mut String, trace: &[Event]) {
    report.push_str("trace\n");
    for event in trace {
        let kind = if event.is_load { "ld" } else { "st" };
        writeln!(report, "{kind} {:08x} {:08x}", event.address, event.value).unwrap();
    }
}

fn main() {
    let words: Vec<String> = std::env::args().skip(1).collect();
    let words: Vec<&str> = words.iter().map(String::as_str).collect();
    let [image, fuel, rest @ ..] = words.as_slice() else {
        panic!("usage: source IMAGE FUEL [trace]");
    };
    let frames = frames_of(&std::fs::read(image).expect("an image"));
    let mut input = String::new();
    std::io::stdin().read_to_string(&mut input).expect("standard input");
    let report = report(&input, &frames, fuel.parse().expect("a number"), rest.contains(&"trace"));
    std::io::stdout().write_all(report.as_bytes()).expect("standard output");
}

#[cfg(test)]
mod tests {
    use super::*;

    const NO_BLOCKS: [(u32, &[u32]); 3] = [(144, &[]); 3];

    /// An image with frames of these sizes and offsets, and one word of code.
    fn image_of(frames: &[(u32, &[u32])]) -> Vec<u8> {
        let mut words = vec![u32::from_le_bytes(*b"LBIM"), 1, 1, 0, frames.len() as u32];
        for (size, offsets) in frames {
            words.extend([*size, offsets.len() as u32]);
            words.extend(*offsets);
        }
        words.push(0x0000_006F);
        words.iter().flat_map(|word| word.to_le_bytes()).collect()
    }

    /// How a run ends that makes these accesses. In inputs, LAMP is the register at 0x1001200C.
    fn expect(frames: &[(u32, &[u32])], fuel: u32, input: &str, ending: &str, trace: &[&str]) {
        let frames = frames_of(&image_of(frames));
        let input = input.replace("LAMP", "0x1001200C");
        let head = format!("mmio {}\nend {ending}\n", trace.len());
        assert_eq!(report(&input, &frames, fuel, false), head, "{input}");
        let lines: String = trace.iter().map(|event| format!("{event}\n")).collect();
        assert_eq!(report(&input, &frames, fuel, true), format!("{head}trace\n{lines}"), "{input}");
    }

    /// Each start of `init` and `loop`, each call and each turn spends one, after the values that it needs.
    #[test]
    fn fuel_is_counted() {
        let writes = "fn init() { } fn loop() { MMIOWRITE(LAMP, 1); }";
        expect(&NO_BLOCKS, 1, writes, "spent", &[]);
        expect(&NO_BLOCKS, 3, writes, "spent", &["st 1001200c 00000001"; 2]);
        let turns =
            "fn init() { n = 2; while n { n = (n - 1); } f(); MMIOWRITE(LAMP, n); } fn loop() { } fn f() { skip; }";
        expect(&NO_BLOCKS, 3, turns, "spent", &[]);
        expect(&NO_BLOCKS, 4, turns, "spent", &["st 1001200c 00000000"]);
        let unset = "undefined unset-variable";
        expect(&NO_BLOCKS, 1, "fn init() { while x { } } fn loop() { }", unset, &[]);
        expect(&NO_BLOCKS, 1, "fn init() { while 1 { } } fn loop() { }", "spent", &[]);
        expect(&NO_BLOCKS, 1, "fn init() { f(x); } fn loop() { } fn f(a) { }", unset, &[]);
        expect(&NO_BLOCKS, 1, "fn init() { f(1); } fn loop() { } fn f(a) { }", "spent", &[]);
    }

    /// A call has variables of its own. Its results are read together, and then the targets are set.
    #[test]
    fn calls_have_their_own_variables() {
        let changed = "fn init() { a = 1; b = 2; a, b = f(b, a); MMIOWRITE(LAMP, ((a << 8) | b)); } fn loop() { } \
            fn f(a, b) -> (b, a) { a = (a + 4); }";
        expect(&NO_BLOCKS, 3, changed, "spent", &["st 1001200c 00000106"]);
        for text in [
            "fn init() { x = 1; f(); } fn loop() { } fn f() { y = x; }",
            "fn init() { x = f(); } fn loop() { } fn f() -> (r) { }",
            "fn init() { f(); y = x; } fn loop() { } fn f() { x = 1; }",
            "fn init() { x = 1; unset x; unset x; y = x; } fn loop() { }",
            "fn init() { x = 1; } fn loop() { y = x; }",
        ] {
            expect(&NO_BLOCKS, 9, text, "undefined unset-variable", &[]);
        }
    }

    /// An address is checked before a reply is asked for, and after the arguments have their values.
    #[test]
    fn devices_are_asked_in_order() {
        let adds = "fn init() { }\nfn loop() { x = MMIOREAD(0x10012008); MMIOWRITE(0x10024FFC, (x + 1)); }\n\
            %%\n00000007\n\nffffFFFF\r\n";
        let events = ["ld 10012008 00000007", "st 10024ffc 00000008", "ld 10012008 ffffffff", "st 10024ffc 00000000"];
        expect(&NO_BLOCKS, 9, adds, "starved", &events);
        for (command, ending) in [
            ("x = MMIOREAD(0x10012000);", "starved"),
            ("x = MMIOREAD(0x10012002);", "undefined unaligned"),
            ("x = MMIOREAD(0x10013000);", "undefined out-of-range"),
            ("x = MMIOREAD(0x10013001);", "undefined unaligned"),
            ("MMIOWRITE(0x10011FFC, 1);", "undefined out-of-range"),
            ("MMIOWRITE(0x10025000, 1);", "undefined out-of-range"),
            ("MMIOWRITE(0x3FF00, 1);", "undefined out-of-range"),
            ("MMIOWRITE(0x10023FFF, x);", "undefined unset-variable"),
        ] {
            expect(&NO_BLOCKS, 9, &format!("fn init() {{ {command} }} fn loop() {{ }}"), ending, &[]);
        }
    }

    /// A block stands at the stack pointer and the offset of its place in the text. 0x40000 - 0xA0 is 0x3FF60, and 0x90 less
    /// 0x3FED0.
    #[test]
    fn blocks_stand_where_the_layout_says() {
        let nested = "fn init() { stackalloc 8 as p { stackalloc 4 as q { MMIOWRITE(LAMP, p); MMIOWRITE(LAMP, q); } } \
            stackalloc 12 as p { f(p); } stackalloc 4 as q { MMIOWRITE(LAMP, q); } } fn loop() { } \
            fn f(p) { stackalloc 4 as q { MMIOWRITE(LAMP, p); MMIOWRITE(LAMP, q); } }";
        let frames: [(u32, &[u32]); 3] = [(0xA0, &[16, 12, 0, 24]), (0x88, &[]), (0x90, &[20])];
        let events = [
            "st 1001200c 0003ff70",
            "st 1001200c 0003ff6c",
            "st 1001200c 0003ff60",
            "st 1001200c 0003fee4",
            "st 1001200c 0003ff78",
        ];
        expect(&frames, 5, nested, "spent", &events);
        let branches = "fn loop() { } fn init() { if 0 { stackalloc 4 as a { } } else { stackalloc 4 as b { \
            MMIOWRITE(LAMP, b); } } n = 1; while n { n = 0; stackalloc 4 as c { MMIOWRITE(LAMP, c); } } \
            MMIOWRITE(LAMP, (c - b)); }";
        let events = ["st 1001200c 0003ff74", "st 1001200c 0003ff80", "st 1001200c 0000000c"];
        expect(&[(0, &[]), (0x90, &[0, 4, 16])], 3, branches, "spent", &events);
    }

    /// Two blocks of 8 bytes, the second above the first.
    #[test]
    fn bytes_are_owned_and_set() {
        for (commands, reason) in [
            ("x = load1(p);", "unset-byte"),
            ("store1(p, 1); x = load2(p);", "unset-byte"),
            ("x = load2((q + 7));", "unset-byte"),
            ("store1((q + 7), 1); x = load2((q + 7));", "not-owned"),
            ("store4((q + 5), 1);", "not-owned"),
            ("x = load1((p - 1));", "not-owned"),
            ("x = load4(0xFFFFFFFF);", "not-owned"),
            ("store1(0x40000, 1);", "not-owned"),
            ("store1(0, x);", "unset-variable"),
        ] {
            let text =
                format!("fn init() {{ stackalloc 8 as p {{ stackalloc 8 as q {{ {commands} }} }} }} fn loop() {{ }}");
            expect(&[(160, &[0, 8]), (136, &[])], 9, &text, &format!("undefined {reason}"), &[]);
        }
        let writes = "fn init() { stackalloc 8 as p { stackalloc 8 as q { store4((p + 6), 0x80FF7F01); \
            MMIOWRITE(LAMP, load4((q - 2))); MMIOWRITE(LAMP, load1((p + 7))); MMIOWRITE(LAMP, load2(q)); \
            store2(q, 0x12345678); store1(q, 0xABCD); MMIOWRITE(LAMP, load4((p + 6))); } x = load1(q); } } fn loop() { }";
        let events = ["st 1001200c 80ff7f01", "st 1001200c 0000007f", "st 1001200c 000080ff", "st 1001200c 56cd7f01"];
        expect(&[(160, &[0, 8]), (136, &[])], 9, writes, "undefined not-owned", &events);
        let again = "fn init() { n = 2; while n { n = (n - 1); stackalloc 4 as p { if n { store4(p, n); } \
            MMIOWRITE(LAMP, load4(p)); } } } fn loop() { }";
        expect(&[(160, &[0]), (136, &[])], 9, again, "undefined unset-byte", &["st 1001200c 00000001"]);
    }

    #[test]
    fn operations_have_their_values() {
        for (expression, value) in [
            ("(0xFFFFFFFF + 2)", 1u32),
            ("(1 - 2)", 0xFFFF_FFFF),
            ("(0x10000 * 0x10001)", 0x1_0000),
            ("(0x10000 *^ 0x10001)", 1),
            ("(0xFFFFFFFF *^ 0xFFFFFFFF)", 0xFFFF_FFFE),
            ("(0x80000000 / 0xFFFFFFFF)", 0),
            ("(7 / 0)", 0xFFFF_FFFF),
            ("(7 % 4)", 3),
            ("(7 % 0)", 7),
            ("(12 & 10)", 8),
            ("(12 | 10)", 14),
            ("(12 ^ 10)", 6),
            ("(0x80000000 >> 33)", 0x4000_0000),
            ("(3 << 31)", 0x8000_0000),
            ("(3 << 32)", 3),
            ("(0x80000000 >>. 31)", 0xFFFF_FFFF),
            ("(0x80000000 >>. 32)", 0x8000_0000),
            ("(0xFFFFFFFF <. 0)", 1),
            ("(0xFFFFFFFF < 0)", 0),
            ("(0 < 0xFFFFFFFF)", 1),
            ("(5 == 5)", 1),
            ("(5 == 6)", 0),
        ] {
            let text = format!("fn init() {{ MMIOWRITE(LAMP, {expression}); }} fn loop() {{ }}");
            expect(&NO_BLOCKS, 1, &text, "spent", &[&format!("st 1001200c {value:08x}")]);
        }
    }
}
