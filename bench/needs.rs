//! What a program asks for, counted on its tree, for large.rs: the words of its code and the bytes of its stack.
use super::source::reader::{Callee, Command, Expression, Function};
use std::collections::{HashMap, HashSet};

/// The largest frame all of which an instruction's own immediate reaches, in bytes.
const NEAR_FRAME: u32 = 2_032;

#[derive(Debug, PartialEq)]
pub struct Needs {
    pub words: u32,
    pub stack: u32,
}

/// What stands in a function: the words that its commands may take, how deep its deepest expression nests, the bytes of its
/// blocks, the names of its variables, and the functions that it calls.
#[derive(Default)]
struct Counted<'a> {
    words: u32,
    depth: u32,
    block_bytes: u32,
    variables: HashSet<&'a str>,
    callees: Vec<&'a str>,
}

impl<'a> Counted<'a> {
    fn of(function: &'a Function) -> Counted<'a> {
        let mut counted = Counted::default();
        counted.words = 80;
        for names in [&function.parameters, &function.results] {
            counted.words += 4 * names.len() as u32;
            counted.variables.extend(names.iter().map(String::as_str));
        }
        counted.block(&function.body);
        counted
    }

    fn frame(&self) -> u32 {
        self.block_bytes + 4 * (self.variables.len() as u32 + self.depth + 34)
    }

    fn block(&mut self, commands: &'a [Command]) {
        for command in commands {
            self.words += 8;
            self.command(command);
        }
    }

    fn command(&mut self, command: &'a Command) {
        match command {
            Command::Skip => {}
            Command::Set(name, value) => {
                self.variables.insert(name);
                self.expression(value);
            }
            Command::Unset(name) => {
                self.variables.insert(name);
            }
            Command::Store(_, address, value) => {
                self.expression(address);
                self.expression(value);
            }
            Command::Allocate(allocation, block) => {
                self.block_bytes += allocation.bytes;
                self.variables.insert(&allocation.name);
                self.block(block);
            }
            Command::If(condition, yes, no) => {
                self.expression(condition);
                self.block(yes);
                self.block(no);
            }
            Command::While(condition, block) => {
                self.expression(condition);
                self.block(block);
            }
            Command::Call(targets, callee, arguments) => {
                self.words += 4 * (targets.len() + arguments.len()) as u32;
                self.variables.extend(targets.iter().map(String::as_str));
                if let Callee::Function(name) = callee {
                    self.callees.push(name);
                }
                for argument in arguments {
                    self.expression(argument);
                }
            }
        }
    }

    fn expression(&mut self, expression: &'a Expression) {
        let depth = self.nested(expression);
        self.depth = self.depth.max(depth);
    }

    /// Counts an expression, and answers how deep it nests.
    fn nested(&mut self, expression: &'a Expression) -> u32 {
        self.words += 6;
        match expression {
            Expression::Number(_) => 1,
            Expression::Variable(name) => {
                self.variables.insert(name);
                1
            }
            Expression::Load(_, address) => self.nested(address) + 1,
            Expression::Operation(_, sides) => self.nested(&sides.0).max(self.nested(&sides.1)) + 1,
        }
    }
}

/// What a program asks for in which no function leads back to itself.
pub fn needs(program: &[Function]) -> Needs {
    let named = program.iter().map(|function| (function.name.as_str(), Counted::of(function)));
    let counted: HashMap<&str, Counted> = named.collect();
    let words = |function: &Counted| if function.frame() <= NEAR_FRAME { function.words } else { 2 * function.words };
    let mut stacks = HashMap::new();
    Needs {
        words: 16 + counted.values().map(words).sum::<u32>(),
        stack: program.iter().map(|function| stack_of(&function.name, &counted, &mut stacks)).max().unwrap_or(0),
    }
}

/// The bytes of stack that a call takes. What is found of a function is kept.
fn stack_of<'a>(name: &'a str, counted: &HashMap<&'a str, Counted<'a>>, stacks: &mut HashMap<&'a str, u32>) -> u32 {
    if let Some(stack) = stacks.get(name) {
        return *stack;
    }
    let function = &counted[name];
    let below = function.callees.iter().map(|callee| stack_of(callee, counted, stacks)).max();
    let stack = function.frame() + below.unwrap_or(0);
    stacks.insert(name, stack);
    stack
}

#[cfg(test)]
mod tests {
    use super::super::source::reader::program_of;
    use super::*;

    fn expect(text: &str, words: u32, stack: u32) {
        assert_eq!(needs(&program_of(text.as_bytes()).unwrap()), Needs { words, stack }, "{text}");
    }

    /// `init` takes 80 words, 8 and 4 * 3 for the call and 6 * 5 for its expressions; f 80, 4 * 3, 8 and 6 * 3. Their frames have
    /// 1 and 3 variables, and expressions of depth 3 and 2.
    #[test]
    fn words_and_frames_are_counted() {
        expect("", 16, 0);
        expect("fn init() { } fn loop() { skip; }", 184, 136);
        let calls = "fn init() { x = f((1 + load4(2)), 3); } fn loop() { } fn f(a, b) -> (c) { c = (a + b); }";
        expect(calls, 16 + 130 + 80 + 118, 152 + 156);
        let device = "fn init() { x = MMIOREAD(4); unset y; } fn loop() { if 1 { store1(2, x); } else { while 3 { } } }";
        expect(device, 16 + (80 + 8 + 8 + 6 + 8) + (80 + 14 + 20 + 14), 4 * (2 + 1 + 34));
    }

    /// The frame of the first is 2,032 bytes, the largest that is near; the words of the second are doubled.
    #[test]
    fn words_of_a_far_frame_are_doubled() {
        expect("fn init() { stackalloc 1892 as p { } }", 16 + 88, 2032);
        expect("fn init() { stackalloc 1896 as p { } }", 16 + 176, 2036);
    }

    /// The deepest path goes by way of g.
    #[test]
    fn the_deepest_calls_count() {
        let text = "fn init() { f(); g(); } fn f() { skip; } fn g() { f(); stackalloc 8 as p { } }";
        expect(text, 16 + (80 + 16) + 88 + (80 + 16), 136 + 136 + (8 + 140));
    }
}
