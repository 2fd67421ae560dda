//! The yardstick of large.py for the mode `gen`: the large program of a seed, what it asks for and does, in plain Rust, as
//! straightforward as can be.
//!
//! large SEED IMAGE [trace] makes the program as a tree and counts on it what it asks for (needs.rs), walks the tree (source.rs),
//! runs the code (interpreter.rs) and fires the whole machine with it by the draws of the seed (machine.rs), and prints the
//! report of `gen`, with its trace where that is asked for. The rules aren't tried and nothing is compiled, which `gen` does
//! before it runs anything: IMAGE is the file that `compile` makes of the same program, and gives the code and the frames.
#[allow(dead_code)] // (of these three only the machines are needed)
#[path = "interpreter.rs"]
mod interpreter;
#[allow(dead_code)]
#[path = "machine.rs"]
mod machine;
mod needs;
#[allow(dead_code)]
#[path = "source.rs"]
mod source;

use interpreter::Stepped;
use machine::Draws;
use source::reader::{Callee, Command, Expression, Function, Operator, OPERATORS};
use std::io::Write as _;

/// How many functions have a number.
const NUMBERED: u32 = 64;
/// The register that the program writes to.
const SHOWN_AT: u32 = 0x1001_200C;
/// The fuel of the source's run.
const FUEL: u32 = 4_000;
const MOST_INSTRUCTIONS: u32 = 1_000_000;
/// The most entries of the machine's log.
const MOST_ENTRIES: usize = 4_000_000;
/// The accesses at which the runs of the code and of the machine are stopped.
const MOST_COUNTED: usize = 64;

// ---- the program of a seed

fn variable(name: &str) -> Expression {
    Expression::Variable(name.to_string())
}

fn operation(operator: Operator, left: Expression, right: Expression) -> Expression {
    Expression::Operation(operator, Box::new((left, right)))
}

fn set(name: &str, value: Expression) -> Command {
    Command::Set(name.to_string(), value)
}

/// `r = fN(first, second);`
fn call_of(number: u32, first: Expression, second: u32) -> Command {
    let arguments = vec![first, Expression::Number(second)];
    Command::Call(vec!["r".to_string()], Callee::Function(format!("f{number}")), arguments)
}

fn function(name: &str, parameters: &[&str], results: &[&str], body: Vec<Command>) -> Function {
    let names = |names: &[&str]| names.iter().map(|name| name.to_string()).collect();
    Function { name: name.to_string(), parameters: names(parameters), results: names(results), body }
}

fn operator_of(draw: u32) -> Operator {
    OPERATORS[draw as usize % OPERATORS.len()].1
}

/// The function of a number, of seven draws. Each but the first calls the one before.
fn numbered(number: u32, draws: &mut Draws) -> Function {
    let (first_operator, first_number) = (operator_of(draws.next()), draws.next());
    let turns = 1 + draws.next() % 8;
    let (second_operator, third_operator) = (operator_of(draws.next()), operator_of(draws.next()));
    let (second_number, third_number) = (draws.next(), draws.next());
    let second_value = operation(second_operator, variable("r"), variable("b"));
    let turn = vec![
        set("r", operation(third_operator, second_value, Expression::Number(second_number))),
        set("i", operation(Operator::Add, variable("i"), Expression::Number(1))),
    ];
    let mut body = vec![
        set("r", operation(first_operator, variable("a"), Expression::Number(first_number))),
        set("i", Expression::Number(0)),
        Command::While(operation(Operator::Less, variable("i"), Expression::Number(turns)), turn),
    ];
    if number > 0 {
        body.push(call_of(number - 1, variable("r"), third_number));
    }
    body.push(Command::Call(Vec::new(), Callee::Write, vec![Expression::Number(SHOWN_AT), variable("r")]));
    function(&format!("f{number}"), &["a", "b"], &["r"], body)
}

/// The program of a seed: the numbered functions, `init` and `loop`.
fn made(seed: u32) -> Vec<Function> {
    let mut draws = Draws::new(seed);
    let mut program: Vec<Function> = (0..NUMBERED).map(|number| numbered(number, &mut draws)).collect();
    let (first, second) = (Expression::Number(draws.next()), draws.next());
    program.push(function("init", &[], &[], vec![call_of(NUMBERED - 1, first, second)]));
    program.push(function("loop", &[], &[], vec![Command::Skip]));
    program
}

// ---- its runs

/// How many accesses the code makes, without replies.
fn code_accesses(code: &(Vec<u32>, u32)) -> usize {
    let mut machine = interpreter::Machine::boot(code, Vec::new());
    for _ in 0..MOST_INSTRUCTIONS {
        if machine.trace.len() == MOST_COUNTED || !matches!(machine.step(), Stepped::Committed) {
            break;
        }
    }
    machine.trace.len()
}

/// How many accesses a machine makes that one worker fires by the draws of the seed, without frames.
fn machine_accesses((code, entry): &(Vec<u32>, u32), seed: u32) -> usize {
    let mut machine = machine::Machine::boot(code, *entry, Vec::new(), MOST_ENTRIES);
    machine.draw(seed, MOST_ENTRIES, MOST_COUNTED);
    machine.trace.len()
}

/// The report on the program of a seed, whose image this is.
fn report(seed: u32, image: &[u8], with_trace: bool) -> String {
    let program = made(seed);
    let needs = needs::needs(&program);
    let frames = source::frames_of(image);
    let mut machine = source::Machine::new(&program, &frames, Vec::new(), FUEL);
    machine.run();
    let code = interpreter::code_of(image);
    let mut report = format!(
        "seed {seed}\nfunctions {}\nwords {}\nstack {}\nmmio {}\nisa {}\ncore {}\n",
        program.len(),
        needs.words,
        needs.stack,
        machine.trace.len(),
        code_accesses(&code),
        machine_accesses(&code, seed),
    );
    if with_trace {
        source::append_trace(&mut report, &machine.trace);
    }
    report
}

fn main() {
    let words: Vec<String> = std::env::args().skip(1).collect();
    let words: Vec<&str> = words.iter().map(String::as_str).collect();
    let [seed, image, rest @ ..] = words.as_slice() else {
        panic!("usage: large SEED IMAGE [trace]");
    };
    let image = std::fs::read(image).expect("an image");
    let report = report(seed.parse().expect("a seed"), &image, rest.contains(&"trace"));
    std::io::stdout().write_all(report.as_bytes()).expect("standard output");
}

#[cfg(test)]
mod tests {
    use super::*;

    #[test]
    fn programs_have_their_form() {
        for seed in [0, 1, u32::MAX] {
            let program = made(seed);
            let names: Vec<&str> = program.iter().map(|function| function.name.as_str()).collect();
            assert_eq!((names.len(), &names[..2], &names[63..]), (66, &["f0", "f1"][..], &["f63", "init", "loop"][..]));
            assert_eq!((program[0].body.len(), program[1].body.len(), program[63].body.len()), (4, 5, 5));
        }
    }

    /// The first draw of seed 0 is 0x510C4619, which leaves 8 of the 15 operators: `^` is that of number 8, from 0.
    #[test]
    fn the_first_draw_is_an_operator() {
        let program = made(0);
        let [Command::Set(name, Expression::Operation(Operator::ExclusiveOr, sides)), ..] = program[0].body.as_slice() else {
            panic!("no exclusive or");
        };
        assert_eq!(name, "r");
        assert!(matches!(&sides.0, Expression::Variable(name) if name == "a"));
    }
}
