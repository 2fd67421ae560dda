//! The yardstick of bench/text.py: a reader of the source language in plain Rust, by hand and as straightforward as can be.
//! parser MODE reads the standard input into a tree; with MODE print it prints the canonical text, with MODE read a count.
#[allow(dead_code)] // (the places of blocks)
mod reader;

use reader::{Callee, Command, Error, Expression, Function};
use std::fmt::{self, Write as _};
use std::io::{Read as _, Write as _};
use std::process::ExitCode;

impl fmt::Display for Callee {
    fn fmt(&self, out: &mut fmt::Formatter) -> fmt::Result {
        out.write_str(match self {
            Callee::Function(name) => name,
            Callee::Read => "MMIOREAD",
            Callee::Write => "MMIOWRITE",
        })
    }
}

impl fmt::Display for Expression {
    fn fmt(&self, out: &mut fmt::Formatter) -> fmt::Result {
        match self {
            Expression::Number(number) => write!(out, "{number}"),
            Expression::Variable(name) => out.write_str(name),
            Expression::Load(width, address) => write!(out, "load{width}({address})"),
            Expression::Operation(operator, sides) => write!(out, "({} {operator} {})", sides.0, sides.1),
        }
    }
}

fn write_list<T: fmt::Display>(out: &mut String, items: &[T]) -> fmt::Result {
    for (number, item) in items.iter().enumerate() {
        let comma = if number == 0 { "" } else { ", " };
        write!(out, "{comma}{item}")?;
    }
    Ok(())
}

fn write_block(out: &mut String, block: &[Command], deep: usize) -> fmt::Result {
    out.push_str(" {\n");
    for command in block {
        write_command(out, command, deep + 1)?;
    }
    write!(out, "{:1$}}}", "", 2 * deep)
}

fn write_command(out: &mut String, command: &Command, deep: usize) -> fmt::Result {
    write!(out, "{:1$}", "", 2 * deep)?;
    match command {
        Command::Skip => out.push_str("skip;"),
        Command::Set(name, value) => write!(out, "{name} = {value};")?,
        Command::Unset(name) => write!(out, "unset {name};")?,
        Command::Store(width, address, value) => write!(out, "store{width}({address}, {value});")?,
        Command::Allocate(allocation, block) => {
            write!(out, "stackalloc {} as {}", allocation.bytes, allocation.name)?;
            write_block(out, block, deep)?;
        }
        Command::If(condition, yes, no) => {
            write!(out, "if {condition}")?;
            write_block(out, yes, deep)?;
            if !no.is_empty() {
                out.push_str(" else");
                write_block(out, no, deep)?;
            }
        }
        Command::While(condition, block) => {
            write!(out, "while {condition}")?;
            write_block(out, block, deep)?;
        }
        Command::Call(targets, callee, arguments) => {
            write_list(out, targets)?;
            let equals = if targets.is_empty() { "" } else { " = " };
            write!(out, "{equals}{callee}(")?;
            write_list(out, arguments)?;
            out.push_str(");");
        }
    }
    out.push('\n');
    Ok(())
}

fn canonical(program: &[Function]) -> Result<String, fmt::Error> {
    let mut out = String::new();
    for function in program {
        write!(out, "fn {}(", function.name)?;
        write_list(&mut out, &function.parameters)?;
        out.push(')');
        if !function.results.is_empty() {
            out.push_str(" -> (");
            write_list(&mut out, &function.results)?;
            out.push(')');
        }
        write_block(&mut out, &function.body, 0)?;
        out.push('\n');
    }
    Ok(out)
}

fn main() -> ExitCode {
    let is_print = match std::env::args().nth(1).as_deref() {
        Some("print") => true,
        Some("read") => false,
        _ => panic!("usage: parser print|read"),
    };
    let mut text = Vec::new();
    std::io::stdin().read_to_end(&mut text).expect("standard input");
    let program = match reader::program_of(&text) {
        Ok(program) => program,
        Err(Error(at)) => {
            println!("text at {at}");
            return ExitCode::from(2);
        }
    };
    let report = if is_print { canonical(&program).expect("a text") } else { format!("functions {}\n", program.len()) };
    std::io::stdout().write_all(report.as_bytes()).expect("standard output");
    ExitCode::SUCCESS
}
