//! What the yardsticks share of the source language: its tree, and a reader of the text by recursive descent, by hand and as
//! straightforward as can be.
use std::fmt;

const MOST_BRACKETS: u32 = 64;
const MOST_NAME: usize = 32;
const SIGNS: [&str; 22] = [
    ">>.", "<<", ">>", "<.", "==", "*^", "->", "(", ")", "{", "}", ",", ";", "=", "+", "-", "*", "/", "%", "&", "|",
    "^",
];
const COMPARISON: &str = "<";
const RESERVED: [&str; 16] = [
    "fn",
    "if",
    "else",
    "while",
    "skip",
    "unset",
    "stackalloc",
    "as",
    "load1",
    "load2",
    "load4",
    "store1",
    "store2",
    "store4",
    "MMIOREAD",
    "MMIOWRITE",
];

/// An operation of the language.
#[derive(Clone, Copy, Debug, PartialEq)]
pub enum Operator {
    Add,
    Subtract,
    Multiply,
    UpperProduct,
    Divide,
    Remainder,
    And,
    Or,
    ExclusiveOr,
    ShiftRight,
    ShiftLeft,
    ShiftRightSigned,
    LessSigned,
    Less,
    Equal,
}

/// The operators by their signs, in the order of the variants.
pub const OPERATORS: [(&str, Operator); 15] = [
    ("+", Operator::Add),
    ("-", Operator::Subtract),
    ("*", Operator::Multiply),
    ("*^", Operator::UpperProduct),
    ("/", Operator::Divide),
    ("%", Operator::Remainder),
    ("&", Operator::And),
    ("|", Operator::Or),
    ("^", Operator::ExclusiveOr),
    (">>", Operator::ShiftRight),
    ("<<", Operator::ShiftLeft),
    (">>.", Operator::ShiftRightSigned),
    ("<.", Operator::LessSigned),
    ("<", Operator::Less),
    ("==", Operator::Equal),
];

impl fmt::Display for Operator {
    fn fmt(&self, out: &mut fmt::Formatter) -> fmt::Result {
        out.write_str(OPERATORS[*self as usize].0)
    }
}

impl Operator {
    fn of_sign(sign: &str) -> Option<Operator> {
        OPERATORS.iter().find(|(found, _)| *found == sign).map(|(_, operator)| *operator)
    }
}

#[derive(Clone, Debug, PartialEq)]
enum Token {
    Number(u32),
    Name(String),
    Reserved(&'static str),
    Sign(&'static str),
    End,
}

/// An expression. A load is of this many bytes.
pub enum Expression {
    Number(u32),
    Variable(String),
    Load(u32, Box<Expression>),
    Operation(Operator, Box<(Expression, Expression)>),
}

/// A block of memory: how many bytes, its name, and its place among those of its function, in text order.
pub struct Allocation {
    pub bytes: u32,
    pub name: String,
    pub place: usize,
}

pub enum Callee {
    Function(String),
    Read,
    Write,
}

/// A command. A store is of this many bytes.
pub enum Command {
    Skip,
    Set(String, Expression),
    Unset(String),
    Store(u32, Expression, Expression),
    Allocate(Allocation, Vec<Command>),
    If(Expression, Vec<Command>, Vec<Command>),
    While(Expression, Vec<Command>),
    Call(Vec<String>, Callee, Vec<Expression>),
}

pub struct Function {
    pub name: String,
    pub parameters: Vec<String>,
    pub results: Vec<String>,
    pub body: Vec<Command>,
}

/// The position of an error.
#[derive(Debug)]
pub struct Error(pub usize);

struct Parser<'a> {
    text: &'a [u8],
    at: usize,
    open: u32,
    allocations: usize,
    token: Token,
}

/// Reads a text.
pub fn program_of(text: &[u8]) -> Result<Vec<Function>, Error> {
    Parser::new(text)?.program()
}

/// How many bytes a load or a store moves, by the digit that ends its word.
fn width_of(word: &str) -> u32 {
    word[word.len() - 1..].parse().expect("a digit")
}

impl<'a> Parser<'a> {
    fn new(text: &'a [u8]) -> Result<Parser<'a>, Error> {
        let mut parser = Parser { text, at: 0, open: 0, allocations: 0, token: Token::End };
        parser.advance()?;
        Ok(parser)
    }

    fn skip_blanks(&mut self) {
        while let Some(byte) = self.text.get(self.at) {
            match byte {
                b' ' | b'\t' | b'\n' | b'\r' => self.at += 1,
                b'/' if self.text[self.at..].starts_with(b"//") => {
                    let rest = &self.text[self.at..];
                    self.at += rest.iter().position(|byte| *byte == b'\n').unwrap_or(rest.len());
                }
                _ => return,
            }
        }
    }

    /// Answers the present token, and reads the next one.
    fn advance(&mut self) -> Result<Token, Error> {
        self.skip_blanks();
        let rest = &self.text[self.at..];
        let next = match rest.first() {
            None => Token::End,
            Some(byte) if byte.is_ascii_alphanumeric() || *byte == b'_' => self.word()?,
            Some(_) => self.sign()?,
        };
        Ok(std::mem::replace(&mut self.token, next))
    }

    fn word(&mut self) -> Result<Token, Error> {
        let rest = &self.text[self.at..];
        let is_in_word = |byte: &u8| byte.is_ascii_alphanumeric() || *byte == b'_';
        let length = rest.iter().position(|byte| !is_in_word(byte)).unwrap_or(rest.len());
        let word = std::str::from_utf8(&rest[..length]).map_err(|_| Error(self.at))?;
        let error = Error(self.at);
        self.at += length;
        if word.as_bytes()[0].is_ascii_digit() {
            let number = match word.strip_prefix("0x") {
                Some(digits) => u32::from_str_radix(digits, 16),
                None => word.parse(),
            };
            return number.map(Token::Number).map_err(|_| error);
        }
        if let Some(reserved) = RESERVED.iter().find(|reserved| **reserved == word) {
            return Ok(Token::Reserved(reserved));
        }
        if length > MOST_NAME {
            return Err(error);
        }
        Ok(Token::Name(word.to_string()))
    }

    fn sign(&mut self) -> Result<Token, Error> {
        let rest = &self.text[self.at..];
        let sign = SIGNS.iter().chain([&COMPARISON]).find(|sign| rest.starts_with(sign.as_bytes()));
        let sign = sign.ok_or(Error(self.at))?;
        match *sign {
            "(" | "{" if self.open == MOST_BRACKETS => return Err(Error(self.at)),
            "(" | "{" => self.open += 1,
            ")" | "}" => self.open = self.open.saturating_sub(1),
            _ => {}
        }
        self.at += sign.len();
        Ok(Token::Sign(sign))
    }

    fn is_at(&self, sign: &str) -> bool {
        matches!(self.token, Token::Sign(found) if found == sign)
    }

    fn is_at_word(&self, word: &str) -> bool {
        matches!(self.token, Token::Reserved(found) if found == word)
    }

    /// Goes past this sign, if it stands here.
    fn eat(&mut self, sign: &str) -> Result<bool, Error> {
        let found = self.is_at(sign);
        if found {
            self.advance()?;
        }
        Ok(found)
    }

    fn expect(&mut self, sign: &str) -> Result<(), Error> {
        if self.eat(sign)? {
            Ok(())
        } else {
            Err(Error(self.at))
        }
    }

    fn expect_word(&mut self, word: &str) -> Result<(), Error> {
        if self.is_at_word(word) {
            self.advance()?;
            return Ok(());
        }
        Err(Error(self.at))
    }

    fn name(&mut self) -> Result<String, Error> {
        match self.advance()? {
            Token::Name(name) => Ok(name),
            _ => Err(Error(self.at)),
        }
    }

    fn names(&mut self) -> Result<Vec<String>, Error> {
        let mut names = vec![self.name()?];
        while self.eat(",")? {
            names.push(self.name()?);
        }
        Ok(names)
    }

    fn program(&mut self) -> Result<Vec<Function>, Error> {
        let mut functions = Vec::new();
        while self.token != Token::End {
            functions.push(self.function()?);
        }
        Ok(functions)
    }

    fn function(&mut self) -> Result<Function, Error> {
        self.expect_word("fn")?;
        let name = self.name()?;
        self.expect("(")?;
        let parameters = if self.is_at(")") { Vec::new() } else { self.names()? };
        self.expect(")")?;
        let mut results = Vec::new();
        if self.eat("->")? {
            self.expect("(")?;
            results = self.names()?;
            self.expect(")")?;
        }
        self.allocations = 0;
        let body = self.block()?;
        Ok(Function { name, parameters, results, body })
    }

    fn block(&mut self) -> Result<Vec<Command>, Error> {
        self.expect("{")?;
        let mut commands = Vec::new();
        while !self.eat("}")? {
            commands.push(self.command()?);
        }
        Ok(commands)
    }

    fn command(&mut self) -> Result<Command, Error> {
        let Token::Reserved(word) = self.token else {
            return self.setting();
        };
        if word.starts_with("MMIO") {
            return self.call(Vec::new());
        }
        self.advance()?;
        match word {
            "if" => return self.choice(),
            "while" => return Ok(Command::While(self.expression()?, self.block()?)),
            "stackalloc" => return self.allocation(),
            _ => {}
        }
        let command = match word {
            "skip" => Command::Skip,
            "unset" => Command::Unset(self.name()?),
            "store1" | "store2" | "store4" => {
                self.expect("(")?;
                let address = self.expression()?;
                self.expect(",")?;
                let value = self.expression()?;
                self.expect(")")?;
                Command::Store(width_of(word), address, value)
            }
            _ => return Err(Error(self.at)),
        };
        self.expect(";")?;
        Ok(command)
    }

    fn choice(&mut self) -> Result<Command, Error> {
        let condition = self.expression()?;
        let yes = self.block()?;
        let mut no = Vec::new();
        if self.is_at_word("else") {
            self.advance()?;
            no = self.block()?;
        }
        Ok(Command::If(condition, yes, no))
    }

    fn allocation(&mut self) -> Result<Command, Error> {
        let Token::Number(bytes) = self.advance()? else {
            return Err(Error(self.at));
        };
        self.expect_word("as")?;
        let name = self.name()?;
        let place = self.allocations;
        self.allocations += 1;
        Ok(Command::Allocate(Allocation { bytes, name, place }, self.block()?))
    }

    /// A command that begins with a name: `x = e;`, `x, y = f(e);` or `f(e);`.
    fn setting(&mut self) -> Result<Command, Error> {
        let first = self.name()?;
        if self.is_at("(") {
            return self.arguments(Vec::new(), Callee::Function(first));
        }
        let mut names = vec![first];
        while self.eat(",")? {
            names.push(self.name()?);
        }
        self.expect("=")?;
        if self.is_at_word("MMIOREAD") || self.is_at_word("MMIOWRITE") || names.len() > 1 {
            return self.call(names);
        }
        if let Token::Name(name) = &self.token {
            let name = name.clone();
            self.advance()?;
            if self.is_at("(") {
                return self.arguments(names, Callee::Function(name));
            }
            self.expect(";")?;
            return Ok(Command::Set(names.remove(0), Expression::Variable(name)));
        }
        let value = self.expression()?;
        self.expect(";")?;
        Ok(Command::Set(names.remove(0), value))
    }

    fn call(&mut self, targets: Vec<String>) -> Result<Command, Error> {
        let callee = match self.advance()? {
            Token::Name(name) => Callee::Function(name),
            Token::Reserved("MMIOREAD") => Callee::Read,
            Token::Reserved("MMIOWRITE") => Callee::Write,
            _ => return Err(Error(self.at)),
        };
        self.arguments(targets, callee)
    }

    fn arguments(&mut self, targets: Vec<String>, callee: Callee) -> Result<Command, Error> {
        self.expect("(")?;
        let mut arguments = Vec::new();
        if !self.is_at(")") {
            arguments.push(self.expression()?);
            while self.eat(",")? {
                arguments.push(self.expression()?);
            }
        }
        self.expect(")")?;
        self.expect(";")?;
        Ok(Command::Call(targets, callee, arguments))
    }

    fn expression(&mut self) -> Result<Expression, Error> {
        match self.advance()? {
            Token::Number(number) => Ok(Expression::Number(number)),
            Token::Name(name) => Ok(Expression::Variable(name)),
            Token::Reserved(word) if word.starts_with("load") => {
                self.expect("(")?;
                let address = self.expression()?;
                self.expect(")")?;
                Ok(Expression::Load(width_of(word), Box::new(address)))
            }
            Token::Sign("(") => {
                let left = self.expression()?;
                let operator = match self.advance()? {
                    Token::Sign(sign) => Operator::of_sign(sign).ok_or(Error(self.at))?,
                    _ => return Err(Error(self.at)),
                };
                let right = self.expression()?;
                self.expect(")")?;
                Ok(Expression::Operation(operator, Box::new((left, right))))
            }
            _ => Err(Error(self.at)),
        }
    }
}
