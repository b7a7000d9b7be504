//! Compiles one expression, and validates each operator as it emits it:
//!
//! ```text
//! compile 'a * (b + 2) - x' OUT.wasm
//! ```
//!
//! The module exports `f`, which takes two integers `a` and `b` and two floats `x` and `y`, and gives a float. A
//! number with a point is a float, one without is an integer. The compiler keeps no types: it asks the validator what
//! lies on the stack, and if that refuses an operator, says so at its place in the expression.

use std::error::Error;
use std::fmt;
use std::process::ExitCode;
use tansyattic::{Function, Module, Operand, ValType, validate};

/// A function type, a function of it, and its export as `f`.
const DECLARED: &[u8] = b"\0asm\x01\0\0\0\x01\x09\x01\x60\x04\x7f\x7f\x7c\x7c\x01\x7c\x03\x02\x01\0\x07\x05\x01\x01f\0\0";

const VARIABLES: &[u8] = b"abxy";

/// What is wrong, and where in the expression.
#[derive(Debug)]
struct Wrong {
    column: usize,
    what: String,
}

impl fmt::Display for Wrong {
    fn fmt(&self, f: &mut fmt::Formatter<'_>) -> fmt::Result {
        write!(f, "column {}: {}", self.column, self.what)
    }
}

impl Error for Wrong {}

/// A compiler of an expression, which is read up to a place.
struct Compiler<'s> {
    source: &'s [u8],
    place: usize,
    function: Function<'static>,
    body: Vec<u8>,
}

impl Compiler<'_> {
    /// The next letter that isn't a space.
    fn peek(&mut self) -> Option<u8> {
        while self.source.get(self.place) == Some(&b' ') {
            self.place += 1;
        }
        self.source.get(self.place).copied()
    }

    fn wrong(&self, place: usize, what: impl Into<String>) -> Wrong {
        Wrong {
            column: place + 1,
            what: what.into(),
        }
    }

    /// Appends an operator, if it may stand here; it is that of this place of the expression.
    fn emit(&mut self, operator: &[u8], place: usize) -> Result<(), Wrong> {
        let offset = self.body.len() as u64;
        match self.function.op(operator, offset) {
            Ok(length) => {
                self.body.extend_from_slice(&operator[..length]);
                Ok(())
            }
            Err(error) => {
                let name = error.operator().unwrap_or("operator");
                Err(self.wrong(place, format!("{name}: {}", error.message())))
            }
        }
    }

    /// Appends the operator for integers, or that for floats, whichever fits the operand on top.
    fn emit_for(&mut self, integers: u8, floats: u8, place: usize) -> Result<(), Wrong> {
        match self.function.operand(0) {
            Some(Operand::Known(ValType::F64)) => self.emit(&[floats], place),
            _ => self.emit(&[integers], place),
        }
    }

    /// A term, and more that are added to it or subtracted from it.
    fn sum(&mut self) -> Result<(), Wrong> {
        self.product()?;
        while let Some(sign @ (b'+' | b'-')) = self.peek() {
            let place = self.place;
            self.place += 1;
            self.product()?;
            let (integers, floats) = if sign == b'+' {
                (0x6a, 0xa0)
            } else {
                (0x6b, 0xa1)
            };
            self.emit_for(integers, floats, place)?;
        }
        Ok(())
    }

    fn product(&mut self) -> Result<(), Wrong> {
        self.factor()?;
        while self.peek() == Some(b'*') {
            let place = self.place;
            self.place += 1;
            self.factor()?;
            self.emit_for(0x6c, 0xa2, place)?;
        }
        Ok(())
    }

    /// A variable, a number, or an expression in parentheses.
    fn factor(&mut self) -> Result<(), Wrong> {
        let letter = self.peek();
        let place = self.place;
        let variable = |name: &u8| Some(*name) == letter;
        if let Some(index) = VARIABLES.iter().position(variable) {
            self.place += 1;
            return self.emit(&[0x20, index as u8], place);
        }
        match letter {
            Some(b'0'..=b'9') => self.number(),
            Some(b'(') => {
                self.place += 1;
                self.sum()?;
                if self.peek() != Some(b')') {
                    return Err(self.wrong(self.place, "no )"));
                }
                self.place += 1;
                Ok(())
            }
            _ => Err(self.wrong(place, "no value")),
        }
    }

    fn number(&mut self) -> Result<(), Wrong> {
        let place = self.place;
        let rest = &self.source[place..];
        let is_digit = |letter: &&u8| letter.is_ascii_digit() || **letter == b'.';
        let digits = &rest[..rest.iter().take_while(is_digit).count()];
        self.place += digits.len();
        let text = String::from_utf8_lossy(digits);
        let constant = if digits.contains(&b'.') {
            let number: f64 = text.parse().map_err(|_| self.wrong(place, "no number"))?;
            [&[0x44], &number.to_le_bytes()[..]].concat()
        } else {
            let number: i32 = text.parse().map_err(|_| self.wrong(place, "no number"))?;
            [vec![0x41], signed_leb(number)].concat()
        };
        self.emit(&constant, place)
    }

    /// The whole expression, as a float: the body of the function.
    fn compile(mut self) -> Result<Vec<u8>, Wrong> {
        self.sum()?;
        if self.peek().is_some() {
            return Err(self.wrong(self.place, "no operator"));
        }
        let place = self.place;
        if self.function.operand(0) == Some(Operand::Known(ValType::I32)) {
            self.emit(&[0xb7], place)?; // f64.convert_i32_s
        }
        self.emit(&[0x0b], place)?;
        let whole = self.function.finish(self.body.len() as u64);
        whole.map_err(|error| self.wrong(place, error.to_string()))?;
        Ok(self.body)
    }
}

/// A number as signed LEB128.
fn signed_leb(mut number: i32) -> Vec<u8> {
    let mut bytes = Vec::new();
    while !(-64..64).contains(&number) {
        bytes.push(number as u8 | 0x80);
        number >>= 7;
    }
    bytes.push(number as u8 & 0x7f);
    bytes
}

/// A number as unsigned LEB128.
fn leb(mut number: usize) -> Vec<u8> {
    let mut bytes = Vec::new();
    while number > 0x7f {
        bytes.push(number as u8 | 0x80);
        number >>= 7;
    }
    bytes.push(number as u8);
    bytes
}

/// The module of an expression.
fn module_of(source: &str) -> Result<Vec<u8>, Box<dyn Error>> {
    let declared = Module::declare(DECLARED)?;
    let compiler = Compiler {
        source: source.as_bytes(),
        place: 0,
        function: declared.function(0)?,
        body: vec![0], // no locals but the parameters
    };
    let body = compiler.compile()?;
    let code = [vec![1], leb(body.len()), body].concat();
    Ok([DECLARED, &[10], &leb(code.len()), &code].concat())
}

fn run() -> Result<(), Box<dyn Error>> {
    let [_, source, into] = &std::env::args().collect::<Vec<_>>()[..] else {
        return Err("usage: compile EXPRESSION OUT.wasm".into());
    };
    let module = module_of(source)?;
    validate(&module)?;
    std::fs::write(into, &module)?;
    println!("{} bytes", module.len());
    Ok(())
}

fn main() -> ExitCode {
    match run() {
        Ok(()) => ExitCode::SUCCESS,
        Err(error) => {
            eprintln!("{error}");
            ExitCode::FAILURE
        }
    }
}
