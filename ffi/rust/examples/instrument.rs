//! Rewrites a module, with one more call before each `call`:
//!
//! ```text
//! instrument IN.wasm OUT.wasm
//! ```
//!
//! The new call is of a hook, which counts in a global that is exported as `calls`. The hook takes the operand on top
//! and gives it back, and each type of numbers has a hook of its own. If the block has no operand, or the one on top
//! isn't known to be a number, the hook takes nothing. So the instrumenter has to know the types of the operands, and
//! asks the validator for them.

use std::error::Error;
use std::process::ExitCode;
use tansyattic::{ErrorKind, Function, Module, Operand, Reason, ValType, validate};

const TYPES: u8 = 1;
const FUNCTIONS: u8 = 3;
const GLOBALS: u8 = 6;
const EXPORTS: u8 = 7;
const CODE: u8 = 10;
/// The order of the sections: the sections of tags and of the data count stand between others.
const ORDER: [u8; 13] = [1, 2, 3, 4, 5, 13, 6, 7, 8, 9, 12, 10, 11];

const CALL: u8 = 0x10;

/// The types of the operands that have a hook of their own, with their bytes.
const HOOKS: [(ValType, u8); 4] = [
    (ValType::I32, 0x7f),
    (ValType::I64, 0x7e),
    (ValType::F32, 0x7d),
    (ValType::F64, 0x7c),
];

/// A section, or a custom one if its id is 0.
struct Section {
    id: u8,
    payload: Vec<u8>,
}

/// A number as unsigned LEB128.
fn leb(mut number: usize) -> Vec<u8> {
    let mut bytes = Vec::new();
    while number > 0x7f {
        bytes.push(number as u8 | 0x80);
        number >>= 7;
    }
    bytes.push(number as u8);
    bytes
}

/// Reads a number, which is taken off the bytes.
fn take_leb(bytes: &mut &[u8]) -> Option<usize> {
    let mut number = 0;
    for shift in (0..35).step_by(7) {
        let (&byte, rest) = bytes.split_first()?;
        *bytes = rest;
        number |= usize::from(byte & 0x7f) << shift;
        if byte < 0x80 {
            return Some(number);
        }
    }
    None
}

/// Takes so many bytes off, behind their number.
fn take_sized<'b>(bytes: &mut &'b [u8]) -> Option<&'b [u8]> {
    let length = take_leb(bytes)?;
    let (taken, rest) = bytes.split_at_checked(length)?;
    *bytes = rest;
    Some(taken)
}

/// The sections of a module. Custom ones but for names may hold offsets, and are left out.
fn sections(module: &[u8]) -> Option<Vec<Section>> {
    let mut bytes = module.get(8..)?;
    let mut sections = Vec::new();
    while let Some((&id, rest)) = bytes.split_first() {
        bytes = rest;
        let payload = take_sized(&mut bytes)?;
        if id != 0 || payload.starts_with(b"\x04name") {
            sections.push(Section {
                id,
                payload: payload.to_vec(),
            });
        }
    }
    Some(sections)
}

/// Where a section of this id stands, or would stand. Custom ones may stand anywhere.
fn place_of(sections: &[Section], id: u8) -> usize {
    let rank = |id| ORDER.iter().position(|other| *other == id);
    let before = |section: &Section| section.id != 0 && rank(section.id) < rank(id);
    sections
        .iter()
        .rposition(before)
        .map_or(0, |place| place + 1)
}

/// Appends items to the list that a section is.
fn append(sections: &mut Vec<Section>, id: u8, count: usize, items: &[u8]) -> Option<()> {
    let there = sections.iter().position(|section| section.id == id);
    let place = there.unwrap_or_else(|| {
        let place = place_of(sections, id);
        let payload = vec![0];
        sections.insert(place, Section { id, payload });
        place
    });
    let payload = &mut sections[place].payload;
    let mut rest = &payload[..];
    let items_before = take_leb(&mut rest)?;
    *payload = [&leb(items_before + count)[..], rest, items].concat();
    Some(())
}

/// How many of something there are: an operator that names one more is refused for this reason.
fn count(module: &Module, operator: &[u8], reason: Reason) -> Result<usize, tansyattic::Error> {
    let mut function = module.constant_expression(ValType::I32)?;
    let mut count = 0;
    loop {
        let bytes = [operator, &leb(count)].concat();
        match function.try_op(&bytes, 0) {
            Err(error) if error.reason() == Some(reason) => return Ok(count),
            Err(error) if error.kind() == ErrorKind::OutOfMemory => return Err(error),
            _ => count += 1,
        }
    }
}

/// Which hook fits what lies on the stack, or, behind them all, the one that takes nothing.
fn hook_of(function: &Function) -> usize {
    let lower = function.frame(0).map_or(0, |frame| frame.height);
    let has_own = function.operand_stack_height() > lower;
    let fits = |(ty, _): &(ValType, u8)| function.operand(0) == Some(Operand::Known(*ty));
    let hook = HOOKS.iter().position(fits).filter(|_| has_own);
    hook.unwrap_or(HOOKS.len())
}

/// The operators of a body, with a call before each `call`, and how many.
fn with_calls(
    module: &Module,
    index: u32,
    first_hook: usize,
) -> Result<(Vec<u8>, usize), tansyattic::Error> {
    let mut operators = module.operators(index)?;
    let (mut written, mut calls) = (Vec::new(), 0);
    loop {
        let hook = hook_of(operators.function());
        let Some(operator) = operators.next() else {
            return Ok((written, calls));
        };
        let operator = operator?;
        if operator.bytes.first() == Some(&CALL) {
            written.push(CALL);
            written.extend(leb(first_hook + hook));
            calls += 1;
        }
        written.extend(operator.bytes);
    }
}

/// The hook of an operand of this type, or of none: it counts, and gives back what it took.
fn hook_body(calls: usize, takes: bool) -> Vec<u8> {
    let counter = leb(calls);
    let given: &[u8] = if takes { &[0x20, 0x00] } else { &[] };
    // no locals; global.get, i32.const 1, i32.add, global.set, local.get 0, end
    let body = [
        &[0, 0x23][..],
        &counter,
        &[0x41, 1, 0x6a, 0x24],
        &counter,
        given,
        &[0x0b],
    ];
    let body = body.concat();
    [leb(body.len()), body].concat()
}

/// Appends what the hooks need: their types, the functions, and the counter with its export.
fn append_hooks(sections: &mut Vec<Section>, types: usize, counter: usize) -> Option<()> {
    let number = |(_, code): &(ValType, u8)| [0x60, 1, *code, 1, *code];
    let declared = [HOOKS.iter().flat_map(number).collect(), vec![0x60, 0, 0]].concat();
    let indices: Vec<u8> = (types..=types + HOOKS.len()).flat_map(leb).collect();
    append(sections, TYPES, HOOKS.len() + 1, &declared)?;
    append(sections, FUNCTIONS, HOOKS.len() + 1, &indices)?;
    append(sections, GLOBALS, 1, &[0x7f, 1, 0x41, 0, 0x0b])?;
    let export = [b"\x05calls\x03", &leb(counter)[..]].concat();
    append(sections, EXPORTS, 1, &export)
}

/// The code section again, with the hooks' bodies behind the others, and how many calls there are.
fn rewrite(
    module: &Module,
    code: &[u8],
    counter: usize,
) -> Result<(Vec<u8>, usize), Box<dyn Error>> {
    let mut rest = code;
    let bodies = take_leb(&mut rest).ok_or("no code")?;
    let mut written = leb(bodies + HOOKS.len() + 1);
    let mut calls = 0;
    for index in module.bodies() {
        let body = take_sized(&mut rest).ok_or("no body")?;
        let (_, range) = module.function_body(index)?;
        let locals = &body[..body.len() - range.len()];
        let (operators, more) = with_calls(module, index, module.bodies().end as usize)?;
        written.extend(leb(locals.len() + operators.len()));
        written.extend(locals);
        written.extend(operators);
        calls += more;
    }
    for _ in HOOKS {
        written.extend(hook_body(counter, true));
    }
    written.extend(hook_body(counter, false));
    Ok((written, calls))
}

/// The module with calls, and how many.
fn instrument(bytes: &[u8]) -> Result<(Vec<u8>, usize), Box<dyn Error>> {
    let module = Module::parse(bytes)?;
    let types = count(&module, &[0xfb, 0x00], Reason::UnknownType)?; // struct.new
    let counter = count(&module, &[0x23], Reason::UnknownGlobal)?; // global.get
    let mut sections = sections(bytes).ok_or("no sections")?;
    let mut calls = 0;
    if let Some(code) = sections.iter_mut().find(|section| section.id == CODE) {
        (code.payload, calls) = rewrite(&module, &code.payload, counter)?;
        append_hooks(&mut sections, types, counter).ok_or("no list")?;
    }
    let mut written = bytes[..8].to_vec();
    for Section { id, payload } in sections {
        written.push(id);
        written.extend(leb(payload.len()));
        written.extend(payload);
    }
    Ok((written, calls))
}

fn run() -> Result<(), Box<dyn Error>> {
    let [_, from, into] = &std::env::args_os().collect::<Vec<_>>()[..] else {
        return Err("usage: instrument IN.wasm OUT.wasm".into());
    };
    let (written, calls) = instrument(&std::fs::read(from)?)?;
    validate(&written)?;
    std::fs::write(into, &written)?;
    println!("{calls} calls");
    Ok(())
}

fn main() -> ExitCode {
    match run() {
        Ok(()) => ExitCode::SUCCESS,
        Err(error) => {
            eprintln!("instrument: {error}");
            ExitCode::FAILURE
        }
    }
}
