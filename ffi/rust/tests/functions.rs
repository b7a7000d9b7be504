//! What the crate says of functions that are validated operator by operator, by the standard's rules and with
//! upstream's texts.

use std::sync::Arc;
use tansyattic::{
    AbstractHeapType, BlockType, Error, ErrorKind, Features, FrameKind, Function, HeapType, Item,
    Module, Operand, Reason, RefType, ValType,
};

/// Types: 0 [i32 i64] -> [i32], 1 [] -> [], 2 a struct of an i32; a function of the first.
const DECLARED: &[u8] =
    b"\0asm\x01\0\0\0\x01\x0e\x03\x60\x02\x7f\x7e\x01\x7f\x60\0\0\x5f\x01\x7f\x01\x03\x02\x01\0";

/// A function of type 0, whose module isn't kept.
fn begun() -> Function<'static> {
    Module::declare(DECLARED).unwrap().function(0).unwrap()
}

fn parts(error: &Error) -> (ErrorKind, Item, u64, &str) {
    (error.kind(), error.item(), error.offset(), error.message())
}

fn shown(function: &Function) -> Vec<String> {
    function
        .operands()
        .map(|operand| operand.to_string())
        .collect()
}

#[test]
fn takes_operators() {
    let mut function = begun();
    assert_eq!(function.op(&[0x20, 0, 0x20, 1], 0), Ok(2));
    assert_eq!(function.op(&[0x20, 1], 2), Ok(2));
    assert_eq!(shown(&function), ["i32", "i64"]);
    assert_eq!(function.operand(0), Some(Operand::Known(ValType::I64)));
    assert_eq!(function.operand(2), None);
    assert_eq!(function.op(&[0xa7], 4), Ok(1)); // i32.wrap_i64
    assert_eq!(function.op(&[0x6a], 5), Ok(1));
    assert_eq!(function.op(&[0x0b], 6), Ok(1));
    assert_eq!(function.control_stack_height(), 0);
    assert_eq!(function.finish(7), Ok(()));
    let error = function.try_op(&[0x01], 7).unwrap_err();
    let text = "operators remaining after end of function";
    assert_eq!(
        parts(&error),
        (ErrorKind::Invalid, Item::NewFunction, 7, text)
    );
}

#[test]
fn takes_back_what_is_refused() {
    let mut function = begun();
    function.op(&[0x42, 0], 0).unwrap(); // i64.const
    let error = function.try_op(&[0x6a], 2).unwrap_err();
    assert_eq!(
        parts(&error),
        (
            ErrorKind::Invalid,
            Item::NewFunction,
            2,
            "type mismatch: expected i32, found i64"
        )
    );
    assert_eq!(error.reason(), Some(Reason::Mismatch));
    assert_eq!(error.operator(), Some("i32.add"));
    for (bytes, kind) in [
        (&[][..], ErrorKind::Malformed),
        (&[0x41, 0x80], ErrorKind::Malformed),
        (&[0xff], ErrorKind::Malformed),
        (&[0xfd, 0x4d], ErrorKind::NotCovered),
        (&[0x0b], ErrorKind::Invalid),
        (&[0x05], ErrorKind::Invalid),
    ] {
        assert_eq!(function.try_op(bytes, 2).unwrap_err().kind(), kind);
    }
    assert_eq!(shown(&function), ["i64"]);
    assert_eq!(function.op(&[0x50], 2), Ok(1)); // i64.eqz
    assert_eq!(function.op(&[0x0b], 3), Ok(1));
    assert_eq!(function.finish(4), Ok(()));
}

#[test]
fn fails_by_an_operator() {
    let mut function = begun();
    assert!(function.op(&[0x6a], 0).is_err());
    for refused in [
        function.op(&[0x01], 1).unwrap_err(),
        function.try_op(&[0x01], 1).unwrap_err(),
        function.finish(1).unwrap_err(),
    ] {
        assert_eq!(refused.message(), "function validator has failed");
        assert_eq!(refused.offset(), 1);
    }
}

#[test]
fn shows_frames() {
    let mut function = begun();
    function.op(&[0x41, 0], 0).unwrap(); // i32.const
    function.op(&[0x04, 0x7c], 2).unwrap(); // if (result f64)
    let frame = function.frame(0).unwrap();
    assert_eq!((frame.kind, frame.height), (FrameKind::If, 0));
    assert_eq!(frame.block_type, BlockType::Type(ValType::F64));
    assert!(!frame.unreachable);
    assert_eq!(
        format!("{} {}", frame.kind, frame.block_type),
        "if (result f64)"
    );
    function.op(&[0x00], 4).unwrap(); // unreachable
    assert!(function.frame(0).unwrap().unreachable);
    function.op(&[0x1b], 5).unwrap(); // select
    assert_eq!(function.operand(0), Some(Operand::Unknown));
    let outer = function.frame(1).unwrap();
    assert_eq!(
        (outer.kind, outer.block_type),
        (FrameKind::Block, BlockType::FuncType(0))
    );
    assert_eq!(function.frame(2), None);
    assert_eq!(function.control_stack_height(), 2);
    let error = function.finish(6).unwrap_err();
    let text = "control frames remain at end of function: END opcode expected";
    assert_eq!(error.message(), text);
}

#[test]
fn has_locals() {
    let mut function = begun();
    let third = RefType::new(true, HeapType::Concrete(2)).unwrap();
    let shared = HeapType::Abstract {
        shared: true,
        ty: AbstractHeapType::Any,
    };
    function.define_locals(2, ValType::V128, 0).unwrap();
    function.define_locals(1, ValType::Ref(third), 0).unwrap();
    function.define_locals(1, ValType::FUNCREF, 0).unwrap();
    let unknown = RefType::new(true, HeapType::Concrete(3)).unwrap();
    for refused in [unknown, RefType::new(true, shared).unwrap()] {
        let error = function.define_locals(1, refused.into(), 5).unwrap_err();
        assert_eq!((error.kind(), error.offset()), (ErrorKind::Invalid, 5));
    }
    assert_eq!(function.len_locals(), 6);
    let types: Vec<String> = (0..6)
        .map(|index| function.local(index).unwrap().to_string())
        .collect();
    assert_eq!(
        types,
        ["i32", "i64", "v128", "v128", "(ref null 2)", "funcref"]
    );
    assert_eq!(function.local(6), None);
    function.op(&[0x01], 0).unwrap();
    assert!(function.define_locals(1, ValType::I32, 1).is_err());
    assert_eq!(function.len_locals(), 6);
}

/// Each abstract type, alone and shared, is shown as it was declared.
#[test]
fn has_the_types_of_the_standard() {
    use AbstractHeapType::{
        Any, Array, Cont, Eq, Exn, Extern, Func, I31, NoCont, NoExn, NoExtern, NoFunc, None, Struct,
    };
    let module = Module::declare_with_features(DECLARED, Features::all()).unwrap();
    let mut function = module.function(0).unwrap();
    let mut index = 2;
    for (ty, nullable, name) in [
        (Func, "funcref", "func"),
        (Extern, "externref", "extern"),
        (Any, "anyref", "any"),
        (None, "nullref", "none"),
        (NoExtern, "nullexternref", "noextern"),
        (NoFunc, "nullfuncref", "nofunc"),
        (Eq, "eqref", "eq"),
        (Struct, "structref", "struct"),
        (Array, "arrayref", "array"),
        (I31, "i31ref", "i31"),
        (Exn, "exnref", "exn"),
        (NoExn, "nullexnref", "noexn"),
        (Cont, "contref", "cont"),
        (NoCont, "nullcontref", "nocont"),
    ] {
        for (is_nullable, shared, text) in [
            (true, false, nullable.to_string()),
            (false, false, format!("(ref {name})")),
            (true, true, format!("(ref null (shared {name}))")),
            (false, true, format!("(ref (shared {name}))")),
        ] {
            let heap_type = HeapType::Abstract { shared, ty };
            let declared = RefType::new(is_nullable, heap_type).unwrap();
            function.define_locals(1, declared.into(), 0).unwrap();
            assert_eq!(function.local(index), Some(declared.into()));
            assert_eq!(declared.to_string(), text);
            index += 1;
        }
    }
    let exact = RefType::new(false, HeapType::Exact(2)).unwrap();
    function.define_locals(1, exact.into(), 0).unwrap();
    assert_eq!(function.local(index), Some(exact.into()));
    assert_eq!(exact.to_string(), "(ref (exact 2))");
    assert_eq!(
        RefType::new(true, HeapType::Concrete(1 << 20)),
        Option::None
    );
}

#[test]
fn is_begun_or_not() {
    let module = Module::declare(DECLARED).unwrap();
    for index in [2, 3, u32::MAX] {
        let error = module.function(index).unwrap_err();
        assert_eq!(
            (error.kind(), error.item()),
            (ErrorKind::Invalid, Item::NewFunction)
        );
    }
    assert_eq!(module.bodies(), 0..1);
    let no_body = (ErrorKind::NoBody, Item::Function(0));
    for error in [
        module.validate_function(0).unwrap_err(),
        module.function_body(0).unwrap_err(),
        module.operators(0).unwrap_err(),
    ] {
        assert_eq!((error.kind(), error.item()), no_body);
    }
    assert_eq!(module.validate().unwrap_err().kind(), ErrorKind::NoBody);
    assert_eq!(module.errors().count(), 1);
    let mut expression = module.constant_expression(ValType::F32).unwrap();
    expression.op(&[0x43, 0, 0, 0, 0], 0).unwrap(); // f32.const
    expression.op(&[0x0b], 5).unwrap();
    expression.finish(6).unwrap();
}

/// (func (result i32) (local i64) i32.const 1 local.get 0 drop)
const BODY: &[u8] = b"\0asm\x01\0\0\0\x01\x05\x01\x60\0\x01\x7f\x03\x02\x01\0\x0a\x0b\x01\x09\x01\x01\x7e\x41\x01\x20\0\x1a\x0b";

#[test]
fn has_the_operators_of_a_body() {
    let module = Module::parse_shared(Arc::from(BODY), Features::DEFAULT).unwrap();
    let (function, range) = module.function_body(0).unwrap();
    assert_eq!((range.clone(), function.len_locals()), (0x1a..0x20, 1));
    let mut operators = module.operators(0).unwrap();
    let mut listed = Vec::new();
    while let Some(operator) = operators.next() {
        let operator = operator.unwrap();
        let name = operator.name().unwrap().to_string();
        listed.push((
            operator.offset,
            name,
            operator.bytes,
            shown(operators.function()),
        ));
    }
    let strings = |types: &[&str]| types.iter().map(|ty| ty.to_string()).collect::<Vec<_>>();
    assert_eq!(
        listed,
        [
            (
                0x1a,
                "i32.const".to_string(),
                &[0x41, 1][..],
                strings(&["i32"])
            ),
            (
                0x1c,
                "local.get".to_string(),
                &[0x20, 0][..],
                strings(&["i32", "i64"])
            ),
            (0x1e, "drop".to_string(), &[0x1a][..], strings(&["i32"])),
            (0x1f, "end".to_string(), &[0x0b][..], strings(&["i32"])),
        ]
    );
    assert!(operators.next().is_none());
    assert_eq!(operators.offset(), range.end as u64);
    assert_eq!(operators.function().finish(0), Ok(()));
}

#[test]
fn shows_why_a_body_is_refused() {
    // i32.const 1, i64.const 2, i32.add, end
    let bytes = b"\0asm\x01\0\0\0\x01\x04\x01\x60\0\0\x03\x02\x01\0\x0a\x09\x01\x07\0\x41\x01\x42\x02\x6a\x0b";
    let module = Module::parse(bytes).unwrap();
    let mut operators = module.operators(0).unwrap();
    let last = operators.by_ref().last().unwrap().unwrap_err();
    assert_eq!(last, module.validate_function(0).unwrap_err());
    assert_eq!(shown(operators.function()), ["i32", "i64"]);
    assert_eq!(operators.rest(), &[0x6a, 0x0b]);
    assert!(operators.next().is_none());
}
