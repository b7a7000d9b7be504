//! What the crate says of small modules, with the offsets and upstream's texts for them.

use std::sync::Arc;
use std::thread;
use tansyattic::{Error, ErrorKind, Features, Item, Module, Reason, Summary, Validator, validate};

/// A module of these bytes behind the header.
fn module(sections: &[u8]) -> Vec<u8> {
    [b"\0asm\x01\0\0\0", sections].concat()
}

/// An imported function, one that returns, and one that drops nothing, all [] -> [].
fn imported() -> Vec<u8> {
    module(b"\x01\x04\x01\x60\0\0\x02\x07\x01\x01a\x01b\0\0\x03\x03\x02\0\0\x0a\x08\x02\x02\0\x0b\x03\0\x1a\x0b")
}

/// Two functions [] -> []: a vector operator stands in the first.
fn vector() -> Vec<u8> {
    module(b"\x01\x04\x01\x60\0\0\x03\x03\x02\0\0\x0a\x0a\x02\x05\0\xfd\x4d\x1a\x0b\x02\0\x0b")
}

/// A global of type i32 that begins with an i64.
fn global() -> Vec<u8> {
    module(b"\x06\x06\x01\x7f\0\x42\0\x0b")
}

fn parts(error: &Error) -> (ErrorKind, Item, u64, &str) {
    (error.kind(), error.item(), error.offset(), error.message())
}

const DROPS: (ErrorKind, Item, u64, &str) = (
    ErrorKind::Invalid,
    Item::Function(2),
    0x24,
    "type mismatch: expected a type but nothing on stack",
);
const NO_BODY: &str = "the module has no body for this function";

#[test]
fn is_valid() {
    assert_eq!(validate(&module(b"")), Ok(()));
    assert_eq!(
        validate(include_bytes!("../../../examples/sum.wasm")),
        Ok(())
    );
}

#[test]
fn is_malformed() {
    for (bytes, offset, text) in [
        (&b""[..], 0, "unexpected end"),
        (b"this is no module", 0, "magic header not detected"),
        (
            &include_bytes!("../../../examples/sum.wasm")[..60],
            0x1f,
            "unexpected end",
        ),
    ] {
        let error = Module::parse(bytes).unwrap_err();
        assert_eq!(
            parts(&error),
            (ErrorKind::Malformed, Item::Module, offset, text)
        );
        assert_eq!(validate(bytes), Err(error));
    }
}

#[test]
fn is_too_large() {
    let tables = module(&[&b"\x04\xb0\x02\x65"[..], &b"\x70\0\0".repeat(101)].concat());
    let error = validate(&tables).unwrap_err();
    let text = "tables count exceeds limit of 100";
    assert_eq!(
        parts(&error),
        (ErrorKind::TooLarge, Item::Module, 0x138, text)
    );
}

#[test]
fn has_each_function_by_its_index() {
    let bytes = imported();
    let module = Module::parse(&bytes).unwrap();
    assert_eq!(module.bodies(), 1..3);
    for index in [0, 3, u32::MAX] {
        let error = module.validate_function(index).unwrap_err();
        assert_eq!(
            parts(&error),
            (
                ErrorKind::NoBody,
                Item::Function(u64::from(index)),
                0,
                NO_BODY
            )
        );
    }
    assert_eq!(module.validate_function(1), Ok(()));
    assert_eq!(parts(&module.validate_function(2).unwrap_err()), DROPS);
}

#[test]
fn has_a_summary() {
    let bytes = imported();
    let Summary {
        accepted,
        refused,
        not_covered,
        error,
        ..
    } = Module::parse(&bytes).unwrap().summary();
    assert_eq!((accepted, refused, not_covered), (1, 1, 0));
    assert_eq!(parts(&error.unwrap()), DROPS);
    let bytes = vector();
    let Summary {
        accepted,
        refused,
        not_covered,
        error,
        ..
    } = Module::parse(&bytes).unwrap().summary();
    assert_eq!((accepted, refused, not_covered), (1, 0, 1));
    assert_eq!(
        parts(&error.unwrap()),
        (
            ErrorKind::NotCovered,
            Item::Function(0),
            0x18,
            "a vector operator"
        )
    );
}

#[test]
fn has_all_errors() {
    let bytes = imported();
    let errors: Vec<Error> = Module::parse(&bytes).unwrap().errors().collect();
    assert_eq!(errors.iter().map(parts).collect::<Vec<_>>(), [DROPS]);
    let bytes = global();
    let errors: Vec<Error> = Module::parse(&bytes).unwrap().errors().collect();
    let mismatch = (
        ErrorKind::Invalid,
        Item::Global(0),
        0xf,
        "type mismatch: expected i32, found i64",
    );
    assert_eq!(errors.iter().map(parts).collect::<Vec<_>>(), [mismatch]);
    // Bodies: one that drops nothing, one that is empty, one that adds nothing.
    let bytes = module(
        b"\x01\x04\x01\x60\0\0\x03\x04\x03\0\0\0\x0a\x0c\x03\x03\0\x1a\x0b\x02\0\x0b\x03\0\x6a\x0b",
    );
    let module = Module::parse(&bytes).unwrap();
    let items: Vec<Item> = module.errors().map(|error| error.item()).collect();
    assert_eq!(items, [Item::Function(0), Item::Function(2)]);
    let mut errors = module.errors();
    assert_eq!(errors.by_ref().count(), 2);
    assert!(errors.next().is_none());
}

#[test]
fn may_have_a_proposal_off() {
    // i32.const 0, i32.extend8_s, drop
    let bytes = module(b"\x01\x04\x01\x60\0\0\x03\x02\x01\0\x0a\x08\x01\x06\0\x41\0\xc0\x1a\x0b");
    assert_eq!(Validator::new().validate_all(&bytes), Ok(()));
    let validator = Validator::new_with_features(Features::DEFAULT - Features::SIGN_EXTENSION);
    let error = validator.validate_all(&bytes).unwrap_err();
    assert_eq!(
        error.to_string(),
        "sign extension operations support is not enabled (at offset 0x19)"
    );
}

#[test]
fn has_named_features() {
    assert_eq!(Features::all().bits(), 0x3ff_ffff);
    assert_eq!(Features::from_bits(1 << 26), None);
    assert_eq!(Features::from_bits_truncate(u32::MAX), Features::all());
    for (name, word, feature) in Features::NAMED {
        assert_eq!(Features::from_name(name), Some(*feature));
        assert_eq!(Features::from_name(word), Some(*feature));
        assert_eq!(format!("{feature:?}"), format!("Features({name})"));
    }
    let mut features = Features::empty();
    features.set(Features::GC | Features::SIMD, true);
    features -= Features::SIMD;
    assert!(features == Features::GC && !(!features).contains(Features::GC));
}

#[test]
fn may_be_checked_by_several_threads() {
    let bytes = imported();
    let module = Module::parse(&bytes).unwrap();
    thread::scope(|scope| {
        for turn in 0..4 {
            let module = &module;
            scope.spawn(move || {
                let clone = module.clone();
                for round in 0..1000 {
                    let module = if (turn + round) % 2 == 0 {
                        module
                    } else {
                        &clone
                    };
                    assert_eq!(module.validate_function(1), Ok(()));
                    assert_eq!(parts(&module.validate_function(2).unwrap_err()), DROPS);
                }
            });
        }
    });
}

#[test]
fn may_share_its_bytes() {
    let modules: Vec<Module<'static>> = [imported(), vector(), global()]
        .into_iter()
        .map(|bytes| Module::parse_shared(Arc::from(bytes), Features::DEFAULT).unwrap())
        .collect();
    let clones = modules.clone();
    drop(modules);
    let kinds: Vec<Option<ErrorKind>> = clones
        .iter()
        .map(|module| module.validate().err().map(|error| error.kind()))
        .collect();
    assert_eq!(
        kinds,
        [
            Some(ErrorKind::Invalid),
            Some(ErrorKind::NotCovered),
            Some(ErrorKind::Invalid)
        ]
    );
    assert_eq!(clones[0].bytes(), imported());
}

/// One function, $f [] -> [], with this body and this name section behind it.
fn named(name: &str) -> Vec<u8> {
    let length = u8::try_from(name.len()).unwrap();
    let function = b"\x01\x04\x01\x60\0\0\x03\x02\x01\0\x0a\x05\x01\x03\0\x6a\x0b";
    let names = [
        &[length + 10, 4][..],
        b"name",
        &[1, length + 3, 1, 0, length],
    ]
    .concat();
    module(&[&function[..], &[0], &names, name.as_bytes()].concat())
}

#[test]
fn names_operator_and_function_of_an_error() {
    for name in ["f", &"n".repeat(115)] {
        let bytes = named(name);
        let module = Module::parse(&bytes).unwrap();
        assert_eq!(module.function_name(0).as_deref(), Some(name));
        assert_eq!(module.function_name(1), None);
        for error in [
            validate(&bytes).unwrap_err(),
            module.validate_function(0).unwrap_err(),
            module.errors().next().unwrap(),
            module.operators(0).unwrap().next().unwrap().unwrap_err(),
        ] {
            assert_eq!(error.reason(), Some(Reason::NothingFound));
            assert_eq!(error.operator(), Some("i32.add"));
            assert_eq!(error.function_name(), Some(name));
            assert_eq!((error.item(), error.offset()), (Item::Function(0), 0x17));
        }
    }
    let error = validate(b"this is no module").unwrap_err();
    assert_eq!(
        (error.reason(), error.operator(), error.function_name()),
        (None, None, None)
    );
}
