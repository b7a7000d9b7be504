//! Types of values, under upstream's names.

use crate::raw;
use core::fmt;

/// The type of a value, as upstream's `ValType`.
///
/// ```
/// use tansyattic::{AbstractHeapType, HeapType, RefType, ValType};
///
/// assert_eq!(ValType::I32.to_string(), "i32");
/// assert_eq!(ValType::FUNCREF.to_string(), "funcref");
/// let third = RefType::new(true, HeapType::Concrete(3)).unwrap();
/// assert_eq!(ValType::Ref(third).to_string(), "(ref null 3)");
/// let shared = HeapType::Abstract { shared: true, ty: AbstractHeapType::Any };
/// let shared = RefType::new(false, shared).unwrap();
/// assert_eq!(shared.to_string(), "(ref (shared any))");
/// ```
#[derive(Clone, Copy, Debug, PartialEq, Eq, Hash, PartialOrd, Ord)]
pub enum ValType {
    /// `i32`
    I32,
    /// `i64`
    I64,
    /// `f32`
    F32,
    /// `f64`
    F64,
    /// `v128`
    V128,
    /// A reference type.
    Ref(RefType),
}

/// The type of a reference, as upstream's `RefType`.
#[derive(Clone, Copy, Debug, PartialEq, Eq, Hash, PartialOrd, Ord)]
pub struct RefType {
    nullable: bool,
    heap_type: HeapType,
}

/// What a reference points to, as upstream's `HeapType`. A declared type is named by its index in the module.
#[derive(Clone, Copy, Debug, PartialEq, Eq, Hash, PartialOrd, Ord)]
pub enum HeapType {
    /// An abstract type, or its shared copy.
    Abstract {
        /// Whether it is the shared copy.
        shared: bool,
        /// The abstract type.
        ty: AbstractHeapType,
    },
    /// The declared type at this index, or one below it.
    Concrete(u32),
    /// The declared type at this index, and none below it.
    Exact(u32),
}

macro_rules! abstract_heap_types {
    ($($variant:ident $code:literal $name:literal $nullable:literal $what:literal;)*) => {
        /// An abstract heap type, as upstream's `AbstractHeapType`.
        #[derive(Clone, Copy, Debug, PartialEq, Eq, Hash, PartialOrd, Ord)]
        pub enum AbstractHeapType {
            $(#[doc = $what] $variant,)*
        }

        impl AbstractHeapType {
            /// The byte of the type in the binary format.
            fn code(self) -> u32 {
                match self {
                    $(AbstractHeapType::$variant => $code,)*
                }
            }

            /// The type of this byte, if there is one.
            fn of_code(code: u32) -> Option<AbstractHeapType> {
                match code {
                    $($code => Some(AbstractHeapType::$variant),)*
                    _ => None,
                }
            }

            /// The name of the type, as in `(ref none)`.
            #[must_use]
            pub const fn name(self) -> &'static str {
                match self {
                    $(AbstractHeapType::$variant => $name,)*
                }
            }

            /// The name of the nullable reference to it, as `nullref`.
            const fn nullable_name(self) -> &'static str {
                match self {
                    $(AbstractHeapType::$variant => $nullable,)*
                }
            }
        }
    };
}

abstract_heap_types! {
    Func 0x70 "func" "funcref" "`func`: every function.";
    Extern 0x6f "extern" "externref" "`extern`: everything from outside.";
    Any 0x6e "any" "anyref" "`any`: everything inside that is no function.";
    None 0x71 "none" "nullref" "`none`: the bottom type of `any`.";
    NoExtern 0x72 "noextern" "nullexternref" "`noextern`: the bottom type of `extern`.";
    NoFunc 0x73 "nofunc" "nullfuncref" "`nofunc`: the bottom type of `func`.";
    Eq 0x6d "eq" "eqref" "`eq`: what can be compared.";
    Struct 0x6b "struct" "structref" "`struct`: every struct.";
    Array 0x6a "array" "arrayref" "`array`: every array.";
    I31 0x6c "i31" "i31ref" "`i31`: integers of 31 bits.";
    Exn 0x69 "exn" "exnref" "`exn`: every exception.";
    NoExn 0x74 "noexn" "nullexnref" "`noexn`: the bottom type of `exn`.";
    Cont 0x68 "cont" "contref" "`cont`: every continuation.";
    NoCont 0x75 "nocont" "nullcontref" "`nocont`: the bottom type of `cont`.";
}

/// What is known of an operand's type. In dead code an operand may be anything.
#[derive(Clone, Copy, Debug, PartialEq, Eq, Hash)]
pub enum Operand {
    /// The type is known.
    Known(ValType),
    /// It may be anything, or any reference.
    Unknown,
}

impl Operand {
    /// The type, if it is known.
    #[must_use]
    pub const fn known(self) -> Option<ValType> {
        match self {
            Operand::Known(ty) => Some(ty),
            Operand::Unknown => None,
        }
    }

    /// What the library says of one.
    pub(crate) fn of_raw(raw: &raw::Type) -> Operand {
        ValType::of_raw(raw).map_or(Operand::Unknown, Operand::Known)
    }
}

impl ValType {
    /// `funcref`
    pub const FUNCREF: ValType = ValType::Ref(RefType::FUNCREF);
    /// `externref`
    pub const EXTERNREF: ValType = ValType::Ref(RefType::EXTERNREF);
    /// `exnref`
    pub const EXNREF: ValType = ValType::Ref(RefType::EXNREF);
    /// `contref`
    pub const CONTREF: ValType = ValType::Ref(RefType::nullable(AbstractHeapType::Cont));

    /// Whether it is a type of references.
    #[must_use]
    pub const fn is_reference_type(self) -> bool {
        matches!(self, ValType::Ref(_))
    }

    /// Whether the type has a default value, as all have but references without null.
    #[must_use]
    pub const fn is_defaultable(self) -> bool {
        match self {
            ValType::Ref(ty) => ty.is_nullable(),
            _ => true,
        }
    }

    /// The type as the library takes it.
    pub(crate) fn to_raw(self) -> raw::Type {
        let code = match self {
            ValType::I32 => raw::I32,
            ValType::I64 => raw::I64,
            ValType::F32 => raw::F32,
            ValType::F64 => raw::F64,
            ValType::V128 => raw::V128,
            ValType::Ref(ty) => return ty.to_raw(),
        };
        raw::Type {
            code,
            ..raw::Type::default()
        }
    }

    /// The type as the library gives it, if it is a known one.
    pub(crate) fn of_raw(raw: &raw::Type) -> Option<ValType> {
        match raw.code {
            raw::I32 => Some(ValType::I32),
            raw::I64 => Some(ValType::I64),
            raw::F32 => Some(ValType::F32),
            raw::F64 => Some(ValType::F64),
            raw::V128 => Some(ValType::V128),
            _ => RefType::of_raw(raw).map(ValType::Ref),
        }
    }
}

impl RefType {
    /// `funcref`
    pub const FUNCREF: RefType = RefType::nullable(AbstractHeapType::Func);
    /// `externref`
    pub const EXTERNREF: RefType = RefType::nullable(AbstractHeapType::Extern);
    /// `anyref`
    pub const ANYREF: RefType = RefType::nullable(AbstractHeapType::Any);
    /// `eqref`
    pub const EQREF: RefType = RefType::nullable(AbstractHeapType::Eq);
    /// `i31ref`
    pub const I31REF: RefType = RefType::nullable(AbstractHeapType::I31);
    /// `structref`
    pub const STRUCTREF: RefType = RefType::nullable(AbstractHeapType::Struct);
    /// `arrayref`
    pub const ARRAYREF: RefType = RefType::nullable(AbstractHeapType::Array);
    /// `exnref`
    pub const EXNREF: RefType = RefType::nullable(AbstractHeapType::Exn);

    /// An index of a declared type is below this bound in a reference.
    const LIMIT: u32 = 1 << 20;

    /// The nullable reference to an abstract type.
    const fn nullable(ty: AbstractHeapType) -> RefType {
        RefType {
            nullable: true,
            heap_type: HeapType::Abstract { shared: false, ty },
        }
    }

    /// The reference to what the heap type says, or None where an index in it is 2^20 or more.
    #[must_use]
    pub const fn new(nullable: bool, heap_type: HeapType) -> Option<RefType> {
        match heap_type {
            HeapType::Concrete(index) | HeapType::Exact(index) if index >= RefType::LIMIT => None,
            _ => Some(RefType {
                nullable,
                heap_type,
            }),
        }
    }

    /// Whether null is one of its values.
    #[must_use]
    pub const fn is_nullable(self) -> bool {
        self.nullable
    }

    /// What it points to.
    #[must_use]
    pub const fn heap_type(self) -> HeapType {
        self.heap_type
    }

    /// The same without null.
    #[must_use]
    pub const fn as_non_null(self) -> RefType {
        RefType {
            nullable: false,
            ..self
        }
    }

    /// The index of the declared type that it points to, if it does.
    #[must_use]
    pub const fn type_index(self) -> Option<u32> {
        match self.heap_type {
            HeapType::Abstract { .. } => None,
            HeapType::Concrete(index) | HeapType::Exact(index) => Some(index),
        }
    }

    fn to_raw(self) -> raw::Type {
        let nullable = u8::from(self.nullable);
        let declared = |index, exact| raw::Type {
            code: raw::TYPE_INDEX,
            index,
            nullable,
            exact,
            ..raw::Type::default()
        };
        match self.heap_type {
            HeapType::Abstract { shared, ty } => raw::Type {
                code: ty.code(),
                nullable,
                shared: u8::from(shared),
                ..raw::Type::default()
            },
            HeapType::Concrete(index) => declared(index, 0),
            HeapType::Exact(index) => declared(index, 1),
        }
    }

    fn of_raw(raw: &raw::Type) -> Option<RefType> {
        let heap_type = match raw.code {
            raw::TYPE_INDEX if raw.exact == 0 => HeapType::Concrete(raw.index),
            raw::TYPE_INDEX => HeapType::Exact(raw.index),
            code => HeapType::Abstract {
                shared: raw.shared != 0,
                ty: AbstractHeapType::of_code(code)?,
            },
        };
        Some(RefType {
            nullable: raw.nullable != 0,
            heap_type,
        })
    }
}

impl From<RefType> for ValType {
    fn from(ty: RefType) -> ValType {
        ValType::Ref(ty)
    }
}

/// The name of the type in the text format.
impl fmt::Display for ValType {
    fn fmt(&self, f: &mut fmt::Formatter<'_>) -> fmt::Result {
        match self {
            ValType::I32 => f.write_str("i32"),
            ValType::I64 => f.write_str("i64"),
            ValType::F32 => f.write_str("f32"),
            ValType::F64 => f.write_str("f64"),
            ValType::V128 => f.write_str("v128"),
            ValType::Ref(ty) => write!(f, "{ty}"),
        }
    }
}

/// The type in the text format: by its own name if it has one, as `funcref`, and else as `(ref null 3)`.
impl fmt::Display for RefType {
    fn fmt(&self, f: &mut fmt::Formatter<'_>) -> fmt::Result {
        if let (true, HeapType::Abstract { shared: false, ty }) = (self.nullable, self.heap_type) {
            return f.write_str(ty.nullable_name());
        }
        let null = if self.nullable { "null " } else { "" };
        write!(f, "(ref {null}{})", self.heap_type)
    }
}

/// The heap type in the text format: `func`, `(shared func)`, `3` or `(exact 3)`.
impl fmt::Display for HeapType {
    fn fmt(&self, f: &mut fmt::Formatter<'_>) -> fmt::Result {
        match self {
            HeapType::Abstract { shared: false, ty } => f.write_str(ty.name()),
            HeapType::Abstract { shared: true, ty } => write!(f, "(shared {ty})"),
            HeapType::Concrete(index) => write!(f, "{index}"),
            HeapType::Exact(index) => write!(f, "(exact {index})"),
        }
    }
}

impl fmt::Display for AbstractHeapType {
    fn fmt(&self, f: &mut fmt::Formatter<'_>) -> fmt::Result {
        f.write_str(self.name())
    }
}

/// The type, or `?`.
impl fmt::Display for Operand {
    fn fmt(&self, f: &mut fmt::Formatter<'_>) -> fmt::Result {
        match self {
            Operand::Known(ty) => write!(f, "{ty}"),
            Operand::Unknown => f.write_str("?"),
        }
    }
}
