//! Why the rule of an operator refuses it, as a value to match on.

macro_rules! reasons {
    ($($name:ident $number:literal $what:literal;)*) => {
        /// Why the rule of an operator refuses it. The numbers are those of `enum tansyattic_reason` in
        /// `ffi/tansyattic.h`.
        ///
        /// ```
        /// use tansyattic::Reason;
        ///
        /// // (func i32.add)
        /// let bytes = b"\0asm\x01\0\0\0\x01\x04\x01\x60\0\0\x03\x02\x01\0\x0a\x05\x01\x03\0\x6a\x0b";
        /// let error = tansyattic::validate(bytes).unwrap_err();
        /// assert_eq!(error.reason(), Some(Reason::NothingFound));
        /// ```
        #[derive(Clone, Copy, Debug, PartialEq, Eq, Hash)]
        #[non_exhaustive]
        #[repr(u8)]
        pub enum Reason {
            $(#[doc = $what] $name = $number,)*
        }

        impl Reason {
            /// The reason of this number, if this crate knows it.
            pub(crate) fn of_raw(number: u32) -> Option<Reason> {
                match number {
                    $($number => Some(Reason::$name),)*
                    _ => None,
                }
            }
        }
    };
}

reasons! {
    OutOfMemory 1 "Memory ran out.";
    Closed 2 "The operator's proposal is off.";
    AcquireReleaseOff 3 "The proposal `acquire_release_atomics` is off, and the operator has an ordering of it.";
    MultibyteArraysOff 4 "The proposal `multibyte_array_access` is off, and the access is to an array.";
    ReferenceOff 5 "The proposal of a reference type is off.";
    MultiValueOff 6 "The proposal `multi_value` is off, and a block takes operands or gives more than one.";
    NothingFound 7 "An operand is missing.";
    Mismatch 8 "An operand doesn't fit the expected type.";
    NoReference 9 "An operand is no reference.";
    NoDeclaredReference 10 "An operand is no reference to a type that is declared.";
    NoContinuationReference 11 "An operand is no reference to a continuation.";
    NotBelow 12 "A reference isn't below an abstract type, whether shared or not.";
    OtherSharedness 13 "The operands of `ref.eq` aren't both shared or both unshared.";
    OperandsLeft 14 "Operands are left below the results where a block ends.";
    SelectOfReferences 15 "`select` without a type takes no references.";
    SelectOfTwoTypes 16 "The operands of `select` are of two types.";
    SelectArity 17 "`select` with types has exactly one type, and this one hasn't.";
    UnknownLocal 18 "There is no such local.";
    UninitializedLocal 19 "The local isn't set.";
    UnknownLabel 20 "There is no label at this depth.";
    UnknownType 21 "There is no such type.";
    UnknownFunction 22 "There is no such function.";
    UnknownGlobal 23 "There is no such global.";
    UnknownTable 24 "There is no such table.";
    UnknownMemory 25 "There is no such memory.";
    UnknownTag 26 "There is no such tag.";
    UnknownElements 27 "There is no such element segment.";
    UnknownData 28 "There is no such data segment.";
    NoDataCount 29 "The module has no data count section.";
    UnknownField 30 "The struct type has no such field.";
    TypeIndexTooLarge 31 "A type index is too large for a reference type.";
    NoFunctionType 32 "The declared type is no function type.";
    NoStructType 33 "The declared type is no struct type.";
    NoArrayType 34 "The declared type is no array type.";
    NoContinuationType 35 "The declared type is no continuation type.";
    NoContinuation 36 "What is named is of no continuation type.";
    NoDescriptor 37 "A type has no descriptor.";
    TargetWithoutDescriptor 38 "The target of a cast has no descriptor.";
    WantsDescriptor 39 "Values of the type are made only with a descriptor, and this operator takes none.";
    NotDescribed 40 "A type describes no other, and the operator makes a descriptor of it.";
    UnexpectedHeapType 41 "A heap type is no declared one.";
    TagWithResults 42 "The tag has results.";
    UndeclaredFunction 43 "The function isn't declared for references.";
    UnsharedFunction 44 "A shared function calls one that isn't shared.";
    UnsharedGlobal 45 "A shared function accesses a global that isn't shared.";
    UnsharedTable 46 "A shared function accesses a table that isn't shared.";
    UnsharedStruct 47 "A shared function accesses a struct that isn't shared.";
    UnsharedArray 48 "A shared function accesses an array that isn't shared.";
    UnsharedContinuation 49 "A shared function uses a continuation that isn't shared.";
    ImmutableGlobal 50 "An operator writes a global that can't be written.";
    ImmutableField 51 "An operator writes a field that can't be written.";
    ImmutableArray 52 "An operator writes an array that can't be written.";
    FieldPacking 53 "A field is packed, or isn't, against what the operator says.";
    ArrayPacking 54 "An array's elements are packed, or aren't, against what the operator says.";
    NotDefaultable 55 "A field, or an element, has no default value.";
    NotAllowed 56 "What is held at this place doesn't allow the access.";
    AlignedMore 57 "An access is aligned to more than its width.";
    AlignedLess 58 "An atomic access isn't aligned to its width.";
    AtomicArray 59 "An atomic access of an array's bytes.";
    OffsetBeyond 60 "The offset of an access doesn't fit a memory of 32 bits.";
    NoBytes 61 "An array that is accessed by bytes has elements without bytes.";
    NoNewData 62 "An array that is made of data has elements without bytes.";
    NoInitData 63 "An array that is filled with data has elements without bytes.";
    NoReferences 64 "An array that is made of elements of a segment has no references.";
    OtherElements 65 "The elements of a segment don't fit the array.";
    OtherStorage 66 "The elements that are copied don't fit.";
    OtherTable 67 "A table's elements don't fit.";
    NoFunctionTable 68 "A table for indirect calls has other references than functions.";
    CastToContinuation 69 "Nothing is cast to a continuation type.";
    OtherHierarchy 70 "A cast's types have no common bound.";
    CastNotBelow 71 "A cast's target isn't below its source.";
    CastLabelEmpty 72 "The label of `br_on_cast` has no types.";
    CastFailLabelEmpty 73 "The label of `br_on_cast_fail` has no types.";
    CastLabel 74 "The label of `br_on_cast` takes another reference last.";
    CastFailLabel 75 "The label of `br_on_cast_fail` takes another reference last.";
    NotExact 76 "A descriptor isn't exact.";
    ElseOutsideIf 77 "`else` in what is no `if`.";
    CatchOutsideTry 78 "`catch` in what is no `try`.";
    CatchAllOutsideTry 79 "`catch_all` in what is no `try`.";
    DelegateOutsideTry 80 "`delegate` in what is no `try`.";
    RethrowOutsideCatch 81 "The label of `rethrow` is no `catch`.";
    TableArity 82 "The labels of `br_table` take different numbers of types.";
    TableEnd 83 "The labels of `br_table` can't be read.";
    NonNullLabelEmpty 84 "The label of `br_on_non_null` takes nothing.";
    NonNullLabel 85 "The label of `br_on_non_null` takes no reference last.";
    OtherResults 86 "A tail call: what the function gives isn't what the body gives.";
    ClauseArity 87 "A clause's label takes another number of types than it is given.";
    ClauseType 88 "A clause's label takes another type than it is given.";
    ClauseReference 89 "The label of a clause takes no reference to an exception.";
    OtherArguments 90 "The parameters of continuations don't fit.";
    OtherContinuations 91 "The types of continuations don't fit.";
    OtherContinuation 92 "The types of a continuation and of a label don't fit.";
    TagWithParameters 93 "The tag takes something.";
    WantsContinuation 94 "The operator wants a reference to a continuation last.";
    LabelWithoutContinuation 95 "The label takes no reference to a continuation.";
    OtherTag 96 "The types of a tag and of a label don't fit.";
    OtherSwitchTag 97 "The tag of `switch` doesn't fit the continuation.";
}
