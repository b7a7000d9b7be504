//! Which proposals are on.

use core::fmt;
use core::ops::{BitAnd, BitOr, BitOrAssign, Not, Sub, SubAssign};

/// A set of proposals, as upstream's `WasmFeatures`. Names and bits are those of `ffi/tansyattic.h`.
///
/// Its [`Default`] is [`Features::DEFAULT`].
///
/// ```
/// use tansyattic::Features;
///
/// let features = Features::all() - Features::THREADS;
/// assert!(features.contains(Features::GC) && !features.contains(Features::THREADS));
/// assert_eq!(Features::from_name("gc"), Some(Features::GC));
/// assert_eq!(format!("{:?}", Features::GC | Features::SIMD), "Features(SIMD | GC)");
/// ```
#[derive(Clone, Copy, PartialEq, Eq, Hash, PartialOrd, Ord)]
pub struct Features(u32);

macro_rules! features {
    ($($name:ident $word:literal $bit:literal, $what:literal;)*) => {
        impl Features {
            $(#[doc = $what] pub const $name: Features = Features(1 << $bit);)*

            /// Each proposal: the name of its constant, the name of it in scripts and options, and it alone.
            pub const NAMED: &[(&str, &str, Features)] = &[$((stringify!($name), $word, Features::$name)),*];
        }
    };
}

features! {
    MULTI_VALUE "multi_value" 0, "Blocks with parameters, and several results.";
    FLOATS "floats" 1, "Floating-point types and operators.";
    SIMD "simd" 2, "The vector type. Vector operators aren't covered.";
    REFERENCE_TYPES "reference_types" 3, "References, and several tables.";
    BULK_MEMORY "bulk_memory" 4, "Bulk operators, and segments that operators name.";
    BULK_MEMORY_OPT "bulk_memory_opt" 5, "The copies and fills of bulk memory alone.";
    SIGN_EXTENSION "sign_extension" 6, "Sign-extension operators.";
    SATURATING_FLOAT_TO_INT "saturating_float_to_int" 7, "Conversions of floats that saturate.";
    THREADS "threads" 8, "Atomic operators, and shared memories.";
    SHARED_EVERYTHING_THREADS "shared_everything_threads" 9, "Shared types, tables and globals.";
    EXCEPTIONS "exceptions" 10, "Exceptions, and tags.";
    LEGACY_EXCEPTIONS "legacy_exceptions" 11, "Exceptions with `try`.";
    TAIL_CALL "tail_call" 12, "Tail calls.";
    FUNCTION_REFERENCES "function_references" 13, "Typed references to functions, and tables with an initializer.";
    GC "gc" 14, "Structs, arrays, supertypes and recursion groups.";
    CUSTOM_DESCRIPTORS "custom_descriptors" 15, "Custom descriptors, exact references and exact imports.";
    STACK_SWITCHING "stack_switching" 16, "Continuations.";
    MEMORY_CONTROL "memory_control" 17, "`memory.discard`.";
    WIDE_ARITHMETIC "wide_arithmetic" 18, "Arithmetic on 128 bits.";
    ACQUIRE_RELEASE_ATOMICS "acquire_release_atomics" 19, "Acquire-release orderings, and `pause`.";
    MULTIBYTE_ARRAY_ACCESS "multibyte_array_access" 20, "Memory operators on arrays.";
    MUTABLE_GLOBAL "mutable_global" 21, "Globals that can be written, imported and exported.";
    MEMORY64 "memory64" 22, "Memories and tables with addresses of 64 bits.";
    MULTI_MEMORY "multi_memory" 23, "Several memories.";
    EXTENDED_CONST "extended_const" 24, "Sums, differences and products in constant expressions.";
    CUSTOM_PAGE_SIZES "custom_page_sizes" 25, "Memories whose pages have a size of their own.";
}

impl Features {
    /// What upstream's `WasmFeatures::default()` has of them: the proposals of the standard's version 3.0, and
    /// threads.
    pub const DEFAULT: Features = Features::empty()
        .union(Features::MULTI_VALUE)
        .union(Features::FLOATS)
        .union(Features::SIMD)
        .union(Features::REFERENCE_TYPES)
        .union(Features::BULK_MEMORY)
        .union(Features::BULK_MEMORY_OPT)
        .union(Features::SIGN_EXTENSION)
        .union(Features::SATURATING_FLOAT_TO_INT)
        .union(Features::THREADS)
        .union(Features::EXCEPTIONS)
        .union(Features::TAIL_CALL)
        .union(Features::FUNCTION_REFERENCES)
        .union(Features::GC)
        .union(Features::MUTABLE_GLOBAL)
        .union(Features::MEMORY64)
        .union(Features::MULTI_MEMORY)
        .union(Features::EXTENDED_CONST);

    /// No proposal.
    #[must_use]
    pub const fn empty() -> Features {
        Features(0)
    }

    /// Each of them.
    #[must_use]
    pub const fn all() -> Features {
        let mut all = Features::empty();
        let mut count = 0;
        while count < Features::NAMED.len() {
            all = all.union(Features::NAMED[count].2);
            count += 1;
        }
        all
    }

    /// The bits of the set.
    #[must_use]
    pub const fn bits(self) -> u32 {
        self.0
    }

    /// The set of these bits, or None where one stands for no proposal.
    #[must_use]
    pub const fn from_bits(bits: u32) -> Option<Features> {
        if bits & !Features::all().0 == 0 {
            Some(Features(bits))
        } else {
            None
        }
    }

    /// The set of those of the bits that stand for a proposal.
    #[must_use]
    pub const fn from_bits_truncate(bits: u32) -> Features {
        Features(bits & Features::all().0)
    }

    /// The proposal of this name, which is one of scripts and options, as `gc`, or of a constant, as `GC`.
    #[must_use]
    pub fn from_name(name: &str) -> Option<Features> {
        let named = Features::NAMED
            .iter()
            .find(|(constant, word, _)| [*constant, *word].contains(&name));
        named.map(|(_, _, feature)| *feature)
    }

    /// Whether it has none.
    #[must_use]
    pub const fn is_empty(self) -> bool {
        self.0 == 0
    }

    /// Whether it has each of these.
    #[must_use]
    pub const fn contains(self, others: Features) -> bool {
        self.0 & others.0 == others.0
    }

    /// Those of this set and those of the other.
    #[must_use]
    pub const fn union(self, others: Features) -> Features {
        Features(self.0 | others.0)
    }

    /// Those that both have.
    #[must_use]
    pub const fn intersection(self, others: Features) -> Features {
        Features(self.0 & others.0)
    }

    /// Those of this set that the other hasn't.
    #[must_use]
    pub const fn difference(self, others: Features) -> Features {
        Features(self.0 & !others.0)
    }

    /// Those that it hasn't.
    #[must_use]
    pub const fn complement(self) -> Features {
        Features::all().difference(self)
    }

    /// Turns these on.
    pub const fn insert(&mut self, others: Features) {
        *self = self.union(others);
    }

    /// Turns these off.
    pub const fn remove(&mut self, others: Features) {
        *self = self.difference(others);
    }

    /// Turns these on or off.
    pub const fn set(&mut self, others: Features, on: bool) {
        if on {
            self.insert(others)
        } else {
            self.remove(others)
        }
    }
}

impl Default for Features {
    fn default() -> Features {
        Features::DEFAULT
    }
}

impl BitOr for Features {
    type Output = Features;

    fn bitor(self, others: Features) -> Features {
        self.union(others)
    }
}

impl BitOrAssign for Features {
    fn bitor_assign(&mut self, others: Features) {
        self.insert(others);
    }
}

impl BitAnd for Features {
    type Output = Features;

    fn bitand(self, others: Features) -> Features {
        self.intersection(others)
    }
}

impl Sub for Features {
    type Output = Features;

    fn sub(self, others: Features) -> Features {
        self.difference(others)
    }
}

impl SubAssign for Features {
    fn sub_assign(&mut self, others: Features) {
        self.remove(others);
    }
}

impl Not for Features {
    type Output = Features;

    fn not(self) -> Features {
        self.complement()
    }
}

impl fmt::Debug for Features {
    fn fmt(&self, f: &mut fmt::Formatter<'_>) -> fmt::Result {
        f.write_str("Features(")?;
        let on = Features::NAMED
            .iter()
            .filter(|(_, _, feature)| self.contains(*feature));
        for (place, (name, _, _)) in on.enumerate() {
            let between = if place == 0 { "" } else { " | " };
            write!(f, "{between}{name}")?;
        }
        f.write_str(")")
    }
}
