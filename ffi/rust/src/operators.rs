//! The operators of a body, validated as they are read.

use crate::error::Error;
use crate::function::Function;
use crate::module::Module;
use crate::name::OperatorName;
use core::fmt;
use core::iter::FusedIterator;

/// An operator of a body.
#[derive(Clone, Copy, Debug, PartialEq, Eq)]
#[non_exhaustive]
pub struct Operator<'m> {
    /// Where it begins, from the first byte of the module.
    pub offset: u64,
    /// Its bytes.
    pub bytes: &'m [u8],
}

impl Operator<'_> {
    /// Its name in the standard. Each operator that was accepted has one.
    #[must_use]
    pub fn name(&self) -> Option<OperatorName> {
        OperatorName::of_bytes(self.bytes)
    }
}

/// The operators of a body, validated as they are read ([`Module::operators`]).
///
/// Between two of them, [`Operators::function`] shows what lies on the stacks. After an error there are no more
/// operators, and it shows what lay there before the operator that was refused. The errors are those of
/// [`Module::validate_function`], except for the text of a body that ends with a frame open.
///
/// ```
/// use tansyattic::{Module, OperatorName};
///
/// // (func i64.const 1 i32.const 2 i32.add drop)
/// let bytes = b"\0asm\x01\0\0\0\x01\x04\x01\x60\0\0\x03\x02\x01\0\x0a\x0a\x01\x08\0\x42\x01\x41\x02\x6a\x1a\x0b";
/// let module = Module::parse(bytes)?;
/// let mut operators = module.operators(0)?;
/// while let Some(Ok(operator)) = operators.next() {
///     let operands: Vec<String> = operators.function().operands().map(|ty| ty.to_string()).collect();
///     println!("{:#x} {}: {}", operator.offset, operator.name().unwrap(), operands.join(" "));
/// }
/// let refused = OperatorName::of_bytes(operators.rest()).unwrap();
/// let operands: Vec<String> = operators.function().operands().map(|ty| ty.to_string()).collect();
/// assert_eq!((&*refused, operands.join(" ")), ("i32.add", String::from("i64 i32")));
/// # Ok::<(), tansyattic::Error>(())
/// ```
pub struct Operators<'m, 'a> {
    module: &'m Module<'a>,
    function: Function<'a>,
    index: u32,
    // The bytes of the module up to the end of the body.
    bytes: &'m [u8],
    position: usize,
    is_done: bool,
}

impl<'m, 'a> Operators<'m, 'a> {
    /// Those of the body of this function, with what lies on its stacks before the first of them.
    pub(crate) fn new(module: &'m Module<'a>, index: u32) -> Result<Operators<'m, 'a>, Error> {
        let (function, range) = module.function_body(index)?;
        Ok(Operators {
            module,
            function,
            index,
            bytes: module.bytes().get(..range.end).unwrap_or_default(),
            position: range.start,
            is_done: false,
        })
    }

    /// The function as it is before the next operator: what lies on its stacks.
    #[must_use]
    pub fn function(&self) -> &Function<'a> {
        &self.function
    }

    /// Where the next operator begins, from the first byte of the module.
    #[must_use]
    pub fn offset(&self) -> u64 {
        self.position as u64
    }

    /// The bytes of the body from the next operator on.
    #[must_use]
    pub fn rest(&self) -> &'m [u8] {
        self.bytes.get(self.position..).unwrap_or_default()
    }

    /// Takes the next operator, or finds that there are no more.
    fn take(&mut self) -> Result<Option<Operator<'m>>, Error> {
        let (rest, offset) = (self.rest(), self.offset());
        if rest.is_empty() {
            self.function.finish(offset)?;
            return Ok(None);
        }
        let length = self.function.try_op(rest, offset)?;
        self.position += length;
        Ok(Some(Operator {
            offset,
            bytes: rest.get(..length).unwrap_or(rest),
        }))
    }
}

impl<'m> Iterator for Operators<'m, '_> {
    type Item = Result<Operator<'m>, Error>;

    fn next(&mut self) -> Option<Self::Item> {
        if self.is_done {
            return None;
        }
        let taken = self.take().transpose();
        self.is_done = !matches!(taken, Some(Ok(_)));
        let named = |error: Error| error.of_function_name(self.module.function_name(self.index));
        taken.map(|taken| taken.map_err(named))
    }
}

impl FusedIterator for Operators<'_, '_> {}

impl fmt::Debug for Operators<'_, '_> {
    fn fmt(&self, f: &mut fmt::Formatter<'_>) -> fmt::Result {
        f.debug_struct("Operators")
            .field("offset", &self.offset())
            .field("function", &self.function)
            .finish_non_exhaustive()
    }
}
