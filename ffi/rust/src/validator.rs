//! Whether a module is valid, in one call.

use crate::error::Error;
use crate::features::Features;
use crate::module::Module;

/// A check of modules with a set of proposals on, as upstream's `Validator`.
///
/// ```
/// use tansyattic::{Features, Validator};
///
/// // (func i32.const 0 i32.extend8_s drop)
/// let bytes = b"\0asm\x01\0\0\0\x01\x04\x01\x60\0\0\x03\x02\x01\0\x0a\x08\x01\x06\0\x41\0\xc0\x1a\x0b";
/// Validator::new().validate_all(bytes)?;
/// let older = Validator::new_with_features(Features::DEFAULT - Features::SIGN_EXTENSION);
/// assert!(older.validate_all(bytes).is_err());
/// # Ok::<(), tansyattic::Error>(())
/// ```
#[derive(Clone, Copy, Debug, Default)]
pub struct Validator {
    features: Features,
}

impl Validator {
    /// A check with the proposals of [`Features::DEFAULT`] on, as upstream has them.
    #[must_use]
    pub const fn new() -> Validator {
        Validator::new_with_features(Features::DEFAULT)
    }

    /// A check with these proposals on.
    #[must_use]
    pub const fn new_with_features(features: Features) -> Validator {
        Validator { features }
    }

    /// The proposals.
    #[must_use]
    pub const fn features(&self) -> &Features {
        &self.features
    }

    /// Checks a module, of which these are all the bytes: what it declares, each body and each constant expression.
    ///
    /// # Errors
    ///
    /// Those of [`Module::parse`] and of [`Module::validate`].
    pub fn validate_all(&self, bytes: &[u8]) -> Result<(), Error> {
        Module::parse_with_features(bytes, self.features)?.validate()
    }
}

/// Checks a module, of which these are all the bytes, as `Validator::new().validate_all(bytes)` does.
///
/// # Errors
///
/// Those of [`Validator::validate_all`].
pub fn validate(bytes: &[u8]) -> Result<(), Error> {
    Validator::new().validate_all(bytes)
}
