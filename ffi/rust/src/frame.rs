//! Frames, which are the blocks of a body that are open.

use crate::raw;
use crate::types::ValType;
use core::fmt;

/// What opened a frame, or which part of it is open, as upstream's `FrameKind`.
#[derive(Clone, Copy, Debug, PartialEq, Eq, Hash)]
pub enum FrameKind {
    /// `block`, and the body itself.
    Block,
    /// The first part of `if`.
    If,
    /// The part behind `else`.
    Else,
    /// `loop`
    Loop,
    /// `try_table`
    TryTable,
    /// The first part of `try`.
    LegacyTry,
    /// The part behind `catch`.
    LegacyCatch,
    /// The part behind `catch_all`.
    LegacyCatchAll,
}

/// What a block takes and gives, as upstream's `BlockType`.
#[derive(Clone, Copy, Debug, PartialEq, Eq, Hash)]
pub enum BlockType {
    /// It takes nothing and gives nothing.
    Empty,
    /// It takes nothing and gives one value of this type.
    Type(ValType),
    /// It takes and gives what the function type at this index does.
    FuncType(u32),
}

/// A frame that is open, as upstream's `Frame`.
#[derive(Clone, Copy, Debug, PartialEq, Eq, Hash)]
#[non_exhaustive]
pub struct Frame {
    /// What opened it, or which part of it is open.
    pub kind: FrameKind,
    /// What it takes and gives.
    pub block_type: BlockType,
    /// How many operands lie below its own.
    pub height: usize,
    /// Whether its code is dead from here on.
    pub unreachable: bool,
}

impl FrameKind {
    /// The operator that opened the frame, or this part of it: `block` also for the body itself.
    #[must_use]
    pub const fn operator(self) -> &'static str {
        match self {
            FrameKind::Block => "block",
            FrameKind::If => "if",
            FrameKind::Else => "else",
            FrameKind::Loop => "loop",
            FrameKind::TryTable => "try_table",
            FrameKind::LegacyTry => "try",
            FrameKind::LegacyCatch => "catch",
            FrameKind::LegacyCatchAll => "catch_all",
        }
    }

    fn of_raw(kind: u32) -> Option<FrameKind> {
        Some(match kind {
            raw::FRAME_BLOCK => FrameKind::Block,
            raw::FRAME_IF => FrameKind::If,
            raw::FRAME_ELSE => FrameKind::Else,
            raw::FRAME_LOOP => FrameKind::Loop,
            raw::FRAME_TRY_TABLE => FrameKind::TryTable,
            raw::FRAME_LEGACY_TRY => FrameKind::LegacyTry,
            raw::FRAME_LEGACY_CATCH => FrameKind::LegacyCatch,
            raw::FRAME_LEGACY_CATCH_ALL => FrameKind::LegacyCatchAll,
            _ => return None,
        })
    }
}

impl BlockType {
    fn of_raw(raw: &raw::Frame) -> Option<BlockType> {
        match raw.block_kind {
            raw::BLOCK_EMPTY => Some(BlockType::Empty),
            raw::BLOCK_VALUE => ValType::of_raw(&raw.block_type).map(BlockType::Type),
            raw::BLOCK_FUNCTION => Some(BlockType::FuncType(raw.block_index)),
            _ => None,
        }
    }
}

impl Frame {
    /// The frame as the library gives it. A library of a later version may have kinds that this crate doesn't know:
    /// then there is None.
    pub(crate) fn of_raw(raw: &raw::Frame) -> Option<Frame> {
        Some(Frame {
            kind: FrameKind::of_raw(raw.kind)?,
            block_type: BlockType::of_raw(raw)?,
            height: usize::try_from(raw.height).ok()?,
            unreachable: raw.unreachable != 0,
        })
    }
}

impl fmt::Display for FrameKind {
    fn fmt(&self, f: &mut fmt::Formatter<'_>) -> fmt::Result {
        f.write_str(self.operator())
    }
}

/// The block type in the text format: nothing, `(result i32)` or `(type 3)`.
impl fmt::Display for BlockType {
    fn fmt(&self, f: &mut fmt::Formatter<'_>) -> fmt::Result {
        match self {
            BlockType::Empty => Ok(()),
            BlockType::Type(ty) => write!(f, "(result {ty})"),
            BlockType::FuncType(index) => write!(f, "(type {index})"),
        }
    }
}
