//! Sum lines.

use crate::block::{short_at, Frame};
use crate::package::Package;
use crate::reader::{Field, Reader};

/// How many bytes the shortest sum line has.
pub const LEAST_LINE: usize = 12;

/// A sum line: coef × left × (polynomial number `of`) × right. Kinds are 0 for B, 1 for G, 2 for O.
#[derive(Clone, Copy)]
pub struct SumLine {
    pub item: u32,
    pub coef: u32,
    left: u16,
    right: u16,
    left_len: u8,
    right_len: u8,
    pub kind: u8,
    /// From 0.
    pub of: u8,
}

/// What a sum line says before its bounds are judged.
pub struct Shape {
    pub kind: u8,
    pub item: u32,
    coef: u32,
    of: u32,
}

impl SumLine {
    /// The shape of the next line, with its words.
    #[inline(always)]
    pub fn read(reader: &mut Reader) -> Option<(Shape, Field, Field)> {
        let kind = match reader.byte()? {
            b'B' => 0,
            b'G' => 1,
            b'O' => 2,
            _ => return None,
        };
        reader.byte().filter(|byte| *byte == b' ')?;
        let (item, coef) = (reader.number(b' ')?, reader.number(b' ')?);
        let left = reader.word(b' ')?;
        let of = reader.number(b' ')?;
        let right = reader.word(10)?;
        Some((Shape { kind, item, coef, of }, left, right))
    }

    /// The frame of the line's left and right.
    #[inline(always)]
    pub fn frame(self, bytes: &[u8]) -> Frame {
        let (left, right) = (short_at(bytes, self.left.into()), short_at(bytes, self.right.into()));
        Frame::new(left, self.left_len.into(), right, self.right_len.into())
    }

    /// How many letters left and right have together.
    #[inline(always)]
    pub fn sides(self) -> usize {
        usize::from(self.left_len) + usize::from(self.right_len)
    }
}

impl Shape {
    /// Whether item, coefficient and `of` are in bounds.
    #[inline(always)]
    pub fn fits(&self, package: &Package) -> bool {
        let (items, polys) = match self.kind {
            0 => (package.basis, package.gens),
            1 => (package.gens, package.basis),
            _ => (usize::MAX, package.basis),
        };
        (self.item as usize).wrapping_sub(1) < items
            && self.coef.wrapping_sub(1) < package.p - 1
            && (self.of as usize).wrapping_sub(1) < polys
    }

    /// The line, once everything in it is in bounds.
    #[inline(always)]
    pub fn with_words(self, left: Field, right: Field) -> SumLine {
        SumLine {
            item: self.item,
            coef: self.coef,
            left: left.start as u16,
            right: right.start as u16,
            left_len: left.len as u8,
            right_len: right.len as u8,
            kind: self.kind,
            of: (self.of - 1) as u8,
        }
    }
}
