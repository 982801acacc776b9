//! The two forms of a sheet (documents/02-change-requests.md) and every size that depends on the form. Script lines have
//! the same shape in both.

use Form::{Narrow, Wide};

#[derive(Clone, Copy, Debug, PartialEq, Eq)]
pub enum Form {
    Narrow,
    Wide,
}

pub const FORMS: [Form; 2] = [Narrow, Wide];
/// Bytes of a script line, K A B C.
pub const LINE: usize = 4;
pub const MOST_LINES: usize = 1000;

impl Form {
    /// Bytes of a sheet frame: K and three fields.
    pub fn frame(self) -> usize {
        match self {
            Narrow => 4,
            Wide => 7,
        }
    }

    pub fn most_frames(self) -> usize {
        match self {
            Narrow => 200,
            Wide => 3000,
        }
    }

    pub fn variables(self) -> u8 {
        match self {
            Narrow => 32,
            Wide => 64,
        }
    }

    /// Bytes of an answer: refusal number or 0, V, the word.
    pub fn answer(self) -> usize {
        match self {
            Narrow => 6,
            Wide => 10,
        }
    }

    /// A result is so many times the refusal plus the place.
    pub fn times(self) -> u32 {
        match self {
            Narrow => 256,
            Wide => 65_536,
        }
    }

    pub fn other(self) -> Form {
        match self {
            Narrow => Wide,
            Wide => Narrow,
        }
    }

    /// K, A, B, C of a whole frame's bytes, fields of two bytes highest first.
    pub fn fields(self, frame: &[u8]) -> [u16; 4] {
        match (self, frame) {
            (Narrow, &[k, a, b, c]) => [k, a, b, c].map(u16::from),
            (Wide, &[k, a, a0, b, b0, c, c0]) => {
                let field = |high, low| u16::from_be_bytes([high, low]);
                [k.into(), field(a, a0), field(b, b0), field(c, c0)]
            }
            _ => panic!("{} bytes are no {self:?} frame", frame.len()),
        }
    }

    /// The frame of K, A, B, C; every field fits.
    pub fn bytes(self, [k, a, b, c]: [u16; 4]) -> Vec<u8> {
        let byte = |field| u8::try_from(field).expect("a field of one byte");
        match self {
            Narrow => [k, a, b, c].map(byte).to_vec(),
            Wide => [[byte(k)].as_slice(), &a.to_be_bytes(), &b.to_be_bytes(), &c.to_be_bytes()].concat(),
        }
    }
}

/// A narrow sheet of whole frames as a wide one: each field keeps its number.
pub fn widened(sheet: &[u8]) -> Vec<u8> {
    sheet.chunks_exact(Narrow.frame()).flat_map(|frame| Wide.bytes(Narrow.fields(frame))).collect()
}
