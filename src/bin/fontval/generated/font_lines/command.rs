// @generated from crates/font_lines/src/command.rt by tools/erase

//! The commands and their answers.

use crate::host::*;

use crate::font_lines::error::{CommandError, LineError};
use crate::font_lines::images::{Images, append_images};
use crate::font_lines::integer::{append_integer, append_signed};
use crate::font_lines::numbers::{error_if_even, fixed_numbers, integer_16, terms};
use crate::font_lines::output::{append_decimal, append_read};
use crate::font_lines::parse::{hexadecimal, two_words};
use crate::font_lines::report::append_report;
use crate::font_lines::text::Words;
use crate::host::alloc::Allocator;
use font_types_proved::{
    F2Dot14, F2Dot30, F4Dot12, F6Dot10, F26Dot6, F48Dot16, FWord, Fixed, Int24, Scalar, Shortest,
    Tag, Uint24, checked_delta_sum, vary,
};

/// A command.
#[derive(Clone, Copy)]
pub enum Command {
    /// Prints the integer whose bytes a word has in hexadecimal.
    Integer(IntegerType),
    /// Prints the fixed-point number whose bytes a word has in hexadecimal.
    FixedPoint(FixedType),
    /// Reads a decimal text as a number of a fixed-point type, and prints its bytes.
    Read,
    /// Prints the tag of four bytes, and whether it is valid.
    Tag,
    /// Prints the images of a point under two matrices.
    Image,
    /// Prints the sum of the products of scalars and deltas.
    Sum,
    /// Prints a value in font units varied by such a sum.
    Vary,
}

/// The integer types of OpenType.
#[derive(Clone, Copy)]
pub enum IntegerType {
    Uint8,
    Int8,
    Uint16,
    Int16,
    Uint24,
    Int24,
    Uint32,
    Int32,
    Int64,
}

/// The seven fixed-point types.
#[derive(Clone, Copy)]
pub enum FixedType {
    F2Dot14,
    F4Dot12,
    F6Dot10,
    Fixed,
    F26Dot6,
    F48Dot16,
    F2Dot30,
}

impl Command {
    /// Returns the command that a word names.
    #[inline(always)]
    pub fn named(word: &[u8]) -> Result<Command, LineError> {
        if let Ok(kind) = FixedType::named(word) {
            return Ok(Command::FixedPoint(kind));
        }
        Ok(match word {
            b"uint8" => Command::Integer(IntegerType::Uint8),
            b"int8" => Command::Integer(IntegerType::Int8),
            b"uint16" => Command::Integer(IntegerType::Uint16),
            b"int16" => Command::Integer(IntegerType::Int16),
            b"uint24" => Command::Integer(IntegerType::Uint24),
            b"int24" => Command::Integer(IntegerType::Int24),
            b"uint32" => Command::Integer(IntegerType::Uint32),
            b"int32" => Command::Integer(IntegerType::Int32),
            b"int64" => Command::Integer(IntegerType::Int64),
            b"read" => Command::Read,
            b"tag" => Command::Tag,
            b"image" => Command::Image,
            b"sum" => Command::Sum,
            b"vary" => Command::Vary,
            _ => return Err(LineError::UnknownCommand),
        })
    }

    /// Appends the answer of the command to the words that follow it.
    #[inline(always)]
    pub fn answer<A: Allocator>(
        self,
        alloc: A,
        words: Words<'_>,
        output: &mut Vec<u8, A>,
    ) -> Result<(), CommandError> {
        match self {
            Command::Integer(kind) => append_integer(kind.number(words)?, output),
            Command::FixedPoint(kind) => kind.show(words, output),
            Command::Read => read(words, output),
            Command::Tag => append_report(Tag::from_be_bytes(hexadecimal(words)?), output),
            Command::Image => image(words, output),
            Command::Sum => sum(alloc, words, output),
            Command::Vary => append_varied(alloc, words, output),
        }
    }
}

impl IntegerType {
    // Returns the integer whose bytes the only word has.
    fn number(self, words: Words<'_>) -> Result<i64, LineError> {
        Ok(match self {
            IntegerType::Uint8 => i64::from(u8::from_raw(hexadecimal(words)?)),
            IntegerType::Int8 => i64::from(i8::from_raw(hexadecimal(words)?)),
            IntegerType::Uint16 => i64::from(u16::from_raw(hexadecimal(words)?)),
            IntegerType::Int16 => i64::from(i16::from_raw(hexadecimal(words)?)),
            IntegerType::Uint24 => i64::from(Uint24::from_be_bytes(hexadecimal(words)?).to_u32()),
            IntegerType::Int24 => i64::from(Int24::from_be_bytes(hexadecimal(words)?).to_i32()),
            IntegerType::Uint32 => i64::from(u32::from_raw(hexadecimal(words)?)),
            IntegerType::Int32 => i64::from(i32::from_raw(hexadecimal(words)?)),
            IntegerType::Int64 => i64::from_raw(hexadecimal(words)?),
        })
    }
}

impl FixedType {
    // Returns the fixed-point type that a word names.
    fn named(word: &[u8]) -> Result<FixedType, LineError> {
        Ok(match word {
            b"f2dot14" => FixedType::F2Dot14,
            b"f4dot12" => FixedType::F4Dot12,
            b"f6dot10" => FixedType::F6Dot10,
            b"fixed" => FixedType::Fixed,
            b"f26dot6" => FixedType::F26Dot6,
            b"f48dot16" => FixedType::F48Dot16,
            b"f2dot30" => FixedType::F2Dot30,
            _ => return Err(LineError::UnknownCommand),
        })
    }

    // Appends the number whose bytes the only word has.
    fn show<A: Allocator>(
        self,
        words: Words<'_>,
        output: &mut Vec<u8, A>,
    ) -> Result<(), CommandError> {
        append_decimal(self.decimal(words)?, output)
    }

    // Returns the decimal of the number whose bytes the only word has.
    #[inline(always)]
    fn decimal(self, words: Words<'_>) -> Result<Shortest, LineError> {
        Ok(match self {
            FixedType::F2Dot14 => F2Dot14::from_raw(hexadecimal(words)?).to_decimal(),
            FixedType::F4Dot12 => F4Dot12::from_raw(hexadecimal(words)?).to_decimal(),
            FixedType::F6Dot10 => F6Dot10::from_raw(hexadecimal(words)?).to_decimal(),
            FixedType::Fixed => Fixed::from_raw(hexadecimal(words)?).to_decimal(),
            FixedType::F26Dot6 => {
                F26Dot6::from_bits(i32::from_raw(hexadecimal(words)?)).to_decimal()
            }
            FixedType::F48Dot16 => {
                F48Dot16::from_bits(i64::from_raw(hexadecimal(words)?)).to_decimal()
            }
            FixedType::F2Dot30 => F2Dot30::from_raw(hexadecimal(words)?).to_decimal(),
        })
    }

    // Appends the bytes of the number that a word is read as.
    fn read<A: Allocator>(self, word: &[u8], output: &mut Vec<u8, A>) -> Result<(), CommandError> {
        match self {
            FixedType::F2Dot14 => append_read(F2Dot14::from_decimal_bytes(word), output),
            FixedType::F4Dot12 => append_read(F4Dot12::from_decimal_bytes(word), output),
            FixedType::F6Dot10 => append_read(F6Dot10::from_decimal_bytes(word), output),
            FixedType::Fixed => append_read(Fixed::from_decimal_bytes(word), output),
            FixedType::F26Dot6 => {
                append_read(F26Dot6::from_decimal_bytes(word).map(F26Dot6::to_bits), output)
            }
            FixedType::F48Dot16 => {
                append_read(F48Dot16::from_decimal_bytes(word).map(F48Dot16::to_bits), output)
            }
            FixedType::F2Dot30 => append_read(F2Dot30::from_decimal_bytes(word), output),
        }
    }
}

// Appends the bytes of the number that the second word is read as, of the type that the first
// names.
#[inline(never)]
fn read<A: Allocator>(words: Words<'_>, output: &mut Vec<u8, A>) -> Result<(), CommandError> {
    let (name, word) = two_words(words)?;
    FixedType::named(name)?.read(word, output)
}

// Appends the images of a point under two matrices.
#[inline(never)]
fn image<A: Allocator>(words: Words<'_>, output: &mut Vec<u8, A>) -> Result<(), CommandError> {
    append_images(Images::from(fixed_numbers(words)?), output)
}

// Appends the sum of terms.
#[inline(never)]
fn sum<A: Allocator>(
    alloc: A,
    words: Words<'_>,
    output: &mut Vec<u8, A>,
) -> Result<(), CommandError> {
    let terms = terms(alloc, words)?;
    let sum = checked_delta_sum(&terms).ok_or(LineError::OutOfRange)?;
    append_decimal(sum.to_decimal(), output)
}

// Appends a value in font units varied by the sum of terms.
#[inline(never)]
fn append_varied<A: Allocator>(
    alloc: A,
    mut words: Words<'_>,
    output: &mut Vec<u8, A>,
) -> Result<(), CommandError> {
    let base = words.next().ok_or(LineError::WordCount)?;
    let units = match integer_16(base) {
        Ok(units) => units,
        Err(error) => return Err(error_if_even(&words, error).into()),
    };
    let terms = terms(alloc, words)?;
    let varied = vary(FWord::new(units), &terms).ok_or(LineError::OutOfRange)?;
    append_signed(varied < 0, varied.unsigned_abs() as u64, output)
}
