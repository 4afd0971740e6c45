//! Prints fields of some tables of a font, and the glyphs of characters:
//! `cargo run --example dump -- FONT [TEXT]`.

pub mod font;

use font::Font;
use font_types_proved::{
    FWord, Fixed, LongDateTime, MajorMinor, NameId, Scalar, ScalarArray, Tag, UfWord,
    Version16Dot16, record,
};
use std::fmt::Display;
use std::io::{self, Write};

record! {
    #[derive(Clone, Copy, Debug, PartialEq)]
    pub struct NameRecord {
        pub platform: u16,
        pub encoding: u16,
        pub language: u16,
        pub name: NameId,
        pub length: u16,
        pub offset: u16,
    }
}

/// Writes fields of `head`, `hhea`, `maxp`, `OS/2` and `name`, and a line for each character.
pub fn dump(font: &Font<'_>, characters: &str, out: &mut impl Write) -> io::Result<()> {
    if let Some(head) = font.table(b"head") {
        line::<MajorMinor>(out, "head version", head, 0)?;
        line::<Fixed>(out, "font revision", head, 4)?;
        line::<u16>(out, "units per em", head, 18)?;
        let modified = LongDateTime::read_at(head, 28).map(|date| date.as_secs());
        value(out, "modified, in seconds since 1904", modified)?;
        line::<FWord>(out, "x min", head, 36)?;
    }
    if let Some(hhea) = font.table(b"hhea") {
        line::<FWord>(out, "ascender", hhea, 4)?;
        line::<FWord>(out, "descender", hhea, 6)?;
        line::<UfWord>(out, "widest advance", hhea, 10)?;
    }
    if let Some(maxp) = font.table(b"maxp") {
        line::<Version16Dot16>(out, "maxp version", maxp, 0)?;
        line::<u16>(out, "glyphs", maxp, 4)?;
    }
    if let Some(os2) = font.table(b"OS/2") {
        line::<u16>(out, "weight class", os2, 4)?;
        line::<Tag>(out, "vendor", os2, 58)?;
        line::<FWord>(out, "typographic ascender", os2, 68)?;
    }
    names(font, out)?;
    for character in characters.chars() {
        match font.glyph(character) {
            Some(glyph) => writeln!(out, "{character}: glyph {}", glyph.to_u16())?,
            None => writeln!(out, "{character}: no glyph")?,
        }
    }
    Ok(())
}

/// Writes a field, if the table has it.
fn line<T: Scalar + Display>(
    out: &mut impl Write,
    what: &str,
    table: &[u8],
    offset: usize,
) -> io::Result<()> {
    value(out, what, T::read_at(table, offset))
}

/// Writes a value, if there is one.
fn value(out: &mut impl Write, what: &str, value: Option<impl Display>) -> io::Result<()> {
    match value {
        Some(value) => writeln!(out, "{what}: {value}"),
        None => Ok(()),
    }
}

/// Writes the names for Windows, which are UTF-16.
fn names(font: &Font<'_>, out: &mut impl Write) -> io::Result<()> {
    let records = font.table(b"name").and_then(|name| {
        let records = ScalarArray::<NameRecord>::read_at(name, 6, u16::read_at(name, 2)?.into())?;
        Some((records, name.get(u16::read_at(name, 4)?.into()..)?))
    });
    let Some((records, storage)) = records else {
        return Ok(());
    };
    for record in records.iter().filter(|record| record.platform == 3) {
        let (start, len) = (record.offset.into(), usize::from(record.length / 2));
        let units = ScalarArray::<u16>::read_at(storage, start, len);
        write!(out, "{}: ", record.name)?;
        for unit in char::decode_utf16(units.iter().flat_map(|units| units.iter())) {
            write!(out, "{}", unit.unwrap_or(char::REPLACEMENT_CHARACTER))?;
        }
        writeln!(out)?;
    }
    Ok(())
}

#[allow(dead_code)]
fn main() -> Result<(), Box<dyn std::error::Error>> {
    let usage = "usage: cargo run --example dump -- FONT [TEXT]";
    let mut words = std::env::args().skip(1);
    let bytes = std::fs::read(words.next().ok_or(usage)?)?;
    let font = Font::new(&bytes).ok_or("no font of one face")?;
    let mut out = io::BufWriter::new(io::stdout().lock());
    dump(&font, &words.next().unwrap_or_default(), &mut out)?;
    Ok(out.flush()?)
}
