//! Prints the advances of characters, of glyphs by their numbers, and of `all` glyphs, and the
//! deltas of `metrics`, in an instance of a variable font. In `variations`:
//! `cargo run --example instance -- FONT TEXT 36 37 wght=600 wdth=87.5`.
//!
//! What is here finds the tables, and reads `cmap`, `hmtx`, `MVAR` and the list of axes. What reads
//! an axis, `avar` and `HVAR`, and computes coordinates and varied advances, is proved: it is the
//! package `font-variations-proved`.
//!
//! variations/README.md says how far an advance may be from the exact one.

#[path = "../../examples/font/mod.rs"]
pub mod font;

use font::{Font, LongMetric, advance_of};
use font_types_proved::{ByteRecords, F2Dot14, F48Dot16, Fixed, GlyphId16, Scalar, ScalarArray};
use font_types_proved::{Tag, UfWord};
use font_variations_proved::{Avar, CoordinatesError, DeltaSetIndex, Fvar, Hvar};
use font_variations_proved::{ItemVariationStore, Setting, VariationAxisRecord};

/// A table, which must be one that `read` takes, if the font has it.
fn table<'a, T>(
    font: &Font<'a>,
    tag: &[u8; 4],
    read: impl Fn(&'a [u8]) -> Option<T>,
) -> Result<Option<T>, String> {
    let table = font.table(tag).map(read);
    table
        .map(|table| {
            table.ok_or_else(|| format!("{}: of another version, or too short", Tag::new(tag)))
        })
        .transpose()
}

/// The bytes of a table of this major version.
fn of_version(version: u16) -> impl Fn(&[u8]) -> Option<&[u8]> {
    move |table| (u16::read_at(table, 0)? == version).then_some(table)
}

/// The glyph of a character, 0 if the font has none for it.
pub fn glyph(font: &Font<'_>, character: char) -> Result<GlyphId16, String> {
    table(font, b"cmap", of_version(0))?;
    Ok(font.glyph(character).unwrap_or_default())
}

/// The axes of a font, none if it is not variable.
pub fn axes(font: &Font<'_>) -> Result<Vec<VariationAxisRecord>, String> {
    let fvar = table(font, b"fvar", Fvar::new)?;
    Ok(fvar.map_or(Vec::new(), |fvar| fvar.axes().collect()))
}

/// The coordinates of a font's axes at these settings, none if it is not variable. Each setting must
/// be of an axis of the font.
pub fn coordinates(font: &Font<'_>, settings: &[Setting]) -> Result<Vec<F2Dot14>, String> {
    let Some(fvar) = table(font, b"fvar", Fvar::new)? else {
        return match settings.first() {
            Some(setting) => Err(CoordinatesError::NoAxis(setting.axis).to_string()),
            None => Ok(Vec::new()),
        };
    };
    let avar = Avar::new(font.table(b"avar")).ok_or("avar: of another version, or too short")?;
    let mut coordinates = vec![F2Dot14::ZERO; fvar.axis_count().into()];
    fvar.coordinates(&avar, settings, &mut coordinates).map_err(|error| error.to_string())?;
    Ok(coordinates)
}

/// The tables that advances are in, each found once.
pub struct Advances<'a> {
    glyph_count: u16,
    metrics: ScalarArray<'a, LongMetric>,
    hvar: Option<Hvar<'a>>,
}

impl<'a> Advances<'a> {
    /// Finds the tables. A font without `fvar` has no variations.
    pub fn new(font: &Font<'a>) -> Result<Self, String> {
        table(font, b"hhea", of_version(1))?;
        let glyph_count = font.glyph_count().ok_or("no `maxp`")?;
        let metrics = font.long_metrics().ok_or("hmtx ends early")?;
        let is_variable = font.table(b"fvar").is_some();
        let hvar = if is_variable { table(font, b"HVAR", Hvar::new)? } else { None };
        if is_variable && hvar.is_none() && font.table(b"gvar").is_some() {
            return Err("`gvar` without `HVAR`".into());
        }
        Ok(Self { glyph_count, metrics, hvar })
    }

    /// The advance of a glyph at these coordinates, rounded; that of `hmtx` if the font has no
    /// variations of advances.
    pub fn of(&self, glyph: GlyphId16, coordinates: &[F2Dot14]) -> Result<UfWord, String> {
        if glyph.to_u16() >= self.glyph_count {
            return Err("no such glyph".into());
        }
        let advance = advance_of(self.metrics, glyph).ok_or("hmtx ends early")?;
        let Some(hvar) = self.hvar else {
            return Ok(advance);
        };
        let set = hvar.advance_set(glyph);
        set.and_then(|set| hvar.store().vary_advance(advance, set, coordinates))
            .ok_or_else(|| format!("glyph {}: no advance by `HVAR`", glyph.to_u16()))
    }

    /// The advances of all glyphs at these coordinates, by `HVAR`: none for a glyph whose set is not
    /// there or whose advance is out of range. The scalar of each region is computed once.
    pub fn all(&self, coordinates: &[F2Dot14]) -> Option<Vec<Option<UfWord>>> {
        let (hvar, store) = (self.hvar?, self.hvar?.store());
        let mut scalars = vec![Fixed::ZERO; store.region_count().into()];
        let instance = store.instance(coordinates, &mut scalars)?;
        let vary = |glyph| {
            instance.vary_advance(advance_of(self.metrics, glyph)?, hvar.advance_set(glyph)?)
        };
        Some((0..self.glyph_count).map(GlyphId16::new).map(vary).collect())
    }
}

/// The deltas of the font's metrics at these coordinates, by `MVAR`: of `xhgt`, the height of an x,
/// and others.
pub fn metrics(font: &Font<'_>, coordinates: &[F2Dot14]) -> Option<Vec<(Tag, F48Dot16)>> {
    let mvar = table(font, b"MVAR", of_version(1)).ok()??;
    let [size, count, store] = [6, 8, 10].map(|field| u16::read_at(mvar, field).map(usize::from));
    let store = ItemVariationStore::new(mvar.get(store?..)?)?;
    let mut scalars = vec![Fixed::ZERO; store.region_count().into()];
    let instance = store.instance(coordinates, &mut scalars)?;
    let delta = |record| {
        let set = DeltaSetIndex::from_u32(u32::read_at(record, 4)?);
        Some((Tag::read_at(record, 0)?, instance.delta(set)?))
    };
    ByteRecords { offset: 12, count: count?, size: size? }.of(mvar)?.map(delta).collect()
}

#[allow(dead_code)]
fn main() -> Result<(), Box<dyn std::error::Error>> {
    let usage = "usage: cargo run --example instance -- FONT TEXT 36 37 wght=600 wdth=87.5";
    let mut words = std::env::args().skip(1);
    let bytes = std::fs::read(words.next().ok_or(usage)?)?;
    // A setting in the place of TEXT would be taken for characters, at the default of each axis.
    let text = words.next().filter(|word| word.parse::<Setting>().is_err()).ok_or(usage)?;
    let font = Font::new(&bytes).ok_or("no font of one face")?;
    let axes = axes(&font)?;
    let (glyphs, words): (Vec<_>, Vec<_>) = words.partition(|word| word.parse::<u16>().is_ok());
    let (more, words): (Vec<_>, Vec<_>) =
        words.into_iter().partition(|word| ["all", "metrics"].contains(&word.as_str()));
    let setting = |word: &String| word.parse().map_err(|error| format!("{word}: {error}"));
    let settings: Result<Vec<Setting>, String> = words.iter().map(setting).collect();
    let coordinates = coordinates(&font, &settings?)?;
    for (axis, coordinate) in axes.iter().zip(&coordinates) {
        let (tag, min, max) = (axis.axis_tag, axis.min_value, axis.max_value);
        println!("{tag}: from {min} to {max}, at {coordinate}");
    }
    let advances = Advances::new(&font)?;
    for character in text.chars() {
        let glyph = glyph(&font, character)?;
        println!("{character}: {}", advances.of(glyph, &coordinates)?);
    }
    for glyph in glyphs.iter().flat_map(|word| word.parse()) {
        let advance = advances.of(GlyphId16::new(glyph), &coordinates)?;
        println!("glyph {glyph}: {advance}");
    }
    let mut in_range = true;
    if more.contains(&"all".into()) {
        let advances = advances.all(&coordinates).ok_or("no advances of all glyphs by `HVAR`")?;
        for (glyph, advance) in advances.iter().enumerate() {
            match advance {
                Some(advance) => println!("glyph {glyph}: {advance}"),
                None => println!("glyph {glyph}: no advance in range"),
            }
        }
        in_range = !advances.contains(&None);
    }
    if more.contains(&"metrics".into()) {
        for (tag, delta) in metrics(&font, &coordinates).ok_or("no deltas by `MVAR`")? {
            println!("{tag}: {delta}");
        }
    }
    if in_range { Ok(()) } else { Err("no advance in range for every glyph".into()) }
}
