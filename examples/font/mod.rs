//! Reads fonts, without `std` and without allocation.
#![allow(dead_code)]

use font_types_proved::{
    FWord, GlyphId16, Offset32, OffsetValue, Scalar, ScalarArray, TableDataRef, Tag, UfWord, record,
};

record! {
    #[derive(Clone, Copy, Debug, PartialEq)]
    pub struct TableRecord {
        pub tag: Tag,
        pub checksum: u32,
        pub offset: Offset32,
        pub length: u32,
    }
}

record! {
    #[derive(Clone, Copy, Debug, PartialEq)]
    pub struct LongMetric {
        pub advance: UfWord,
        pub bearing: FWord,
    }
}

record! {
    struct FontHeader {
        version: u32,
        table_count: u16,
        search: [u16; 3],
    }
}

/// A font of one face.
pub struct Font<'a> {
    data: &'a [u8],
    pub tables: ScalarArray<'a, TableRecord>,
}

impl<'a> Font<'a> {
    pub fn new(data: &'a [u8]) -> Option<Self> {
        let (header, rest) = TableDataRef::<FontHeader>::new(data)?.split();
        let tables = ScalarArray::read_at(rest, 0, header.table_count.into())?;
        Some(Self { data, tables })
    }

    pub fn table(&self, tag: &[u8; 4]) -> Option<&'a [u8]> {
        let place = self.tables.binary_search_by_key(&Tag::new(tag), |table| table.tag);
        let record = self.tables.get(place.ok()?)?;
        let start = record.offset.to_u32() as usize;
        self.data.get(start..)?.get(..record.length as usize)
    }

    /// How many glyphs the font has.
    pub fn glyph_count(&self) -> Option<u16> {
        u16::read_at(self.table(b"maxp")?, 4)
    }

    /// The metrics in `hmtx`, if it has also a bearing, which is not read, of each glyph past them.
    pub fn long_metrics(&self) -> Option<ScalarArray<'a, LongMetric>> {
        let hmtx = self.table(b"hmtx")?;
        let count = u16::read_at(self.table(b"hhea")?, 34)?;
        let metrics = ScalarArray::<LongMetric>::read_at(hmtx, 0, count.into())?;
        let others = self.glyph_count()?.saturating_sub(count);
        ScalarArray::<FWord>::read_at(hmtx, 4 * metrics.len(), others.into())?;
        Some(metrics)
    }

    /// The advance of a glyph. For many, take `long_metrics` once, and `advance_of` of each.
    pub fn advance(&self, glyph: GlyphId16) -> Option<UfWord> {
        advance_of(self.long_metrics()?, glyph)
    }

    /// The glyph of a character, by the first subtable of format 4 or 12 that has it.
    pub fn glyph(&self, character: char) -> Option<GlyphId16> {
        let cmap = self.table(b"cmap")?;
        let encodings = 0..u16::read_at(cmap, 2)?;
        let offset = |n| Offset32::read_at(cmap, 4 + 8 * usize::from(n) + 4);
        let mut subtables = encodings.filter_map(|n| offset(n)?.follow(cmap));
        subtables.find_map(|subtable| match u16::read_at(subtable, 0)? {
            4 => of_format_4(subtable, u16::try_from(u32::from(character)).ok()?),
            12 => of_format_12(subtable, character.into()),
            _ => None,
        })
    }
}

/// The advance of a glyph. Glyphs past the last metric have its advance.
pub fn advance_of(metrics: ScalarArray<'_, LongMetric>, glyph: GlyphId16) -> Option<UfWord> {
    let metric = metrics.get(glyph.into()).or_else(|| metrics.last())?;
    Some(metric.advance)
}

fn of_format_4(subtable: &[u8], code: u16) -> Option<GlyphId16> {
    let count = usize::from(u16::read_at(subtable, 6)? / 2);
    let start = |n: usize| 14 + 2 * n * count + 2 * n.min(1);
    let column = |n| ScalarArray::<u16>::read_at(subtable, start(n), count);
    let [ends, starts, deltas, offsets] = [column(0)?, column(1)?, column(2)?, column(3)?];
    let segment = ends.binary_search(&code).unwrap_or_else(|after| after);
    let place = usize::from(code.checked_sub(starts.get(segment)?)?);
    let glyph = match offsets.get(segment)? {
        0 => code,
        // From the place of the offset itself.
        offset => {
            let start = 16 + 2 * (3 * count + segment) + usize::from(offset);
            u16::read_at(subtable, start + 2 * place).filter(|glyph| *glyph != 0)?
        }
    };
    Some(GlyphId16::new(glyph.wrapping_add(deltas.get(segment)?)))
}

record! {
    #[derive(Clone, Copy, Debug, PartialEq)]
    pub struct Group {
        pub start: u32,
        pub end: u32,
        pub glyph: u32,
    }
}

fn of_format_12(subtable: &[u8], code: u32) -> Option<GlyphId16> {
    let groups = ScalarArray::<Group>::read_at(subtable, 16, u32::read_at(subtable, 12)? as usize)?;
    let place = groups.binary_search_by_key(&code, |group| group.end);
    let group = groups.get(place.unwrap_or_else(|after| after))?;
    let glyph = group.glyph.wrapping_add(code.checked_sub(group.start)?);
    u16::try_from(glyph).ok().map(GlyphId16::new)
}
