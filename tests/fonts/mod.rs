//! A font, built table by table.

use std::collections::BTreeMap;

/// Returns the bytes of 16-bit integers, big-endian.
pub fn words(words: &[u16]) -> Vec<u8> {
    words.iter().flat_map(|word| word.to_be_bytes()).collect()
}

/// Returns a table with these words at these offsets, and zeros elsewhere.
pub fn table(len: usize, fields: &[(usize, &[u16])]) -> Vec<u8> {
    let mut table = vec![0; len];
    for (offset, numbers) in fields {
        table[*offset..][..2 * numbers.len()].copy_from_slice(&words(numbers));
    }
    table
}

/// Two encodings: OpenType's example of format 4, with its last segment by an array of
/// glyphs, and two groups of format 12, the last with a glyph above 65535.
pub fn cmap() -> Vec<u8> {
    // Its deltas are -9, -18, 7 and 1.
    let format_4 = [
        4, 52, 0, 8, 8, 2, 0, 20, 90, 154, 0xFFFF, 0, 10, 30, 153, 0xFFFF, 0xFFF7, 0xFFEE, 7, 1, 0,
        0, 4, 0, 100, 0,
    ];
    let format_12 =
        [12, 0, 0, 40, 0, 0, 0, 2, 1, 0xF600, 1, 0xF60F, 0, 500, 1, 0xF610, 1, 0xF611, 0, 0xFFFF];
    let encodings = [0, 2, 0, 3, 0, 20, 0, 10, 0, 20 + 52];
    words(&[&encodings[..], &format_4, &format_12].concat())
}

/// The words of a table of two regions of one axis, followed by a delta set. The map of glyphs is
/// at an offset.
pub fn variations(map: u16, data: &[u16]) -> Vec<u16> {
    let header = [1, 0, 0, 20, 0, map, 0, 0, 0, 0];
    let store = [1, 0, 12, 1, 0, 28];
    let regions = [1, 2, 0, 0x4000, 0x4000, 0, 0x1000, 0x4000];
    [&header[..], &store, &regions, data].concat()
}

/// Two delta sets, each of a word and a byte, and a map of format 0.
pub fn hvar() -> Vec<u8> {
    let mut table = words(&variations(66, &[2, 1, 2, 0, 1]));
    // Rows of a word and a byte.
    table.extend([0, 100, -30i8 as u8, 0, 0, 0, 0, 0]);
    table.extend([0, 0, 0, 2, 0, 1]);
    table
}

/// A name for Windows, and for Unicode its first unit.
pub fn name(text: &str) -> Vec<u8> {
    let units: Vec<u16> = text.encode_utf16().collect();
    let len = 2 * units.len() as u16;
    let records = [0, 2, 30, 0, 3, 0, 1, 2, 0, 3, 1, 0x409, 1, len, 0];
    words(&[&records[..], &units].concat())
}

/// Axes with a tag, a minimum, a default and a maximum.
pub fn fvar(axes: &[(&[u8; 4], [u16; 3])]) -> Vec<u8> {
    let mut table = words(&[1, 0, 16, 2, axes.len() as u16, 20, 0, 8]);
    for (tag, [min, default, max]) in axes {
        table.extend(*tag);
        table.extend(words(&[*min, 0, *default, 0, *max, 0, 0, 256]));
    }
    table
}

/// The segment map of a font of one axis. It has the place of half of the axis at a quarter.
pub const MAP: [u16; 9] = [4, 0xC000, 0xC000, 0, 0, 0x2000, 0x1000, 0x4000, 0x4000];

/// A font of one axis.
pub fn font(hvar: Vec<u8>) -> Vec<u8> {
    let avar = words(&[&[1, 0, 0, 1], &MAP[..]].concat());
    let fvar = fvar(&[(b"wght", [100, 400, 900])]);
    font_of([(b"HVAR", hvar), (b"avar", avar), (b"fvar", fvar)])
}

/// A font with these tables and the others that all fonts here have.
pub fn font_of<const N: usize>(variations: [(&[u8; 4], Vec<u8>); N]) -> Vec<u8> {
    font_of_tables(variations.into_iter().map(|(tag, table)| (*tag, table)))
}

fn font_of_tables(others: impl IntoIterator<Item = ([u8; 4], Vec<u8>)>) -> Vec<u8> {
    let os2 = table(78, &[(4, &[400]), (58, &[0x5445, 0x5354]), (68, &[800])]);
    // It was created one second before it was modified.
    let dates = [0, 0, 0, 1, 0, 0, 0, 2];
    let head: [(_, &[u16]); 5] = [
        (0, &[1, 0, 2, 0x8000]),
        (12, &[0x5F0F, 0x3CF5]),
        (18, &[1000]),
        (20, &dates),
        (36, &[0xFFF6]),
    ];
    let hhea = table(36, &[(0, &[1, 0, 800, 0xFF38, 0, 620]), (34, &[2])]);
    // Glyph 47, the last, is that of `A`. From glyph 2 on, only bearings are their own.
    let hmtx = [&[500, 7, 620, 0xFFF0][..], &[9; 46]].concat();
    let loca = [&[0, 0][..], &[6; 47]].concat();
    // The outline of glyph 1 has this box.
    let glyf = words(&[1, 0xFFF6, 0xFF38, 590, 700, 0]);
    let mut tables = BTreeMap::from([
        (*b"OS/2", os2),
        (*b"cmap", cmap()),
        (*b"glyf", glyf),
        (*b"head", table(54, &head)),
        (*b"hhea", hhea),
        (*b"hmtx", words(&hmtx)),
        (*b"loca", words(&loca)),
        (*b"maxp", words(&[0, 0x5000, 48])),
        (*b"name", name("Ütest")),
    ]);
    tables.extend(others);
    let mut font = words(&[1, 0, tables.len() as u16, 0, 0, 0]);
    let mut offset = 12 + 16 * tables.len();
    for (tag, table) in &tables {
        font.extend(tag);
        for number in [0, offset, table.len()] {
            font.extend((number as u32).to_be_bytes());
        }
        offset += table.len();
    }
    font.extend(tables.into_values().flatten());
    font
}

/// The regions of `hvar_of_two_axes`: start, peak and end of each axis.
const REGIONS: [[[u16; 3]; 2]; 7] = [
    [[0, 0x4000, 0x4000], [0; 3]],
    [[0, 0x4000, 0x4000]; 2],
    // The first axis is ignored: on both sides of zero, a peak below the start, one above the end.
    [[0xC000, 0x2000, 0x4000], [0, 0x4000, 0x4000]],
    [[0x2000, 0x1000, 0x4000], [0, 0x4000, 0x4000]],
    [[0, 0x4000, 0x2000], [0, 0x4000, 0x4000]],
    // Below zero, and between two other coordinates than these.
    [[0xC000, 0xC000, 0], [0, 0x4000, 0x4000]],
    [[0x1000, 0x2000, 0x3001], [0xD000, 0xE000, 0xF000]],
];

/// Four tables of delta sets over two axes, of bytes, of a word and bytes, and of long words; then
/// a map of glyphs, or none.
pub fn hvar_of_two_axes(map: &[u16]) -> Vec<u8> {
    let tables: [(&[u16], &[u8]); 4] = [
        (&[2, 0, 2, 0, 1], &[10, 20, 30, 40]),
        (&[2, 0, 3, 2, 3, 4], &[16, 32, 64, 8, 24, 72]),
        (&[1, 0x8001, 2, 5, 6], &[0, 0, 0xEA, 0x60, 0xFE, 0xD4]),
        (&[2, 1, 3, 6, 1, 5], &[0xFF, 0x38, 10, 0x80, 1, 0x2C, 0xF6, 127]),
    ];
    let regions = REGIONS.concat().concat();
    let list = words(&[&[2, REGIONS.len() as u16][..], &regions].concat());
    // The tables are after the list of regions.
    let mut offset = 24 + list.len();
    let mut store = words(&[1, 0, 24, 4]);
    for (head, sets) in tables {
        store.extend((offset as u32).to_be_bytes());
        offset += 2 * head.len() + sets.len();
    }
    store.extend(list);
    for (head, sets) in tables {
        store.extend(words(head));
        store.extend(sets);
    }
    let map_offset = if map.is_empty() { 0 } else { 20 + offset as u16 };
    let header = words(&[1, 0, 0, 20, 0, map_offset, 0, 0, 0, 0]);
    [header, store, words(map)].concat()
}

/// The maps of a font of two axes: none, and entries of two, one, three, four and four bytes.
pub const MAPS: [&[u16]; 6] = [
    &[],
    // An inner index of 9 bits: one of the first table, two of the second.
    &[0x0018, 3, 0x0001, 0x0200, 0x0201],
    // Of one bit, and the last byte is not used.
    &[0x0000, 3, 0x0206, 0x0700],
    // Of 16 bits, the second in format 1.
    &[0x002F, 3, 0x0200, 0x0003, 0x0000, 0x0300, 0x0100],
    &[0x013F, 0, 3, 3, 1, 2, 0, 0, 1],
    // Of no delta set, and of one for all other glyphs.
    &[0x013F, 0, 2, 0xFFFF, 0xFFFF, 2, 0],
];

pub fn two_axes() -> Vec<u8> {
    fvar(&[(b"wght", [100, 400, 900]), (b"wdth", [50, 100, 200])])
}

/// A font of five axes, of which the last has a segment map, and moves glyph 0 by up to 100 units.
pub fn of_five_axes() -> Vec<u8> {
    let axis = [100, 400, 900];
    let axes = [b"AAAA", b"BBBB", b"CCCC", b"DDDD", b"wght"].map(|tag| (tag, axis));
    let header = [1, 0, 0, 20, 0, 0, 0, 0, 0, 0, 1, 0, 12, 1, 0, 46];
    let regions = [&[5, 1][..], &[0; 12], &[0, 0x4000, 0x4000]].concat();
    let hvar = words(&[&header[..], &regions, &[1, 1, 1, 0, 100]].concat());
    let avar = words(&[&[1, 0, 0, 5, 0, 0, 0, 0], &MAP[..]].concat());
    font_of([(b"HVAR", hvar), (b"avar", avar), (b"fvar", fvar(&axes))])
}

/// Two axes, the second with its default at its end, in records of 24 bytes after a gap.
pub fn long_axes() -> Vec<u8> {
    let axes = fvar(&[(b"wght", [100, 400, 900]), (b"wdth", [50, 100, 100])]);
    let records = axes[16..].chunks(20).flat_map(|axis| [axis, &[0xAA; 4]]);
    let header = words(&[1, 0, 18, 2, 2, 24, 0, 12, 0xAAAA]);
    [header, records.collect::<Vec<_>>().concat()].concat()
}

/// What is counted in more than 15 bits.
pub const MANY: u16 = 33_000;

/// Many encodings, of which the last two are read: 16,400 segments of the even codes and one of
/// 6,000 codes by an array, far away; and many groups, of the even characters from 0x20000 on.
fn cmap_at_the_limits() -> Vec<u8> {
    let codes = (0..16_400).map(|n| 2 * n);
    let ends: Vec<u16> = codes.clone().chain([45_999, 0xFFFF]).collect();
    let starts: Vec<u16> = codes.chain([40_000, 0xFFFF]).collect();
    let count = ends.len();
    let (mut deltas, mut offsets) = (vec![7; count], vec![0; count]);
    deltas[count - 2..].copy_from_slice(&[30_000, 1]);
    offsets[count - 2] = 4 + 33_000;
    let array: Vec<u16> = (1..=6000).collect();
    let head = [4, 0, 0, 2 * count as u16, 0, 0, 0];
    let arrays = [&ends[..], &[0], &starts, &deltas, &offsets, &[0; 16_500], &array].concat();
    let format_4 = words(&[&head[..], &arrays].concat());
    let groups = (0..MANY).flat_map(|n| {
        let [high, low] = [2 + (n >> 15), n << 1];
        [high, low, high, low, 0, n + 1]
    });
    let format_12: Vec<u16> = [12, 0, 0, 0, 0, 0, 0, MANY].into_iter().chain(groups).collect();
    let other = 4 + 8 * u32::from(MANY);
    let mut cmap = words(&[0, MANY]);
    for n in 0..MANY {
        let offset = match MANY - n {
            1 => other + 2 + format_4.len() as u32,
            2 => other + 2,
            _ => other,
        };
        cmap.extend(words(&[3, 10]));
        cmap.extend(offset.to_be_bytes());
    }
    [cmap, words(&[6]), format_4, words(&format_12)].concat()
}

/// 5,000 names, of which the last is for Windows, of 16,500 units after 40,000 bytes.
fn name_at_the_limits() -> Vec<u8> {
    let mut records = vec![0, 5000, 60_010];
    for n in 1..=5000 {
        let platform = if n == 5000 { 3 } else { 1 };
        records.extend([platform, 1, 0x409, 256, 33_000, 40_000]);
    }
    let units = [&[0; 20_002][..], &[0xD83D, 0xDE00], &[110; 16_498]].concat();
    words(&[records, units].concat())
}

/// 64 axes in long records after a gap, all but the last with their default at both ends.
fn fvar_at_the_limits() -> Vec<u8> {
    let mut table = vec![0; 40_000 + 64 * 33_000];
    table[..12].copy_from_slice(&words(&[1, 0, 40_000, 2, 64, MANY]));
    for n in 0..64 {
        let max = if n == 63 { 1000 } else { 0 };
        let tag = if n == 63 { *b"wght" } else { [b'A', b'A' + n / 8, b'A' + n % 8, b' '] };
        let record = [&tag[..], &words(&[0, 0, 0, 0, max, 0])].concat();
        table[40_000 + 33_000 * usize::from(n)..][..16].copy_from_slice(&record);
    }
    table
}

/// Maps of 10,000 mappings for the first axis, of none for the others, and for the last of all
/// coordinates, of which that of one half is at a quarter.
fn avar_at_the_limits() -> Vec<u8> {
    let ramp = |n: i16| [n as u16, n as u16];
    let first = [10_000].into_iter().chain((0..10_000).flat_map(ramp));
    let mut last: Vec<u16> = (-0x4000..=0x4000).flat_map(ramp).collect();
    last[2 * 0x6000 + 1] = 0x1000;
    words(&[&[1, 0, 0, 64][..], &first.collect::<Vec<_>>(), &[0; 62], &[0x8001], &last].concat())
}

/// Two tables of delta sets after many others: of two sets of 5,000 long words, and of 40,000 sets
/// of two words; 5,000 regions, of which the last is that of the last axis; and a map of each
/// glyph.
fn hvar_at_the_limits() -> Vec<u8> {
    let region = |n: u16| {
        let mut axes = [0; 3 * 64];
        axes[if n == 4999 { 189 } else { 0 }..][..3].copy_from_slice(&[0, 0x4000, 0x4000]);
        axes
    };
    let regions =
        words(&[&[64, 5000][..], &(0..5000).flat_map(region).collect::<Vec<_>>()].concat());
    let wide: Vec<u16> = [2, 0x8000 + 5000, 5000].into_iter().chain(0..5000).collect();
    let deltas = (0..10_000).flat_map(|n| [0, if n == 9999 { 20_000 } else { n }]);
    let wide = words(&[wide, deltas.collect()].concat());
    let long = [40_000, 2, 2, 0, 4999].into_iter().chain((0..40_000).flat_map(|n| [1, n / 4]));
    let tables = 8 + 4 * u32::from(MANY);
    let (after_wide, after_long) = (wide.len() as u32, wide.len() as u32 + 10 + 160_000);
    let mut store = words(&[1]);
    store.extend((tables + after_long).to_be_bytes());
    store.extend(words(&[MANY]));
    store.extend((1..MANY).flat_map(|_| tables.to_be_bytes()));
    store.extend((tables + after_wide).to_be_bytes());
    store.extend(wide);
    store.extend(words(&long.collect::<Vec<_>>()));
    store.extend(regions);
    // Entries of four bytes, with an inner index of 16 bits.
    let mut table = words(&[1, 0, 0, 20]);
    table.extend((20 + store.len() as u32).to_be_bytes());
    table.extend([0; 8]);
    table.extend(store);
    table.extend(words(&[0x013F, 1, 0]));
    for glyph in 0..=0xFFFF {
        let set = if glyph == 7 { [MANY - 2, 1] } else { [MANY - 1, glyph % 40_000] };
        table.extend(words(&set));
    }
    table
}

/// A font at the limits: each count and offset has more than 15 bits, or as many as its format
/// allows. Glyph `n` of 65,535 has the advance `n`, up to the last of the metrics, and the delta
/// `n / 4`.
pub fn at_the_limits() -> Vec<u8> {
    let metrics: Vec<u16> = (0..MANY).flat_map(|n| [n, 0]).collect();
    let os2 = table(78, &[(4, &[40_000])]);
    let empty = (0..MANY).map(|n| {
        let [high, low] = n.to_be_bytes();
        ([b'a', high, low, 0xFF], Vec::new())
    });
    let tables = [
        (*b"HVAR", hvar_at_the_limits()),
        (*b"OS/2", os2),
        (*b"avar", avar_at_the_limits()),
        (*b"cmap", cmap_at_the_limits()),
        (*b"fvar", fvar_at_the_limits()),
        (*b"hhea", table(36, &[(0, &[1, 0, 800]), (34, &[MANY])])),
        (*b"hmtx", words(&[metrics, vec![0; usize::from(0xFFFF - MANY)]].concat())),
        (*b"maxp", words(&[0, 0x5000, 0xFFFF])),
        (*b"name", name_at_the_limits()),
    ];
    font_of_tables(empty.chain(tables))
}
