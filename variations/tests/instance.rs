//! The example `instance`, and variations by it, over the fonts of `fonts`.

#[path = "../../tests/fonts/mod.rs"]
mod fonts;
#[path = "../examples/instance.rs"]
mod instance;
#[path = "../../tests/runner/mod.rs"]
mod runner;

use font_types_proved::{F2Dot14, F48Dot16, Fixed, GlyphId16, Tag, UfWord};
use font_variations_proved::{Avar, CoordinatesError, DeltaSetIndex, DeltaSetIndexMap, Fvar, Hvar};
use font_variations_proved::{ItemVariationStore, Setting};
use fonts::{MAP, MAPS, at_the_limits, font, font_of, fvar, hvar, hvar_of_two_axes};
use fonts::{long_axes, of_five_axes, two_axes, variations, words};
use instance::{Advances, axes, coordinates, metrics};
use runner::{file, run};
use std::error::Error;

/// Varies an advance by a set of a store.
fn varied(advance: u16, store: &[u8], set: DeltaSetIndex, at: &[F2Dot14]) -> Option<UfWord> {
    let store = ItemVariationStore::new(store)?;
    let mut scalars = vec![Fixed::ZERO; store.region_count().into()];
    store.instance(at, &mut scalars)?.vary_advance(UfWord::new(advance), set)
}

fn set_to(axis: &[u8; 4], value: i32) -> Setting {
    Setting { axis: Tag::new(axis), value: Fixed::from_i32(value) }
}

#[test]
fn axes_in_long_records() {
    let bytes = font_of([(b"fvar", long_axes())]);
    let font = instance::font::Font::new(&bytes).unwrap();
    let settings = [set_to(b"wght", 650), set_to(b"wdth", 75)];
    let right = [0x2000, -0x2000].map(F2Dot14::from_bits);
    assert_eq!(coordinates(&font, &settings), Ok(right.into()));
}

// fontTools 4.38 gives these numbers, by these lines; `index` is the glyph if there is no map. It
// does not read a map of format 1, which is written in format 0 for it:
// store = VarStoreInstancer(hvar.VarStore, font["fvar"].axes, {"wght": .., "wdth": ..})
// index = hvar.AdvWidthMap.mapping[glyph]
// otRound(font["hmtx"][glyph][0] + store[index])
#[test]
fn advances_along_two_axes() {
    let settings = [
        [0x2000, 0x2000],
        [0x3000, 0x2000],
        [-0x2000, 0x3000],
        [0x1000, 0x4000],
        [-0x3000, 0x1555],
        [0x2800, -0x1800],
        [0x1001, -0x2000],
        [0x3000, -0x1001],
    ];
    // Of glyphs 0, 1 and 2; without a map, glyph 2 has no delta set.
    let rows: [[[u16; 8]; 3]; 6] = [
        [
            [510, 515, 500, 508, 500, 506, 503, 508],
            [645, 658, 620, 638, 620, 639, 628, 643],
            [0; 8],
        ],
        [
            [525, 538, 500, 518, 500, 519, 508, 523],
            [676, 676, 704, 732, 657, 620, 620, 620],
            [672, 672, 698, 724, 655, 620, 620, 620],
        ],
        [
            [556, 556, 584, 612, 537, 500, 500, 500],
            [623, 624, 572, 623, 588, 570, 620, 620],
            [618, 616, 668, 618, 652, 695, 620, 620],
        ],
        [
            [500, 500, 23000, 500, 15499, 425, 500, 500],
            [623, 624, 572, 623, 588, 570, 620, 620],
            [618, 616, 668, 618, 652, 695, 620, 620],
        ],
        [
            [498, 496, 548, 498, 532, 575, 500, 500],
            [620, 620, 23120, 620, 15619, 545, 620, 620],
            [645, 658, 620, 638, 620, 639, 628, 643],
        ],
        [
            [500; 8],
            [620, 620, 23120, 620, 15619, 545, 620, 620],
            [620, 620, 23120, 620, 15619, 545, 620, 620],
        ],
    ];
    for (map, row) in MAPS.into_iter().zip(rows) {
        let bytes = font_of([(b"HVAR", hvar_of_two_axes(map)), (b"fvar", two_axes())]);
        let advances = Advances::new(&instance::font::Font::new(&bytes).unwrap()).unwrap();
        for (glyph, wanted) in (0..).zip(row) {
            for (at, wanted) in settings.into_iter().zip(wanted) {
                let wanted = (wanted != 0).then_some(UfWord::new(wanted));
                let found = advances.of(GlyphId16::new(glyph), &at.map(F2Dot14::from_bits));
                assert_eq!(found.ok(), wanted, "{map:?}, glyph {glyph} at {at:?}");
            }
        }
        for at in settings.map(|at| at.map(F2Dot14::from_bits)) {
            let glyphs = (0..48).map(GlyphId16::new);
            let apart = glyphs.map(|glyph| advances.of(glyph, &at).ok()).collect();
            assert_eq!(advances.all(&at), Some(apart), "{map:?} at {at:?}");
        }
    }
}

// FreeType 2.12.1 gives these advances to fonts of two and of four axes, each with five regions. The
// product of the rounded scalars of the axes gives neither.
#[test]
fn advances_by_freetype() {
    let of_two = [
        [1326, 12623, 13781, 8484, 13268, 15922],
        [9938, 11732, 15617, 4563, 7157, 9235],
        [3107, 4579, 8208, 3236, 4815, 10162],
        [2416, 10819, 15471, 3299, 11593, 14226],
        [6700, 10361, 15630, 2040, 8535, 14506],
    ];
    let of_four = [
        [1853, 2781, 3001, 5540, 10097, 11831, 1170, 6953, 8243, 5189, 12895, 14112],
        [8789, 12191, 14576, 899, 1177, 11928, 10435, 12452, 15233, 5389, 5814, 13880],
        [781, 7556, 7737, 5688, 5790, 10654, 4479, 5958, 11786, 11935, 13587, 14602],
        [11592, 11858, 14606, 5281, 13102, 15119, 8188, 9145, 16056, 11597, 14899, 16320],
        [11494, 14960, 15106, 7268, 10638, 15945, 5441, 8786, 15720, 9938, 10143, 13325],
    ];
    for (at, regions, deltas, base, wanted) in [
        (
            &[9877, 9538][..],
            of_two.as_flattened(),
            [5764, -1466, 3636, 5514, 4862_i16],
            23048,
            31203,
        ),
        (
            &[5133, 10545, 6430, 13124],
            of_four.as_flattened(),
            [3210, 2211, 6451, -6766, 4849],
            19975,
            20036,
        ),
    ] {
        let at: Vec<_> = at.iter().map(|at| F2Dot14::from_bits(*at)).collect();
        let list = words(&[&[at.len() as u16, 5][..], regions].concat());
        let data = [&[1, 5, 5, 0, 1, 2, 3, 4][..], &deltas.map(|delta| delta as u16)].concat();
        let store = words(&[1, 0, 12, 1, 0, 12 + list.len() as u16]);
        let store = [store, list, words(&data)].concat();
        let set = DeltaSetIndex { outer: 0, inner: 0 };
        let found = varied(base, &store, set, &at);
        assert_eq!(found, Some(UfWord::new(wanted)), "{at:?}");
    }
}

// The delta sets of glyphs 0 and 1 above, as fontTools has them, and of no variation, in records of
// ten bytes.
#[test]
fn metrics_along_two_axes() {
    let table = |size: u16, count: u16| {
        let head = words(&[1, 0, 0, size, count, 12 + 4 * 10]);
        let record = |tag: &[u8; 4], set: [u16; 2]| [&tag[..], &words(&set), &[7, 7]].concat();
        let sets =
            [(b"xhgt", [0, 0]), (b"hasc", [0, 1]), (b"undo", [65535; 2]), (b"cpht", [256, 0])];
        let records = sets.map(|(tag, set)| record(tag, set)).concat();
        let mvar = [head, records, hvar_of_two_axes(&[])[20..].to_vec()].concat();
        font_of([(b"MVAR", mvar), (b"fvar", two_axes())])
    };
    let found = |bytes: &[u8], at: [i16; 2]| {
        let font = instance::font::Font::new(bytes).unwrap();
        metrics(&font, &at.map(F2Dot14::from_bits))
    };
    for (at, deltas) in [([0x2000, 0x2000], [10, 25, 0]), ([0x3000, 0x2000], [15, 38, 0])] {
        let tags = [b"xhgt", b"hasc", b"undo"].map(Tag::new);
        let right = tags.into_iter().zip(deltas.map(F48Dot16::from_i32)).collect();
        let found = found(&table(10, 3), at).map(|found| {
            found.into_iter().map(|(tag, delta)| (tag, delta.round())).collect::<Vec<_>>()
        });
        assert_eq!(found, Some(right), "{at:?}");
    }
    // Records that do not hold a set, of no bytes, and more than the table has; and the outer index
    // 256 of the fourth, which the store does not have.
    for (size, count) in [(7, 3), (0, 3), (10, 3000), (10, 4)] {
        assert_eq!(found(&table(size, count), [0, 0]), None, "{size} {count}");
    }
    // The record of an axis ends before the fields that are read.
    let mut short = two_axes();
    short[11] = 12;
    let bytes = font_of([(b"fvar", short)]);
    let axes = axes(&instance::font::Font::new(&bytes).unwrap());
    assert_eq!(axes.unwrap_err(), "fvar: of another version, or too short");
}

// fontTools 4.38 gives these numbers, by these lines, the second if there is a table `avar`:
// x = normalizeValue(value, (axis.minValue, axis.defaultValue, axis.maxValue))
// x = piecewiseLinearMap(x, font["avar"].segments[axis.axisTag])
// floatToFixed(x, 14)
#[test]
fn coordinates_of_two_axes() {
    let (one, map) = (&[1, 0, 0, 2][..], &MAP[..]);
    for (avar, right) in [
        (None, [15204, 8192]),
        // Maps with no records.
        (Some([one, map, &[0]].concat()), [14615, 8192]),
        (Some([one, &[0], map].concat()), [15204, 4096]),
    ] {
        let fvar = (b"fvar", two_axes());
        let bytes = match &avar {
            Some(avar) => font_of([fvar, (b"avar", words(avar))]),
            None => font_of([fvar]),
        };
        let font = instance::font::Font::new(&bytes).unwrap();
        let found = coordinates(&font, &[set_to(b"wght", 864), set_to(b"wdth", 150)]);
        assert_eq!(found, Ok(right.map(F2Dot14::from_bits).into()), "{avar:?}");
    }
}

/// Returns the output of `instance`, and the error that it names.
fn instance_of(font: &[u8], words: &str) -> (String, String) {
    let path = file(font);
    let arguments = [path.to_str().unwrap(), "Aa"].into_iter().chain(words.split_whitespace());
    let (output, error) = run("instance", &arguments.collect::<Vec<_>>());
    let error = error.trim_end().trim_start_matches("Error: \"").trim_end_matches('"');
    (output, error.into())
}

// The glyph of `A` has the advance of the last metric, and `a`, which has none, that of glyph 0.
#[test]
fn program_instance() {
    let one = font(hvar());
    let at = |coordinate| format!("wght: from 100 to 900, at {coordinate}\n");
    for (words, output) in [
        ("", at("0") + "A: 620\na: 500\n"),
        ("wght=400", at("0") + "A: 620\na: 500\n"),
        ("wght=650", at("0.25") + "A: 620\na: 495\n"),
        ("1 wght=650", at("0.25") + "A: 620\na: 495\nglyph 1: 620\n"),
        ("47", at("0") + "A: 620\na: 500\nglyph 47: 620\n"),
        ("47 47 47 47", at("0") + "A: 620\na: 500\n" + &"glyph 47: 620\n".repeat(4)),
        ("wght=100 wght=775.0", at("0.625") + "A: 620\na: 548\n"),
        ("wght=1000", at("1") + "A: 620\na: 600\n"),
    ] {
        assert_eq!(instance_of(&one, words), (output, String::new()), "{words}");
    }
    for (word, error) in [
        ("wght=bold", "value: not a decimal number"),
        ("wght=", "value: not a decimal number"),
        ("wght=32768", "value: number out of range"),
        ("weight=100", "axis: Invalid length (6)"),
        ("wght", "no `=`"),
    ] {
        let found = instance_of(&one, &format!("wght=650 {word}"));
        assert_eq!(found, (String::new(), format!("{word}: {error}")));
    }
    for (word, error) in [
        ("wdth=100", "no axis `wdth`"),
        ("Wght=100", "no axis `Wght`"),
        ("wgt=100", "no axis `wgt `"),
    ] {
        let found = instance_of(&one, &format!("wght=650 {word}"));
        assert_eq!(found, (String::new(), error.into()), "{word}");
    }
}

// As in a `main` that ends with the error.
#[test]
fn error_of_a_setting() {
    let read = |text: &str| -> Result<Setting, Box<dyn Error>> { Ok(text.parse()?) };
    assert_eq!(read("wght").unwrap_err().to_string(), "no `=`");
}

// Of the sets, the second takes 1000 from an advance, at the peak of its region; the map gives it
// to glyph 1 alone.
#[test]
fn program_instance_of_all_glyphs() {
    let mut hvar = words(&variations(60, &[2, 1, 1, 0, 40, -1000_i16 as u16]));
    hvar.extend([0, 0, 0, 3, 0, 1, 0]);
    let found = instance_of(&font(hvar), "wght=900 all");
    let first = "wght: from 100 to 900, at 1\nA: 660\na: 540\n\
        glyph 0: 540\nglyph 1: no advance in range\n";
    let lines: String = (2..48).map(|glyph| format!("glyph {glyph}: 660\n")).collect();
    assert_eq!(found, (first.to_owned() + &lines, "no advance in range for every glyph".into()));
}

#[test]
fn program_instance_of_other_tables() {
    let (hvar, gvar) = ((b"HVAR", hvar()), (b"gvar", words(&[1, 0, 1])));
    let axes = (b"fvar", fvar(&[(b"wght", [100, 400, 900])]));
    let map = (b"avar", words(&[&[1, 0, 0, 1], &MAP[..]].concat()));
    let second = |(tag, mut table): (&'static [u8; 4], Vec<u8>)| {
        table[1] = 2;
        (tag, table)
    };
    let advances = "A: 620\na: 500\n";
    let varied = format!("wght: from 100 to 900, at 0.5\n{advances}");
    for (font, words, output) in [
        (font_of([]), "", advances),
        (font_of([gvar.clone()]), "", advances),
        (font_of([second(hvar.clone())]), "", advances),
        (font_of([axes.clone()]), "wght=650", &varied),
    ] {
        assert_eq!(instance_of(&font, words), (output.into(), String::new()));
    }
    let two = hvar_of_two_axes(MAPS[0]);
    let not_in_order = (b"fvar", fvar(&[(b"wght", [400, 100, 900])]));
    let too_wide = (b"fvar", fvar(&[(b"wght", [0x8000, 0, 0x7FFF])]));
    // It has four tables of delta sets, of which it counts three.
    let mut fewer_sets = (b"HVAR", hvar_of_two_axes(MAPS[4]));
    fewer_sets.1[27] = 3;
    let longer_map = (b"avar", [map.1.clone(), vec![0; 2]].concat());
    let [mut other_store, mut more_sets] = [hvar.clone(), hvar.clone()];
    other_store.1[21] = 2;
    more_sets.1[26..28].fill(0xFF);
    for (font, error) in [
        (font_of([]), "no axis `wght`"),
        (font_of([axes.clone(), gvar]), "`gvar` without `HVAR`"),
        (font_of([second(axes.clone())]), "fvar: of another version, or too short"),
        (font_of([axes.clone(), second(map.clone())]), "avar: of another version, or too short"),
        (font_of([axes.clone(), second(hvar)]), "HVAR: of another version, or too short"),
        (
            font_of([axes.clone(), (b"hhea", words(&[7, 0]))]),
            "hhea: of another version, or too short",
        ),
        (
            font_of([axes.clone(), (b"cmap", words(&[7, 0]))]),
            "cmap: of another version, or too short",
        ),
        (font_of([axes.clone(), (b"maxp", words(&[0, 0x5000, 47]))]), "no such glyph"),
        (font_of([axes.clone(), more_sets]), "glyph 47: no advance by `HVAR`"),
        (font_of([axes.clone(), other_store]), "HVAR: of another version, or too short"),
        (font_of([axes.clone(), (b"HVAR", two)]), "glyph 47: no advance by `HVAR`"),
        (font_of([not_in_order]), "axis `wght`: out of order, or too wide"),
        (font_of([too_wide]), "axis `wght`: out of order, or too wide"),
        (font_of([(b"fvar", two_axes()), map]), "axis `wdth`: no map in `avar`"),
        // Bytes after the maps that `avar` counts.
        (font_of([(b"fvar", two_axes()), longer_map]), "axis `wdth`: no map in `avar`"),
        (font_of([(b"fvar", two_axes()), fewer_sets]), "glyph 0: no advance by `HVAR`"),
        (font_of([(b"fvar", words(&[1, 0, 16, 2, 1, 20, 0, 8]))]), "axis 0: not in `fvar`"),
    ] {
        assert_eq!(instance_of(&font, "wght=650").1, error);
    }
}

#[test]
fn program_instance_of_a_font_at_the_limits() {
    let path = file(&at_the_limits());
    let path = path.to_str().unwrap();
    // The last metric is that of all glyphs after it; sets are counted from glyph 40,000 on again.
    for (glyph, setting, advance) in [
        ("7", "wght=1000", 7 + 20_000),
        ("7", "wght=500", 7 + 5000),
        ("8191", "wght=1000", 8191 + 2047),
        ("32998", "wght=1000", 32_998 + 8249),
        ("39999", "wght=1000", 32_999 + 9999),
        ("65534", "wght=1000", 32_999 + 6383),
        ("65534", "wght=500", 32_999 + 1596),
        ("65534", "wght=0", 32_999),
    ] {
        let found = run("instance", &[path, "", glyph, setting]).0;
        assert!(found.ends_with(&format!("\nglyph {glyph}: {advance}\n")), "{glyph} {setting}");
    }
    let found = run("instance", &[path, "\u{20008} "]).0;
    assert!(found.ends_with("\n\u{20008}: 5\n : 39\n"), "{found}");
    let found = run("instance", &[path, "", "65535"]).1;
    assert_eq!(found, "Error: \"no such glyph\"\n");
}

#[test]
fn program_instance_of_five_axes() {
    let path = file(&of_five_axes());
    let found = run("instance", &[path.to_str().unwrap(), "\u{7F}", "0", "wght=650"]).0;
    let axes = [("AAAA", "0"), ("BBBB", "0"), ("CCCC", "0"), ("DDDD", "0"), ("wght", "0.25")];
    let axes = axes.map(|(tag, at)| format!("{tag}: from 100 to 900, at {at}\n")).concat();
    assert_eq!(found, axes + "\u{7F}: 525\nglyph 0: 525\n");
}

#[test]
fn program_instance_of_two_axes() {
    let path = file(&font_of([(b"HVAR", hvar_of_two_axes(MAPS[1])), (b"fvar", two_axes())]));
    let found = run("instance", &[path.to_str().unwrap(), "A", "wdth=150"]).0;
    let axes = "wght: from 100 to 900, at 0\nwdth: from 50 to 200, at 0.5\n";
    assert!(found.starts_with(axes), "{found}");
    let found = run("instance", &[path.to_str().unwrap()]).1;
    assert!(found.contains("-- FONT TEXT"), "{found}");
}

/// Returns the sum of a set of a store that has this subtable, where the regions are 0, whose scalar
/// is 1, and 1, whose scalar is 0.
fn sum(subtable: &[u8], inner: u32) -> Option<F48Dot16> {
    let regions = words(&[1, 2, 0, 0x4000, 0x4000, 0xC000, 0xC000, 0]);
    let store = [&words(&[1, 0, 12, 1, 0, 28])[..], &regions, subtable].concat();
    let (at, mut scalars) = ([F2Dot14::ONE], [Fixed::ZERO; 2]);
    let instance = ItemVariationStore::new(&store)?.instance(&at, &mut scalars)?;
    instance.delta(DeltaSetIndex { outer: 0, inner })
}

// A set at the count, a region that is not there, and an outer index of 17 bits.
#[test]
fn delta_sets_at_the_count() {
    let of = |region| words(&[1, 1, 1, region, 5, 6, 7]);
    let found = [(0, 0), (1, 0), (0, 1), (0, 2)].map(|(set, region)| sum(&of(region), set));
    assert_eq!(found, [Some(F48Dot16::from_i32(5)), None, Some(F48Dot16::ZERO), None]);
    assert_eq!(sum(&words(&[1, 0, 0]), 1), None);
    let map = [1, 0x30, 0, 0, 0, 1, 0, 2, 0, 1];
    let set = DeltaSetIndex { outer: 0x1_0000, inner: 1 };
    assert_eq!(DeltaSetIndexMap::new(&map).unwrap().get(0), Some(set));
}

// Deltas of four, two and one bytes in the second set: three wide columns and two narrow ones.
#[test]
fn wide_and_narrow_columns() {
    let of_16 = [[-1_i16, 300, i16::MIN].map(i16::to_be_bytes).concat(), vec![0x80, 127]];
    let (wide, narrow) = ([-1, 70_000, i32::MIN], [-300_i16, i16::MAX]);
    let of_32 = [wide.map(i32::to_be_bytes).concat(), narrow.map(i16::to_be_bytes).concat()];
    for (wide, row, deltas) in [
        (3, of_16.concat(), [-1, 300, -32_768, -128, 127]),
        (0x8003, of_32.concat(), [-1, 70_000, i32::MIN, -300, 32_767]),
    ] {
        let found = [0, 1, 2, 3, 4].map(|column| {
            let mut regions = [1; 5];
            regions[column] = 0;
            let head = words(&[&[2, wide, 5][..], &regions].concat());
            sum(&[head, vec![0x55; row.len()], row.clone()].concat(), 1)
        });
        assert_eq!(found, deltas.map(|delta| Some(F48Dot16::from_i32(delta))), "{wide:#X}");
    }
}

#[test]
fn more_metrics_than_glyphs() {
    let bytes = font_of([(b"maxp", words(&[0, 0x5000, 1]))]);
    let font = instance::font::Font::new(&bytes).unwrap();
    assert_eq!(font.advance(GlyphId16::new(0)), Some(UfWord::new(500)));
}

#[test]
fn fvar_that_ends_early() {
    let bytes = font_of([(b"fvar", vec![0])]);
    let font = instance::font::Font::new(&bytes).unwrap();
    assert!(axes(&font).is_err_and(|text| text == "fvar: of another version, or too short"));
}

#[test]
fn program_instance_of_other_files() {
    runner::of_other_files("instance");
}

// One region, whose scalar is 1 at its peak, and one set, of a delta of 40.
const HVAR_OF_ONE: [u8; 52] = [
    0, 1, 0, 0, 0, 0, 0, 20, 0, 0, 0, 0, 0, 0, 0, 0, 0, 0, 0, 0, 0, 1, 0, 0, 0, 12, 0, 1, 0, 0, 0,
    22, 0, 1, 0, 1, 0, 0, 0x40, 0, 0x40, 0, 0, 1, 0, 1, 0, 1, 0, 0, 0, 40,
];

// What ends early, or is counted too high, gives no advance, and none is out of range.
#[test]
fn variations_that_are_refused() {
    let (peak, hvar) = ([F2Dot14::ONE], Hvar::new(&HVAR_OF_ONE).unwrap());
    let (store, set) = (hvar.store(), hvar.advance_set(GlyphId16::new(0)).unwrap());
    let mut scalars = [Fixed::ZERO];
    let instance = store.instance(&peak, &mut scalars).unwrap();
    for (advance, varied) in [(0xFFD7, Some(0xFFFF)), (0xFFD8, None)] {
        assert_eq!(instance.vary_advance(UfWord::new(advance), set), varied.map(UfWord::new));
    }
    // No room for the scalar of the second region: nothing is written.
    let store = &HVAR_OF_ONE[20..];
    let mut of_two = store.to_vec();
    of_two[15] = 2;
    let two = ItemVariationStore::new(&of_two).unwrap();
    let mut scalars = [Fixed::MIN];
    assert!(two.instance(&peak, &mut scalars).is_none());
    assert_eq!(scalars, [Fixed::MIN]);
    // What is behind the last region is as before.
    let mut scalars = [Fixed::MIN; 3];
    assert!(two.instance(&peak, &mut scalars).is_some());
    assert_eq!(scalars[2..], [Fixed::MIN]);
    // A store of format 2.
    assert!(ItemVariationStore::new(&[&[0, 2][..], &of_two[2..]].concat()).is_none());
    // Seven subtables, whose offsets would end after the store.
    let mut of_seven = store.to_vec();
    of_seven[7] = 7;
    assert_eq!(varied(500, &of_seven, set, &peak), None);
    // The offset of the regions, or of the subtable, is null.
    for offset in [2, 8] {
        let mut null = store.to_vec();
        null[offset..offset + 4].fill(0);
        assert_eq!(varied(500, &null, set, &peak), None);
    }
    assert!(Hvar::new(&[0, 1, 0, 0, 0, 0, 0, 8, 0, 0, 0]).is_none());
    // A table that counts no axis.
    let axes = two_axes();
    let avar = Avar::new(Some(&[0, 1, 0, 0, 0, 0, 0, 0, 0, 0])).unwrap();
    let found = Fvar::new(&axes).unwrap().coordinates(&avar, &[], &mut [F2Dot14::ZERO; 2]);
    assert_eq!(found, Err(CoordinatesError::NoMap(Tag::new(b"wght"))));
}

// The scalar of an axis that is far from the first.
#[test]
fn regions_of_many_axes() {
    for axes in [255, 256, 4096, 32_767, 32_768, 65_535] {
        let mut list = words(&[axes, 1]);
        list.resize(4 + 6 * usize::from(axes) - 6, 0);
        list.extend(words(&[0, 0x4000, 0x4000]));
        let mut coordinates = vec![F2Dot14::ZERO; axes.into()];
        *coordinates.last_mut().unwrap() = F2Dot14::from_bits(0x1000);
        let scalar = Fixed::from_bits(0x4000);
        let subtable = words(&[1, 1, 1, 0, 400]);
        let store = [&words(&[1, 0, 12, 1])[..], &(12 + list.len() as u32).to_be_bytes()].concat();
        let store = [store, list, subtable].concat();
        let count = |store| ItemVariationStore::new(store).map(|store| store.region_count());
        assert_eq!((count(&store), count(&store[..15])), (Some(1), Some(0)));
        let mut scalars = [Fixed::ZERO; 1];
        let of_one = ItemVariationStore::new(&store).unwrap();
        let instance = of_one.instance(&coordinates, &mut scalars).unwrap();
        let set = DeltaSetIndex { outer: 0, inner: 0 };
        assert_eq!(instance.scalar(0), Some(scalar), "{axes}");
        assert_eq!(instance.delta(set), Some(F48Dot16::from_i32(100)), "{axes}");
        assert_eq!(instance.vary_advance(UfWord::new(500), set), Some(UfWord::new(600)));
    }
}

#[test]
fn long_maps() {
    let avar = [words(&[1, 0, 0, 2, 40_000]), vec![0; 160_000], words(&[1, 7, 9])].concat();
    let axes = fvar(&[(b"same", [0xFFFF, 0, 1]); 2]);
    let settings = [Setting { axis: Tag::new(b"same"), value: Fixed::from_bits(28) }];
    let mut found = [F2Dot14::ZERO; 2];
    let avar = Avar::new(Some(&avar)).unwrap();
    Fvar::new(&axes).unwrap().coordinates(&avar, &settings, &mut found).unwrap();
    assert_eq!(found.map(F2Dot14::to_bits), [7, 9]);
    let map = [words(&[0x10, 40_000]), (0..40_000_u16).flat_map(u16::to_be_bytes).collect()];
    let set = DeltaSetIndex { outer: 39_999 >> 1, inner: 1 };
    assert_eq!(DeltaSetIndexMap::new(&map.concat()).unwrap().get(39_999), Some(set));
}
