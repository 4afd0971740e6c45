//! The example `dump`, over the fonts of `fonts`.

#[path = "../examples/dump.rs"]
mod dump;
#[allow(dead_code)]
mod fonts;
mod runner;

use dump::{dump, font::Font};
use fonts::{at_the_limits, font, font_of, hvar, words};
use runner::{file, run};

fn dumped(font: &Font<'_>, characters: &str) -> String {
    let mut out = Vec::new();
    dump(font, characters, &mut out).unwrap();
    String::from_utf8(out).unwrap()
}

// Of another encoding of Windows, with half a unit at its end.
#[test]
fn dump_of_an_odd_name() {
    let mut bytes = font(hvar());
    let record = words(&[3, 1, 0x409, 1]);
    let place = bytes.windows(record.len()).position(|bytes| *bytes == record);
    let place = place.unwrap();
    bytes[place + 3] = 10;
    bytes[place + 9] -= 1;
    let font = Font::new(&bytes).unwrap();
    let text = dumped(&font, "");
    assert!(text.ends_with("\nFAMILY_NAME: Ütes\n"), "{text}");
}

// In another language, after a gap, with half of a pair.
#[test]
fn dump_of_a_name_in_a_gap() {
    let name = [0, 1, 24, 3, 1, 0x407, 1, 6, 2, 88, 88, 88, 65, 66, 0xD800, 67];
    let bytes = font_of([(b"name", words(&name))]);
    let text = dumped(&Font::new(&bytes).unwrap(), "");
    assert!(text.ends_with("\nFAMILY_NAME: B\u{FFFD}C\n"), "{text}");
}

#[test]
fn dump_of_a_name_after_many_tables() {
    let tags: [_; 64] =
        std::array::from_fn(|n| *format!("A{n:03}").as_bytes().first_chunk().unwrap());
    let bytes = font_of(tags.each_ref().map(|tag| (tag, Vec::new())));
    let text = dumped(&Font::new(&bytes).unwrap(), "");
    assert!(text.ends_with("\nFAMILY_NAME: Ütest\n"), "{text}");
}

#[test]
fn dump_of_a_font() {
    let bytes = font(hvar());
    let font = Font::new(&bytes).unwrap();
    let text = dumped(&font, "\n\u{1000A}\u{15}\u{99}\u{9A}🗿😀😁😐😑a");
    let wanted = "\
head version: 1.0
font revision: 2.5
units per em: 1000
modified, in seconds since 1904: 2
x min: -10
ascender: 800
descender: -200
widest advance: 620
maxp version: 0.5
glyphs: 48
weight class: 400
vendor: TEST
typographic ascender: 800
FAMILY_NAME: Ütest
\n: glyph 1
\u{1000A}: no glyph
\u{15}: no glyph
\u{99}: glyph 107
\u{9A}: no glyph
🗿: no glyph
😀: glyph 500
😁: glyph 501
😐: glyph 65535
😑: no glyph
a: no glyph
";
    assert_eq!(text, wanted);
    let path = file(&bytes);
    let [path, characters] = [path.to_str().unwrap(), "\n\u{1000A}\u{15}\u{99}\u{9A}🗿😀😁😐😑a"];
    assert_eq!(run("dump", &[path, characters]), (wanted.into(), String::new()));
    let without_characters = wanted.split_inclusive("test\n").next().unwrap();
    assert_eq!(run("dump", &[path]), (without_characters.into(), String::new()));
    // A truncated font is read as far as it goes.
    for len in 0..bytes.len() {
        if let Some(font) = Font::new(&bytes[..len]) {
            dumped(&font, "\n");
        }
    }
}

#[test]
fn dump_of_mutated_fonts() {
    let font = font(hvar());
    let mut state = 1u64;
    let mut random = |below: usize| {
        state = state.wrapping_mul(6364136223846793005).wrapping_add(1);
        (state >> 33) as usize % below
    };
    for _ in 0..1000 {
        let mut bytes = font.clone();
        let (place, len) = (random(bytes.len() - 8), 1 + random(8));
        bytes[place..place + len].fill([0, 0x7F, 0x80, 0xFF, random(256) as u8][random(5)]);
        if let Some(font) = Font::new(&bytes) {
            dumped(&font, "\n\u{15}\u{99}\u{9A}😀\u{1F610}a");
        }
    }
}

// The first of two encodings that has the character counts, also as glyph 0; format 13 is not read.
#[test]
fn characters_in_two_encodings() {
    let format_4 = |glyph: u16| {
        [4, 32, 0, 4, 4, 1, 0, 65, 0xFFFF, 0, 65, 0xFFFF, glyph.wrapping_sub(65), 1, 0, 0]
    };
    let format_13 = [13, 0, 0, 28, 0, 0, 0, 1, 0, 66, 0, 66, 0, 9, 0, 0];
    for (count, first, second, lines) in [
        (2, format_4(3), format_4(4), "A: glyph 3\nB: no glyph\n"),
        (2, format_4(0), format_13, "A: glyph 0\nB: no glyph\n"),
        (2, format_13, format_4(4), "A: glyph 4\nB: no glyph\n"),
        (1, format_13, format_4(4), "A: no glyph\nB: no glyph\n"),
    ] {
        let cmap = words(&[&[0, count, 3, 1, 0, 20, 3, 10, 0, 52][..], &first, &second].concat());
        let bytes = font_of([(b"cmap", cmap)]);
        let text = dumped(&Font::new(&bytes).unwrap(), "AB");
        assert!(text.ends_with(lines), "{text}");
    }
}

#[test]
fn dump_of_a_font_at_the_limits() {
    let path = file(&at_the_limits());
    let name = format!("NameId 256: \u{1F600}{}\n", "n".repeat(16_498));
    // A segment of one code, the ends of that with an array, after them, and groups.
    let (text, glyphs) = (
        "\u{801E}\u{9C40}\u{B3AF}\u{B3B0}\u{20008}\u{301CE}",
        ["glyph 32805", "glyph 30001", "glyph 36000", "no glyph", "glyph 5", "glyph 33000"],
    );
    let lines = text.chars().zip(glyphs).map(|(code, glyph)| format!("{code}: {glyph}\n"));
    let found = run("dump", &[path.to_str().unwrap(), text]).0;
    assert!(found.ends_with(&(name + &lines.collect::<String>())), "{}", found.len());
    assert!(found.contains("\nglyphs: 65535\nweight class: 40000\n"));
}

#[test]
fn dump_of_tables_that_end_early() {
    let bytes = font_of([(b"head", words(&[1, 0]))]);
    let font = Font::new(&bytes).unwrap();
    let text = dumped(&font, "");
    let ends = text.starts_with("head version: ") && text.ends_with("\nFAMILY_NAME: Ütest\n");
    assert!(ends, "{text}");
    // The last table ends after the file.
    let bytes = font_of([]);
    let font = Font::new(&bytes[..bytes.len() - 1]).unwrap();
    assert!(font.table(b"name").is_none());
}

#[test]
fn dump_of_other_files() {
    runner::of_other_files("dump");
}
