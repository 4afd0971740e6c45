//! Prints a line for each table, size, location and text of the fonts that are named: the hash and
//! the length of what read-fonts, skrifa and harfrust make of it. `run` compares the lines.

use read_fonts::{FileRef, FontRef, TableProvider};
use skrifa::color::{Brush, ColorPainter, CompositeMode, Transform};
use skrifa::outline::{DrawSettings, Engine, HintingInstance, HintingOptions, OutlinePen};
use skrifa::outline::{SmoothMode, Target};
use skrifa::prelude::{GlyphId, LocationRef, Size};
use skrifa::raw::types::BoundingBox;
use skrifa::{MetadataProvider, instance::Location};
use std::fmt::Debug;
use std::hash::{DefaultHasher, Hash, Hasher};

fn line(what: &str, seen: impl Debug) {
    let (text, mut hash) = (format!("{seen:?}"), DefaultHasher::new());
    text.hash(&mut hash);
    println!("{what} {:016x} {}", hash.finish(), text.len());
}

/// The calls of a pen or a painter, as text.
#[derive(Debug, Default)]
struct Calls(Vec<String>);

macro_rules! calls {
    ($($name:ident($($argument:ident: $kind:ty),*);)*) => {$(
        fn $name(&mut self $(, $argument: $kind)*) {
            self.0.push(format!("{} {:?}", stringify!($name), ($(&$argument,)*)));
        }
    )*};
}

impl OutlinePen for Calls {
    calls! {
        move_to(x: f32, y: f32);
        line_to(x: f32, y: f32);
        quad_to(a: f32, b: f32, x: f32, y: f32);
        curve_to(a: f32, b: f32, c: f32, d: f32, x: f32, y: f32);
        close();
    }
}

impl ColorPainter for Calls {
    calls! {
        push_transform(transform: Transform);
        pop_transform();
        push_clip_glyph(glyph: GlyphId);
        push_clip_box(clip: BoundingBox<f32>);
        pop_clip();
        fill(brush: Brush<'_>);
        push_layer(mode: CompositeMode);
        pop_layer();
    }
}

/// The default instance, and three others of a variable font.
fn locations(font: &FontRef) -> Vec<Location> {
    let axes = font.axes();
    let parts = if axes.is_empty() { 0..0 } else { 1..4 };
    let others = parts.map(|part| {
        axes.location(axes.iter().map(|axis| {
            let range = axis.max_value() - axis.min_value();
            (axis.tag(), axis.min_value() + range * part as f32 * 0.31)
        }))
    });
    std::iter::once(Location::default()).chain(others).collect()
}

fn drawn<'a>(font: &FontRef, settings: impl Fn() -> DrawSettings<'a>) -> (Calls, usize) {
    let (mut calls, mut errors) = (Calls::default(), 0);
    for (_, glyph) in font.outline_glyphs().iter() {
        errors += usize::from(glyph.draw(settings(), &mut calls).is_err());
    }
    (calls, errors)
}

fn outlines(what: &str, font: &FontRef, at: LocationRef) {
    for size in [Size::unscaled(), Size::new(16.0), Size::new(113.7)] {
        let found = drawn(font, || DrawSettings::unhinted(size, at));
        line(&format!("{what} outlines {size:?}"), found);
    }
    for engine in [Engine::Interpreter, Engine::Auto(None)] {
        for target in [Target::Mono, SmoothMode::Lcd.into()] {
            let (glyphs, engine) = (font.outline_glyphs(), engine.clone());
            let what = format!("{what} hinted {engine:?} {target:?}");
            let options = HintingOptions { engine, target };
            let hinting = HintingInstance::new(&glyphs, Size::new(16.0), at, options);
            let found =
                hinting.map(|hinting| drawn(font, || DrawSettings::hinted(&hinting, false)));
            line(&what, found);
        }
    }
}

fn metrics_and_colors(what: &str, font: &FontRef, at: LocationRef) {
    let glyphs = (0..font.maxp().map_or(0, |maxp| maxp.num_glyphs())).map(GlyphId::from);
    let metrics = font.glyph_metrics(Size::new(13.3), at);
    let found = font.metrics(Size::new(17.0), at);
    line(&format!("{what} metrics"), found);
    for (n, glyph) in glyphs.clone().enumerate().step_by(50) {
        let found = (metrics.advance_width(glyph), metrics.bounds(glyph));
        line(&format!("{what} glyph {n}"), found);
    }
    let (mut calls, mut errors) = (Calls::default(), 0);
    for glyph in glyphs.filter_map(|glyph| font.color_glyphs().get(glyph)) {
        errors += usize::from(glyph.paint(at, &mut calls).is_err());
    }
    line(&format!("{what} colors"), (calls, errors));
}

/// Shapes the font's characters, forty at a time.
fn texts(what: &str, font: &FontRef, at: LocationRef) {
    let data = harfrust::ShaperData::new(font);
    let coordinates = at.coords().iter().copied();
    let instance = harfrust::ShaperInstance::from_coords(font, coordinates);
    let shaper = data.shaper(font).instance(Some(&instance)).build();
    let codes = font.charmap().mappings().map(|(code, _)| code);
    let characters: Vec<char> = codes.filter_map(char::from_u32).collect();
    for (n, text) in characters.chunks(40).take(60).enumerate() {
        let mut buffer = harfrust::UnicodeBuffer::new();
        buffer.push_str(&text.iter().collect::<String>());
        buffer.guess_segment_properties();
        let shaped = shaper.shape(buffer, harfrust::ShapeOptions::new());
        let found = (shaped.glyph_infos(), shaped.glyph_positions());
        line(&format!("{what} text {n}"), found);
    }
}

fn main() {
    for path in std::env::args().skip(1) {
        let bytes = std::fs::read(&path).expect(&path);
        let fonts = FileRef::new(&bytes).expect(&path).fonts();
        for (face, font) in fonts.flatten().enumerate() {
            macro_rules! tables {
                ($($name:ident)*) => {$(
                    line(&format!("{path} {face} {}", stringify!($name)), font.$name());
                )*};
            }
            tables! {
                head name hhea vhea hmtx fvar avar hvar vvar mvar maxp os2 post gasp cmap gdef gpos
                gsub colr cpal stat base cbdt cblc svg gvar vorg cvar meta
            }
            for (n, location) in locations(&font).iter().enumerate() {
                let what = format!("{path} {face} at {n}");
                let at = LocationRef::from(location);
                metrics_and_colors(&what, &font, at);
                outlines(&what, &font, at);
                texts(&what, &font, at);
            }
        }
    }
}
