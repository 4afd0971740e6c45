// @generated from crates/variations/src/evaluator.rt by tools/erase

//! Coordinates of an instance: settings, `fvar` and `avar`.

#[cfg(doc)]
use crate::definitions::variations::Evaluator_antt::{
    AreCoordinates, AreOfAxes, HasAxis, HaveCoordinates, IsAvar, IsAxesError, IsAxis,
    IsCoordinatesError, IsFvar, IsWithinOne, ParsesSetting, fvar_axis_count,
};

use core::iter::FusedIterator;
use core::str::FromStr;
use font_types_proved::{DecimalFault, F2Dot14, Fixed, InvalidTag, NameId, Scalar, Tag};

// ---- settings

/// A user's value on an axis.
///
/// ```
/// use font_variations_proved::{Fixed, Setting, Tag};
/// let setting: Setting = "wdth=87.5".parse().unwrap();
/// assert_eq!(setting.axis, Tag::new(b"wdth"));
/// assert_eq!(setting.value, Fixed::from_decimal("87.5").unwrap());
/// ```
///
/// The source and its contracts: `crates/variations/src/evaluator.rt`.
#[derive(Clone, Copy, PartialEq, Eq, Hash, Debug)]
pub struct Setting {
    /// The tag of the axis.
    pub axis: Tag,
    /// The value, in the unit of the axis.
    pub value: Fixed,
}

/// Why a text is not a setting.
///
/// ```
/// use font_variations_proved::{Setting, SettingError};
/// assert_eq!("wght".parse::<Setting>(), Err(SettingError::NoValue));
/// assert!(matches!("wght=bold".parse::<Setting>(), Err(SettingError::Value(_))));
/// ```
///
/// The source and its contracts: `crates/variations/src/evaluator.rt`.
#[derive(Clone, PartialEq, Eq, Debug)]
pub enum SettingError {
    /// It has no `=`.
    NoValue,
    /// The part before the `=` is not a tag.
    Axis(InvalidTag),
    /// The part after it is not a decimal number in range.
    Value(DecimalFault),
}

impl core::error::Error for SettingError {}

impl core::fmt::Display for SettingError {
    fn fmt(&self, f: &mut core::fmt::Formatter<'_>) -> core::fmt::Result {
        match self {
            Self::NoValue => write!(f, "no `=`"),
            Self::Axis(field_0, ..) => write!(f, "axis: {field_0}"),
            Self::Value(field_0, ..) => write!(f, "value: {field_0}"),
        }
    }
}

impl Copy for SettingError {}

// Splits a text at its first `=`.
fn split_setting(text: &str) -> Option<(&str, &str)> {
    text.split_once('=')
}

/// Parses a setting such as `wght=650` or `wdth=87.5`: the tag of an axis, and a decimal.
///
/// The error is that of the first wrong part: `NoValue` without a `=`, `Axis` if the text before it
/// is not a tag, `Value` if the text after it is not a decimal in range.
///
/// <details><summary>Contract</summary>
///
/// ```text
/// ghost from_str_gives = { ParsesSetting };
/// ```
/// [Notation](crate::definitions): [`ParsesSetting`]
/// </details>
impl FromStr for Setting {
    type Err = SettingError;

    fn from_str(text: &str) -> Result<Setting, SettingError> {
        let (axis, value) = split_setting(text).ok_or(SettingError::NoValue)?;
        let axis = Tag::new_checked(axis.as_bytes()).map_err(SettingError::Axis)?;
        let value = Fixed::from_decimal(value).map_err(SettingError::Value)?;
        Ok(Setting { axis, value })
    }
}

// ---- `fvar`: normalized coordinates

/// A variation axis, a record of `fvar`, from [`Fvar::axis`].
///
/// The source and its contracts: `crates/variations/src/evaluator.rt`.
#[derive(Clone, Copy, PartialEq, Eq, Hash, Debug)]
pub struct VariationAxisRecord {
    /// The tag of the axis, such as `wght`.
    pub axis_tag: Tag,
    /// The least value.
    pub min_value: Fixed,
    /// The value of the default instance.
    pub default_value: Fixed,
    /// The greatest value.
    pub max_value: Fixed,
    /// Flags: 1 for an axis that is not shown to users.
    pub flags: u16,
    /// The name of the axis in the table `name`.
    pub axis_name_id: NameId,
}

/// A table `fvar` of major version 1.
///
/// ```
/// use font_variations_proved::{Fixed, Fvar, Tag};
/// let fvar = b"\0\x01\0\0\0\x10\0\x02\0\x01\0\x14\0\0\0\x04\
///     wght\0\x64\0\0\x01\x90\0\0\x03\x84\0\0\0\0\x01\0";
/// let fvar = Fvar::new(fvar).unwrap();
/// assert_eq!(fvar.axis_count(), 1);
/// let axis = fvar.axis(0).unwrap();
/// assert_eq!((axis.axis_tag, axis.max_value), (Tag::new(b"wght"), Fixed::from_i32(900)));
/// ```
///
/// The source and its contracts: `crates/variations/src/evaluator.rt`.
///
/// <details><summary>Contract</summary>
///
/// ```text
/// ghost header: { IsFvar bytes.now },
/// ```
/// [Notation](crate::definitions): [`IsFvar`]
/// </details>
#[derive(Clone, Copy, PartialEq, Eq, Hash, Debug)]
pub struct Fvar<'a> {
    bytes: &'a [u8],
}

impl<'a> Fvar<'a> {
    /// Returns the table that begins at these bytes, or `None` if its major version is not 1, it
    /// ends before its header does, or its records are shorter than an axis.
    ///
    /// <details><summary>Contract</summary>
    ///
    /// ```text
    /// ensures variant { IsSome result ↔ IsFvar bytes.now }
    /// ensures bytes { IfSome result (λ fvar. fvar.bytes.now ≡ bytes.now) }
    /// ```
    /// [Notation](crate::definitions): [`IsFvar`]
    /// </details>
    #[must_use]
    pub fn new(bytes: &'a [u8]) -> Option<Fvar<'a>> {
        if u16::read_at(bytes, 0)? != 1 || bytes.len() < 16 || u16::read_at(bytes, 10)? < 20 {
            return None;
        }
        Some(Fvar { bytes })
    }

    /// Returns the number of axes.
    ///
    /// <details><summary>Contract</summary>
    ///
    /// ```text
    /// ensures { result ≡ fvar_axis_count self.now.bytes.now }
    /// ```
    /// [Notation](crate::definitions): [`fvar_axis_count`]
    /// </details>
    #[must_use]
    pub fn axis_count(&self) -> u16 {
        u16::read_at(self.bytes, 8).unwrap_or(0)
    }

    /// Returns an axis, or `None` if the table has no such axis, or ends before its record does.
    ///
    /// <details><summary>Contract</summary>
    ///
    /// ```text
    /// ensures variant { IsSome result ↔ HasAxis self.now.bytes.now index }
    /// ensures value { IfSome result (λ axis. IsAxis self.now.bytes.now index axis) }
    /// ```
    /// [Notation](crate::definitions): [`HasAxis`], [`IsAxis`]
    /// </details>
    #[must_use]
    pub fn axis(&self, index: u16) -> Option<VariationAxisRecord> {
        if index >= self.axis_count() {
            return None;
        }
        let start = usize::from(u16::read_at(self.bytes, 4)?);
        let size = usize::from(u16::read_at(self.bytes, 10)?);
        read_axis(self.bytes.get(start + size * usize::from(index)..)?)
    }

    /// Returns the axes, in order, up to the first that the table ends before.
    ///
    /// <details><summary>Contract</summary>
    ///
    /// ```text
    /// ensures fvar { result.fvar.bytes.now ≡ self.now.bytes.now }
    /// ensures index { result.index ≡ 0 }
    /// ```
    /// [Notation](crate::definitions)
    /// </details>
    #[must_use]
    pub fn axes(&self) -> Axes<'a> {
        Axes { fvar: *self, index: 0 }
    }

    /// Computes the coordinate of each axis at these settings, in the order of the axes.
    ///
    /// The value of an axis is that of its last setting, or the default if it has none; axes of one
    /// tag have the same settings. The value is clamped to the axis, and its distance from the
    /// default divided by that of the end on its side, rounded to 16.16; `avar` maps the result,
    /// which is then rounded to 2.14. So each coordinate is from -1 to 1.
    ///
    /// ```
    /// use font_variations_proved::{Avar, CoordinatesError, F2Dot14, Fvar, Tag};
    /// let fvar = b"\0\x01\0\0\0\x10\0\x02\0\x01\0\x14\0\0\0\x04\
    ///     wght\0\x64\0\0\x01\x90\0\0\x03\x84\0\0\0\0\x01\0";
    /// let (fvar, avar) = (Fvar::new(fvar).unwrap(), Avar::new(None).unwrap());
    /// let settings = ["wght=300".parse().unwrap(), "wght=650".parse().unwrap()];
    /// let mut coordinates = [F2Dot14::ZERO; 1];
    /// fvar.coordinates(&avar, &settings, &mut coordinates).unwrap();
    /// assert_eq!(coordinates[0].to_string(), "0.5");
    ///
    /// let misspelt = ["Wght=650".parse().unwrap()];
    /// let found = fvar.coordinates(&avar, &misspelt, &mut coordinates);
    /// assert_eq!(found, Err(CoordinatesError::NoAxis(Tag::new(b"Wght"))));
    /// ```
    ///
    /// OpenType allows an axis that is wider than 16.16 holds, such as one from -20000 to 20000.
    /// Its values are not normalized, because the distances that are divided are numbers of 16.16,
    /// and all of them fit only if `max - min` does.
    ///
    /// The time is linear in the number of axes, in the length of `avar`, and in the number of axes
    /// times that of the settings.
    ///
    /// # Errors
    ///
    /// `Places` unless `coordinates` are as many as the axes. Else the error of the first axis that
    /// has no coordinate: `NoRecord`, `NoMap` or `NoRange`. Else `NoAxis` of the first setting
    /// whose tag no axis has. Then `coordinates` are as before.
    ///
    /// <details><summary>Contract</summary>
    ///
    /// ```text
    /// ensures variant { IsOk result
    ///     ↔ ((length coordinates.old ≡ fvar_axis_count self.now.bytes.now)
    ///     × HaveCoordinates self.now.bytes.now (option_map (λ avar. avar.now) avar.now.bytes)
    ///     × AreOfAxes self.now.bytes.now settings.now) }
    /// ensures error { IfErr result (λ error. IsCoordinatesError self.now.bytes.now
    ///     (option_map (λ avar. avar.now) avar.now.bytes) settings.now (length coordinates.old)
    ///     error) }
    /// ensures kept { IfErr result (λ _. coordinates.new ≡ coordinates.old) }
    /// ensures len { length coordinates.new ≡ length coordinates.old }
    /// ensures value { IfOk result (λ _. AreCoordinates self.now.bytes.now
    ///     (option_map (λ avar. avar.now) avar.now.bytes) settings.now (length coordinates.new)
    ///     coordinates.new) }
    /// ensures within { IfOk result (λ _. All IsWithinOne coordinates.new) }
    /// ```
    /// [Notation](crate::definitions): [`fvar_axis_count`], [`HaveCoordinates`], [`AreOfAxes`], [`IsCoordinatesError`], [`AreCoordinates`], [`IsWithinOne`]
    /// </details>
    pub fn coordinates(
        &self,
        avar: &Avar<'_>,
        settings: &[Setting],
        coordinates: &mut [F2Dot14],
    ) -> Result<(), CoordinatesError> {
        check_axes(self, avar, coordinates.len())?;
        check_settings(self, settings)?;
        write_coordinates(self, avar, settings, coordinates);
        Ok(())
    }

    /// Computes the coordinates as [`coordinates`](Fvar::coordinates) does, but ignores each
    /// setting whose tag no axis has.
    ///
    /// This is for the settings of a text, which are given to each font of a list.
    ///
    /// # Errors
    ///
    /// Those of `coordinates`, except `NoAxis`. Then `coordinates` are as before.
    ///
    /// <details><summary>Contract</summary>
    ///
    /// ```text
    /// ensures variant { IsOk result
    ///     ↔ ((length coordinates.old ≡ fvar_axis_count self.now.bytes.now)
    ///     × HaveCoordinates self.now.bytes.now (option_map (λ avar. avar.now) avar.now.bytes)) }
    /// ensures error { IfErr result (λ error. IsAxesError self.now.bytes.now
    ///     (option_map (λ avar. avar.now) avar.now.bytes) (length coordinates.old) error) }
    /// ensures kept { IfErr result (λ _. coordinates.new ≡ coordinates.old) }
    /// ensures len { length coordinates.new ≡ length coordinates.old }
    /// ensures value { IfOk result (λ _. AreCoordinates self.now.bytes.now
    ///     (option_map (λ avar. avar.now) avar.now.bytes) settings.now (length coordinates.new)
    ///     coordinates.new) }
    /// ensures within { IfOk result (λ _. All IsWithinOne coordinates.new) }
    /// ```
    /// [Notation](crate::definitions): [`fvar_axis_count`], [`HaveCoordinates`], [`IsAxesError`], [`AreCoordinates`], [`IsWithinOne`]
    /// </details>
    pub fn coordinates_ignoring_unknown(
        &self,
        avar: &Avar<'_>,
        settings: &[Setting],
        coordinates: &mut [F2Dot14],
    ) -> Result<(), CoordinatesError> {
        let places = coordinates.len();
        check_axes(self, avar, places)?;
        write_coordinates(self, avar, settings, coordinates);
        Ok(())
    }
}

/// The axes of a table `fvar`, from [`Fvar::axes`].
///
/// ```
/// use font_variations_proved::{Fvar, Tag};
/// let fvar = b"\0\x01\0\0\0\x10\0\x02\0\x01\0\x14\0\0\0\x04\
///     wght\0\x64\0\0\x01\x90\0\0\x03\x84\0\0\0\0\x01\0";
/// let axes = Fvar::new(fvar).unwrap().axes();
/// assert!(axes.map(|axis| axis.axis_tag).eq([Tag::new(b"wght")]));
/// ```
///
/// The source and its contracts: `crates/variations/src/evaluator.rt`.
#[derive(Debug)]
pub struct Axes<'a> {
    fvar: Fvar<'a>,
    index: u16,
}

/// <details><summary>Contract</summary>
///
/// ```text
/// ghost next_gives = { λ old result new. (new.fvar.bytes.now ≡ old.fvar.bytes.now)
///     × (IsSome result ↔ HasAxis old.fvar.bytes.now old.index)
///     × IfSome result (λ axis. IsAxis old.fvar.bytes.now old.index axis)
///     × MatchOption result (new.index ≡ old.index) (λ _. new.index ≡ old.index + 1) };
/// ghost remaining = { λ axes. at_most (fvar_axis_count axes.fvar.bytes.now - axes.index) };
/// ```
/// [Notation](crate::definitions): [`HasAxis`], [`IsAxis`], [`fvar_axis_count`]
/// </details>
impl<'a> Iterator for Axes<'a> {
    type Item = VariationAxisRecord;

    fn next(&mut self) -> Option<VariationAxisRecord> {
        if self.index >= self.fvar.axis_count() {
            return None;
        }
        let axis = self.fvar.axis(self.index)?;
        self.index += 1;
        Some(axis)
    }
}

impl<'a> FusedIterator for Axes<'a> {}

impl<'a> Clone for Axes<'a> {
    fn clone(&self) -> Axes<'a> {
        Axes { fvar: self.fvar, index: self.index }
    }
}

/// Why there are no coordinates.
///
/// ```
/// use font_variations_proved::{Avar, CoordinatesError, F2Dot14, Fvar};
/// let fvar = b"\0\x01\0\0\0\x10\0\x02\0\x01\0\x14\0\0\0\x04\
///     wght\0\x64\0\0\x01\x90\0\0\x03\x84\0\0\0\0\x01\0";
/// let (fvar, avar) = (Fvar::new(fvar).unwrap(), Avar::new(None).unwrap());
/// let mut coordinates = [F2Dot14::ONE; 2];
/// let found = fvar.coordinates(&avar, &[], &mut coordinates);
/// assert_eq!(found, Err(CoordinatesError::Places));
/// assert_eq!(coordinates, [F2Dot14::ONE; 2]);
/// ```
///
/// The source and its contracts: `crates/variations/src/evaluator.rt`.
#[derive(Clone, Copy, PartialEq, Eq, Debug)]
pub enum CoordinatesError {
    /// The places are more or fewer than the axes.
    Places,
    /// `fvar` ends before the record of the axis with this number.
    NoRecord(u16),
    /// `avar` has no map of the axis with this tag, or ends before it does.
    NoMap(Tag),
    /// The values of the axis with this tag are out of order, or it is wider than 16.16 holds.
    NoRange(Tag),
    /// No axis has the tag of a setting.
    NoAxis(Tag),
}

impl core::error::Error for CoordinatesError {}

impl core::fmt::Display for CoordinatesError {
    fn fmt(&self, f: &mut core::fmt::Formatter<'_>) -> core::fmt::Result {
        match self {
            Self::Places => write!(f, "not one place for each axis"),
            Self::NoRecord(field_0, ..) => write!(f, "axis {field_0}: not in `fvar`"),
            Self::NoMap(field_0, ..) => write!(f, "axis `{field_0}`: no map in `avar`"),
            Self::NoRange(field_0, ..) => write!(f, "axis `{field_0}`: out of order, or too wide"),
            Self::NoAxis(field_0, ..) => write!(f, "no axis `{field_0}`"),
        }
    }
}

// Reads an axis of `fvar`, or returns `None` if there are fewer than 20 bytes.
fn read_axis(bytes: &[u8]) -> Option<VariationAxisRecord> {
    Some(VariationAxisRecord {
        axis_tag: Tag::read_at(bytes, 0)?,
        min_value: Fixed::read_at(bytes, 4)?,
        default_value: Fixed::read_at(bytes, 8)?,
        max_value: Fixed::read_at(bytes, 12)?,
        flags: u16::read_at(bytes, 16)?,
        axis_name_id: NameId::read_at(bytes, 18)?,
    })
}

// Clamps a value to a range.
fn clamp(value: Fixed, min: Fixed, max: Fixed) -> Fixed {
    value.clamp(min, max)
}

// Divides a part by its whole, as a quotient from 0 to 1.
fn ratio(part: Fixed, whole: Fixed) -> Fixed {
    part / whole
}

// Returns `ratio`, negated.
fn negated_ratio(part: Fixed, whole: Fixed) -> Fixed {
    -ratio(part, whole)
}

// Returns whether values can be normalized by an axis.
fn has_range(axis: VariationAxisRecord) -> bool {
    axis.min_value <= axis.default_value
        && axis.default_value <= axis.max_value
        && axis.max_value.checked_sub(axis.min_value).is_some()
}

// Normalizes a value to -1..1, or returns `None` unless the axis has a range.
fn normalize(axis: VariationAxisRecord, value: Fixed) -> Option<Fixed> {
    if has_range(axis) {
        let clamped = clamp(value, axis.min_value, axis.max_value);
        Some(normalize_clamped(clamped, axis))
    } else {
        None
    }
}

// Normalizes a value within the axis.
fn normalize_clamped(value: Fixed, axis: VariationAxisRecord) -> Fixed {
    let default = axis.default_value;
    if value < default {
        negated_ratio(default - value, default - axis.min_value)
    } else if default < value {
        ratio(value - default, axis.max_value - default)
    } else {
        Fixed::ZERO
    }
}

// Clamps a coordinate to -1..1, and rounds it half up to 2.14, as `avar` and tuples store it.
fn to_stored(coordinate: Fixed) -> F2Dot14 {
    coordinate.clamp(Fixed::NEG_ONE, Fixed::ONE).to_f2dot14()
}

// ---- `avar`: segment maps

/// The maps of the axes: those of a table `avar` of major version 1, or none in a font without it.
///
/// ```
/// use font_variations_proved::Avar;
/// assert!(Avar::new(None).is_some());
/// // No axis; and the same of major version 2, which maps coordinates further.
/// assert!(Avar::new(Some(b"\0\x01\0\0\0\0\0\0")).is_some());
/// assert!(Avar::new(Some(b"\0\x02\0\0\0\0\0\0")).is_none());
/// ```
///
/// The source and its contracts: `crates/variations/src/evaluator.rt`.
///
/// <details><summary>Contract</summary>
///
/// ```text
/// ghost header: { ForSome bytes (λ bytes. IsAvar bytes.now) },
/// ```
/// [Notation](crate::definitions): [`IsAvar`]
/// </details>
#[derive(Clone, Copy, PartialEq, Eq, Hash, Debug)]
pub struct Avar<'a> {
    bytes: Option<&'a [u8]>,
}

impl<'a> Avar<'a> {
    /// Returns the table that begins at these bytes, or `None` if its major version is not 1, or it
    /// ends before its header does. Takes `None` for a font without the table, and maps nothing.
    ///
    /// <details><summary>Contract</summary>
    ///
    /// ```text
    /// ensures variant { IsSome result ↔ IfSome bytes.entry (λ bytes. IsAvar bytes.now) }
    /// ensures bytes { IfSome result (λ avar. avar.bytes ≡ bytes.entry) }
    /// ```
    /// [Notation](crate::definitions): [`IsAvar`]
    /// </details>
    #[must_use]
    pub fn new(bytes: Option<&'a [u8]>) -> Option<Avar<'a>> {
        let Some(table) = bytes else {
            return Some(Avar { bytes });
        };
        if u16::read_at(table, 0)? != 1 || table.len() < 8 {
            return None;
        }
        Some(Avar { bytes })
    }

    // Returns the mappings of an axis, each of four bytes, and where the map of the next axis
    // starts. In a font without the table the mappings are none.
    fn mappings(&self, axis: u16, start: usize) -> Option<(&'a [u8], usize)> {
        match self.bytes {
            Some(avar) => mappings_at(avar, axis, start),
            None => Some((&[], start)),
        }
    }
}

// Returns the mappings of an axis whose map starts here, and where the next map starts.
fn mappings_at(avar: &[u8], axis: u16, start: usize) -> Option<(&[u8], usize)> {
    if axis >= u16::read_at(avar, 6)? {
        return None;
    }
    let len = 4 * usize::from(u16::read_at(avar, start)?);
    let mappings = avar.get(start + 2..)?.get(..len)?;
    Some((mappings, start + 2 + len))
}

// Maps a coordinate. One below or above all mappings does not change.
fn mapped(coordinate: Fixed, map: &[u8]) -> Fixed {
    match segment_end(coordinate, map) {
        Some(end) => map_in_segment(coordinate, map, end),
        None => coordinate,
    }
}

// Returns the coordinate of a value on an axis by its mappings, or `None` unless the axis has a
// range.
fn coordinate(axis: VariationAxisRecord, value: Fixed, map: &[u8]) -> Option<F2Dot14> {
    let normalized = normalize(axis, value)?;
    Some(to_stored(mapped(normalized, map)))
}

// ---- the coordinates of an instance

// Returns the value of an axis: that of its last setting, or the default.
fn value_of(axis: VariationAxisRecord, settings: &[Setting]) -> Fixed {
    let mut value = axis.default_value;
    for setting in settings {
        if setting.axis == axis.axis_tag {
            value = setting.value;
        }
    }
    value
}

// Returns the coordinate along an axis, and where the map of the next axis starts.
fn coordinate_along(
    fvar: &Fvar<'_>,
    avar: &Avar<'_>,
    settings: &[Setting],
    index: u16,
    start: usize,
) -> Result<(F2Dot14, usize), CoordinatesError> {
    let axis = fvar.axis(index).ok_or(CoordinatesError::NoRecord(index))?;
    let (map, next) = avar.mappings(index, start).ok_or(CoordinatesError::NoMap(axis.axis_tag))?;
    let value = value_of(axis, settings);
    let coordinate =
        coordinate(axis, value, map).ok_or(CoordinatesError::NoRange(axis.axis_tag))?;
    Ok((coordinate, next))
}

// Refuses other places than one for each axis, and else the first axis without a coordinate.
fn check_axes(fvar: &Fvar<'_>, avar: &Avar<'_>, places: usize) -> Result<(), CoordinatesError> {
    if places != usize::from(fvar.axis_count()) {
        return Err(CoordinatesError::Places);
    }
    let mut start = 8;
    for axis in 0..fvar.axis_count() {
        let (_, next) = coordinate_along(fvar, avar, &[], axis, start)?;
        start = next;
    }
    Ok(())
}

// Returns whether an axis has this tag.
fn has_tag(fvar: &Fvar<'_>, tag: Tag) -> bool {
    for number in 0..fvar.axis_count() {
        if fvar.axis(number).is_some_and(|axis| axis.axis_tag == tag) {
            return true;
        }
    }
    false
}

// Refuses the first setting whose tag no axis has.
fn check_settings(fvar: &Fvar<'_>, settings: &[Setting]) -> Result<(), CoordinatesError> {
    for setting in settings {
        if !has_tag(fvar, setting.axis) {
            return Err(CoordinatesError::NoAxis(setting.axis));
        }
    }
    Ok(())
}

// Writes the coordinates of all axes.
fn write_coordinates(
    fvar: &Fvar<'_>,
    avar: &Avar<'_>,
    settings: &[Setting],
    coordinates: &mut [F2Dot14],
) {
    let mut start = 8;
    for index in 0..fvar.axis_count() {
        let (coordinate, next) = coordinate_along(fvar, avar, settings, index, start).unwrap();
        coordinates[usize::from(index)] = coordinate;
        start = next;
    }
}

// A mapping of a segment map, in 16.16.
#[derive(Clone, Copy)]
struct AxisValueMap {
    from_coordinate: Fixed,
    to_coordinate: Fixed,
}

// Interpolates linearly between two mappings; at either end the result is that end's coordinate.
fn lerp(coordinate: Fixed, start: AxisValueMap, end: AxisValueMap) -> Fixed {
    let (from, to) = (start.from_coordinate, start.to_coordinate);
    to + (end.to_coordinate - to).mul_div(coordinate - from, end.from_coordinate - from)
}

// Reads a mapping.
fn read_mapping(map: &[u8], index: usize) -> AxisValueMap {
    AxisValueMap {
        from_coordinate: F2Dot14::read_at(map, 4 * index).unwrap().to_fixed(),
        to_coordinate: F2Dot14::read_at(map, 4 * index + 2).unwrap().to_fixed(),
    }
}

// Returns the index of the first mapping at or above a coordinate, which ends its segment.
fn segment_end(coordinate: Fixed, map: &[u8]) -> Option<usize> {
    for index in 0..map.len() / 4 {
        if coordinate <= read_mapping(map, index).from_coordinate {
            return Some(index);
        }
    }
    None
}

// Maps a coordinate by the mapping that ends its segment, and the one before.
fn map_in_segment(coordinate: Fixed, map: &[u8], end: usize) -> Fixed {
    let mapping = read_mapping(map, end);
    if mapping.from_coordinate == coordinate {
        mapping.to_coordinate
    } else if end == 0 {
        coordinate
    } else {
        lerp(coordinate, read_mapping(map, end - 1), mapping)
    }
}
