// @generated from crates/variations/src/regions.rt by tools/erase

//! Variation regions: the scalar of each axis, and of a region.

#[cfg(doc)]
use crate::definitions::font_fixed::{F2Dot14_antt::f2dot14_bits, Fixed_antt::fixed_bits};
#[cfg(doc)]
use crate::definitions::variations::Variations_antt::IsAxisScalar;

use font_types_proved::{F2Dot14, Fixed, Scalar};

/// The extent of a region along one axis.
///
/// ```
/// use font_variations_proved::{F2Dot14, RegionAxisCoordinates};
/// let axis = RegionAxisCoordinates {
///     start_coord: F2Dot14::ZERO,
///     peak_coord: F2Dot14::ONE,
///     end_coord: F2Dot14::ONE,
/// };
/// let quarter = F2Dot14::from_decimal("0.25").unwrap();
/// assert_eq!(axis.scalar(quarter).to_string(), "0.25");
/// ```
///
/// The source and its contracts: `crates/variations/src/regions.rt`.
#[derive(Clone, Copy, PartialEq, Eq, Hash, Debug)]
pub struct RegionAxisCoordinates {
    /// Where the region starts.
    pub start_coord: F2Dot14,
    /// Where its scalar is 1.
    pub peak_coord: F2Dot14,
    /// Where it ends.
    pub end_coord: F2Dot14,
}

impl RegionAxisCoordinates {
    /// Returns the scalar along the axis at a coordinate, from 0 to 1: 1 if the axis is ignored,
    /// because its coordinates are out of order or on both sides of zero, or the peak is zero.
    ///
    /// <details><summary>Contract</summary>
    ///
    /// ```text
    /// ensures value { IsAxisScalar (f2dot14_bits self.now.start_coord)
    ///     (f2dot14_bits self.now.peak_coord) (f2dot14_bits self.now.end_coord)
    ///     (f2dot14_bits coordinate) (fixed_bits result) }
    /// ensures low { pos 0 ≤ℤ fixed_bits result }
    /// ensures high { fixed_bits result ≤ℤ fixed_bits Fixed.ONE }
    /// ```
    /// [Notation](crate::definitions): [`IsAxisScalar`], [`f2dot14_bits`], [`fixed_bits`]
    /// </details>
    #[must_use]
    pub fn scalar(&self, coordinate: F2Dot14) -> Fixed {
        scaled(Fixed::ONE, *self, coordinate)
    }
}

// Returns whether an axis is ignored in a region: its coordinates are out of order or on both sides
// of zero, or the peak is zero.
fn is_ignored(axis: RegionAxisCoordinates) -> bool {
    let zero = F2Dot14::ZERO;
    axis.peak_coord < axis.start_coord
        || axis.end_coord < axis.peak_coord
        || (axis.start_coord < zero && zero < axis.end_coord)
        || axis.peak_coord == zero
}

// Multiplies a scalar by that of a region along one axis, and rounds once.
fn scaled(scalar: Fixed, axis: RegionAxisCoordinates, coordinate: F2Dot14) -> Fixed {
    if is_ignored(axis) || coordinate == axis.peak_coord {
        scalar
    } else {
        scaled_off_peak(scalar, axis, coordinate)
    }
}

// Returns `scaled` of an axis that is not ignored, at another coordinate than the peak.
fn scaled_off_peak(scalar: Fixed, axis: RegionAxisCoordinates, coordinate: F2Dot14) -> Fixed {
    let (start, peak, end) = (axis.start_coord, axis.peak_coord, axis.end_coord);
    if coordinate <= start || end <= coordinate {
        return Fixed::ZERO;
    }
    let (part, whole) = if coordinate < peak {
        (distance(start, coordinate), distance(start, peak))
    } else {
        (distance(coordinate, end), distance(peak, end))
    };
    share(scalar, part, whole)
}

// Returns the exact difference `to - from` of raw values of 2.14.
fn distance(from: F2Dot14, to: F2Dot14) -> u32 {
    (i32::from(to.to_bits()) - i32::from(from.to_bits())) as u32
}

// Returns a scalar times a part of its whole, rounded once.
fn share(scalar: Fixed, part: u32, whole: u32) -> Fixed {
    Fixed::from_bits(rounded_share(scalar.to_bits() as u32, part, whole) as i32)
}

// Returns `scalar * part / whole`, rounded half up. The product fits in 32 bits.
fn rounded_share(scalar: u32, part: u32, whole: u32) -> u32 {
    (scalar * part + whole / 2) / whole
}

// Returns the coordinate along an axis, by default 0.
fn coordinate_along(coordinates: &[F2Dot14], axis: u16) -> F2Dot14 {
    match coordinates.get(usize::from(axis)) {
        Some(coordinate) => *coordinate,
        None => F2Dot14::ZERO,
    }
}

// Reads the extent of a region along an axis.
fn axis_of(region: &[u8], axis: u16) -> RegionAxisCoordinates {
    let offset = 6 * usize::from(axis);
    RegionAxisCoordinates {
        start_coord: F2Dot14::read_at(region, offset).unwrap(),
        peak_coord: F2Dot14::read_at(region, offset + 2).unwrap(),
        end_coord: F2Dot14::read_at(region, offset + 4).unwrap(),
    }
}

// Reads the peak of a region along an axis.
fn peak_of(region: &[u8], axis: u16) -> F2Dot14 {
    F2Dot14::read_at(region, 6 * usize::from(axis) + 2).unwrap()
}

// Returns `scaled` of a region's axis at the coordinate along it. It reads the peak first, which is
// zero along most axes.
fn scaled_along(scalar: Fixed, region: &[u8], coordinates: &[F2Dot14], axis: u16) -> Fixed {
    let coordinate = coordinate_along(coordinates, axis);
    let peak = peak_of(region, axis);
    if peak == F2Dot14::ZERO || coordinate == peak {
        return scalar;
    }
    scaled(scalar, axis_of(region, axis), coordinate)
}

// Returns the product of the scalars along all axes, rounded after each.
fn product_of_scalars(region: &[u8], axes: u16, coordinates: &[F2Dot14]) -> Fixed {
    let mut scalar = Fixed::ONE;
    for axis in 0..axes {
        scalar = scaled_along(scalar, region, coordinates, axis);
        // It stays zero.
        if scalar == Fixed::ZERO {
            return scalar;
        }
    }
    scalar
}

// Returns the bytes of a region.
fn find_region(regions: &[u8], region: u16) -> Option<&[u8]> {
    let (count, axes) = (u16::read_at(regions, 2)?, u16::read_at(regions, 0)?);
    if count >= 0x8000 || region >= count {
        return None;
    }
    // In 64 bits, where a `usize` of 32 could overflow.
    let start = 4 + 6 * (u64::from(region) * u64::from(axes));
    let rest = regions.get(usize::try_from(start).ok()?..)?;
    rest.get(..6 * usize::from(axes))
}

// Returns the scalar of a region, the product of those of its axes, from 0 to 1, or `None` if the
// list does not have the region. Axes beyond the coordinates are at their default.
//
// The product is rounded once for each axis, in the order of the axes, half up.
pub(crate) fn region_scalar(regions: &[u8], region: u16, coordinates: &[F2Dot14]) -> Option<Fixed> {
    let region = find_region(regions, region)?;
    let axes = u16::read_at(regions, 0)?;
    Some(product_of_scalars(region, axes, coordinates))
}

// Returns whether the list has more regions than `scalars`.
fn has_more(regions: &[u8], scalars: usize) -> bool {
    match u16::try_from(scalars) {
        Ok(region) => find_region(regions, region).is_some(),
        Err(_) => false,
    }
}

// Writes the scalar of each region of a list, in order, and returns how many regions it has, those
// that it ends before left out. If there are more of them than `scalars`, returns `None`, and
// writes nothing. The contract of `ItemVariationStore::instance` cannot name what its buffer
// becomes, because the instance keeps it.
pub(crate) fn region_scalars(
    regions: &[u8],
    coordinates: &[F2Dot14],
    scalars: &mut [Fixed],
) -> Option<usize> {
    if has_more(regions, scalars.len()) {
        return None;
    }
    for region in 0..0x7FFF {
        let Some(scalar) = region_scalar(regions, region, coordinates) else {
            return Some(usize::from(region));
        };
        scalars[usize::from(region)] = scalar;
    }
    Some(0x7FFF)
}
