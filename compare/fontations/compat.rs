//! What font-types has beside the package: floats, casts from bytes, and a macro.
#![allow(unsafe_code)]

use crate::*;
use bytemuck::{AnyBitPattern, NoUninit, Zeroable};

macro_rules! floats {
    ($($from:ident $to:ident $float:ident: $($name:ident)*;)*) => {$($(
        impl $name {
            pub fn $from(x: $float) -> Self {
                let one = Self::ONE.to_bits() as $float;
                Self::from_bits((x * one + $float::copysign(0.5, x)) as _)
            }

            pub fn $to(self) -> $float {
                (self.to_bits() as f64 / Self::ONE.to_bits() as f64) as $float
            }
        }
    )*)*};
}
floats! {
    from_f32 to_f32 f32: F2Dot14 F4Dot12 F6Dot10 Fixed F26Dot6 F48Dot16;
    from_f64 to_f64 f64: F2Dot14 F4Dot12 F6Dot10 Fixed F26Dot6 F48Dot16;
}

impl MatrixElement for f32 { const ZERO: f32 = 0.0; const ONE: f32 = 1.0; }

#[macro_export]
macro_rules! newtype_scalar {
    ($name:ident, $raw:ty) => {
        impl $crate::Scalar for $name {
            type Raw = $raw;
            fn to_raw(self) -> $raw { self.0.to_raw() }
            fn from_raw(raw: $raw) -> Self { Self($crate::Scalar::from_raw(raw)) }
        }
    };
}

macro_rules! casts {
    ($([$($kind:tt)*] [$($generics:tt)*];)*) => {$(
        unsafe impl<$($generics)*> Zeroable for $($kind)* {}
        unsafe impl<$($generics)*> AnyBitPattern for $($kind)* {}
        unsafe impl<$($generics)*> NoUninit for $($kind)* {}
    )*};
}
casts! {
    [FWord] []; [UfWord] []; [GlyphId16] []; [GlyphId] []; [NameId] []; [Offset16] [];
    [Offset32] []; [Tag] []; [Version16Dot16] []; [MajorMinor] []; [LongDateTime] [];
    [FixedI16<F>] [const F: u32]; [FixedI32<F>] [const F: u32]; [FixedI64<F>] [const F: u32];
    [Point<T>] [T: Zeroable + Copy + 'static]; [Matrix<T>] [T: Zeroable + Copy + 'static];
    [Nullable<T>] [T: Zeroable + Copy + 'static]; [BigEndian<T>] [T: Scalar + Copy + 'static];
}
