// @generated from crates/*/specs by tools/erase

#![allow(non_snake_case)]

/// Definitions of the crate `font_decimal`.
pub mod font_decimal {
    /// Decimals: an optional `-`, one or more digits, and optionally a point followed by one or more digits. No plus sign,
    /// exponent or space. OpenType has no such form.
    ///
    /// In the order of `crates/font_decimal/specs/Grammar.antt`: [`fraction_text`](mod@Grammar_antt::fraction_text), [`HasParts`](mod@Grammar_antt::HasParts), [`Decimal`](mod@Grammar_antt::Decimal), [`IsNoDecimal`](mod@Grammar_antt::IsNoDecimal).
    pub mod Grammar_antt {
        use crate::definitions::font_decimal::Near_antt::signed;
        /// the fraction as written: nothing if it has no digits, otherwise a point and its digits
        ///
        /// ```text
        /// abbrev fraction_text : List ℕ → List ℕ
        /// fraction_text [] = []
        /// fraction_text (digit ∷ digits) = 46 ∷ (digit ∷ digits)
        /// ```
        pub mod fraction_text {}

        /// the text consists of these parts: a sign, the digits before the point, and those after it
        ///
        /// ```text
        /// record HasParts (text : List ℕ) (negative : Bool) (whole fraction : List ℕ) : Type 0 where
        ///   written : text ≡ sign_text negative ++ (whole ++ fraction_text fraction)
        ///   whole_digits : IsNumeral 10 whole
        ///   fraction_digits : AllDigits 10 fraction
        /// ```
        /// [`fraction_text`]
        pub mod HasParts {}

        /// the text is a decimal with the value n / 10^k: n is the signed integer of all its digits, and k the number of digits
        /// after the point
        ///
        /// ```text
        /// record Decimal (text : List ℕ) (n : ℤ) (k : ℕ) : Type 0 where
        ///   negative : Bool
        ///   whole : List ℕ
        ///   fraction : List ℕ
        ///   parts : HasParts text negative whole fraction
        ///   numeral : n ≡ signed negative (digits_value 10 (whole ++ fraction))
        ///   places : k ≡ length fraction
        /// ```
        /// [`HasParts`], [`signed`]
        pub mod Decimal {}

        /// the text is not a decimal
        ///
        /// ```text
        /// abbrev IsNoDecimal : List ℕ → Type 0
        /// IsNoDecimal text = (n : ℤ) (k : ℕ) → ¬ (Decimal text n k)
        /// ```
        /// [`Decimal`]
        pub mod IsNoDecimal {}
    }

    /// Rounding a fraction to an integer. A fixed-point number with f fraction bits is its raw value over 2^f (OpenType,
    /// data types: Fixed, F2DOT14), so parsing, printing and arithmetic all round an exact fraction n / d with 0 < d.
    ///
    /// In the order of `crates/font_decimal/specs/Near.antt`: [`signed`](mod@Near_antt::signed), [`Near`](mod@Near_antt::Near), [`near_magnitude`](mod@Near_antt::near_magnitude), [`Up`](mod@Near_antt::Up).
    pub mod Near_antt {
        /// the integer with this magnitude, negated if `negative`
        ///
        /// ```text
        /// abbrev signed : Bool → ℕ → ℤ
        /// signed false n = pos n
        /// signed true n = neg_ℤ (pos n)
        /// ```
        pub mod signed {}

        /// q is n / d rounded half away from zero: the nearest integer and, of two equally near, the one farther from zero
        ///
        /// ```text
        /// record Near (n : ℤ) (d : ℕ) (q : ℤ) : Type 0 where
        ///   close : 2 * unsigned_abs (q *ℤ pos d -ℤ n) ≤ d
        ///   away : 2 * unsigned_abs (q *ℤ pos d -ℤ n) ≡ d → unsigned_abs n < unsigned_abs q * d
        ///
        /// -- the unique q with `Near n d q`: the magnitude is rounded, and the sign kept
        /// unfoldable near : ℤ → ℕ → ℤ
        /// near (pos n) d = pos (near_magnitude n d)
        /// near (negsuc n) d = neg_ℤ (pos (near_magnitude (suc n) d))
        /// ```
        /// [`near_magnitude`]
        pub mod Near {}

        /// n / d rounded half up: the floor of n / d + 1/2
        ///
        /// ```text
        /// abbrev near_magnitude : ℕ → ℕ → ℕ
        /// near_magnitude n d = (2 * n + d) / (2 * d)
        /// ```
        pub mod near_magnitude {}

        /// q is n / d rounded half up: the nearest integer and, of two equally near, the greater
        ///
        /// ```text
        /// record Up (n : ℤ) (d : ℕ) (q : ℤ) : Type 0 where
        ///   low : (pos 2 *ℤ (q *ℤ pos d)) ≤ℤ (pos 2 *ℤ n +ℤ pos d)
        ///   high : (pos 2 *ℤ n +ℤ pos d) <ℤ (pos 2 *ℤ ((q +ℤ pos 1) *ℤ pos d))
        ///
        /// -- the unique q with `Up n d q`: a negative tie is rounded toward zero
        /// unfoldable up : ℤ → ℕ → ℤ
        /// up (pos n) d = pos (near_magnitude n d)
        /// up (negsuc n) d = neg_ℤ (pos ((2 * n + 1 + d) / (2 * d)))
        /// ```
        /// [`near_magnitude`]
        pub mod Up {}
    }

    /// Parsing a decimal as a multiple of 1 / 2^f.
    ///
    /// In the order of `crates/font_decimal/specs/Reading.antt`: [`Rounds`](mod@Reading_antt::Rounds), [`Reads`](mod@Reading_antt::Reads), [`IsOutOfRange`](mod@Reading_antt::IsOutOfRange), [`Parses`](mod@Reading_antt::Parses).
    pub mod Reading_antt {
        use crate::definitions::font_decimal::{
            Grammar_antt::{Decimal, IsNoDecimal},
            Near_antt::Near,
        };
        /// the text is a decimal that rounds to b / 2^f, half away from zero
        ///
        /// ```text
        /// record Rounds (text : List ℕ) (f : ℕ) (b : ℤ) : Type 0 where
        ///   numeral : ℤ
        ///   places : ℕ
        ///   decimal : Decimal text numeral places
        ///   nearest : Near (numeral *ℤ pos (2 ^ f)) (10 ^ places) b
        /// ```
        /// [`Decimal`], [`Near`]
        pub mod Rounds {}

        /// the text rounds to b, which is in range
        ///
        /// ```text
        /// record Reads (text : List ℕ) (f : ℕ) (min max b : ℤ) : Type 0 where
        ///   rounds : Rounds text f b
        ///   low : min ≤ℤ b
        ///   high : b ≤ℤ max
        /// ```
        /// [`Rounds`]
        pub mod Reads {}

        /// the text rounds to a value that is out of range: the range is checked after rounding
        ///
        /// ```text
        /// record IsOutOfRange (text : List ℕ) (f : ℕ) (min max : ℤ) : Type 0 where
        ///   nearest : ℤ
        ///   rounds : Rounds text f nearest
        ///   outside : (nearest <ℤ min) ⊎ (max <ℤ nearest)
        /// ```
        /// [`Rounds`]
        pub mod IsOutOfRange {}

        /// the result of parsing: the raw value, or the error
        ///
        /// ```text
        /// abbrev Parses : List ℕ → ℕ → ℤ → ℤ → Result ℤ DecimalFault → Type 0
        /// Parses text f min max (Ok b) = Reads text f min max b
        /// Parses text f min max (Err Syntax) = IsNoDecimal text
        /// Parses text f min max (Err OutOfRange) = IsOutOfRange text f min max
        /// ```
        /// [`Reads`], [`IsNoDecimal`], [`IsOutOfRange`]
        pub mod Parses {}
    }

    /// The shortest decimal of b / 2^f: of all that parse back to b, the nearest with the fewest fractional digits.
    ///
    /// In the order of `crates/font_decimal/specs/Shortest.antt`: [`nearest_numeral`](mod@Shortest_antt::nearest_numeral), [`reads_back`](mod@Shortest_antt::reads_back), [`places_from`](mod@Shortest_antt::places_from), [`fewest_places`](mod@Shortest_antt::fewest_places), [`last_digits`](mod@Shortest_antt::last_digits), [`decimal_text`](mod@Shortest_antt::decimal_text), [`shortest_text`](mod@Shortest_antt::shortest_text).
    pub mod Shortest_antt {
        use crate::definitions::font_decimal::{
            Grammar_antt::fraction_text, Near_antt::near_magnitude,
        };
        /// the nearest decimal of m / 2^f with p places, times 10^p
        ///
        /// ```text
        /// abbrev nearest_numeral : ℕ → ℕ → ℕ → ℕ
        /// nearest_numeral m f p = near_magnitude (m * 10 ^ p) (2 ^ f)
        /// ```
        /// [`near_magnitude`]
        pub mod nearest_numeral {}

        /// that decimal is less than half a unit of the raw value from m / 2^f
        ///
        /// ```text
        /// unfoldable reads_back : ℕ → ℕ → ℕ → Bool
        /// reads_back m f p = nat_lt (2 * abs_diff (nearest_numeral m f p * 2 ^ f) (m * 10 ^ p)) (10 ^ p)
        /// ```
        /// [`nearest_numeral`]
        pub mod reads_back {}

        /// the first number of places from p on, within a limit, whose nearest decimal parses back
        ///
        /// ```text
        /// abbrev places_from : ℕ → ℕ → ℕ → ℕ → ℕ
        /// places_from m f zero p = p
        /// places_from m f (suc left) p = if reads_back m f p then p else places_from m f left (p + 1)
        /// ```
        /// [`reads_back`]
        pub mod places_from {}

        /// the fewest places with which a decimal of m / 2^f parses back: with f places it is exact
        ///
        /// ```text
        /// unfoldable fewest_places : ℕ → ℕ → ℕ
        /// fewest_places m f = places_from m f f 0
        /// ```
        /// [`places_from`]
        pub mod fewest_places {}

        /// the last p digits of n
        ///
        /// ```text
        /// abbrev last_digits : ℕ → ℕ → List ℕ
        /// last_digits zero n = []
        /// last_digits (suc p) n = (48 + n / 10 ^ p % 10) ∷ last_digits p n
        /// ```
        pub mod last_digits {}

        /// n / 10^p with p digits after the point
        ///
        /// ```text
        /// abbrev decimal_text : ℕ → ℕ → List ℕ
        /// decimal_text n p = decimal (n / 10 ^ p) ++ fraction_text (last_digits p n)
        /// ```
        /// [`fraction_text`], [`last_digits`]
        pub mod decimal_text {}

        /// the shortest decimal of b / 2^f
        ///
        /// ```text
        /// unfoldable shortest_text : ℤ → ℕ → List ℕ
        /// shortest_text b f =
        ///     let places = fewest_places (unsigned_abs b) f in
        ///     sign_text (is_negative b) ++ decimal_text (nearest_numeral (unsigned_abs b) f places) places
        /// ```
        /// [`fewest_places`], [`decimal_text`], [`nearest_numeral`]
        pub mod shortest_text {}
    }
}

/// Definitions of the crate `font_base`.
pub mod font_base {
    /// Big-endian bytes: every number in a font file is stored with its most significant byte first.
    /// (OpenType, data types: "All OpenType fonts use Motorola-style byte ordering (Big Endian)")
    ///
    /// In the order of `crates/font_base/specs/Bytes.antt`: [`numeral`](mod@Bytes_antt::numeral), [`signed_numeral`](mod@Bytes_antt::signed_numeral).
    pub mod Bytes_antt {
        use crate::definitions::font_base::Wrap_antt::wrap;
        /// the unsigned integer with these big-endian bytes
        ///
        /// ```text
        /// abbrev numeral : List ℕ → ℕ
        /// numeral bytes = fold (λ n byte. n * 256 + byte) 0 bytes
        /// ```
        pub mod numeral {}

        /// the signed integer with these n bytes, in two's complement
        ///
        /// ```text
        /// unfoldable signed_numeral : ℕ → List ℕ → ℤ
        /// signed_numeral n bytes = wrap (8 * n) (pos (numeral bytes))
        /// ```
        /// [`wrap`], [`numeral`]
        pub mod signed_numeral {}
    }

    /// Wrapping: the low bits of an integer, as a signed integer in two's complement.
    ///
    /// In the order of `crates/font_base/specs/Wrap.antt`: [`half_range`](mod@Wrap_antt::half_range), [`FitsBits`](mod@Wrap_antt::FitsBits), [`wrap`](mod@Wrap_antt::wrap).
    pub mod Wrap_antt {
        /// half the number of values of `w` bits
        ///
        /// ```text
        /// abbrev half_range : ℕ → ℕ
        /// half_range w = 2 ^ (w - 1)
        /// ```
        pub mod half_range {}

        /// z is from -2^(w-1) to 2^(w-1) - 1, the range of a signed w-bit integer
        /// (OpenType, data types: int8, int16, int32 are signed integers in two's complement)
        ///
        /// ```text
        /// record FitsBits (w : ℕ) (z : ℤ) : Type 0 where
        ///   low : neg_ℤ (pos (half_range w)) ≤ℤ z
        ///   high : z <ℤ pos (half_range w)
        /// ```
        /// [`half_range`]
        pub mod FitsBits {}

        /// the unique r with `IsWrapped w z r`
        ///
        /// ```text
        /// unfoldable wrap : ℕ → ℤ → ℤ
        /// wrap w z = int_rem_euclid (z +ℤ pos (half_range w)) (pos (2 ^ w)) -ℤ pos (half_range w)
        /// ```
        /// [`half_range`]
        pub mod wrap {}
    }
}

/// Definitions of the crate `font_fixed`.
pub mod font_fixed {
    /// 2.14 fixed-point numbers (OpenType, data types: F2DOT14, "16-bit signed fixed number with the
    /// low 14 bits of fraction (2.14)").
    ///
    /// In the order of `crates/font_fixed/specs/F2Dot14.antt`: [`f2dot14_bits`](mod@F2Dot14_antt::f2dot14_bits), [`f2dot14_of`](mod@F2Dot14_antt::f2dot14_of).
    pub mod F2Dot14_antt {
        /// the raw value of an `F2Dot14`, its value times 2^14
        ///
        /// ```text
        /// abbrev f2dot14_bits : F2Dot14 → ℤ
        /// f2dot14_bits x = x.0
        /// ```
        pub mod f2dot14_bits {}

        /// the `F2Dot14` with this raw value
        ///
        /// ```text
        /// abbrev f2dot14_of : ℤ → F2Dot14
        /// f2dot14_of bits = record { 0 = bits }
        /// ```
        pub mod f2dot14_of {}
    }

    /// 48.16 fixed-point numbers: wide enough for sums of deltas, and not stored in any table.
    ///
    /// In the order of `crates/font_fixed/specs/F48Dot16.antt`: [`f48dot16_bits`](mod@F48Dot16_antt::f48dot16_bits).
    pub mod F48Dot16_antt {
        /// the raw value of an `F48Dot16`, its value times 2^16
        ///
        /// ```text
        /// abbrev f48dot16_bits : F48Dot16 → ℤ
        /// f48dot16_bits x = x.0
        /// ```
        pub mod f48dot16_bits {}
    }

    /// 16.16 fixed-point numbers (OpenType, data types: Fixed, "32-bit signed fixed-point number (16.16)").
    ///
    /// In the order of `crates/font_fixed/specs/Fixed.antt`: [`fixed_bits`](mod@Fixed_antt::fixed_bits), [`fixed_of`](mod@Fixed_antt::fixed_of), [`ONE`](mod@Fixed_antt::ONE), [`NEG_ONE`](mod@Fixed_antt::NEG_ONE).
    pub mod Fixed_antt {
        /// the raw value of a `Fixed`, its value times 2^16
        ///
        /// ```text
        /// abbrev fixed_bits : Fixed → ℤ
        /// fixed_bits x = x.0
        /// ```
        pub mod fixed_bits {}

        /// the `Fixed` with this raw value
        ///
        /// ```text
        /// abbrev fixed_of : ℤ → Fixed
        /// fixed_of bits = record { 0 = bits }
        /// ```
        pub mod fixed_of {}

        /// constants that clauses name after `ghost use` of this module: `Fixed.ONE`
        ///
        /// ```text
        /// abbrev ONE : Fixed
        /// ONE = fixed_of (pos (2 ^ 16))
        /// ```
        /// [`fixed_of`]
        pub mod ONE {}

        /// constants that clauses name after `ghost use` of this module: `Fixed.ONE`
        ///
        /// ```text
        /// abbrev NEG_ONE : Fixed
        /// NEG_ONE = fixed_of (neg_ℤ (pos (2 ^ 16)))
        /// ```
        /// [`fixed_of`]
        pub mod NEG_ONE {}
    }

    /// The operations of fixed-point numbers, over their raw values. A w-bit number with f fraction bits is its raw value
    /// over 2^f (OpenType, data types: Fixed is 16.16, F2DOT14 is 2.14).
    ///
    /// In the order of `crates/font_fixed/specs/Operations.antt`: [`wrapped_near`](mod@Operations_antt::wrapped_near), [`IsWrappedNear`](mod@Operations_antt::IsWrappedNear), [`narrowed`](mod@Operations_antt::narrowed), [`IsNarrowed`](mod@Operations_antt::IsNarrowed), [`least`](mod@Operations_antt::least), [`greatest`](mod@Operations_antt::greatest), [`ReadsBits`](mod@Operations_antt::ReadsBits), [`IsTooFar`](mod@Operations_antt::IsTooFar), [`ParsesBits`](mod@Operations_antt::ParsesBits), [`differ_in_sign`](mod@Operations_antt::differ_in_sign), [`IsMulDiv`](mod@Operations_antt::IsMulDiv), [`IsQuotient`](mod@Operations_antt::IsQuotient), [`rounded_mul_div`](mod@Operations_antt::rounded_mul_div).
    pub mod Operations_antt {
        use crate::definitions::font_base::Wrap_antt::{half_range, wrap};
        use crate::definitions::font_decimal::{
            Near_antt::{Near, Near as near, Up, Up as up, signed},
            Reading_antt::{IsOutOfRange, Parses, Reads},
        };
        /// n / d rounded half away from zero and wrapped to w bits
        ///
        /// ```text
        /// abbrev wrapped_near : ℕ → ℤ → ℕ → ℤ
        /// wrapped_near w n d = wrap w (near n d)
        /// ```
        /// [`wrap`], [`near`]
        pub mod wrapped_near {}

        /// r is n / d rounded half away from zero and wrapped to w bits
        ///
        /// ```text
        /// record IsWrappedNear (w : ℕ) (n : ℤ) (d : ℕ) (r : ℤ) : Type 0 where
        ///   rounded : ℤ
        ///   nearest : Near n d rounded
        ///   wrapped : r ≡ wrap w rounded
        ///   is : r ≡ wrapped_near w n d
        /// ```
        /// [`Near`], [`wrap`], [`wrapped_near`]
        pub mod IsWrappedNear {}

        /// b / d rounded half up and wrapped to w bits
        ///
        /// ```text
        /// abbrev narrowed : ℕ → ℤ → ℕ → ℤ
        /// narrowed w b d = wrap w (up b d)
        /// ```
        /// [`wrap`], [`up`]
        pub mod narrowed {}

        /// r is b / d rounded half up and wrapped to w bits
        ///
        /// ```text
        /// record IsNarrowed (w : ℕ) (b : ℤ) (d : ℕ) (r : ℤ) : Type 0 where
        ///   rounded : ℤ
        ///   nearest : Up b d rounded
        ///   wrapped : r ≡ wrap w rounded
        ///   is : r ≡ narrowed w b d
        /// ```
        /// [`Up`], [`wrap`], [`narrowed`]
        pub mod IsNarrowed {}

        /// the smallest and largest w-bit integers
        ///
        /// ```text
        /// abbrev least : ℕ → ℤ
        /// least w = neg_ℤ (pos (half_range w))
        /// ```
        /// [`half_range`]
        pub mod least {}

        /// the smallest and largest w-bit integers
        ///
        /// ```text
        /// abbrev greatest : ℕ → ℤ
        /// greatest w = pos (half_range w - 1)
        /// ```
        /// [`half_range`]
        pub mod greatest {}

        /// the text parses as the w-bit raw value b with f fraction bits
        ///
        /// ```text
        /// abbrev ReadsBits : ℕ → ℕ → List ℕ → ℤ → Type 0
        /// ReadsBits w f text b = Reads text f (least w) (greatest w) b
        /// ```
        /// [`Reads`], [`least`], [`greatest`]
        pub mod ReadsBits {}

        /// the text is a decimal whose rounded raw value does not fit in w bits
        ///
        /// ```text
        /// abbrev IsTooFar : ℕ → ℕ → List ℕ → Type 0
        /// IsTooFar w f text = IsOutOfRange text f (least w) (greatest w)
        /// ```
        /// [`IsOutOfRange`], [`least`], [`greatest`]
        pub mod IsTooFar {}

        /// the result of parsing as a w-bit raw value with f fraction bits
        ///
        /// ```text
        /// abbrev ParsesBits : ℕ → ℕ → List ℕ → Result ℤ DecimalFault → Type 0
        /// ParsesBits w f text result = Parses text f (least w) (greatest w) result
        /// ```
        /// [`Parses`], [`least`], [`greatest`]
        pub mod ParsesBits {}

        /// exactly one of two integers is negative
        ///
        /// ```text
        /// abbrev differ_in_sign : ℤ → ℤ → Bool
        /// differ_in_sign x y = if is_negative x then not (is_negative y) else is_negative y
        /// ```
        pub mod differ_in_sign {}

        /// r is x * a / c, rounded half away from zero and wrapped; if c is 0, the largest w-bit integer, negated if exactly one
        /// of x and a is negative
        ///
        /// ```text
        /// abbrev IsMulDiv : ℕ → ℤ → ℤ → ℤ → ℤ → Type 0
        /// IsMulDiv w x a (pos zero) r = r ≡ signed (differ_in_sign x a) (half_range w - 1)
        /// IsMulDiv w x a (pos (suc c)) r = IsWrappedNear w (x *ℤ a) (suc c) r
        /// IsMulDiv w x a (negsuc c) r = IsWrappedNear w (neg_ℤ (x *ℤ a)) (suc c) r
        /// ```
        /// [`signed`], [`differ_in_sign`], [`half_range`], [`IsWrappedNear`]
        pub mod IsMulDiv {}

        /// r is the quotient of the raw values x and y: x * 2^f / y, rounded half away from zero and wrapped; if y is 0, as in
        /// `IsMulDiv`
        ///
        /// ```text
        /// abbrev IsQuotient : ℕ → ℕ → ℤ → ℤ → ℤ → Type 0
        /// IsQuotient w f x y r = IsMulDiv w x (pos (2 ^ f)) y r
        /// ```
        /// [`IsMulDiv`]
        pub mod IsQuotient {}

        /// x * a / c of raw values, rounded once, half away from zero, for c other than 0
        ///
        /// ```text
        /// abbrev rounded_mul_div : ℤ → ℤ → ℤ → ℤ
        /// rounded_mul_div x a (pos c) = near (x *ℤ a) c
        /// rounded_mul_div x a (negsuc c) = near (neg_ℤ (x *ℤ a)) (suc c)
        /// ```
        /// [`near`]
        pub mod rounded_mul_div {}
    }

    /// Parsing a decimal as a value of a fixed-point type.
    ///
    /// In the order of `crates/font_fixed/specs/Reading.antt`: [`ParsesFixedPoint`](mod@Reading_antt::ParsesFixedPoint).
    pub mod Reading_antt {
        use crate::definitions::font_decimal::{
            Grammar_antt::IsNoDecimal, Shortest_antt::shortest_text,
        };
        use crate::definitions::font_fixed::Operations_antt::{IsTooFar, ParsesBits, ReadsBits};
        /// The result of parsing: the nearest value of the type with width w and f fraction bits; `Syntax` if the text is not a
        /// decimal; `OutOfRange` if its nearest value does not fit in the width. The printed text of a value parses as that
        /// value.
        ///
        /// ```text
        /// record ParsesFixedPoint {T : Type 0} (w : Width) (f : ℕ) (bits_of : T → ℤ) (text : List ℕ)
        ///     (result : Result T DecimalFault) : Type 0 where
        ///   ok : (x : T) → (result ≡ Ok x) ↔ ReadsBits (bits w) f text (bits_of x)
        ///   -- for proofs: forms of `ok`, and the printed text of a value
        ///   reads : IfOk result (λ x. ReadsBits (bits w) f text (bits_of x))
        ///   gives : ParsesBits (bits w) f text (result_map_both bits_of (λ fault. fault) result)
        ///   printed : (x : T) → FitsSigned w (bits_of x) → text ≡ shortest_text (bits_of x) f → result ≡ Ok x
        ///   -- the two errors
        ///   out_of_range : (result ≡ Err OutOfRange) ↔ IsTooFar (bits w) f text
        ///   syntax : (result ≡ Err Syntax) ↔ IsNoDecimal text
        /// ```
        /// [`ReadsBits`], [`ParsesBits`], [`shortest_text`], [`IsTooFar`], [`IsNoDecimal`]
        pub mod ParsesFixedPoint {}
    }
}

/// Definitions of the crate `font_tags`.
pub mod font_tags {
    /// Four-byte tags (OpenType, data types: Tag, "Array of four uint8s (length = 32 bits) used to identify a table,
    /// design-variation axis, script, language system, feature, or baseline").
    ///
    /// In the order of `crates/font_tags/specs/Tag.antt`: [`tag_bytes`](mod@Tag_antt::tag_bytes), [`IsVisible`](mod@Tag_antt::IsVisible), [`IsGood`](mod@Tag_antt::IsGood), [`IsFault`](mod@Tag_antt::IsFault), [`IsTagLength`](mod@Tag_antt::IsTagLength), [`IsAcceptable`](mod@Tag_antt::IsAcceptable), [`filled`](mod@Tag_antt::filled), [`IsChecked`](mod@Tag_antt::IsChecked).
    pub mod Tag_antt {
        /// the four bytes of a tag
        ///
        /// ```text
        /// abbrev tag_bytes : Tag → List ℕ
        /// tag_bytes tag = tag.0
        /// ```
        pub mod tag_bytes {}

        /// a printable byte other than the space
        /// (OpenType: the bytes of a tag are printable ASCII characters, from 0x20, the space, to 0x7E)
        ///
        /// ```text
        /// abbrev IsVisible : ℕ → Type 0
        /// IsVisible byte = (0x21 ≤ byte) × (byte ≤ 0x7E)
        /// ```
        pub mod IsVisible {}

        /// a valid list of bytes, of any length: one or more visible bytes, followed by any number of spaces
        /// (OpenType: a tag has one to four printable characters, padded with trailing spaces)
        ///
        /// ```text
        /// record IsGood (bytes : List ℕ) : Type 0 where
        ///   run : List ℕ
        ///   spaces : ℕ
        ///   nonempty : 0 < length run
        ///   visible : All IsVisible run
        ///   whole : bytes ≡ run ++ replicate spaces 0x20
        /// ```
        /// [`IsVisible`]
        pub mod IsGood {}

        /// the index of the first invalid byte: the least index such that the bytes up to and including it are not valid
        ///
        /// ```text
        /// record IsFault (bytes : List ℕ) (index : ℕ) : Type 0 where
        ///   within : index < length bytes
        ///   fails : ¬ IsGood (take (index + 1) bytes)
        ///   least : (i : ℕ) → i < index → IsGood (take (i + 1) bytes)
        /// ```
        /// [`IsGood`]
        pub mod IsFault {}

        /// a tag has one to four bytes
        ///
        /// ```text
        /// abbrev IsTagLength : ℕ → Type 0
        /// IsTagLength n = (0 < n) × (n ≤ 4)
        /// ```
        pub mod IsTagLength {}

        /// bytes from which a tag can be created
        ///
        /// ```text
        /// abbrev IsAcceptable : List ℕ → Type 0
        /// IsAcceptable bytes = IsTagLength (length bytes) × IsGood bytes
        /// ```
        /// [`IsTagLength`], [`IsGood`]
        pub mod IsAcceptable {}

        /// bytes padded to four with spaces
        ///
        /// ```text
        /// abbrev filled : List ℕ → List ℕ
        /// filled bytes = bytes ++ replicate (4 - length bytes) 0x20
        /// ```
        pub mod filled {}

        /// the result of `new_checked`: the length is checked first, and then the first invalid byte is `InvalidByte`, whatever
        /// it is
        ///
        /// ```text
        /// abbrev IsChecked : List ℕ → Result Tag InvalidTag → Type 0
        /// IsChecked bytes (Ok tag) = IsAcceptable bytes × (tag_bytes tag ≡ filled bytes)
        /// IsChecked bytes (Err (InvalidLength n)) = (¬ IsTagLength (length bytes)) × (n ≡ length bytes)
        /// IsChecked bytes (Err (InvalidByte index byte)) = IsTagLength (length bytes) × IsFault bytes index
        ///     × (byte ≡ slice_index bytes index)
        /// IsChecked bytes (Err (ByteAfterSpace index)) = ⊥
        /// ```
        /// [`IsAcceptable`], [`tag_bytes`], [`filled`], [`IsTagLength`], [`IsFault`]
        pub mod IsChecked {}
    }
}

/// Definitions of the crate `font_ids`.
pub mod font_ids {
    /// Quantities in font design units.
    ///
    /// In the order of `crates/font_ids/specs/FWord.antt`: [`ufword_number`](mod@FWord_antt::ufword_number), [`nearest_unit`](mod@FWord_antt::nearest_unit).
    pub mod FWord_antt {
        use crate::definitions::font_decimal::Near_antt::Up as up;
        /// the same for `UfWord` (OpenType, data types: UFWORD, "uint16 that describes a quantity in font design units")
        ///
        /// ```text
        /// abbrev ufword_number : UfWord → ℕ
        /// ufword_number word = word.0
        /// ```
        pub mod ufword_number {}

        /// a 16.16 raw value rounded half up to an integer
        ///
        /// ```text
        /// abbrev nearest_unit : ℤ → ℤ
        /// nearest_unit steps = up steps 65536
        /// ```
        /// [`up`]
        pub mod nearest_unit {}
    }

    /// Glyph ids (OpenType: the glyphs of a font are numbered from 0; ids are stored as uint16 or uint24).
    ///
    /// In the order of `crates/font_ids/specs/GlyphId.antt`: [`glyph16_number`](mod@GlyphId_antt::glyph16_number).
    pub mod GlyphId_antt {
        /// the number of a 16-bit glyph id, and the glyph id with this number
        ///
        /// ```text
        /// abbrev glyph16_number : GlyphId16 → ℕ
        /// glyph16_number id = id.0
        /// ```
        pub mod glyph16_number {}
    }

    /// Name ids (OpenType, name IDs: 0 to 25 except 15 are predefined, those up to 255 are reserved, and 256 to 32767 are
    /// font-specific).
    ///
    /// In the order of `crates/font_ids/specs/NameId.antt`: [`name_number`](mod@NameId_antt::name_number).
    pub mod NameId_antt {
        /// the number of a name id, and the name id with this number
        ///
        /// ```text
        /// abbrev name_number : NameId → ℕ
        /// name_number id = id.0
        /// ```
        pub mod name_number {}
    }
}

/// Definitions of the crate `variations`.
pub mod variations {
    /// Tables HVAR and item variation stores, from offset to offset.
    ///
    /// In the order of `crates/variations/specs/Advances.antt`: [`offset_at`](mod@Advances_antt::offset_at), [`HasTarget`](mod@Advances_antt::HasTarget), [`target_of`](mod@Advances_antt::target_of), [`HasRegionList`](mod@Advances_antt::HasRegionList), [`hvar_version`](mod@Advances_antt::hvar_version), [`IsHvar`](mod@Advances_antt::IsHvar), [`HasGlyphSet`](mod@Advances_antt::HasGlyphSet), [`outer_index`](mod@Advances_antt::outer_index), [`inner_index`](mod@Advances_antt::inner_index), [`data_count`](mod@Advances_antt::data_count), [`data_place`](mod@Advances_antt::data_place), [`HasData`](mod@Advances_antt::HasData), [`regions_of`](mod@Advances_antt::regions_of), [`subtable_of`](mod@Advances_antt::subtable_of).
    pub mod Advances_antt {
        use crate::definitions::font_base::Bytes_antt::numeral;
        use crate::definitions::variations::Variations_antt::{HasEntry, entry_of, inner_bits};
        /// the offset of four bytes at a place (OpenType, Data Types: Offset32, zero for null)
        ///
        /// ```text
        /// abbrev offset_at : List ℕ → ℕ → ℕ
        /// offset_at table place = numeral (take 4 (drop place table))
        /// ```
        /// [`numeral`]
        pub mod offset_at {}

        /// it is in the table, is not null, and points into the table or to its end
        ///
        /// ```text
        /// record HasTarget (table : List ℕ) (place : ℕ) : Type 0 where
        ///   offset : place + 4 ≤ length table
        ///   some : offset_at table place ≢ 0
        ///   within : offset_at table place ≤ length table
        /// ```
        /// [`offset_at`]
        pub mod HasTarget {}

        /// the bytes from where it points
        ///
        /// ```text
        /// abbrev target_of : List ℕ → ℕ → List ℕ
        /// target_of table place = drop (offset_at table place) table
        /// ```
        /// [`offset_at`]
        pub mod target_of {}

        /// the store is of format 1, and has a list of regions
        ///
        /// ```text
        /// record HasRegionList (store : List ℕ) : Type 0 where
        ///   format : numeral (take 2 store) ≡ 1
        ///   list : HasTarget store 2
        /// ```
        /// [`numeral`], [`HasTarget`]
        pub mod HasRegionList {}

        /// HVAR (OpenType, HVAR: majorVersion at 0, itemVariationStoreOffset at 4, and a header of 20 bytes)
        ///
        /// ```text
        /// abbrev hvar_version : List ℕ → ℕ
        /// hvar_version hvar = numeral (take 2 hvar)
        /// ```
        /// [`numeral`]
        pub mod hvar_version {}

        /// a table of major version 1, with the whole header and a store
        ///
        /// ```text
        /// record IsHvar (hvar : List ℕ) : Type 0 where
        ///   version : hvar_version hvar ≡ 1
        ///   header : 20 ≤ length hvar
        ///   store : HasTarget hvar 4
        ///   list : HasRegionList (target_of hvar 4)
        /// ```
        /// [`hvar_version`], [`HasTarget`], [`HasRegionList`], [`target_of`]
        pub mod IsHvar {}

        /// the table has the offset of a map, which is null, or of a map with an entry for the glyph
        ///
        /// ```text
        /// record HasGlyphSet (hvar : List ℕ) (glyph : ℕ) : Type 0 where
        ///   offset : 12 ≤ length hvar
        ///   map : offset_at hvar 8 ≢ 0 → HasTarget hvar 8
        ///   entry : offset_at hvar 8 ≢ 0 → HasEntry (target_of hvar 8) glyph
        /// ```
        /// [`offset_at`], [`HasTarget`], [`HasEntry`], [`target_of`]
        pub mod HasGlyphSet {}

        /// the table has the offset of a map, which is null, or of a map with an entry for the glyph
        ///
        /// ```text
        /// abbrev outer_index : List ℕ → ℕ → ℕ
        /// outer_index hvar glyph = if nat_eq (offset_at hvar 8) 0 then 0
        ///     else entry_of (target_of hvar 8) glyph / 2 ^ inner_bits (target_of hvar 8)
        /// ```
        /// [`offset_at`], [`entry_of`], [`target_of`], [`inner_bits`]
        pub mod outer_index {}

        /// the table has the offset of a map, which is null, or of a map with an entry for the glyph
        ///
        /// ```text
        /// abbrev inner_index : List ℕ → ℕ → ℕ
        /// inner_index hvar glyph = if nat_eq (offset_at hvar 8) 0 then glyph
        ///     else entry_of (target_of hvar 8) glyph % 2 ^ inner_bits (target_of hvar 8)
        /// ```
        /// [`offset_at`], [`entry_of`], [`target_of`], [`inner_bits`]
        pub mod inner_index {}

        /// the data of a set (OpenType, "Item Variation Store": format, variationRegionListOffset at 2,
        /// itemVariationDataCount at 6, and the offsets of the data from 8 on)
        ///
        /// ```text
        /// abbrev data_count : List ℕ → ℕ
        /// data_count store = numeral (take 2 (drop 6 store))
        /// ```
        /// [`numeral`]
        pub mod data_count {}

        /// where the offset of a subtable is
        ///
        /// ```text
        /// abbrev data_place : ℕ → ℕ
        /// data_place outer = 8 + 4 * outer
        /// ```
        pub mod data_place {}

        /// the store has its list of regions and all offsets of its header, that of the subtable points into it, and the inner
        /// index fits in 16 bits
        ///
        /// ```text
        /// record HasData (store : List ℕ) (outer inner : ℕ) : Type 0 where
        ///   regions : HasRegionList store
        ///   header : data_place (data_count store) ≤ length store
        ///   is_data : outer < data_count store
        ///   subtable : HasTarget store (data_place outer)
        ///   narrow : inner < 65536
        /// ```
        /// [`HasRegionList`], [`data_place`], [`data_count`], [`HasTarget`]
        pub mod HasData {}

        /// the store has its list of regions and all offsets of its header, that of the subtable points into it, and the inner
        /// index fits in 16 bits
        ///
        /// ```text
        /// abbrev regions_of : List ℕ → List ℕ
        /// regions_of store = target_of store 2
        /// ```
        /// [`target_of`]
        pub mod regions_of {}

        /// the store has its list of regions and all offsets of its header, that of the subtable points into it, and the inner
        /// index fits in 16 bits
        ///
        /// ```text
        /// abbrev subtable_of : List ℕ → ℕ → List ℕ
        /// subtable_of store outer = target_of store (data_place outer)
        /// ```
        /// [`target_of`], [`data_place`]
        pub mod subtable_of {}
    }

    /// Coordinates of an instance: settings, and the tables `fvar` and `avar`.
    ///
    /// In the order of `crates/variations/specs/Evaluator.antt`: [`value_start`](mod@Evaluator_antt::value_start), [`axis_part`](mod@Evaluator_antt::axis_part), [`value_part`](mod@Evaluator_antt::value_part), [`IsSetting`](mod@Evaluator_antt::IsSetting), [`ParsesSetting`](mod@Evaluator_antt::ParsesSetting), [`fvar_version`](mod@Evaluator_antt::fvar_version), [`fvar_axis_count`](mod@Evaluator_antt::fvar_axis_count), [`fvar_axis_size`](mod@Evaluator_antt::fvar_axis_size), [`IsFvar`](mod@Evaluator_antt::IsFvar), [`axis_offset`](mod@Evaluator_antt::axis_offset), [`HasAxis`](mod@Evaluator_antt::HasAxis), [`axis_bytes`](mod@Evaluator_antt::axis_bytes), [`axis_tag_bytes`](mod@Evaluator_antt::axis_tag_bytes), [`axis_min`](mod@Evaluator_antt::axis_min), [`axis_default`](mod@Evaluator_antt::axis_default), [`axis_max`](mod@Evaluator_antt::axis_max), [`IsAxis`](mod@Evaluator_antt::IsAxis), [`HasRange`](mod@Evaluator_antt::HasRange), [`IsNormalized`](mod@Evaluator_antt::IsNormalized), [`lerp_part`](mod@Evaluator_antt::lerp_part), [`lerp_whole`](mod@Evaluator_antt::lerp_whole), [`lerp_rise`](mod@Evaluator_antt::lerp_rise), [`on_line`](mod@Evaluator_antt::on_line), [`FitsLerp`](mod@Evaluator_antt::FitsLerp), [`IsLerp`](mod@Evaluator_antt::IsLerp), [`mapping_count`](mod@Evaluator_antt::mapping_count), [`mapping_at`](mod@Evaluator_antt::mapping_at), [`AreBelow`](mod@Evaluator_antt::AreBelow), [`IsSegmentEnd`](mod@Evaluator_antt::IsSegmentEnd), [`IsMappedIn`](mod@Evaluator_antt::IsMappedIn), [`IsMapped`](mod@Evaluator_antt::IsMapped), [`avar_version`](mod@Evaluator_antt::avar_version), [`IsAvar`](mod@Evaluator_antt::IsAvar), [`avar_axis_count`](mod@Evaluator_antt::avar_axis_count), [`position_map_count`](mod@Evaluator_antt::position_map_count), [`map_offset`](mod@Evaluator_antt::map_offset), [`map_length`](mod@Evaluator_antt::map_length), [`HasSegmentMap`](mod@Evaluator_antt::HasSegmentMap), [`segment_map_bytes`](mod@Evaluator_antt::segment_map_bytes), [`IsStoredCoordinate`](mod@Evaluator_antt::IsStoredCoordinate), [`IsFinal`](mod@Evaluator_antt::IsFinal), [`IsWithinOne`](mod@Evaluator_antt::IsWithinOne), [`IsCoordinate`](mod@Evaluator_antt::IsCoordinate), [`AreOfOthers`](mod@Evaluator_antt::AreOfOthers), [`IsLastOf`](mod@Evaluator_antt::IsLastOf), [`IsSetTo`](mod@Evaluator_antt::IsSetTo), [`map_of`](mod@Evaluator_antt::map_of), [`HasMap`](mod@Evaluator_antt::HasMap), [`HasCoordinate`](mod@Evaluator_antt::HasCoordinate), [`IsCoordinateOf`](mod@Evaluator_antt::IsCoordinateOf), [`HaveCoordinates`](mod@Evaluator_antt::HaveCoordinates), [`AreCoordinates`](mod@Evaluator_antt::AreCoordinates), [`IsFirstWithout`](mod@Evaluator_antt::IsFirstWithout), [`IsAxisError`](mod@Evaluator_antt::IsAxisError), [`IsAxesError`](mod@Evaluator_antt::IsAxesError), [`HasTag`](mod@Evaluator_antt::HasTag), [`IsOfAxis`](mod@Evaluator_antt::IsOfAxis), [`AreOfAxes`](mod@Evaluator_antt::AreOfAxes), [`IsFirstUnknown`](mod@Evaluator_antt::IsFirstUnknown), [`IsSettingError`](mod@Evaluator_antt::IsSettingError), [`IsCoordinatesError`](mod@Evaluator_antt::IsCoordinatesError).
    pub mod Evaluator_antt {
        use crate::definitions::font_base::{
            Bytes_antt::{numeral, signed_numeral},
            Wrap_antt::{FitsBits, wrap},
        };
        use crate::definitions::font_fixed::{
            F2Dot14_antt::f2dot14_bits,
            Fixed_antt::{NEG_ONE, ONE, fixed_bits, fixed_of},
            Operations_antt::{IsMulDiv, IsNarrowed, IsQuotient, rounded_mul_div},
            Reading_antt::ParsesFixedPoint,
        };
        use crate::definitions::font_ids::NameId_antt::name_number;
        use crate::definitions::font_tags::Tag_antt::{IsAcceptable, IsChecked, tag_bytes};
        use crate::definitions::variations::Variations_antt::stored_bits;
        /// where the first `=` is, or the length of a text without one
        ///
        /// ```text
        /// abbrev value_start : List ℕ → ℕ
        /// value_start text = position_or_len (λ byte. byte == 0x3D) text
        /// ```
        pub mod value_start {}

        /// where the first `=` is, or the length of a text without one
        ///
        /// ```text
        /// abbrev axis_part : List ℕ → List ℕ
        /// axis_part text = before_first (λ byte. byte == 0x3D) text
        /// ```
        pub mod axis_part {}

        /// where the first `=` is, or the length of a text without one
        ///
        /// ```text
        /// abbrev value_part : List ℕ → List ℕ
        /// value_part text = after_first (λ byte. byte == 0x3D) text
        /// ```
        pub mod value_part {}

        /// the tag and the number that the parts are read as
        ///
        /// ```text
        /// record IsSetting (text : List ℕ) (setting : Setting) : Type 0 where
        ///   divided : value_start text < length text
        ///   axis : IsChecked (axis_part text) (Ok setting.axis)
        ///   value : ParsesFixedPoint w32 16 fixed_bits (value_part text) (Ok setting.value)
        /// ```
        /// [`value_start`], [`IsChecked`], [`axis_part`], [`ParsesFixedPoint`], [`fixed_bits`], [`value_part`]
        pub mod IsSetting {}

        /// the setting, or the error of the first part that cannot be read
        ///
        /// ```text
        /// abbrev ParsesSetting : List ℕ → Result Setting SettingError → Type 0
        /// ParsesSetting text (Ok setting) = IsSetting text setting
        /// ParsesSetting text (Err NoValue) = value_start text ≡ length text
        /// ParsesSetting text (Err (Axis fault)) = (value_start text < length text) × IsChecked (axis_part text) (Err fault)
        /// ParsesSetting text (Err (Value fault)) = (value_start text < length text) × IsAcceptable (axis_part text)
        ///     × ParsesFixedPoint w32 16 fixed_bits (value_part text) (Err fault)
        /// ```
        /// [`IsSetting`], [`value_start`], [`IsChecked`], [`axis_part`], [`IsAcceptable`], [`ParsesFixedPoint`], [`fixed_bits`], [`value_part`]
        pub mod ParsesSetting {}

        /// axes (OpenType, fvar: majorVersion at 0, axesArrayOffset at 4, axisCount at 8, axisSize at 10, a header of 16
        /// bytes, and "VariationAxisRecord", of 20)
        ///
        /// ```text
        /// abbrev fvar_version : List ℕ → ℕ
        /// fvar_version fvar = numeral (take 2 fvar)
        /// ```
        /// [`numeral`]
        pub mod fvar_version {}

        /// axes (OpenType, fvar: majorVersion at 0, axesArrayOffset at 4, axisCount at 8, axisSize at 10, a header of 16
        /// bytes, and "VariationAxisRecord", of 20)
        ///
        /// ```text
        /// abbrev fvar_axis_count : List ℕ → ℕ
        /// fvar_axis_count fvar = numeral (take 2 (drop 8 fvar))
        /// ```
        /// [`numeral`]
        pub mod fvar_axis_count {}

        /// axes (OpenType, fvar: majorVersion at 0, axesArrayOffset at 4, axisCount at 8, axisSize at 10, a header of 16
        /// bytes, and "VariationAxisRecord", of 20)
        ///
        /// ```text
        /// abbrev fvar_axis_size : List ℕ → ℕ
        /// fvar_axis_size fvar = numeral (take 2 (drop 10 fvar))
        /// ```
        /// [`numeral`]
        pub mod fvar_axis_size {}

        /// a table of major version 1, with the whole header, and records that are long enough
        ///
        /// ```text
        /// record IsFvar (fvar : List ℕ) : Type 0 where
        ///   version : fvar_version fvar ≡ 1
        ///   header : 16 ≤ length fvar
        ///   size : 20 ≤ fvar_axis_size fvar
        /// ```
        /// [`fvar_version`], [`fvar_axis_size`]
        pub mod IsFvar {}

        /// where the record of an axis is
        ///
        /// ```text
        /// abbrev axis_offset : List ℕ → ℕ → ℕ
        /// axis_offset fvar axis = numeral (take 2 (drop 4 fvar)) + fvar_axis_size fvar * axis
        /// ```
        /// [`numeral`], [`fvar_axis_size`]
        pub mod axis_offset {}

        /// the table has the axis, and does not end before its record does
        ///
        /// ```text
        /// record HasAxis (fvar : List ℕ) (axis : ℕ) : Type 0 where
        ///   within : axis < fvar_axis_count fvar
        ///   bytes : axis_offset fvar axis + 20 ≤ length fvar
        /// ```
        /// [`fvar_axis_count`], [`axis_offset`]
        pub mod HasAxis {}

        /// the bytes from its record on
        ///
        /// ```text
        /// abbrev axis_bytes : List ℕ → ℕ → List ℕ
        /// axis_bytes fvar axis = drop (axis_offset fvar axis) fvar
        /// ```
        /// [`axis_offset`]
        pub mod axis_bytes {}

        /// its tag, and its least, default and greatest values, raw values of 16.16
        ///
        /// ```text
        /// abbrev axis_tag_bytes : List ℕ → ℕ → List ℕ
        /// axis_tag_bytes fvar axis = take 4 (axis_bytes fvar axis)
        /// ```
        /// [`axis_bytes`]
        pub mod axis_tag_bytes {}

        /// its tag, and its least, default and greatest values, raw values of 16.16
        ///
        /// ```text
        /// abbrev axis_min : List ℕ → ℕ → ℤ
        /// axis_min fvar axis = signed_numeral 4 (take 4 (drop 4 (axis_bytes fvar axis)))
        /// ```
        /// [`signed_numeral`], [`axis_bytes`]
        pub mod axis_min {}

        /// its tag, and its least, default and greatest values, raw values of 16.16
        ///
        /// ```text
        /// abbrev axis_default : List ℕ → ℕ → ℤ
        /// axis_default fvar axis = signed_numeral 4 (take 4 (drop 8 (axis_bytes fvar axis)))
        /// ```
        /// [`signed_numeral`], [`axis_bytes`]
        pub mod axis_default {}

        /// its tag, and its least, default and greatest values, raw values of 16.16
        ///
        /// ```text
        /// abbrev axis_max : List ℕ → ℕ → ℤ
        /// axis_max fvar axis = signed_numeral 4 (take 4 (drop 12 (axis_bytes fvar axis)))
        /// ```
        /// [`signed_numeral`], [`axis_bytes`]
        pub mod axis_max {}

        /// the axis in this record (OpenType, "VariationAxisRecord")
        ///
        /// ```text
        /// record IsAxis (fvar : List ℕ) (index : ℕ) (axis : VariationAxisRecord) : Type 0 where
        ///   axis_tag : tag_bytes axis.axis_tag ≡ axis_tag_bytes fvar index
        ///   min_value : fixed_bits axis.min_value ≡ axis_min fvar index
        ///   default_value : fixed_bits axis.default_value ≡ axis_default fvar index
        ///   max_value : fixed_bits axis.max_value ≡ axis_max fvar index
        ///   flags : axis.flags ≡ numeral (take 2 (drop 16 (axis_bytes fvar index)))
        ///   axis_name_id : name_number axis.axis_name_id ≡ numeral (take 2 (drop 18 (axis_bytes fvar index)))
        /// ```
        /// [`tag_bytes`], [`axis_tag_bytes`], [`fixed_bits`], [`axis_min`], [`axis_default`], [`axis_max`], [`numeral`], [`axis_bytes`], [`name_number`]
        pub mod IsAxis {}

        /// an axis that values can be normalized by: the default is within the range, and 16.16 holds the length of the range
        /// (own: OpenType allows a longer range, but then a difference of two values may not be one of 16.16)
        ///
        /// ```text
        /// record HasRange (min default max : ℤ) : Type 0 where
        ///   low : min ≤ℤ default
        ///   high : default ≤ℤ max
        ///   width : FitsBits 32 (max -ℤ min)
        /// ```
        /// [`FitsBits`]
        pub mod HasRange {}

        /// the value clamped to the axis, and its distance from the default over that of the end on its side, rounded (OpenType,
        /// coordinate scales and normalization): 0 at the default, and on a side that has no length
        ///
        /// ```text
        /// record IsNormalized (min default max value coordinate : ℤ) : Type 0 where
        ///   at_default : value ≡ default → coordinate ≡ pos 0
        ///   above : default <ℤ value → value ≤ℤ max → IsQuotient 32 16 (value -ℤ default) (max -ℤ default) coordinate
        ///   below : value <ℤ default → min ≤ℤ value
        ///       → IsQuotient 32 16 (default -ℤ value) (default -ℤ min) (neg_ℤ coordinate)
        ///   no_rise : max ≡ default → default ≤ℤ value → coordinate ≡ pos 0
        ///   no_fall : min ≡ default → value ≤ℤ default → coordinate ≡ pos 0
        ///   at_max : default <ℤ max → max ≤ℤ value → coordinate ≡ fixed_bits ONE
        ///   at_min : min <ℤ default → value ≤ℤ min → coordinate ≡ fixed_bits NEG_ONE
        /// ```
        /// [`IsQuotient`], [`fixed_bits`], [`ONE`], [`NEG_ONE`]
        pub mod IsNormalized {}

        /// from the start to the coordinate, from the start to the end, and from the value at the start to that at the end
        ///
        /// ```text
        /// abbrev lerp_part : Fixed → AxisValueMap → ℤ
        /// lerp_part coordinate start = fixed_bits coordinate -ℤ fixed_bits start.from_coordinate
        /// ```
        /// [`fixed_bits`]
        pub mod lerp_part {}

        /// from the start to the coordinate, from the start to the end, and from the value at the start to that at the end
        ///
        /// ```text
        /// abbrev lerp_whole : AxisValueMap → AxisValueMap → ℤ
        /// lerp_whole start end = fixed_bits end.from_coordinate -ℤ fixed_bits start.from_coordinate
        /// ```
        /// [`fixed_bits`]
        pub mod lerp_whole {}

        /// from the start to the coordinate, from the start to the end, and from the value at the start to that at the end
        ///
        /// ```text
        /// abbrev lerp_rise : AxisValueMap → AxisValueMap → ℤ
        /// lerp_rise start end = fixed_bits end.to_coordinate -ℤ fixed_bits start.to_coordinate
        /// ```
        /// [`fixed_bits`]
        pub mod lerp_rise {}

        /// the value at the coordinate on the line through both mappings: the start's coordinate and, of the rise, the share
        /// that the part has of the whole, rounded once, half away from zero
        ///
        /// ```text
        /// abbrev on_line : Fixed → AxisValueMap → AxisValueMap → ℤ
        /// on_line coordinate start end = fixed_bits start.to_coordinate
        ///     +ℤ rounded_mul_div (lerp_rise start end) (lerp_part coordinate start) (lerp_whole start end)
        /// ```
        /// [`fixed_bits`], [`rounded_mul_div`], [`lerp_rise`], [`lerp_part`], [`lerp_whole`]
        pub mod on_line {}

        /// nothing overflows: the differences fit in 32 bits, and so does the value
        ///
        /// ```text
        /// record FitsLerp (coordinate : Fixed) (start end : AxisValueMap) : Type 0 where
        ///   part : FitsBits 32 (lerp_part coordinate start)
        ///   whole : FitsBits 32 (lerp_whole start end)
        ///   rise : FitsBits 32 (lerp_rise start end)
        ///   value : FitsBits 32 (on_line coordinate start end)
        /// ```
        /// [`FitsBits`], [`lerp_part`], [`lerp_whole`], [`lerp_rise`], [`on_line`]
        pub mod FitsLerp {}

        /// the value on the line, if nothing overflows; else each difference, the share and the sum wrap to 32 bits
        ///
        /// ```text
        /// record IsLerp (coordinate : Fixed) (start end : AxisValueMap) (result : Fixed) : Type 0 where
        ///   exact : FitsLerp coordinate start end → fixed_bits result ≡ on_line coordinate start end
        ///   share : ℤ
        ///   is_share : IsMulDiv 32 (wrap 32 (lerp_rise start end)) (wrap 32 (lerp_part coordinate start))
        ///       (wrap 32 (lerp_whole start end)) share
        ///   is_sum : fixed_bits result ≡ wrap 32 (fixed_bits start.to_coordinate +ℤ share)
        /// ```
        /// [`FitsLerp`], [`fixed_bits`], [`on_line`], [`IsMulDiv`], [`wrap`], [`lerp_rise`], [`lerp_part`], [`lerp_whole`]
        pub mod IsLerp {}

        /// how many mappings there are: of four bytes each
        ///
        /// ```text
        /// abbrev mapping_count : List ℕ → ℕ
        /// mapping_count map = length map / 4
        /// ```
        pub mod mapping_count {}

        /// the mapping at k, two coordinates of 2.14, in 16.16
        ///
        /// ```text
        /// abbrev mapping_at : List ℕ → ℕ → AxisValueMap
        /// mapping_at map k = record {
        ///   from_coordinate = fixed_of (stored_bits map (4 * k) *ℤ pos 4);
        ///   to_coordinate = fixed_of (stored_bits map (4 * k + 2) *ℤ pos 4);
        /// }
        /// ```
        /// [`fixed_of`], [`stored_bits`]
        pub mod mapping_at {}

        /// the first n mappings are below the bits
        ///
        /// ```text
        /// abbrev AreBelow : List ℕ → ℕ → ℤ → Type 0
        /// AreBelow map n bits = (k : ℕ) → k < n → fixed_bits (mapping_at map k).from_coordinate <ℤ bits
        /// ```
        /// [`fixed_bits`], [`mapping_at`]
        pub mod AreBelow {}

        /// the mapping that ends the segment of the bits: the first at or above them
        ///
        /// ```text
        /// record IsSegmentEnd (bits : ℤ) (map : List ℕ) (end : ℕ) : Type 0 where
        ///   within : end < mapping_count map
        ///   before : AreBelow map end bits
        ///   there : bits ≤ℤ fixed_bits (mapping_at map end).from_coordinate
        /// ```
        /// [`mapping_count`], [`AreBelow`], [`fixed_bits`], [`mapping_at`]
        pub mod IsSegmentEnd {}

        /// the coordinate by that mapping: at it, what it is mapped to; else linear from the mapping before, or itself if there
        /// is none
        ///
        /// ```text
        /// record IsMappedIn (coordinate : Fixed) (map : List ℕ) (end : ℕ) (result : Fixed) : Type 0 where
        ///   at : coordinate ≡ (mapping_at map end).from_coordinate → result ≡ (mapping_at map end).to_coordinate
        ///   between : coordinate ≢ (mapping_at map end).from_coordinate → 0 < end
        ///       → IsLerp coordinate (mapping_at map (end - 1)) (mapping_at map end) result
        ///   outside : coordinate ≢ (mapping_at map end).from_coordinate → end ≡ 0 → result ≡ coordinate
        /// ```
        /// [`mapping_at`], [`IsLerp`]
        pub mod IsMappedIn {}

        /// the coordinate by the segment that it is in, or itself above all mappings, as of an empty map
        ///
        /// ```text
        /// abbrev IsMapped : Fixed → List ℕ → Fixed → Type 0
        /// IsMapped coordinate map result =
        ///     (AreBelow map (mapping_count map) (fixed_bits coordinate) × (result ≡ coordinate))
        ///     ⊎ ((end : ℕ) × IsSegmentEnd (fixed_bits coordinate) map end × IsMappedIn coordinate map end result)
        /// ```
        /// [`AreBelow`], [`mapping_count`], [`fixed_bits`], [`IsSegmentEnd`], [`IsMappedIn`]
        pub mod IsMapped {}

        /// where the segment map of an axis is (OpenType, avar: majorVersion at 0, axisCount at 6, and from 8 on for each
        /// axis positionMapCount and as many mappings)
        ///
        /// ```text
        /// abbrev avar_version : List ℕ → ℕ
        /// avar_version avar = numeral (take 2 avar)
        /// ```
        /// [`numeral`]
        pub mod avar_version {}

        /// a table of major version 1, with the whole header
        ///
        /// ```text
        /// record IsAvar (avar : List ℕ) : Type 0 where
        ///   version : avar_version avar ≡ 1
        ///   header : 8 ≤ length avar
        /// ```
        /// [`avar_version`]
        pub mod IsAvar {}

        /// a table of major version 1, with the whole header
        ///
        /// ```text
        /// abbrev avar_axis_count : List ℕ → ℕ
        /// avar_axis_count avar = numeral (take 2 (drop 6 avar))
        /// ```
        /// [`numeral`]
        pub mod avar_axis_count {}

        /// how many mappings the map at an offset has
        ///
        /// ```text
        /// abbrev position_map_count : List ℕ → ℕ → ℕ
        /// position_map_count avar offset = numeral (take 2 (drop offset avar))
        /// ```
        /// [`numeral`]
        pub mod position_map_count {}

        /// where the map of an axis is: after those of the axes before it
        ///
        /// ```text
        /// unfoldable map_offset : List ℕ → ℕ → ℕ
        /// map_offset avar zero = 8
        /// map_offset avar (suc axis) = map_offset avar axis + 2 + 4 * position_map_count avar (map_offset avar axis)
        /// ```
        /// [`position_map_count`]
        pub mod map_offset {}

        /// where the map of an axis is: after those of the axes before it
        ///
        /// ```text
        /// abbrev map_length : List ℕ → ℕ → ℕ
        /// map_length avar axis = 4 * position_map_count avar (map_offset avar axis)
        /// ```
        /// [`position_map_count`], [`map_offset`]
        pub mod map_length {}

        /// the table has the axis, and does not end before the map of the axis does
        ///
        /// ```text
        /// record HasSegmentMap (avar : List ℕ) (axis : ℕ) : Type 0 where
        ///   within : axis < avar_axis_count avar
        ///   bytes : map_offset avar axis + 2 + map_length avar axis ≤ length avar
        /// ```
        /// [`avar_axis_count`], [`map_offset`], [`map_length`]
        pub mod HasSegmentMap {}

        /// the bytes of its mappings
        ///
        /// ```text
        /// abbrev segment_map_bytes : List ℕ → ℕ → List ℕ
        /// segment_map_bytes avar axis = take (map_length avar axis) (drop (map_offset avar axis + 2) avar)
        /// ```
        /// [`map_length`], [`map_offset`]
        pub mod segment_map_bytes {}

        /// the coordinate clamped to -1..1, and then rounded half up to 2.14
        ///
        /// ```text
        /// record IsStoredCoordinate (coordinate : Fixed) (stored : F2Dot14) : Type 0 where
        ///   inside : fixed_bits NEG_ONE ≤ℤ fixed_bits coordinate → fixed_bits coordinate ≤ℤ fixed_bits ONE
        ///       → IsNarrowed 16 (fixed_bits coordinate) 4 (f2dot14_bits stored)
        ///   below : fixed_bits coordinate ≤ℤ fixed_bits NEG_ONE → f2dot14_bits stored ≡ neg_ℤ (pos 16384)
        ///   above : fixed_bits ONE ≤ℤ fixed_bits coordinate → f2dot14_bits stored ≡ pos 16384
        /// ```
        /// [`fixed_bits`], [`NEG_ONE`], [`ONE`], [`IsNarrowed`], [`f2dot14_bits`]
        pub mod IsStoredCoordinate {}

        /// the coordinate mapped, and only then rounded
        ///
        /// ```text
        /// abbrev IsFinal : Fixed → List ℕ → F2Dot14 → Type 0
        /// IsFinal coordinate map stored = (mapped : Fixed) × IsMapped coordinate map mapped × IsStoredCoordinate mapped stored
        /// ```
        /// [`IsMapped`], [`IsStoredCoordinate`]
        pub mod IsFinal {}

        /// from -1 to 1, the range of normalized coordinates (OpenType, coordinate scales and normalization), in units of 2^-14
        ///
        /// ```text
        /// record IsWithinOne (stored : F2Dot14) : Type 0 where
        ///   low : neg_ℤ (pos 16384) ≤ℤ f2dot14_bits stored
        ///   high : f2dot14_bits stored ≤ℤ pos 16384
        /// ```
        /// [`f2dot14_bits`]
        pub mod IsWithinOne {}

        /// the coordinate of a value on an axis: normalized, mapped and rounded
        ///
        /// ```text
        /// abbrev IsCoordinate : (min default max value : ℤ) → List ℕ → F2Dot14 → Type 0
        /// IsCoordinate min default max value map stored =
        ///     (normalized : Fixed) × IsNormalized min default max value (fixed_bits normalized) × IsFinal normalized map stored
        /// ```
        /// [`IsNormalized`], [`fixed_bits`], [`IsFinal`]
        pub mod IsCoordinate {}

        /// of the settings from the k-th to before the n-th, none is of the axis
        ///
        /// ```text
        /// abbrev AreOfOthers : List Setting → List ℕ → ℕ → ℕ → Type 0
        /// AreOfOthers settings tag k n =
        ///     (j : ℕ) (d : Setting) → k ≤ j → j < n → tag_bytes (slice_index_or settings j d).axis ≢ tag
        /// ```
        /// [`tag_bytes`]
        pub mod AreOfOthers {}

        /// of the first n settings, the k-th is the last of the axis, and has the value
        ///
        /// ```text
        /// record IsLastOf (settings : List Setting) (tag : List ℕ) (n k : ℕ) (value : ℤ) : Type 0 where
        ///   within : k < n
        ///   is_axis : (d : Setting) → tag_bytes (slice_index_or settings k d).axis ≡ tag
        ///   is_value : (d : Setting) → fixed_bits (slice_index_or settings k d).value ≡ value
        ///   last : AreOfOthers settings tag (k + 1) n
        /// ```
        /// [`tag_bytes`], [`fixed_bits`], [`AreOfOthers`]
        pub mod IsLastOf {}

        /// the value of an axis by the first n settings: that of the last of the axis, or the default if there is none (CSS,
        /// font-variation-settings: the last of one tag counts)
        ///
        /// ```text
        /// abbrev IsSetTo : List Setting → List ℕ → ℤ → ℕ → ℤ → Type 0
        /// IsSetTo settings tag default n value = (AreOfOthers settings tag 0 n × (value ≡ default))
        ///     ⊎ ((k : ℕ) × IsLastOf settings tag n k value)
        /// ```
        /// [`AreOfOthers`], [`IsLastOf`]
        pub mod IsSetTo {}

        /// the map of an axis, empty in a font without `avar`
        ///
        /// ```text
        /// abbrev map_of : Option (List ℕ) → ℕ → List ℕ
        /// map_of None axis = []
        /// map_of (Some avar) axis = segment_map_bytes avar axis
        /// ```
        /// [`segment_map_bytes`]
        pub mod map_of {}

        /// the map of the axis is there, or the font has no `avar`
        ///
        /// ```text
        /// abbrev HasMap : Option (List ℕ) → ℕ → Type 0
        /// HasMap avar axis = IfSome avar (λ avar. HasSegmentMap avar axis)
        /// ```
        /// [`HasSegmentMap`]
        pub mod HasMap {}

        /// a value on the axis has a coordinate: the axis and its map are there, and it has a range
        ///
        /// ```text
        /// record HasCoordinate (fvar : List ℕ) (avar : Option (List ℕ)) (axis : ℕ) : Type 0 where
        ///   there : HasAxis fvar axis
        ///   range : HasRange (axis_min fvar axis) (axis_default fvar axis) (axis_max fvar axis)
        ///   map : HasMap avar axis
        /// ```
        /// [`HasAxis`], [`HasRange`], [`axis_min`], [`axis_default`], [`axis_max`], [`HasMap`]
        pub mod HasCoordinate {}

        /// the coordinate of the value that the axis is set to
        ///
        /// ```text
        /// record IsCoordinateOf (fvar : List ℕ) (avar : Option (List ℕ)) (settings : List Setting) (axis : ℕ)
        ///     (stored : F2Dot14) : Type 0 where
        ///   value : ℤ
        ///   is_value : IsSetTo settings (axis_tag_bytes fvar axis) (axis_default fvar axis) (length settings) value
        ///   is_coordinate : IsCoordinate (axis_min fvar axis) (axis_default fvar axis) (axis_max fvar axis) value
        ///       (map_of avar axis) stored
        /// ```
        /// [`IsSetTo`], [`axis_tag_bytes`], [`axis_default`], [`IsCoordinate`], [`axis_min`], [`axis_max`], [`map_of`]
        pub mod IsCoordinateOf {}

        /// each axis has a coordinate
        ///
        /// ```text
        /// record HaveCoordinates (fvar : List ℕ) (avar : Option (List ℕ)) : Type 0 where
        ///   each : (axis : ℕ) → axis < fvar_axis_count fvar → HasCoordinate fvar avar axis
        /// ```
        /// [`fvar_axis_count`], [`HasCoordinate`]
        pub mod HaveCoordinates {}

        /// the first n coordinates, in the order of the axes
        ///
        /// ```text
        /// abbrev AreCoordinates : List ℕ → Option (List ℕ) → List Setting → ℕ → List F2Dot14 → Type 0
        /// AreCoordinates fvar avar settings n coordinates = (axis : ℕ) → axis < n → (d : F2Dot14)
        ///     → IsCoordinateOf fvar avar settings axis (slice_index_or coordinates axis d)
        /// ```
        /// [`IsCoordinateOf`]
        pub mod AreCoordinates {}

        /// the first axis without a coordinate
        ///
        /// ```text
        /// record IsFirstWithout (fvar : List ℕ) (avar : Option (List ℕ)) (axis : ℕ) : Type 0 where
        ///   within : axis < fvar_axis_count fvar
        ///   without : ¬ HasCoordinate fvar avar axis
        ///   before : (k : ℕ) → k < axis → HasCoordinate fvar avar k
        /// ```
        /// [`fvar_axis_count`], [`HasCoordinate`]
        pub mod IsFirstWithout {}

        /// the error of an axis without a coordinate: `NoRecord` with its number, if its record is not there; else with its tag
        /// `NoMap`, if its map is not there, and else `NoRange`
        ///
        /// ```text
        /// abbrev IsAxisError : List ℕ → Option (List ℕ) → ℕ → CoordinatesError → Type 0
        /// IsAxisError fvar avar axis Places = ⊥
        /// IsAxisError fvar avar axis (NoRecord index) = (index ≡ axis) × (¬ HasAxis fvar axis)
        /// IsAxisError fvar avar axis (NoMap tag) = HasAxis fvar axis × (tag_bytes tag ≡ axis_tag_bytes fvar axis)
        ///     × (¬ HasMap avar axis)
        /// IsAxisError fvar avar axis (NoRange tag) = HasAxis fvar axis × (tag_bytes tag ≡ axis_tag_bytes fvar axis)
        ///     × HasMap avar axis × (¬ HasRange (axis_min fvar axis) (axis_default fvar axis) (axis_max fvar axis))
        /// IsAxisError fvar avar axis (NoAxis tag) = ⊥
        /// ```
        /// [`HasAxis`], [`tag_bytes`], [`axis_tag_bytes`], [`HasMap`], [`HasRange`], [`axis_min`], [`axis_default`], [`axis_max`]
        pub mod IsAxisError {}

        /// `Places`, if the places are more or fewer than the axes; else the error of the first axis without a coordinate
        ///
        /// ```text
        /// abbrev IsAxesError : List ℕ → Option (List ℕ) → ℕ → CoordinatesError → Type 0
        /// IsAxesError fvar avar places error = ((places ≢ fvar_axis_count fvar) × (error ≡ Places))
        ///     ⊎ ((places ≡ fvar_axis_count fvar)
        ///     × ((axis : ℕ) × IsFirstWithout fvar avar axis × IsAxisError fvar avar axis error))
        /// ```
        /// [`fvar_axis_count`], [`IsFirstWithout`], [`IsAxisError`]
        pub mod IsAxesError {}

        /// an axis has this tag
        ///
        /// ```text
        /// record HasTag (fvar tag : List ℕ) : Type 0 where
        ///   axis : ℕ
        ///   there : HasAxis fvar axis
        ///   is_tag : axis_tag_bytes fvar axis ≡ tag
        /// ```
        /// [`HasAxis`], [`axis_tag_bytes`]
        pub mod HasTag {}

        /// the setting is of one of the axes
        ///
        /// ```text
        /// abbrev IsOfAxis : List ℕ → Setting → Type 0
        /// IsOfAxis fvar setting = HasTag fvar (tag_bytes setting.axis)
        /// ```
        /// [`HasTag`], [`tag_bytes`]
        pub mod IsOfAxis {}

        /// each setting is of one of the axes
        ///
        /// ```text
        /// abbrev AreOfAxes : List ℕ → List Setting → Type 0
        /// AreOfAxes fvar settings = All (IsOfAxis fvar) settings
        /// ```
        /// [`IsOfAxis`]
        pub mod AreOfAxes {}

        /// the first setting of no axis has this tag
        ///
        /// ```text
        /// record IsFirstUnknown (fvar : List ℕ) (settings : List Setting) (tag : Tag) : Type 0 where
        ///   place : ℕ
        ///   within : place < length settings
        ///   before : AllWithin (IsOfAxis fvar) settings 0 place
        ///   there : HoldsAt (λ setting. setting.axis ≡ tag) settings place
        ///   none : ¬ HasTag fvar (tag_bytes tag)
        /// ```
        /// [`IsOfAxis`], [`HasTag`], [`tag_bytes`]
        pub mod IsFirstUnknown {}

        /// `NoAxis` with the tag of the first setting of no axis
        ///
        /// ```text
        /// abbrev IsSettingError : List ℕ → List Setting → CoordinatesError → Type 0
        /// IsSettingError fvar settings error = (tag : Tag) × IsFirstUnknown fvar settings tag × (error ≡ NoAxis tag)
        /// ```
        /// [`IsFirstUnknown`]
        pub mod IsSettingError {}

        /// the error of the places or of the first axis without a coordinate; if there is none, that of the first setting of no
        /// axis
        ///
        /// ```text
        /// abbrev IsCoordinatesError : List ℕ → Option (List ℕ) → List Setting → ℕ → CoordinatesError → Type 0
        /// IsCoordinatesError fvar avar settings places error = IsAxesError fvar avar places error
        ///     ⊎ ((places ≡ fvar_axis_count fvar) × HaveCoordinates fvar avar × IsSettingError fvar settings error)
        /// ```
        /// [`IsAxesError`], [`fvar_axis_count`], [`HaveCoordinates`], [`IsSettingError`]
        pub mod IsCoordinatesError {}
    }

    /// Item variation stores (OpenType, font variations common table formats: "Item Variation Store").
    ///
    /// In the order of `crates/variations/specs/Variations.antt`: [`IsIgnored`](mod@Variations_antt::IsIgnored), [`IsOffRegion`](mod@Variations_antt::IsOffRegion), [`IsScalarAfter`](mod@Variations_antt::IsScalarAfter), [`IsAxisScalar`](mod@Variations_antt::IsAxisScalar), [`axis_count`](mod@Variations_antt::axis_count), [`region_count`](mod@Variations_antt::region_count), [`region_offset`](mod@Variations_antt::region_offset), [`HasRegion`](mod@Variations_antt::HasRegion), [`region_bytes`](mod@Variations_antt::region_bytes), [`stored_bits`](mod@Variations_antt::stored_bits), [`coordinate_bits`](mod@Variations_antt::coordinate_bits), [`IsScalarAfterAxis`](mod@Variations_antt::IsScalarAfterAxis), [`IsScalarOf`](mod@Variations_antt::IsScalarOf), [`IsRegionScalar`](mod@Variations_antt::IsRegionScalar), [`is_ignored_axis`](mod@Variations_antt::is_ignored_axis), [`share`](mod@Variations_antt::share), [`scalar_after`](mod@Variations_antt::scalar_after), [`scalar_of`](mod@Variations_antt::scalar_of), [`region_scalar`](mod@Variations_antt::region_scalar), [`AreScalars`](mod@Variations_antt::AreScalars), [`Fraction`](mod@Variations_antt::Fraction), [`whole`](mod@Variations_antt::whole), [`part_of`](mod@Variations_antt::part_of), [`times`](mod@Variations_antt::times), [`plus`](mod@Variations_antt::plus), [`IsOffBy`](mod@Variations_antt::IsOffBy), [`exact_axis_scalar`](mod@Variations_antt::exact_axis_scalar), [`exact_scalar`](mod@Variations_antt::exact_scalar), [`IsNearScalar`](mod@Variations_antt::IsNearScalar), [`exact_region_scalar`](mod@Variations_antt::exact_region_scalar), [`IsNearRegionScalar`](mod@Variations_antt::IsNearRegionScalar), [`item_count`](mod@Variations_antt::item_count), [`word_delta_count`](mod@Variations_antt::word_delta_count), [`region_index_count`](mod@Variations_antt::region_index_count), [`region_index`](mod@Variations_antt::region_index), [`narrow_width`](mod@Variations_antt::narrow_width), [`delta_width`](mod@Variations_antt::delta_width), [`delta_place`](mod@Variations_antt::delta_place), [`column_width`](mod@Variations_antt::column_width), [`delta_offset`](mod@Variations_antt::delta_offset), [`row_bytes`](mod@Variations_antt::row_bytes), [`HasRow`](mod@Variations_antt::HasRow), [`HasDelta`](mod@Variations_antt::HasDelta), [`delta_of`](mod@Variations_antt::delta_of), [`HasTerm`](mod@Variations_antt::HasTerm), [`IsTerm`](mod@Variations_antt::IsTerm), [`IsTermProduct`](mod@Variations_antt::IsTermProduct), [`IsSumThrough`](mod@Variations_antt::IsSumThrough), [`IsSetSum`](mod@Variations_antt::IsSetSum), [`exact_delta`](mod@Variations_antt::exact_delta), [`sum_of_magnitudes`](mod@Variations_antt::sum_of_magnitudes), [`sum_halves`](mod@Variations_antt::sum_halves), [`IsNearSetSum`](mod@Variations_antt::IsNearSetSum), [`exact_advance`](mod@Variations_antt::exact_advance), [`IsNearAdvance`](mod@Variations_antt::IsNearAdvance), [`HasSet`](mod@Variations_antt::HasSet), [`moved`](mod@Variations_antt::moved), [`IsAdvance`](mod@Variations_antt::IsAdvance), [`IsVaried`](mod@Variations_antt::IsVaried), [`HasNoVaried`](mod@Variations_antt::HasNoVaried), [`map_format`](mod@Variations_antt::map_format), [`entry_format`](mod@Variations_antt::entry_format), [`map_count`](mod@Variations_antt::map_count), [`map_start`](mod@Variations_antt::map_start), [`entry_width`](mod@Variations_antt::entry_width), [`inner_bits`](mod@Variations_antt::inner_bits), [`entry_offset`](mod@Variations_antt::entry_offset), [`HasEntry`](mod@Variations_antt::HasEntry), [`entry_of`](mod@Variations_antt::entry_of), [`IsNoVariation`](mod@Variations_antt::IsNoVariation).
    pub mod Variations_antt {
        use crate::definitions::font_base::{
            Bytes_antt::{numeral, signed_numeral},
            Wrap_antt::wrap,
        };
        use crate::definitions::font_fixed::{
            F2Dot14_antt::{f2dot14_bits, f2dot14_of},
            Fixed_antt::fixed_bits,
            Operations_antt::{IsMulDiv, rounded_mul_div},
        };
        use crate::definitions::font_ids::FWord_antt::nearest_unit;
        /// the axis is ignored: start, peak and end are out of order, or on both sides of zero, or the peak is zero
        ///
        /// ```text
        /// abbrev IsIgnored : ℤ → ℤ → ℤ → Type 0
        /// IsIgnored start peak end = (peak <ℤ start) ⊎ ((end <ℤ peak) ⊎ (((start <ℤ pos 0) × (pos 0 <ℤ end)) ⊎ (peak ≡ pos 0)))
        /// ```
        pub mod IsIgnored {}

        /// the coordinate is at the start or the end of the region, where the part of the way is 0, or beyond
        ///
        /// ```text
        /// abbrev IsOffRegion : ℤ → ℤ → ℤ → Type 0
        /// IsOffRegion start end coordinate = (coordinate ≤ℤ start) ⊎ (end ≤ℤ coordinate)
        /// ```
        pub mod IsOffRegion {}

        /// the scalar after an axis: the one before if the axis is ignored, and at the peak; else 0 if the coordinate is out of
        /// range; else the one before times the part of the way from the start up to the peak, or from the end down to it,
        /// rounded once to 16.16 (OpenType sets no precision)
        ///
        /// ```text
        /// record IsScalarAfter (start peak end coordinate before scalar : ℤ) : Type 0 where
        ///   ignored : IsIgnored start peak end → scalar ≡ before
        ///   at_peak : coordinate ≡ peak → scalar ≡ before
        ///   outside : ¬ IsIgnored start peak end → coordinate ≢ peak → IsOffRegion start end coordinate → scalar ≡ pos 0
        ///   rising : ¬ IsIgnored start peak end → start <ℤ coordinate → coordinate <ℤ peak
        ///       → IsMulDiv 32 before (coordinate -ℤ start) (peak -ℤ start) scalar
        ///   falling : ¬ IsIgnored start peak end → peak <ℤ coordinate → coordinate <ℤ end
        ///       → IsMulDiv 32 before (end -ℤ coordinate) (end -ℤ peak) scalar
        /// ```
        /// [`IsIgnored`], [`IsOffRegion`], [`IsMulDiv`]
        pub mod IsScalarAfter {}

        /// the scalar of an axis: that after it, with 1 before
        ///
        /// ```text
        /// abbrev IsAxisScalar : ℤ → ℤ → ℤ → ℤ → ℤ → Type 0
        /// IsAxisScalar start peak end coordinate scalar = IsScalarAfter start peak end coordinate (pos 65536) scalar
        /// ```
        /// [`IsScalarAfter`]
        pub mod IsAxisScalar {}

        /// the scalar of a region ("Variation Regions": axisCount, regionCount, and for each region and axis startCoord,
        /// peakCoord and endCoord, two bytes each)
        ///
        /// ```text
        /// abbrev axis_count : List ℕ → ℕ
        /// axis_count regions = numeral (take 2 regions)
        /// ```
        /// [`numeral`]
        pub mod axis_count {}

        /// the scalar of a region ("Variation Regions": axisCount, regionCount, and for each region and axis startCoord,
        /// peakCoord and endCoord, two bytes each)
        ///
        /// ```text
        /// abbrev region_count : List ℕ → ℕ
        /// region_count regions = numeral (take 2 (drop 2 regions))
        /// ```
        /// [`numeral`]
        pub mod region_count {}

        /// where the coordinates of a region are stored
        ///
        /// ```text
        /// abbrev region_offset : ℕ → ℕ → ℕ
        /// region_offset axes region = 4 + 6 * (region * axes)
        /// ```
        pub mod region_offset {}

        /// the region is in a list of at most 32767 (the high bit of regionCount is reserved), and the list does not end before
        /// it does
        ///
        /// ```text
        /// record HasRegion (regions : List ℕ) (region : ℕ) : Type 0 where
        ///   count : region_count regions < 0x8000
        ///   within : region < region_count regions
        ///   bytes : region_offset (axis_count regions) region + 6 * axis_count regions ≤ length regions
        /// ```
        /// [`region_count`], [`region_offset`], [`axis_count`]
        pub mod HasRegion {}

        /// its bytes
        ///
        /// ```text
        /// abbrev region_bytes : List ℕ → ℕ → List ℕ
        /// region_bytes regions region =
        ///     take (6 * axis_count regions) (drop (region_offset (axis_count regions) region) regions)
        /// ```
        /// [`axis_count`], [`region_offset`]
        pub mod region_bytes {}

        /// the raw value of 2.14 that is stored at an offset
        ///
        /// ```text
        /// abbrev stored_bits : List ℕ → ℕ → ℤ
        /// stored_bits bytes offset = signed_numeral 2 (take 2 (drop offset bytes))
        /// ```
        /// [`signed_numeral`]
        pub mod stored_bits {}

        /// the coordinate along an axis: zero, the default, if there is none
        ///
        /// ```text
        /// abbrev coordinate_bits : List F2Dot14 → ℕ → ℤ
        /// coordinate_bits coordinates axis = f2dot14_bits (slice_index_or coordinates axis (f2dot14_of (pos 0)))
        /// ```
        /// [`f2dot14_bits`], [`f2dot14_of`]
        pub mod coordinate_bits {}

        /// the scalar of a region after an axis
        ///
        /// ```text
        /// abbrev IsScalarAfterAxis : List ℕ → List F2Dot14 → ℕ → ℤ → ℤ → Type 0
        /// IsScalarAfterAxis region coordinates axis before scalar = IsScalarAfter (stored_bits region (6 * axis))
        ///     (stored_bits region (6 * axis + 2)) (stored_bits region (6 * axis + 4)) (coordinate_bits coordinates axis)
        ///     before scalar
        /// ```
        /// [`IsScalarAfter`], [`stored_bits`], [`coordinate_bits`]
        pub mod IsScalarAfterAxis {}

        /// the product of the scalars along the first n axes, rounded once for each axis, in their order
        ///
        /// ```text
        /// unfoldable IsScalarOf : List ℕ → List F2Dot14 → ℕ → ℤ → Type 0
        /// IsScalarOf region coordinates zero scalar = scalar ≡ pos 65536
        /// IsScalarOf region coordinates (suc n) scalar = (before : ℤ) × IsScalarOf region coordinates n before
        ///     × IsScalarAfterAxis region coordinates n before scalar
        /// ```
        /// [`IsScalarAfterAxis`]
        pub mod IsScalarOf {}

        /// the product of the scalars along all axes
        ///
        /// ```text
        /// abbrev IsRegionScalar : List ℕ → ℕ → List F2Dot14 → ℤ → Type 0
        /// IsRegionScalar regions region coordinates scalar =
        ///     IsScalarOf (region_bytes regions region) coordinates (axis_count regions) scalar
        /// ```
        /// [`IsScalarOf`], [`region_bytes`], [`axis_count`]
        pub mod IsRegionScalar {}

        /// whether the axis is ignored, as `IsIgnored` has it
        ///
        /// ```text
        /// abbrev is_ignored_axis : ℤ → ℤ → ℤ → Bool
        /// is_ignored_axis start peak end =
        ///     int_lt peak start || (int_lt end peak || ((int_lt start (pos 0) && int_lt (pos 0) end) || int_eq peak (pos 0)))
        /// ```
        pub mod is_ignored_axis {}

        /// a scalar times a part of a way, rounded
        ///
        /// ```text
        /// abbrev share : ℤ → ℤ → ℤ → ℤ
        /// share scalar part way = wrap 32 (rounded_mul_div scalar part way)
        /// ```
        /// [`wrap`], [`rounded_mul_div`]
        pub mod share {}

        /// the scalar after an axis
        ///
        /// ```text
        /// unfoldable scalar_after : ℤ → ℤ → ℤ → ℤ → ℤ → ℤ
        /// scalar_after start peak end coordinate before =
        ///     if is_ignored_axis start peak end || int_eq coordinate peak then before
        ///     else (if int_le coordinate start || int_le end coordinate then pos 0
        ///     else (if int_lt coordinate peak then share before (coordinate -ℤ start) (peak -ℤ start)
        ///     else share before (end -ℤ coordinate) (end -ℤ peak)))
        /// ```
        /// [`is_ignored_axis`], [`share`]
        pub mod scalar_after {}

        /// the product of the scalars along the first n axes, rounded once for each axis
        ///
        /// ```text
        /// unfoldable scalar_of : List ℕ → List F2Dot14 → ℕ → ℤ
        /// scalar_of region coordinates zero = pos 65536
        /// scalar_of region coordinates (suc n) = scalar_after (stored_bits region (6 * n)) (stored_bits region (6 * n + 2))
        ///     (stored_bits region (6 * n + 4)) (coordinate_bits coordinates n) (scalar_of region coordinates n)
        /// ```
        /// [`scalar_after`], [`stored_bits`], [`coordinate_bits`]
        pub mod scalar_of {}

        /// the scalar of a region of a list
        ///
        /// ```text
        /// abbrev region_scalar : List ℕ → ℕ → List F2Dot14 → ℤ
        /// region_scalar regions region coordinates =
        ///     scalar_of (region_bytes regions region) coordinates (axis_count regions)
        /// ```
        /// [`scalar_of`], [`region_bytes`], [`axis_count`]
        pub mod region_scalar {}

        /// the scalars of all regions of a list, in order
        ///
        /// ```text
        /// record AreScalars (regions : List ℕ) (coordinates : List F2Dot14) (scalars : List Fixed) : Type 0 where
        ///   each : (region : ℕ) (d : Fixed) → region < length scalars
        ///       → fixed_bits (slice_index_or scalars region d) ≡ region_scalar regions region coordinates
        ///   are_there : (region : ℕ) → region < length scalars → HasRegion regions region
        ///   all : (region : ℕ) → HasRegion regions region → region < length scalars
        ///   low : (region : ℕ) (d : Fixed) → region < length scalars → pos 0 ≤ℤ fixed_bits (slice_index_or scalars region d)
        ///   high : (region : ℕ) (d : Fixed) → region < length scalars
        ///       → fixed_bits (slice_index_or scalars region d) ≤ℤ pos 65536
        /// ```
        /// [`fixed_bits`], [`region_scalar`], [`HasRegion`]
        pub mod AreScalars {}

        /// exact values: what the same algorithm gives in fractions, with no rounding
        ///
        /// ```text
        /// record Fraction : Type 0 where
        ///   numerator : ℤ
        ///   denominator : ℕ
        /// ```
        pub mod Fraction {}

        /// exact values: what the same algorithm gives in fractions, with no rounding
        ///
        /// ```text
        /// abbrev whole : ℤ → Fraction
        /// whole number = record { numerator = number; denominator = 1 }
        /// ```
        /// [`Fraction`]
        pub mod whole {}

        /// the distance to the coordinate over the distance to the peak
        ///
        /// ```text
        /// abbrev part_of : ℤ → ℤ → Fraction
        /// part_of part way = record { numerator = part; denominator = unsigned_abs way }
        /// ```
        /// [`Fraction`]
        pub mod part_of {}

        /// the distance to the coordinate over the distance to the peak
        ///
        /// ```text
        /// abbrev times : Fraction → Fraction → Fraction
        /// times x y = record { numerator = x.numerator *ℤ y.numerator; denominator = x.denominator * y.denominator }
        /// ```
        /// [`Fraction`]
        pub mod times {}

        /// the distance to the coordinate over the distance to the peak
        ///
        /// ```text
        /// abbrev plus : Fraction → Fraction → Fraction
        /// plus x y = record {
        ///   numerator = (x.numerator *ℤ pos y.denominator) +ℤ (y.numerator *ℤ pos x.denominator);
        ///   denominator = x.denominator * y.denominator;
        /// }
        /// ```
        /// [`Fraction`]
        pub mod plus {}

        /// a raw value of 16.16 differs from an exact value by at most so many halves of a unit of 2^-16:
        /// |raw / 65536 - exact| <= halves / (2 * 65536), with both sides multiplied by 2 * 65536 * denominator
        ///
        /// ```text
        /// record IsOffBy (halves : ℕ) (raw : ℤ) (exact : Fraction) : Type 0 where
        ///   some : 0 < exact.denominator
        ///   close : 2 * unsigned_abs (raw *ℤ pos exact.denominator -ℤ exact.numerator *ℤ pos 65536)
        ///       ≤ halves * exact.denominator
        /// ```
        /// [`Fraction`]
        pub mod IsOffBy {}

        /// the scalar of an axis: 1 if the axis is ignored, and at the peak; else 0 if the coordinate is out of range; else the
        /// part of the way from the start up to the peak, or from the end down to it
        ///
        /// ```text
        /// unfoldable exact_axis_scalar : ℤ → ℤ → ℤ → ℤ → Fraction
        /// exact_axis_scalar start peak end coordinate =
        ///     if is_ignored_axis start peak end || int_eq coordinate peak then whole (pos 1)
        ///     else (if int_le coordinate start || int_le end coordinate then whole (pos 0)
        ///     else (if int_lt coordinate peak then part_of (coordinate -ℤ start) (peak -ℤ start)
        ///     else part_of (end -ℤ coordinate) (end -ℤ peak)))
        /// ```
        /// [`Fraction`], [`is_ignored_axis`], [`whole`], [`part_of`]
        pub mod exact_axis_scalar {}

        /// the product of the scalars along the first n axes
        ///
        /// ```text
        /// unfoldable exact_scalar : List ℕ → List F2Dot14 → ℕ → Fraction
        /// exact_scalar region coordinates zero = whole (pos 1)
        /// exact_scalar region coordinates (suc n) = times (exact_scalar region coordinates n)
        ///     (exact_axis_scalar (stored_bits region (6 * n)) (stored_bits region (6 * n + 2)) (stored_bits region (6 * n + 4))
        ///     (coordinate_bits coordinates n))
        /// ```
        /// [`Fraction`], [`whole`], [`times`], [`exact_axis_scalar`], [`stored_bits`], [`coordinate_bits`]
        pub mod exact_scalar {}

        /// a scalar of n axes differs from their exact product by at most half a unit for each axis
        ///
        /// ```text
        /// abbrev IsNearScalar : List ℕ → List F2Dot14 → ℕ → ℤ → Type 0
        /// IsNearScalar region coordinates n scalar = IsOffBy n scalar (exact_scalar region coordinates n)
        /// ```
        /// [`IsOffBy`], [`exact_scalar`]
        pub mod IsNearScalar {}

        /// the scalar of a region of a list
        ///
        /// ```text
        /// abbrev exact_region_scalar : List ℕ → ℕ → List F2Dot14 → Fraction
        /// exact_region_scalar regions region coordinates =
        ///     exact_scalar (region_bytes regions region) coordinates (axis_count regions)
        /// ```
        /// [`Fraction`], [`exact_scalar`], [`region_bytes`], [`axis_count`]
        pub mod exact_region_scalar {}

        /// the scalar of a region of a list
        ///
        /// ```text
        /// abbrev IsNearRegionScalar : List ℕ → ℕ → List F2Dot14 → ℤ → Type 0
        /// IsNearRegionScalar regions region coordinates scalar =
        ///     IsNearScalar (region_bytes regions region) coordinates (axis_count regions) scalar
        /// ```
        /// [`IsNearScalar`], [`region_bytes`], [`axis_count`]
        pub mod IsNearRegionScalar {}

        /// delta sets ("Item Variation Data": itemCount, wordDeltaCount, regionIndexCount, regionIndexes, and deltaSets)
        ///
        /// ```text
        /// abbrev item_count : List ℕ → ℕ
        /// item_count subtable = numeral (take 2 subtable)
        /// ```
        /// [`numeral`]
        pub mod item_count {}

        /// the count of wide columns, with the flag LONG_WORDS, 0x8000
        ///
        /// ```text
        /// abbrev word_delta_count : List ℕ → ℕ
        /// word_delta_count subtable = numeral (take 2 (drop 2 subtable))
        /// ```
        /// [`numeral`]
        pub mod word_delta_count {}

        /// the count of wide columns, with the flag LONG_WORDS, 0x8000
        ///
        /// ```text
        /// abbrev region_index_count : List ℕ → ℕ
        /// region_index_count subtable = numeral (take 2 (drop 4 subtable))
        /// ```
        /// [`numeral`]
        pub mod region_index_count {}

        /// the region of a column
        ///
        /// ```text
        /// abbrev region_index : List ℕ → ℕ → ℕ
        /// region_index subtable column = numeral (take 2 (drop (6 + 2 * column) subtable))
        /// ```
        /// [`numeral`]
        pub mod region_index {}

        /// the bytes of a narrow delta: two with LONG_WORDS, else one
        ///
        /// ```text
        /// abbrev narrow_width : ℕ → ℕ
        /// narrow_width words = if nat_le 0x8000 words then 2 else 1
        /// ```
        pub mod narrow_width {}

        /// the bytes of a delta: the first columns, as many as WORD_DELTA_COUNT_MASK, 0x7FFF, leaves, are twice as wide
        ///
        /// ```text
        /// abbrev delta_width : ℕ → ℕ → ℕ
        /// delta_width words column = if nat_lt column (words % 0x8000) then 2 * narrow_width words else narrow_width words
        /// ```
        /// [`narrow_width`]
        pub mod delta_width {}

        /// where a delta is stored: after the indices of the regions, the sets before its own, and the columns before it
        ///
        /// ```text
        /// abbrev delta_place : ℕ → ℕ → ℕ → ℕ → ℕ
        /// delta_place words count set column = 6 + 2 * count
        ///     + narrow_width words * (set * (count + words % 0x8000) + column + min column (words % 0x8000))
        /// ```
        /// [`narrow_width`]
        pub mod delta_place {}

        /// where a delta is stored: after the indices of the regions, the sets before its own, and the columns before it
        ///
        /// ```text
        /// abbrev column_width : List ℕ → ℕ → ℕ
        /// column_width subtable column = delta_width (word_delta_count subtable) column
        /// ```
        /// [`delta_width`], [`word_delta_count`]
        pub mod column_width {}

        /// where a delta is stored: after the indices of the regions, the sets before its own, and the columns before it
        ///
        /// ```text
        /// abbrev delta_offset : List ℕ → ℕ → ℕ → ℕ
        /// delta_offset subtable set column = delta_place (word_delta_count subtable) (region_index_count subtable) set column
        /// ```
        /// [`delta_place`], [`word_delta_count`], [`region_index_count`]
        pub mod delta_offset {}

        /// the bytes from the first delta of a set on
        ///
        /// ```text
        /// abbrev row_bytes : List ℕ → ℕ → List ℕ
        /// row_bytes subtable set = drop (delta_offset subtable set 0) subtable
        /// ```
        /// [`delta_offset`]
        pub mod row_bytes {}

        /// the set is in the subtable, which has at most as many wide columns as columns, and does not end before the set begins
        ///
        /// ```text
        /// record HasRow (subtable : List ℕ) (set : ℕ) : Type 0 where
        ///   header : 6 ≤ length subtable
        ///   wide : word_delta_count subtable % 0x8000 ≤ region_index_count subtable
        ///   is_set : set < item_count subtable
        ///   bytes : delta_offset subtable set 0 ≤ length subtable
        /// ```
        /// [`word_delta_count`], [`region_index_count`], [`item_count`], [`delta_offset`]
        pub mod HasRow {}

        /// the set and the column are in the subtable, which has at most as many wide columns as columns, and it does not end
        /// before the delta does
        ///
        /// ```text
        /// record HasDelta (subtable : List ℕ) (set column : ℕ) : Type 0 where
        ///   wide : word_delta_count subtable % 0x8000 ≤ region_index_count subtable
        ///   is_set : set < item_count subtable
        ///   is_column : column < region_index_count subtable
        ///   bytes : delta_offset subtable set column + column_width subtable column ≤ length subtable
        /// ```
        /// [`word_delta_count`], [`region_index_count`], [`item_count`], [`delta_offset`], [`column_width`]
        pub mod HasDelta {}

        /// the delta of a column in a set
        ///
        /// ```text
        /// abbrev delta_of : List ℕ → ℕ → ℕ → ℤ
        /// delta_of subtable set column = signed_numeral (column_width subtable column)
        ///     (take (column_width subtable column) (drop (delta_offset subtable set column) subtable))
        /// ```
        /// [`signed_numeral`], [`column_width`], [`delta_offset`]
        pub mod delta_of {}

        /// a column's delta is there, and the region of it
        ///
        /// ```text
        /// record HasTerm (regions subtable : List ℕ) (set column : ℕ) : Type 0 where
        ///   delta : HasDelta subtable set column
        ///   region : HasRegion regions (region_index subtable column)
        /// ```
        /// [`HasDelta`], [`HasRegion`], [`region_index`]
        pub mod HasTerm {}

        /// the scalar of a column's region, and its delta
        ///
        /// ```text
        /// record IsTerm (regions subtable : List ℕ) (coordinates : List F2Dot14) (set column : ℕ) (term : Fixed × ℤ)
        ///     : Type 0 where
        ///   scalar : IsRegionScalar regions (region_index subtable column) coordinates (fixed_bits term.0)
        ///   delta : term.1 ≡ delta_of subtable set column
        /// ```
        /// [`IsRegionScalar`], [`region_index`], [`fixed_bits`], [`delta_of`]
        pub mod IsTerm {}

        /// the exact product of both
        ///
        /// ```text
        /// record IsTermProduct (regions subtable : List ℕ) (coordinates : List F2Dot14) (set column : ℕ) (product : ℤ)
        ///     : Type 0 where
        ///   term : Fixed × ℤ
        ///   is_term : IsTerm regions subtable coordinates set column term
        ///   value : product ≡ (fixed_bits term.0 *ℤ term.1)
        /// ```
        /// [`IsTerm`], [`fixed_bits`]
        pub mod IsTermProduct {}

        /// the exact sum of the products of the first n columns
        ///
        /// ```text
        /// unfoldable IsSumThrough : List ℕ → List ℕ → List F2Dot14 → ℕ → ℕ → ℤ → Type 0
        /// IsSumThrough regions subtable coordinates set zero sum = sum ≡ pos 0
        /// IsSumThrough regions subtable coordinates set (suc n) sum = (before product : ℤ)
        ///     × IsSumThrough regions subtable coordinates set n before × IsTermProduct regions subtable coordinates set n product
        ///     × (sum ≡ (before +ℤ product))
        /// ```
        /// [`IsTermProduct`]
        pub mod IsSumThrough {}

        /// the exact sum of all columns
        ///
        /// ```text
        /// abbrev IsSetSum : List ℕ → List ℕ → List F2Dot14 → ℕ → ℤ → Type 0
        /// IsSetSum regions subtable coordinates set sum =
        ///     IsSumThrough regions subtable coordinates set (region_index_count subtable) sum
        /// ```
        /// [`IsSumThrough`], [`region_index_count`]
        pub mod IsSetSum {}

        /// the sum of the first n deltas, each times the exact scalar of its region
        ///
        /// ```text
        /// unfoldable exact_delta : List ℕ → List ℕ → List F2Dot14 → ℕ → ℕ → Fraction
        /// exact_delta regions subtable coordinates set zero = whole (pos 0)
        /// exact_delta regions subtable coordinates set (suc n) = plus (exact_delta regions subtable coordinates set n)
        ///     (times (exact_region_scalar regions (region_index subtable n) coordinates) (whole (delta_of subtable set n)))
        /// ```
        /// [`Fraction`], [`whole`], [`plus`], [`times`], [`exact_region_scalar`], [`region_index`], [`delta_of`]
        pub mod exact_delta {}

        /// the sum of the magnitudes of the first n deltas
        ///
        /// ```text
        /// unfoldable sum_of_magnitudes : List ℕ → ℕ → ℕ → ℕ
        /// sum_of_magnitudes subtable set zero = 0
        /// sum_of_magnitudes subtable set (suc n) = sum_of_magnitudes subtable set n + unsigned_abs (delta_of subtable set n)
        /// ```
        /// [`delta_of`]
        pub mod sum_of_magnitudes {}

        /// the bound of a set's sum, in halves of a unit: that of a scalar times the magnitude of each delta
        ///
        /// ```text
        /// abbrev sum_halves : List ℕ → List ℕ → ℕ → ℕ → ℕ
        /// sum_halves regions subtable set n = axis_count regions * sum_of_magnitudes subtable set n
        /// ```
        /// [`axis_count`], [`sum_of_magnitudes`]
        pub mod sum_halves {}

        /// the bound of a set's sum, in halves of a unit: that of a scalar times the magnitude of each delta
        ///
        /// ```text
        /// abbrev IsNearSetSum : List ℕ → List ℕ → List F2Dot14 → ℕ → ℤ → Type 0
        /// IsNearSetSum regions subtable coordinates set sum =
        ///     IsOffBy (sum_halves regions subtable set (region_index_count subtable)) sum
        ///     (exact_delta regions subtable coordinates set (region_index_count subtable))
        /// ```
        /// [`IsOffBy`], [`sum_halves`], [`region_index_count`], [`exact_delta`]
        pub mod IsNearSetSum {}

        /// an advance plus the exact delta of a set
        ///
        /// ```text
        /// abbrev exact_advance : List ℕ → List ℕ → List F2Dot14 → ℕ → ℕ → Fraction
        /// exact_advance regions subtable coordinates set advance =
        ///     plus (whole (pos advance)) (exact_delta regions subtable coordinates set (region_index_count subtable))
        /// ```
        /// [`Fraction`], [`plus`], [`whole`], [`exact_delta`], [`region_index_count`]
        pub mod exact_advance {}

        /// a varied advance differs from the exact one by at most half a font unit and the bound of the set's sum:
        /// |varied - exact| <= 1/2 + axes/2 * (sum of |delta|) / 65536
        ///
        /// ```text
        /// abbrev IsNearAdvance : List ℕ → List ℕ → List F2Dot14 → ℕ → ℕ → ℤ → Type 0
        /// IsNearAdvance regions subtable coordinates set advance varied =
        ///     IsOffBy (65536 + sum_halves regions subtable set (region_index_count subtable)) (varied *ℤ pos 65536)
        ///     (exact_advance regions subtable coordinates set advance)
        /// ```
        /// [`IsOffBy`], [`sum_halves`], [`region_index_count`], [`exact_advance`]
        pub mod IsNearAdvance {}

        /// the set is in the subtable, and so is each of its columns, with a region
        ///
        /// ```text
        /// record HasSet (regions subtable : List ℕ) (set : ℕ) : Type 0 where
        ///   header : 6 ≤ length subtable
        ///   is_set : set < item_count subtable
        ///   columns : (column : ℕ) → column < region_index_count subtable → HasTerm regions subtable set column
        /// ```
        /// [`item_count`], [`region_index_count`], [`HasTerm`]
        pub mod HasSet {}

        /// an advance plus a sum, rounded half up
        ///
        /// ```text
        /// abbrev moved : ℕ → ℤ → ℤ
        /// moved advance sum = nearest_unit (pos advance *ℤ pos 65536 +ℤ sum)
        /// ```
        /// [`nearest_unit`]
        pub mod moved {}

        /// it is an advance (UFWORD)
        ///
        /// ```text
        /// abbrev IsAdvance : ℤ → Type 0
        /// IsAdvance number = (pos 0 ≤ℤ number) × (number <ℤ pos 65536)
        /// ```
        pub mod IsAdvance {}

        /// the advance moved by the sum of a set
        ///
        /// ```text
        /// abbrev IsVaried : List ℕ → List ℕ → List F2Dot14 → ℕ → ℕ → ℤ → Type 0
        /// IsVaried regions subtable coordinates set advance varied =
        ///     (sum : ℤ) × IsSetSum regions subtable coordinates set sum × (varied ≡ moved advance sum)
        /// ```
        /// [`IsSetSum`], [`moved`]
        pub mod IsVaried {}

        /// the subtable does not have the set, or the advance that it moves is out of range
        ///
        /// ```text
        /// abbrev HasNoVaried : List ℕ → List ℕ → List F2Dot14 → ℕ → ℕ → Type 0
        /// HasNoVaried regions subtable coordinates set advance = (¬ HasSet regions subtable set)
        ///     ⊎ ((varied : ℤ) × IsVaried regions subtable coordinates set advance varied × (¬ IsAdvance varied))
        /// ```
        /// [`HasSet`], [`IsVaried`], [`IsAdvance`]
        pub mod HasNoVaried {}

        /// maps ("DeltaSetIndexMap": format, entryFormat, mapCount of two bytes in format 0 and four in format 1, mapData)
        ///
        /// ```text
        /// abbrev map_format : List ℕ → ℕ
        /// map_format map = numeral (take 1 map)
        /// ```
        /// [`numeral`]
        pub mod map_format {}

        /// maps ("DeltaSetIndexMap": format, entryFormat, mapCount of two bytes in format 0 and four in format 1, mapData)
        ///
        /// ```text
        /// abbrev entry_format : List ℕ → ℕ
        /// entry_format map = numeral (take 1 (drop 1 map))
        /// ```
        /// [`numeral`]
        pub mod entry_format {}

        /// maps ("DeltaSetIndexMap": format, entryFormat, mapCount of two bytes in format 0 and four in format 1, mapData)
        ///
        /// ```text
        /// abbrev map_count : List ℕ → ℕ
        /// map_count map = if nat_eq (map_format map) 0 then numeral (take 2 (drop 2 map)) else numeral (take 4 (drop 2 map))
        /// ```
        /// [`map_format`], [`numeral`]
        pub mod map_count {}

        /// maps ("DeltaSetIndexMap": format, entryFormat, mapCount of two bytes in format 0 and four in format 1, mapData)
        ///
        /// ```text
        /// abbrev map_start : List ℕ → ℕ
        /// map_start map = if nat_eq (map_format map) 0 then 4 else 6
        /// ```
        /// [`map_format`]
        pub mod map_start {}

        /// bits 4 and 5 of the entry format (MAP_ENTRY_SIZE_MASK) are one less than the bytes of an entry
        ///
        /// ```text
        /// abbrev entry_width : List ℕ → ℕ
        /// entry_width map = entry_format map / 16 % 4 + 1
        /// ```
        /// [`entry_format`]
        pub mod entry_width {}

        /// its low four bits (INNER_INDEX_BIT_COUNT_MASK) are one less than the bits of the inner index
        ///
        /// ```text
        /// abbrev inner_bits : List ℕ → ℕ
        /// inner_bits map = entry_format map % 16 + 1
        /// ```
        /// [`entry_format`]
        pub mod inner_bits {}

        /// where the entry of an index is: the last entry is that of all indices from there on
        ///
        /// ```text
        /// abbrev entry_offset : List ℕ → ℕ → ℕ
        /// entry_offset map index = map_start map + entry_width map * min index (map_count map - 1)
        /// ```
        /// [`map_start`], [`entry_width`], [`map_count`]
        pub mod entry_offset {}

        /// the map is of a known format and not empty, and does not end before the entry does
        ///
        /// ```text
        /// record HasEntry (map : List ℕ) (index : ℕ) : Type 0 where
        ///   format : map_format map ≤ 1
        ///   some : 0 < map_count map
        ///   bytes : entry_offset map index + entry_width map ≤ length map
        /// ```
        /// [`map_format`], [`map_count`], [`entry_offset`], [`entry_width`]
        pub mod HasEntry {}

        /// the map is of a known format and not empty, and does not end before the entry does
        ///
        /// ```text
        /// abbrev entry_of : List ℕ → ℕ → ℕ
        /// entry_of map index = numeral (take (entry_width map) (drop (entry_offset map index) map))
        /// ```
        /// [`numeral`], [`entry_width`], [`entry_offset`]
        pub mod entry_of {}

        /// both indices are 0xFFFF: the item has no variation data (OpenType, "Item Variation Store": the outer and inner index
        /// 0xFFFF/0xFFFF)
        ///
        /// ```text
        /// abbrev IsNoVariation : ℕ → ℕ → Type 0
        /// IsNoVariation outer inner = (outer ≡ 0xFFFF) × (inner ≡ 0xFFFF)
        /// ```
        pub mod IsNoVariation {}
    }
}
