// @generated from crates/*/specs by tools/erase

#![allow(non_snake_case)]

/// Definitions of the crate `font_decimal`.
pub mod font_decimal {
    /// Decimals: an optional `-`, one or more digits, and optionally a point followed by one or more digits. No plus sign,
    /// exponent or space. OpenType has no such form.
    ///
    /// In the order of `crates/font_decimal/specs/Grammar.antt`: [`fraction_text`](mod@Grammar_antt::fraction_text), [`HasParts`](mod@Grammar_antt::HasParts), [`Decimal`](mod@Grammar_antt::Decimal), [`IsNoDecimal`](mod@Grammar_antt::IsNoDecimal), [`Plain`](mod@Grammar_antt::Plain), [`Tidy`](mod@Grammar_antt::Tidy).
    pub mod Grammar_antt {
        use crate::definitions::font_decimal::Near_antt::signed;
        /// the fraction as written: nothing if it has no digits, otherwise a point and its digits
        ///
        /// ```text
        /// abbrev fraction_text : List ℕ → List ℕ
        /// fraction_text [] = []
        /// fraction_text (digit ∷ digits) = 46 ∷ (digit ∷ digits)
        /// ```
        pub mod fraction_text {}

        /// the text consists of these parts: a sign, the digits before the point, and those after it
        ///
        /// ```text
        /// record HasParts (text : List ℕ) (negative : Bool) (whole fraction : List ℕ) : Type 0 where
        ///   written : text ≡ sign_text negative ++ (whole ++ fraction_text fraction)
        ///   whole_digits : IsNumeral 10 whole
        ///   fraction_digits : AllDigits 10 fraction
        /// ```
        /// [`fraction_text`]
        pub mod HasParts {}

        /// the text is a decimal with the value n / 10^k: n is the signed integer of all its digits, and k the number of digits
        /// after the point
        ///
        /// ```text
        /// record Decimal (text : List ℕ) (n : ℤ) (k : ℕ) : Type 0 where
        ///   negative : Bool
        ///   whole : List ℕ
        ///   fraction : List ℕ
        ///   parts : HasParts text negative whole fraction
        ///   numeral : n ≡ signed negative (digits_value 10 (whole ++ fraction))
        ///   places : k ≡ length fraction
        /// ```
        /// [`HasParts`], [`signed`]
        pub mod Decimal {}

        /// the text is not a decimal
        ///
        /// ```text
        /// abbrev IsNoDecimal : List ℕ → Type 0
        /// IsNoDecimal text = (n : ℤ) (k : ℕ) → ¬ (Decimal text n k)
        /// ```
        /// [`Decimal`]
        pub mod IsNoDecimal {}

        /// the decimal has no unnecessary leading zero, and a `-` if and only if it is negative
        ///
        /// ```text
        /// record Plain (text : List ℕ) (n : ℤ) (k : ℕ) : Type 0 where
        ///   decimal : Decimal text n k
        ///   no_needless_zero : slice_index decimal.whole 0 ≡ 48 → length decimal.whole ≡ 1
        ///   minus : IsTrue decimal.negative ↔ (n <ℤ pos 0)
        /// ```
        /// [`Decimal`]
        pub mod Plain {}

        /// the decimal has no unnecessary zero, in front or at the end of its fraction, and a `-` if and only if it is negative
        ///
        /// ```text
        /// record Tidy (text : List ℕ) (n : ℤ) (k : ℕ) : Type 0 where
        ///   plain : Plain text n k
        ///   no_last_zero : 0 < k → unsigned_abs n % 10 ≢ 0
        /// ```
        /// [`Plain`]
        pub mod Tidy {}
    }

    /// Rounding a fraction to an integer. A fixed-point number with f fraction bits is its raw value over 2^f (OpenType,
    /// data types: Fixed, F2DOT14), so parsing, printing and arithmetic all round an exact fraction n / d with 0 < d.
    ///
    /// In the order of `crates/font_decimal/specs/Near.antt`: [`signed`](mod@Near_antt::signed), [`Near`](mod@Near_antt::Near), [`near_magnitude`](mod@Near_antt::near_magnitude), [`Up`](mod@Near_antt::Up).
    pub mod Near_antt {
        /// the integer with this magnitude, negated if `negative`
        ///
        /// ```text
        /// abbrev signed : Bool → ℕ → ℤ
        /// signed false n = pos n
        /// signed true n = neg_ℤ (pos n)
        /// ```
        pub mod signed {}

        /// q is n / d rounded half away from zero: the nearest integer and, of two equally near, the one farther from zero
        ///
        /// ```text
        /// record Near (n : ℤ) (d : ℕ) (q : ℤ) : Type 0 where
        ///   close : 2 * unsigned_abs (q *ℤ pos d -ℤ n) ≤ d
        ///   away : 2 * unsigned_abs (q *ℤ pos d -ℤ n) ≡ d → unsigned_abs n < unsigned_abs q * d
        ///
        /// -- the unique q with `Near n d q`: the magnitude is rounded, and the sign kept
        /// unfoldable near : ℤ → ℕ → ℤ
        /// near (pos n) d = pos (near_magnitude n d)
        /// near (negsuc n) d = neg_ℤ (pos (near_magnitude (suc n) d))
        /// ```
        /// [`near_magnitude`]
        pub mod Near {}

        /// n / d rounded half up: the floor of n / d + 1/2
        ///
        /// ```text
        /// abbrev near_magnitude : ℕ → ℕ → ℕ
        /// near_magnitude n d = (2 * n + d) / (2 * d)
        /// ```
        pub mod near_magnitude {}

        /// q is n / d rounded half up: the nearest integer and, of two equally near, the greater
        ///
        /// ```text
        /// record Up (n : ℤ) (d : ℕ) (q : ℤ) : Type 0 where
        ///   low : (pos 2 *ℤ (q *ℤ pos d)) ≤ℤ (pos 2 *ℤ n +ℤ pos d)
        ///   high : (pos 2 *ℤ n +ℤ pos d) <ℤ (pos 2 *ℤ ((q +ℤ pos 1) *ℤ pos d))
        ///
        /// -- the unique q with `Up n d q`: a negative tie is rounded toward zero
        /// unfoldable up : ℤ → ℕ → ℤ
        /// up (pos n) d = pos (near_magnitude n d)
        /// up (negsuc n) d = neg_ℤ (pos ((2 * n + 1 + d) / (2 * d)))
        /// ```
        /// [`near_magnitude`]
        pub mod Up {}
    }

    /// A text that is padded to a width. OpenType has no such rule; std's format specifications have the same alignments.
    ///
    /// In the order of `crates/font_decimal/specs/Padding.antt`: [`has_minus`](mod@Padding_antt::has_minus), [`shown_sign`](mod@Padding_antt::shown_sign), [`unsigned_body`](mod@Padding_antt::unsigned_body), [`spare_in_front`](mod@Padding_antt::spare_in_front), [`laid_out`](mod@Padding_antt::laid_out), [`padded_text`](mod@Padding_antt::padded_text), [`FillsFront`](mod@Padding_antt::FillsFront).
    pub mod Padding_antt {
        /// the text begins with a `-`
        ///
        /// ```text
        /// abbrev has_minus : List ℕ → Bool
        /// has_minus text = slice_index text 0 == 45
        /// ```
        pub mod has_minus {}

        /// the sign to write: the text's own `-`, otherwise a `+` if requested
        ///
        /// ```text
        /// abbrev shown_sign : Bool → List ℕ → List ℕ
        /// shown_sign plus text = if has_minus text then 45 ∷ [] else (if plus then 43 ∷ [] else [])
        /// ```
        /// [`has_minus`]
        pub mod shown_sign {}

        /// the text without its `-`
        ///
        /// ```text
        /// abbrev unsigned_body : List ℕ → List ℕ
        /// unsigned_body text = if has_minus text then drop 1 text else text
        /// ```
        /// [`has_minus`]
        pub mod unsigned_body {}

        /// how many padding bytes go on the left
        ///
        /// ```text
        /// abbrev spare_in_front : Align → ℕ → ℕ
        /// spare_in_front Left spare = 0
        /// spare_in_front Right spare = spare
        /// spare_in_front Center spare = spare / 2
        /// ```
        pub mod spare_in_front {}

        /// the sign and the body with `spare` padding bytes: zeros between the two, or fill around them
        ///
        /// ```text
        /// abbrev laid_out : Pad → List ℕ → List ℕ → ℕ → List ℕ
        /// laid_out pad sign body spare =
        ///     let front = spare_in_front pad.align spare in
        ///     if pad.zeros then sign ++ (replicate spare 48 ++ body)
        ///     else replicate front pad.fill ++ (sign ++ (body ++ replicate (spare - front) pad.fill))
        /// ```
        /// [`spare_in_front`]
        pub mod laid_out {}

        /// the text, padded to the width if it is shorter
        ///
        /// ```text
        /// unfoldable padded_text : List ℕ → Pad → List ℕ
        /// padded_text text pad =
        ///     let sign = shown_sign pad.plus text in
        ///     let body = unsigned_body text in
        ///     laid_out pad sign body (pad.width - (length sign + length body))
        /// ```
        /// [`shown_sign`], [`unsigned_body`], [`laid_out`]
        pub mod padded_text {}

        /// the first n elements of the new list are the text, and the rest is unchanged
        ///
        /// ```text
        /// record FillsFront (text : List ℕ) (n : ℕ) (old new : List ℕ) : Type 0 where
        ///   count : n ≡ length text
        ///   bytes : new ≡ text ++ drop n old
        /// ```
        pub mod FillsFront {}
    }

    /// Parsing a decimal as a multiple of 1 / 2^f.
    ///
    /// In the order of `crates/font_decimal/specs/Reading.antt`: [`Rounds`](mod@Reading_antt::Rounds), [`Reads`](mod@Reading_antt::Reads), [`IsOutOfRange`](mod@Reading_antt::IsOutOfRange), [`Parses`](mod@Reading_antt::Parses), [`IsAtMost`](mod@Reading_antt::IsAtMost).
    pub mod Reading_antt {
        use crate::definitions::font_decimal::{
            Grammar_antt::{Decimal, IsNoDecimal},
            Near_antt::Near,
        };
        /// the text is a decimal that rounds to b / 2^f, half away from zero
        ///
        /// ```text
        /// record Rounds (text : List ℕ) (f : ℕ) (b : ℤ) : Type 0 where
        ///   numeral : ℤ
        ///   places : ℕ
        ///   decimal : Decimal text numeral places
        ///   nearest : Near (numeral *ℤ pos (2 ^ f)) (10 ^ places) b
        /// ```
        /// [`Decimal`], [`Near`]
        pub mod Rounds {}

        /// the text rounds to b, which is in range
        ///
        /// ```text
        /// record Reads (text : List ℕ) (f : ℕ) (min max b : ℤ) : Type 0 where
        ///   rounds : Rounds text f b
        ///   low : min ≤ℤ b
        ///   high : b ≤ℤ max
        /// ```
        /// [`Rounds`]
        pub mod Reads {}

        /// the text rounds to a value that is out of range: the range is checked after rounding
        ///
        /// ```text
        /// record IsOutOfRange (text : List ℕ) (f : ℕ) (min max : ℤ) : Type 0 where
        ///   nearest : ℤ
        ///   rounds : Rounds text f nearest
        ///   outside : (nearest <ℤ min) ⊎ (max <ℤ nearest)
        /// ```
        /// [`Rounds`]
        pub mod IsOutOfRange {}

        /// the result of parsing: the raw value, or the error
        ///
        /// ```text
        /// abbrev Parses : List ℕ → ℕ → ℤ → ℤ → Result ℤ DecimalFault → Type 0
        /// Parses text f min max (Ok b) = Reads text f min max b
        /// Parses text f min max (Err Syntax) = IsNoDecimal text
        /// Parses text f min max (Err OutOfRange) = IsOutOfRange text f min max
        /// ```
        /// [`Reads`], [`IsNoDecimal`], [`IsOutOfRange`]
        pub mod Parses {}

        /// the value of one decimal is less than or equal to that of the other
        ///
        /// ```text
        /// record IsAtMost (lesser greater : List ℕ) : Type 0 where
        ///   n : ℤ
        ///   j : ℕ
        ///   first : Decimal lesser n j
        ///   m : ℤ
        ///   k : ℕ
        ///   second : Decimal greater m k
        ///   ordered : (n *ℤ pos (10 ^ k)) ≤ℤ (m *ℤ pos (10 ^ j))
        /// ```
        /// [`Decimal`]
        pub mod IsAtMost {}
    }

    /// The shortest decimal of b / 2^f: of all that parse back to b, the nearest with the fewest fractional digits.
    ///
    /// In the order of `crates/font_decimal/specs/Shortest.antt`: [`IsShortest`](mod@Shortest_antt::IsShortest), [`nearest_numeral`](mod@Shortest_antt::nearest_numeral), [`reads_back`](mod@Shortest_antt::reads_back), [`places_from`](mod@Shortest_antt::places_from), [`fewest_places`](mod@Shortest_antt::fewest_places), [`last_digits`](mod@Shortest_antt::last_digits), [`decimal_text`](mod@Shortest_antt::decimal_text), [`shortest_text`](mod@Shortest_antt::shortest_text).
    pub mod Shortest_antt {
        use crate::definitions::font_decimal::{
            Grammar_antt::{Plain, fraction_text},
            Near_antt::{Near, near_magnitude},
            Reading_antt::Rounds,
        };
        /// the text is plain and parses back to b; no decimal with as many places is nearer to b / 2^f; and no decimal with
        /// fewer places, however it is written, rounds to b
        ///
        /// ```text
        /// record IsShortest (b : ℤ) (f : ℕ) (text : List ℕ) : Type 0 where
        ///   numeral : ℤ
        ///   places : ℕ
        ///   plain : Plain text numeral places
        ///   rounds : Rounds text f b
        ///   nearest : Near (b *ℤ pos (10 ^ places)) (2 ^ f) numeral
        ///   fewest : (j : ℕ) (m : ℤ) → j < places → ¬ (Near (m *ℤ pos (2 ^ f)) (10 ^ j) b)
        /// ```
        /// [`Plain`], [`Rounds`], [`Near`]
        pub mod IsShortest {}

        /// the nearest decimal of m / 2^f with p places, times 10^p
        ///
        /// ```text
        /// abbrev nearest_numeral : ℕ → ℕ → ℕ → ℕ
        /// nearest_numeral m f p = near_magnitude (m * 10 ^ p) (2 ^ f)
        /// ```
        /// [`near_magnitude`]
        pub mod nearest_numeral {}

        /// that decimal is less than half a unit of the raw value from m / 2^f
        ///
        /// ```text
        /// unfoldable reads_back : ℕ → ℕ → ℕ → Bool
        /// reads_back m f p = nat_lt (2 * abs_diff (nearest_numeral m f p * 2 ^ f) (m * 10 ^ p)) (10 ^ p)
        /// ```
        /// [`nearest_numeral`]
        pub mod reads_back {}

        /// the first number of places from p on, within a limit, whose nearest decimal parses back
        ///
        /// ```text
        /// abbrev places_from : ℕ → ℕ → ℕ → ℕ → ℕ
        /// places_from m f zero p = p
        /// places_from m f (suc left) p = if reads_back m f p then p else places_from m f left (p + 1)
        /// ```
        /// [`reads_back`]
        pub mod places_from {}

        /// the fewest places with which a decimal of m / 2^f parses back: with f places it is exact
        ///
        /// ```text
        /// unfoldable fewest_places : ℕ → ℕ → ℕ
        /// fewest_places m f = places_from m f f 0
        /// ```
        /// [`places_from`]
        pub mod fewest_places {}

        /// the last p digits of n
        ///
        /// ```text
        /// abbrev last_digits : ℕ → ℕ → List ℕ
        /// last_digits zero n = []
        /// last_digits (suc p) n = (48 + n / 10 ^ p % 10) ∷ last_digits p n
        /// ```
        pub mod last_digits {}

        /// n / 10^p with p digits after the point
        ///
        /// ```text
        /// abbrev decimal_text : ℕ → ℕ → List ℕ
        /// decimal_text n p = decimal (n / 10 ^ p) ++ fraction_text (last_digits p n)
        /// ```
        /// [`fraction_text`], [`last_digits`]
        pub mod decimal_text {}

        /// the shortest decimal of b / 2^f
        ///
        /// ```text
        /// unfoldable shortest_text : ℤ → ℕ → List ℕ
        /// shortest_text b f =
        ///     let places = fewest_places (unsigned_abs b) f in
        ///     sign_text (is_negative b) ++ decimal_text (nearest_numeral (unsigned_abs b) f places) places
        /// ```
        /// [`fewest_places`], [`decimal_text`], [`nearest_numeral`]
        pub mod shortest_text {}
    }

    /// The text of a `Shortest`.
    ///
    /// In the order of `crates/font_decimal/specs/Shown.antt`: [`shown`](mod@Shown_antt::shown).
    pub mod Shown_antt {
        /// its bytes from the start of the text to the end
        ///
        /// ```text
        /// unfoldable shown : Shortest → List ℕ
        /// shown s = take (s.end - s.start) (drop s.start s.bytes)
        /// ```
        pub mod shown {}
    }
}

/// Definitions of the crate `font_base`.
pub mod font_base {
    /// Arrays of scalars (OpenType, the tables' formats: arrays of numbers and of records).
    ///
    /// In the order of `crates/font_base/specs/Array.antt`: [`array_bytes`](mod@Array_antt::array_bytes), [`array_len`](mod@Array_antt::array_len), [`element_bytes`](mod@Array_antt::element_bytes), [`array_elements`](mod@Array_antt::array_elements), [`elements_left`](mod@Array_antt::elements_left), [`RisesAlong`](mod@Array_antt::RisesAlong), [`SplitsArray`](mod@Array_antt::SplitsArray), [`IsSearched`](mod@Array_antt::IsSearched), [`IsPartitionPoint`](mod@Array_antt::IsPartitionPoint).
    pub mod Array_antt {
        use crate::definitions::font_base::Elements_antt::{
            Rises, Splits, StoresOne, element, elements, side,
        };
        /// the bytes of an array
        ///
        /// ```text
        /// module _ {T X : Type 0} {scalar : Scalar.Ghosts T X} {size : FixedSize.Ghosts T} {x : BeByteArray.Ghosts X} where
        ///   abbrev array_bytes : ScalarArray T X scalar size x → List ℕ
        ///   array_bytes array = flat_map x.bytes array.raw.now
        /// ```
        pub mod array_bytes {}

        /// the number of elements
        ///
        /// ```text
        /// module _ {T X : Type 0} {scalar : Scalar.Ghosts T X} {size : FixedSize.Ghosts T} {x : BeByteArray.Ghosts X} where
        ///   abbrev array_len : ScalarArray T X scalar size x → ℕ
        ///   array_len array = length (array_bytes array) / size.RAW_BYTE_LEN
        /// ```
        /// [`array_bytes`]
        pub mod array_len {}

        /// the bytes of the element at an index
        ///
        /// ```text
        /// module _ {T X : Type 0} {scalar : Scalar.Ghosts T X} {size : FixedSize.Ghosts T} {x : BeByteArray.Ghosts X} where
        ///   abbrev element_bytes : ScalarArray T X scalar size x → ℕ → List ℕ
        ///   element_bytes array = element size.RAW_BYTE_LEN (array_bytes array)
        /// ```
        /// [`element`], [`array_bytes`]
        pub mod element_bytes {}

        /// the bytes of each element, in order
        ///
        /// ```text
        /// module _ {T X : Type 0} {scalar : Scalar.Ghosts T X} {size : FixedSize.Ghosts T} {x : BeByteArray.Ghosts X} where
        ///   abbrev array_elements : ScalarArray T X scalar size x → List (List ℕ)
        ///   array_elements array = elements size.RAW_BYTE_LEN (array_len array) (array_bytes array)
        /// ```
        /// [`elements`], [`array_len`], [`array_bytes`]
        pub mod array_elements {}

        /// the bytes of each element that an iterator has left, in order
        ///
        /// ```text
        /// module _ {T X : Type 0} {scalar : Scalar.Ghosts T X} {size : FixedSize.Ghosts T} {x : BeByteArray.Ghosts X} where
        ///   abbrev elements_left : ScalarArrayIter T X scalar size x → List (List ℕ)
        ///   elements_left iter = map x.bytes (iter_rest iter.rest)
        /// ```
        pub mod elements_left {}

        /// the comparisons are sorted: `Less`, then `Equal`, then `Greater`
        ///
        /// ```text
        /// module _ {T X : Type 0} {scalar : Scalar.Ghosts T X} {size : FixedSize.Ghosts T} {x : BeByteArray.Ghosts X} where
        ///   abbrev RisesAlong : ScalarArray T X scalar size x → (T → Ordering) → Type 0
        ///   RisesAlong array answer = Rises scalar.is_scalar (λ v. x.bytes (scalar.raw_of v)) answer
        ///       (element_bytes array) (array_len array)
        /// ```
        /// [`Rises`], [`element_bytes`], [`array_len`]
        pub mod RisesAlong {}

        /// elements before `low` compare as `Less`, and those from `high` on as `Greater`
        ///
        /// ```text
        /// module _ {T X : Type 0} {scalar : Scalar.Ghosts T X} {size : FixedSize.Ghosts T} {x : BeByteArray.Ghosts X} where
        ///   abbrev SplitsArray : ScalarArray T X scalar size x → (T → Ordering) → ℕ → ℕ → Type 0
        ///   SplitsArray array answer = Splits scalar.is_scalar (λ v. x.bytes (scalar.raw_of v)) answer
        ///       (element_bytes array) (array_len array)
        /// ```
        /// [`Splits`], [`element_bytes`], [`array_len`]
        pub mod SplitsArray {}

        /// the result of a binary search: the index of an element that compares as `Equal`; or, if the comparisons are sorted,
        /// the index before which every element is `Less`, and from which on every element is `Greater`
        ///
        /// ```text
        /// module _ {T X : Type 0} {scalar : Scalar.Ghosts T X} {size : FixedSize.Ghosts T} {x : BeByteArray.Ghosts X} where
        ///   abbrev IsSearched : ScalarArray T X scalar size x → (T → Ordering) → Result ℕ ℕ → Type 0
        ///   IsSearched array answer result = MatchResult result
        ///       (λ i. (i < array_len array)
        ///       × StoresOne scalar.is_scalar (λ v. x.bytes (scalar.raw_of v)) (element_bytes array i) (λ v. answer v ≡ Equal))
        ///       (λ i. (i ≤ array_len array) × (RisesAlong array answer → SplitsArray array answer i i))
        /// ```
        /// [`array_len`], [`StoresOne`], [`element_bytes`], [`RisesAlong`], [`SplitsArray`]
        pub mod IsSearched {}

        /// the index of the first element for which the test fails, or the length: if elements for which it holds are all
        /// before those for which it fails, it holds of every element before the index, and of none from there on
        ///
        /// ```text
        /// module _ {T X : Type 0} {scalar : Scalar.Ghosts T X} {size : FixedSize.Ghosts T} {x : BeByteArray.Ghosts X} where
        ///   abbrev IsPartitionPoint : ScalarArray T X scalar size x → (T → Bool) → ℕ → Type 0
        ///   IsPartitionPoint array before place = (place ≤ array_len array)
        ///       × (RisesAlong array (λ v. side (before v)) → SplitsArray array (λ v. side (before v)) place place)
        /// ```
        /// [`array_len`], [`RisesAlong`], [`side`], [`SplitsArray`]
        pub mod IsPartitionPoint {}
    }

    /// Big-endian fields.
    ///
    /// In the order of `crates/font_base/specs/BigEndian.antt`: [`raw_value`](mod@BigEndian_antt::raw_value).
    pub mod BigEndian_antt {
        /// the raw bytes of a field
        ///
        /// ```text
        /// abbrev raw_value : {T R X : Type 0} {scalar : Scalar.Ghosts T X} {size : FixedSize.Ghosts T}
        ///     {x : BeByteArray.Ghosts X} {r : BeByteArray.Ghosts R} → BigEndian T R X scalar size x r → R
        /// raw_value field = field.raw
        /// ```
        pub mod raw_value {}
    }

    /// Big-endian bytes: every number in a font file is stored with its most significant byte first.
    /// (OpenType, data types: "All OpenType fonts use Motorola-style byte ordering (Big Endian)")
    ///
    /// In the order of `crates/font_base/specs/Bytes.antt`: [`numeral`](mod@Bytes_antt::numeral), [`are_bytes`](mod@Bytes_antt::are_bytes), [`bytes_of`](mod@Bytes_antt::bytes_of), [`signed_numeral`](mod@Bytes_antt::signed_numeral).
    pub mod Bytes_antt {
        use crate::definitions::font_base::Wrap_antt::wrap;
        /// the unsigned integer with these big-endian bytes
        ///
        /// ```text
        /// abbrev numeral : List ℕ → ℕ
        /// numeral bytes = fold (λ n byte. n * 256 + byte) 0 bytes
        /// ```
        pub mod numeral {}

        /// the list has n elements, each below 256 (decidable)
        ///
        /// ```text
        /// abbrev are_bytes : ℕ → List ℕ → Bool
        /// are_bytes n bytes = (length bytes == n) && list_all (λ byte. nat_lt byte 256) bytes
        /// ```
        pub mod are_bytes {}

        /// the unique list with `IsBytesOf n v`
        ///
        /// ```text
        /// unfoldable bytes_of : ℕ → ℤ → List ℕ
        /// bytes_of n v = bytes_high_first n (unsigned_abs (int_rem_euclid v (pos (256 ^ n))))
        /// ```
        pub mod bytes_of {}

        /// the signed integer with these n bytes, in two's complement
        ///
        /// ```text
        /// unfoldable signed_numeral : ℕ → List ℕ → ℤ
        /// signed_numeral n bytes = wrap (8 * n) (pos (numeral bytes))
        /// ```
        /// [`wrap`], [`numeral`]
        pub mod signed_numeral {}
    }

    /// Consecutive elements of equal size.
    /// (OpenType, the tables' formats: arrays, as of `uint16` in `cmap` and of records in the table directory)
    ///
    /// In the order of `crates/font_base/specs/Elements.antt`: [`element`](mod@Elements_antt::element), [`elements`](mod@Elements_antt::elements), [`AreRaw`](mod@Elements_antt::AreRaw), [`IsStored`](mod@Elements_antt::IsStored), [`StoresOne`](mod@Elements_antt::StoresOne), [`Rises`](mod@Elements_antt::Rises), [`side`](mod@Elements_antt::side), [`Splits`](mod@Elements_antt::Splits).
    pub mod Elements_antt {
        /// the bytes of the element at an index, if each element has `size` bytes
        ///
        /// ```text
        /// abbrev element : ℕ → List ℕ → ℕ → List ℕ
        /// element size bytes i = take size (drop (i * size) bytes)
        /// ```
        pub mod element {}

        /// the bytes of each of n elements, in order
        ///
        /// ```text
        /// abbrev elements : ℕ → ℕ → List ℕ → List (List ℕ)
        /// elements size zero bytes = []
        /// elements size (suc n) bytes = take size bytes ∷ elements size n (drop size bytes)
        /// ```
        pub mod elements {}

        /// The raw bytes of the elements of an array: each is a value of `size` bytes, and there are none if that is 0.
        /// (own: bytes alone do not say how many elements of no bytes they hold)
        ///
        /// ```text
        /// record AreRaw {R : Type 0} (is_value : R → Bool) (bytes : R → List ℕ) (size : ℕ) (raw : List R) : Type 0 where
        ///   each : IsTrue (list_all (λ a. is_value a && (length (bytes a) == size)) raw)
        ///   none : size ≡ 0 → length raw ≡ 0
        /// ```
        pub mod AreRaw {}

        /// v is a value of its type, encoded as these bytes
        ///
        /// ```text
        /// record IsStored {V : Type 0} (is_scalar : V → Bool) (stored : V → List ℕ) (bytes : List ℕ) (v : V) : Type 0 where
        ///   bytes_are : stored v ≡ bytes
        ///   is_value : IsTrue (is_scalar v)
        /// ```
        pub mod IsStored {}

        /// the bytes encode a value with the property P
        ///
        /// ```text
        /// record StoresOne {V : Type 0} (is_scalar : V → Bool) (stored : V → List ℕ) (bytes : List ℕ)
        ///     (P : V → Type 0) : Type 0 where
        ///   value : V
        ///   is_stored : IsStored is_scalar stored bytes value
        ///   holds : P value
        /// ```
        /// [`IsStored`]
        pub mod StoresOne {}

        /// The comparisons of the n elements are sorted: `Less`, then `Equal`, then `Greater`. They are, for example, if the
        /// elements are sorted by a key, and each key is compared with one given key.
        ///
        /// ```text
        /// record Rises {V : Type 0} (is_scalar : V → Bool) (stored : V → List ℕ) (answer : V → Ordering)
        ///     (at : ℕ → List ℕ) (n : ℕ) : Type 0 where
        ///   keeps : (i j : ℕ) (v w : V) → i ≤ j → j < n → IsStored is_scalar stored (at i) v
        ///       → IsStored is_scalar stored (at j) w → ordering_index (answer v) ≤ ordering_index (answer w)
        /// ```
        /// [`IsStored`]
        pub mod Rises {}

        /// how an element compares in a search for the first one for which a test fails
        ///
        /// ```text
        /// abbrev side : Bool → Ordering
        /// side before = if before then Less else Greater
        /// ```
        pub mod side {}

        /// elements before `low` compare as `Less`, and those from `high` on as `Greater`
        ///
        /// ```text
        /// record Splits {V : Type 0} (is_scalar : V → Bool) (stored : V → List ℕ) (answer : V → Ordering)
        ///     (at : ℕ → List ℕ) (n low high : ℕ) : Type 0 where
        ///   less : (k : ℕ) (v : V) → k < low → IsStored is_scalar stored (at k) v → answer v ≡ Less
        ///   greater : (k : ℕ) (v : V) → high ≤ k → k < n → IsStored is_scalar stored (at k) v → answer v ≡ Greater
        /// ```
        /// [`IsStored`]
        pub mod Splits {}
    }

    /// 24-bit signed integers (OpenType, data types: int24).
    ///
    /// In the order of `crates/font_base/specs/Int24.antt`: [`int24_number`](mod@Int24_antt::int24_number), [`INT24_MIN`](mod@Int24_antt::INT24_MIN), [`INT24_MAX`](mod@Int24_antt::INT24_MAX), [`int24_of`](mod@Int24_antt::int24_of), [`int24_of_bytes`](mod@Int24_antt::int24_of_bytes), [`bytes_of_int24`](mod@Int24_antt::bytes_of_int24).
    pub mod Int24_antt {
        use crate::definitions::font_base::{
            Bytes_antt::{bytes_of, signed_numeral},
            Wrap_antt::wrap,
        };
        /// the value of an `Int24`
        ///
        /// ```text
        /// abbrev int24_number : Int24 → ℤ
        /// int24_number n = n.value
        /// ```
        pub mod int24_number {}

        /// the smallest value, -2^23, and the largest, 2^23 - 1
        ///
        /// ```text
        /// abbrev INT24_MIN : ℤ
        /// INT24_MIN = neg_ℤ (pos 8388608)
        /// ```
        pub mod INT24_MIN {}

        /// the smallest value, -2^23, and the largest, 2^23 - 1
        ///
        /// ```text
        /// abbrev INT24_MAX : ℤ
        /// INT24_MAX = pos 8388607
        /// ```
        pub mod INT24_MAX {}

        /// the `Int24` with this value, wrapped to 24 bits
        ///
        /// ```text
        /// unfoldable int24_of : ℤ → Int24
        /// int24_of z =
        ///     let fits = (wrap_is 24 z (lit< tt)).fits in record { value = wrap 24 z; low = fits.low; high = fits.high }
        /// ```
        /// [`wrap`]
        pub mod int24_of {}

        /// the `Int24` with these three bytes, and the bytes of an `Int24`
        ///
        /// ```text
        /// abbrev int24_of_bytes : List ℕ → Int24
        /// int24_of_bytes bytes = int24_of (signed_numeral 3 bytes)
        /// ```
        /// [`int24_of`], [`signed_numeral`]
        pub mod int24_of_bytes {}

        /// the `Int24` with these three bytes, and the bytes of an `Int24`
        ///
        /// ```text
        /// abbrev bytes_of_int24 : Int24 → List ℕ
        /// bytes_of_int24 n = bytes_of 3 (int24_number n)
        /// ```
        /// [`bytes_of`], [`int24_number`]
        pub mod bytes_of_int24 {}
    }

    /// The laws of a scalar: every value has one encoding.
    ///
    /// In the order of `crates/font_base/specs/Scalar.antt`: [`ScalarLaws`](mod@Scalar_antt::ScalarLaws), [`IsValueOf`](mod@Scalar_antt::IsValueOf).
    pub mod Scalar_antt {
        use crate::definitions::font_base::Bytes_antt::are_bytes;
        /// Decoding gives a value, encoding gives raw bytes, each is the inverse of the other, and the encoded size is that of
        /// the type. (own: a scalar can be read and written without loss)
        ///
        /// ```text
        /// record ScalarLaws {V R : Type 0} (is_scalar : V → Bool) (is_raw : R → Bool) (of_raw : R → V) (raw_of : V → R)
        ///     (raw_len byte_len : ℕ) : Type 0 where
        ///   of_raw_value : (r : R) → IsTrue (is_raw r) → IsTrue (is_scalar (of_raw r))
        ///   raw_of_value : (v : V) → IsTrue (is_scalar v) → IsTrue (is_raw (raw_of v))
        ///   back : (v : V) → IsTrue (is_scalar v) → of_raw (raw_of v) ≡ v
        ///   forth : (r : R) → IsTrue (is_raw r) → raw_of (of_raw r) ≡ r
        ///   lengths_agree : raw_len ≡ byte_len
        /// ```
        pub mod ScalarLaws {}

        /// v is the value with these bytes, each below 256
        ///
        /// ```text
        /// record IsValueOf {V R : Type 0} (bytes_of : R → List ℕ) (of_raw : R → V) (bytes : List ℕ) (v : V) : Type 0 where
        ///   raw : R
        ///   is_raw : bytes_of raw ≡ bytes
        ///   value : v ≡ of_raw raw
        ///   are : IsTrue (are_bytes (length bytes) bytes)
        /// ```
        /// [`are_bytes`]
        pub mod IsValueOf {}
    }

    /// Table data with a fixed-size header.
    ///
    /// In the order of `crates/font_base/specs/TableData.antt`: [`table_bytes`](mod@TableData_antt::table_bytes), [`IsSampleHeader`](mod@TableData_antt::IsSampleHeader).
    pub mod TableData_antt {
        use crate::definitions::font_base::BigEndian_antt::raw_value;
        /// the bytes of a table
        ///
        /// ```text
        /// abbrev table_bytes : {H : Type 0} {header : TableHeader.Ghosts H} → TableDataRef H header → List ℕ
        /// table_bytes table = table.data.now
        /// ```
        pub mod table_bytes {}

        /// the sample header with these bytes: `a` is the first two, `b` the others
        ///
        /// ```text
        /// record IsSampleHeader (bytes : List ℕ) (header : SampleHeader) : Type 0 where
        ///   a : raw_value header.a ≡ take 2 bytes
        ///   b : raw_value header.b ≡ drop 2 bytes
        /// ```
        /// [`raw_value`]
        pub mod IsSampleHeader {}
    }

    /// 24-bit unsigned integers (OpenType, data types: uint24).
    ///
    /// In the order of `crates/font_base/specs/Uint24.antt`: [`uint24_number`](mod@Uint24_antt::uint24_number), [`UINT24_MAX`](mod@Uint24_antt::UINT24_MAX), [`uint24_of`](mod@Uint24_antt::uint24_of), [`uint24_of_bytes`](mod@Uint24_antt::uint24_of_bytes), [`bytes_of_uint24`](mod@Uint24_antt::bytes_of_uint24).
    pub mod Uint24_antt {
        use crate::definitions::font_base::Bytes_antt::{bytes_of, numeral};
        /// the value of a `Uint24`
        ///
        /// ```text
        /// abbrev uint24_number : Uint24 → ℕ
        /// uint24_number n = n.value
        /// ```
        pub mod uint24_number {}

        /// the largest value, 2^24 - 1
        ///
        /// ```text
        /// abbrev UINT24_MAX : ℕ
        /// UINT24_MAX = 16777215
        /// ```
        pub mod UINT24_MAX {}

        /// the `Uint24` with this value, truncated to 24 bits
        ///
        /// ```text
        /// unfoldable uint24_of : ℕ → Uint24
        /// uint24_of n = record { value = n % 2 ^ 24; in_range = mod-lt n (lit< tt) }
        /// ```
        pub mod uint24_of {}

        /// the `Uint24` with these three bytes, and the bytes of a `Uint24`
        ///
        /// ```text
        /// abbrev uint24_of_bytes : List ℕ → Uint24
        /// uint24_of_bytes bytes = uint24_of (numeral bytes)
        /// ```
        /// [`uint24_of`], [`numeral`]
        pub mod uint24_of_bytes {}

        /// the `Uint24` with these three bytes, and the bytes of a `Uint24`
        ///
        /// ```text
        /// abbrev bytes_of_uint24 : Uint24 → List ℕ
        /// bytes_of_uint24 n = bytes_of 3 (pos (uint24_number n))
        /// ```
        /// [`bytes_of`], [`uint24_number`]
        pub mod bytes_of_uint24 {}
    }

    /// Wrapping: the low bits of an integer, as a signed integer in two's complement.
    ///
    /// In the order of `crates/font_base/specs/Wrap.antt`: [`half_range`](mod@Wrap_antt::half_range), [`FitsBits`](mod@Wrap_antt::FitsBits), [`fits_bits`](mod@Wrap_antt::fits_bits), [`wrap`](mod@Wrap_antt::wrap).
    pub mod Wrap_antt {
        /// half the number of values of `w` bits
        ///
        /// ```text
        /// abbrev half_range : ℕ → ℕ
        /// half_range w = 2 ^ (w - 1)
        /// ```
        pub mod half_range {}

        /// z is from -2^(w-1) to 2^(w-1) - 1, the range of a signed w-bit integer
        /// (OpenType, data types: int8, int16, int32 are signed integers in two's complement)
        ///
        /// ```text
        /// record FitsBits (w : ℕ) (z : ℤ) : Type 0 where
        ///   low : neg_ℤ (pos (half_range w)) ≤ℤ z
        ///   high : z <ℤ pos (half_range w)
        /// ```
        /// [`half_range`]
        pub mod FitsBits {}

        /// decidable form of `FitsBits`
        ///
        /// ```text
        /// abbrev fits_bits : ℕ → ℤ → Bool
        /// fits_bits w z = int_le (neg_ℤ (pos (half_range w))) z && int_lt z (pos (half_range w))
        /// ```
        /// [`half_range`]
        pub mod fits_bits {}

        /// the unique r with `IsWrapped w z r`
        ///
        /// ```text
        /// unfoldable wrap : ℕ → ℤ → ℤ
        /// wrap w z = int_rem_euclid (z +ℤ pos (half_range w)) (pos (2 ^ w)) -ℤ pos (half_range w)
        /// ```
        /// [`half_range`]
        pub mod wrap {}
    }
}

/// Definitions of the crate `font_fixed`.
pub mod font_fixed {
    /// 26.6 fixed-point numbers: the unit of scaled outlines, and not stored in any table.
    ///
    /// In the order of `crates/font_fixed/specs/F26Dot6.antt`: [`f26dot6_bits`](mod@F26Dot6_antt::f26dot6_bits).
    pub mod F26Dot6_antt {
        /// the raw value of an `F26Dot6`, its value times 2^6
        ///
        /// ```text
        /// abbrev f26dot6_bits : F26Dot6 → ℤ
        /// f26dot6_bits x = x.0
        /// ```
        pub mod f26dot6_bits {}
    }

    /// 2.14 fixed-point numbers (OpenType, data types: F2DOT14, "16-bit signed fixed number with the
    /// low 14 bits of fraction (2.14)").
    ///
    /// In the order of `crates/font_fixed/specs/F2Dot14.antt`: [`f2dot14_bits`](mod@F2Dot14_antt::f2dot14_bits).
    pub mod F2Dot14_antt {
        /// the raw value of an `F2Dot14`, its value times 2^14
        ///
        /// ```text
        /// abbrev f2dot14_bits : F2Dot14 → ℤ
        /// f2dot14_bits x = x.0
        /// ```
        pub mod f2dot14_bits {}
    }

    /// 2.30 fixed-point numbers. No table of OpenType stores them.
    ///
    /// In the order of `crates/font_fixed/specs/F2Dot30.antt`: [`f2dot30_bits`](mod@F2Dot30_antt::f2dot30_bits), [`f2dot30_of`](mod@F2Dot30_antt::f2dot30_of).
    pub mod F2Dot30_antt {
        /// the raw value of an `F2Dot30`, its value times 2^30
        ///
        /// ```text
        /// abbrev f2dot30_bits : F2Dot30 → ℤ
        /// f2dot30_bits x = x.0
        /// ```
        pub mod f2dot30_bits {}

        /// the `F2Dot30` with this raw value
        ///
        /// ```text
        /// abbrev f2dot30_of : ℤ → F2Dot30
        /// f2dot30_of bits = record { 0 = bits }
        /// ```
        pub mod f2dot30_of {}
    }

    /// 48.16 fixed-point numbers: wide enough for sums of deltas, and not stored in any table.
    ///
    /// In the order of `crates/font_fixed/specs/F48Dot16.antt`: [`f48dot16_bits`](mod@F48Dot16_antt::f48dot16_bits).
    pub mod F48Dot16_antt {
        /// the raw value of an `F48Dot16`, its value times 2^16
        ///
        /// ```text
        /// abbrev f48dot16_bits : F48Dot16 → ℤ
        /// f48dot16_bits x = x.0
        /// ```
        pub mod f48dot16_bits {}
    }

    /// 16.16 fixed-point numbers (OpenType, data types: Fixed, "32-bit signed fixed-point number (16.16)").
    ///
    /// In the order of `crates/font_fixed/specs/Fixed.antt`: [`fixed_bits`](mod@Fixed_antt::fixed_bits), [`fixed_of`](mod@Fixed_antt::fixed_of).
    pub mod Fixed_antt {
        /// the raw value of a `Fixed`, its value times 2^16
        ///
        /// ```text
        /// abbrev fixed_bits : Fixed → ℤ
        /// fixed_bits x = x.0
        /// ```
        pub mod fixed_bits {}

        /// the `Fixed` with this raw value
        ///
        /// ```text
        /// abbrev fixed_of : ℤ → Fixed
        /// fixed_of bits = record { 0 = bits }
        /// ```
        pub mod fixed_of {}
    }

    /// 16-bit fixed-point numbers with F fraction bits.
    ///
    /// In the order of `crates/font_fixed/specs/FixedI16.antt`: [`bits_of`](mod@FixedI16_antt::bits_of), [`of_bits`](mod@FixedI16_antt::of_bits), [`text_of`](mod@FixedI16_antt::text_of).
    pub mod FixedI16_antt {
        use crate::definitions::font_decimal::Shortest_antt::shortest_text;
        /// the raw value, the value times 2^F
        ///
        /// ```text
        /// abbrev bits_of : {F : ℕ} → FixedI16 F → ℤ
        /// bits_of x = x.0
        /// ```
        pub mod bits_of {}

        /// the number with this raw value
        ///
        /// ```text
        /// abbrev of_bits : {F : ℕ} → ℤ → FixedI16 F
        /// of_bits bits = record { 0 = bits }
        /// ```
        pub mod of_bits {}

        /// the printed text: the shortest decimal
        ///
        /// ```text
        /// abbrev text_of : {F : ℕ} → FixedI16 F → List ℕ
        /// text_of {F} x = shortest_text (bits_of x) F
        /// ```
        /// [`shortest_text`], [`bits_of`]
        pub mod text_of {}
    }

    /// 32-bit fixed-point numbers with F fraction bits.
    ///
    /// In the order of `crates/font_fixed/specs/FixedI32.antt`: [`bits_of`](mod@FixedI32_antt::bits_of), [`text_of`](mod@FixedI32_antt::text_of).
    pub mod FixedI32_antt {
        use crate::definitions::font_decimal::Shortest_antt::shortest_text;
        /// the raw value, the value times 2^F
        ///
        /// ```text
        /// abbrev bits_of : {F : ℕ} → FixedI32 F → ℤ
        /// bits_of x = x.0
        /// ```
        pub mod bits_of {}

        /// the printed text: the shortest decimal
        ///
        /// ```text
        /// abbrev text_of : {F : ℕ} → FixedI32 F → List ℕ
        /// text_of {F} x = shortest_text (bits_of x) F
        /// ```
        /// [`shortest_text`], [`bits_of`]
        pub mod text_of {}
    }

    /// 64-bit fixed-point numbers with F fraction bits.
    ///
    /// In the order of `crates/font_fixed/specs/FixedI64.antt`: [`bits_of`](mod@FixedI64_antt::bits_of), [`text_of`](mod@FixedI64_antt::text_of).
    pub mod FixedI64_antt {
        use crate::definitions::font_decimal::Shortest_antt::shortest_text;
        /// the raw value, the value times 2^F
        ///
        /// ```text
        /// abbrev bits_of : {F : ℕ} → FixedI64 F → ℤ
        /// bits_of x = x.0
        /// ```
        pub mod bits_of {}

        /// the printed text: the shortest decimal
        ///
        /// ```text
        /// abbrev text_of : {F : ℕ} → FixedI64 F → List ℕ
        /// text_of {F} x = shortest_text (bits_of x) F
        /// ```
        /// [`shortest_text`], [`bits_of`]
        pub mod text_of {}
    }

    /// How long a printed text can be.
    ///
    /// In the order of `crates/font_fixed/specs/Longest.antt`: [`longest`](mod@Longest_antt::longest).
    pub mod Longest_antt {
        /// the length of the longest text of a w-bit number with f fraction bits: a sign, the digits of the integer part, a
        /// point and the places
        ///
        /// ```text
        /// abbrev longest : ℕ → ℕ → ℕ
        /// longest w f = (f * 3 / 10 + 1) + 2 + ((w - 1 - f) * 3 / 10 + 1)
        /// ```
        pub mod longest {}
    }

    /// Laws of products and quotients of w-bit numbers with f fraction bits, over their raw values.
    ///
    /// In the order of `crates/font_fixed/specs/NumberLaws.antt`: [`OnFour`](mod@NumberLaws_antt::OnFour), [`OnThree`](mod@NumberLaws_antt::OnThree), [`ProductLaws`](mod@NumberLaws_antt::ProductLaws), [`ProductInOneStep`](mod@NumberLaws_antt::ProductInOneStep), [`QuotientLaws`](mod@NumberLaws_antt::QuotientLaws), [`QuotientInOneStep`](mod@NumberLaws_antt::QuotientInOneStep).
    pub mod NumberLaws_antt {
        use crate::definitions::font_fixed::Operations_antt::{IsMulDiv, IsProduct, IsQuotient};
        /// the list has four elements with this property
        ///
        /// ```text
        /// abbrev OnFour : {T : Type 0} → List T → (T → T → T → T → Type 0) → Type 0
        /// OnFour (a ∷ b ∷ c ∷ d ∷ []) P = P a b c d
        /// OnFour _ P = ⊥
        /// ```
        pub mod OnFour {}

        /// the list has three elements with this property
        ///
        /// ```text
        /// abbrev OnThree : {T : Type 0} → List T → (T → T → T → Type 0) → Type 0
        /// OnThree (a ∷ b ∷ c ∷ []) P = P a b c
        /// OnThree _ P = ⊥
        /// ```
        pub mod OnThree {}

        /// x * y, y * x and x * 1: multiplication commutes, and 1 is neutral
        ///
        /// ```text
        /// record ProductLaws (w f : ℕ) (x y product flipped by_one : ℤ) : Type 0 where
        ///   is_product : IsProduct w f x y product
        ///   is_flipped : IsProduct w f y x flipped
        ///   is_by_one : IsProduct w f x (pos (2 ^ f)) by_one
        ///   commutes : flipped ≡ product
        ///   one_is_neutral : by_one ≡ x
        /// ```
        /// [`IsProduct`]
        pub mod ProductLaws {}

        /// `mul_div(x, y, 1)` is the product
        ///
        /// ```text
        /// record ProductInOneStep (w f : ℕ) (x y product in_one_step : ℤ) : Type 0 where
        ///   is_in_one_step : IsMulDiv w x y (pos (2 ^ f)) in_one_step
        ///   steps_agree : in_one_step ≡ product
        /// ```
        /// [`IsMulDiv`]
        pub mod ProductInOneStep {}

        /// x / y, x / 1 and x / x: x / 1 is x, and x / x is 1 unless x is 0
        ///
        /// ```text
        /// record QuotientLaws (w f : ℕ) (x y quotient by_one by_itself : ℤ) : Type 0 where
        ///   is_quotient : IsQuotient w f x y quotient
        ///   is_by_one : IsQuotient w f x (pos (2 ^ f)) by_one
        ///   is_by_itself : IsQuotient w f x x by_itself
        ///   one_is_neutral : by_one ≡ x
        ///   itself_gives_one : x ≢ pos 0 → by_itself ≡ pos (2 ^ f)
        /// ```
        /// [`IsQuotient`]
        pub mod QuotientLaws {}

        /// `mul_div(x, 1, y)` is the quotient, even if y is 0
        ///
        /// ```text
        /// record QuotientInOneStep (w f : ℕ) (x y quotient in_one_step : ℤ) : Type 0 where
        ///   is_in_one_step : IsMulDiv w x (pos (2 ^ f)) y in_one_step
        ///   steps_agree : in_one_step ≡ quotient
        /// ```
        /// [`IsMulDiv`]
        pub mod QuotientInOneStep {}
    }

    /// The operations of fixed-point numbers, over their raw values. A w-bit number with f fraction bits is its raw value
    /// over 2^f (OpenType, data types: Fixed is 16.16, F2DOT14 is 2.14).
    ///
    /// In the order of `crates/font_fixed/specs/Operations.antt`: [`WrapsTo`](mod@Operations_antt::WrapsTo), [`wrapped_near`](mod@Operations_antt::wrapped_near), [`IsWrappedNear`](mod@Operations_antt::IsWrappedNear), [`narrowed`](mod@Operations_antt::narrowed), [`IsNarrowed`](mod@Operations_antt::IsNarrowed), [`nearest_whole`](mod@Operations_antt::nearest_whole), [`IsNearestWhole`](mod@Operations_antt::IsNearestWhole), [`fract_of`](mod@Operations_antt::fract_of), [`floor_of`](mod@Operations_antt::floor_of), [`IsFloor`](mod@Operations_antt::IsFloor), [`ceiling_of`](mod@Operations_antt::ceiling_of), [`IsCeiling`](mod@Operations_antt::IsCeiling), [`IsWrappedCeiling`](mod@Operations_antt::IsWrappedCeiling), [`IsFract`](mod@Operations_antt::IsFract), [`least`](mod@Operations_antt::least), [`greatest`](mod@Operations_antt::greatest), [`ReadsBits`](mod@Operations_antt::ReadsBits), [`IsTooFar`](mod@Operations_antt::IsTooFar), [`ParsesBits`](mod@Operations_antt::ParsesBits), [`clamp`](mod@Operations_antt::clamp), [`differ_in_sign`](mod@Operations_antt::differ_in_sign), [`IsProduct`](mod@Operations_antt::IsProduct), [`IsMulDiv`](mod@Operations_antt::IsMulDiv), [`IsQuotient`](mod@Operations_antt::IsQuotient), [`rounded_mul_div`](mod@Operations_antt::rounded_mul_div).
    pub mod Operations_antt {
        use crate::definitions::font_base::Wrap_antt::{FitsBits, half_range, wrap};
        use crate::definitions::font_decimal::{
            Near_antt::{Near, Near as near, Up, Up as up, signed},
            Reading_antt::{IsOutOfRange, Parses, Reads},
        };
        /// r is z wrapped to w bits: z itself, if it fits in them
        ///
        /// ```text
        /// abbrev WrapsTo : ℕ → ℤ → ℤ → Type 0
        /// WrapsTo w z r = (r ≡ wrap w z) × (FitsBits w z → r ≡ z)
        /// ```
        /// [`wrap`], [`FitsBits`]
        pub mod WrapsTo {}

        /// n / d rounded half away from zero and wrapped to w bits
        ///
        /// ```text
        /// abbrev wrapped_near : ℕ → ℤ → ℕ → ℤ
        /// wrapped_near w n d = wrap w (near n d)
        /// ```
        /// [`wrap`], [`near`]
        pub mod wrapped_near {}

        /// r is n / d rounded half away from zero and wrapped to w bits
        ///
        /// ```text
        /// record IsWrappedNear (w : ℕ) (n : ℤ) (d : ℕ) (r : ℤ) : Type 0 where
        ///   rounded : ℤ
        ///   nearest : Near n d rounded
        ///   wrapped : r ≡ wrap w rounded
        ///   is : r ≡ wrapped_near w n d
        /// ```
        /// [`Near`], [`wrap`], [`wrapped_near`]
        pub mod IsWrappedNear {}

        /// b / d rounded half up and wrapped to w bits
        ///
        /// ```text
        /// abbrev narrowed : ℕ → ℤ → ℕ → ℤ
        /// narrowed w b d = wrap w (up b d)
        /// ```
        /// [`wrap`], [`up`]
        pub mod narrowed {}

        /// r is b / d rounded half up and wrapped to w bits
        ///
        /// ```text
        /// record IsNarrowed (w : ℕ) (b : ℤ) (d : ℕ) (r : ℤ) : Type 0 where
        ///   rounded : ℤ
        ///   nearest : Up b d rounded
        ///   wrapped : r ≡ wrap w rounded
        ///   is : r ≡ narrowed w b d
        /// ```
        /// [`Up`], [`wrap`], [`narrowed`]
        pub mod IsNarrowed {}

        /// the raw value of b / 2^f rounded half up to an integer, wrapped to w bits
        ///
        /// ```text
        /// abbrev nearest_whole : ℕ → ℕ → ℤ → ℤ
        /// nearest_whole w f b = wrap w (up b (2 ^ f) *ℤ pos (2 ^ f))
        /// ```
        /// [`wrap`], [`up`]
        pub mod nearest_whole {}

        /// r is the raw value of b / 2^f rounded half up to an integer, wrapped to w bits
        ///
        /// ```text
        /// record IsNearestWhole (w f : ℕ) (b r : ℤ) : Type 0 where
        ///   whole : ℤ
        ///   nearest : Up b (2 ^ f) whole
        ///   wrapped : r ≡ wrap w (whole *ℤ pos (2 ^ f))
        ///   is : r ≡ nearest_whole w f b
        /// ```
        /// [`Up`], [`wrap`], [`nearest_whole`]
        pub mod IsNearestWhole {}

        /// the raw values of the fractional part of b / 2^f, and of its floor
        ///
        /// ```text
        /// unfoldable fract_of : ℕ → ℤ → ℤ
        /// fract_of f b = int_rem_euclid b (pos (2 ^ f))
        /// ```
        pub mod fract_of {}

        /// the raw values of the fractional part of b / 2^f, and of its floor
        ///
        /// ```text
        /// abbrev floor_of : ℕ → ℤ → ℤ
        /// floor_of f b = b -ℤ fract_of f b
        /// ```
        /// [`fract_of`]
        pub mod floor_of {}

        /// r is the raw value of the floor of b / 2^f
        ///
        /// ```text
        /// record IsFloor (f : ℕ) (b r : ℤ) : Type 0 where
        ///   whole : ℤ
        ///   bits : r ≡ (whole *ℤ pos (2 ^ f))
        ///   low : r ≤ℤ b
        ///   high : b <ℤ (r +ℤ pos (2 ^ f))
        ///   is : r ≡ floor_of f b
        /// ```
        /// [`floor_of`]
        pub mod IsFloor {}

        /// the raw value of the ceiling of b / 2^f
        ///
        /// ```text
        /// abbrev ceiling_of : ℕ → ℤ → ℤ
        /// ceiling_of f b = neg_ℤ (floor_of f (neg_ℤ b))
        /// ```
        /// [`floor_of`]
        pub mod ceiling_of {}

        /// r is the raw value of the ceiling of b / 2^f
        ///
        /// ```text
        /// record IsCeiling (f : ℕ) (b r : ℤ) : Type 0 where
        ///   whole : ℤ
        ///   bits : r ≡ (whole *ℤ pos (2 ^ f))
        ///   low : b ≤ℤ r
        ///   high : r <ℤ (b +ℤ pos (2 ^ f))
        ///   is : r ≡ ceiling_of f b
        /// ```
        /// [`ceiling_of`]
        pub mod IsCeiling {}

        /// r is the raw value of the ceiling of b / 2^f, wrapped to w bits
        ///
        /// ```text
        /// record IsWrappedCeiling (w f : ℕ) (b r : ℤ) : Type 0 where
        ///   ceiling : ℤ
        ///   is_ceiling : IsCeiling f b ceiling
        ///   wrapped : r ≡ wrap w ceiling
        /// ```
        /// [`IsCeiling`], [`wrap`]
        pub mod IsWrappedCeiling {}

        /// r is the raw value of the fractional part of b / 2^f
        ///
        /// ```text
        /// record IsFract (f : ℕ) (b r : ℤ) : Type 0 where
        ///   floor : ℤ
        ///   is_floor : IsFloor f b floor
        ///   rest : r ≡ (b -ℤ floor)
        ///   is : r ≡ fract_of f b
        /// ```
        /// [`IsFloor`], [`fract_of`]
        pub mod IsFract {}

        /// the smallest and largest w-bit integers
        ///
        /// ```text
        /// abbrev least : ℕ → ℤ
        /// least w = neg_ℤ (pos (half_range w))
        /// ```
        /// [`half_range`]
        pub mod least {}

        /// the smallest and largest w-bit integers
        ///
        /// ```text
        /// abbrev greatest : ℕ → ℤ
        /// greatest w = pos (half_range w - 1)
        /// ```
        /// [`half_range`]
        pub mod greatest {}

        /// the text parses as the w-bit raw value b with f fraction bits
        ///
        /// ```text
        /// abbrev ReadsBits : ℕ → ℕ → List ℕ → ℤ → Type 0
        /// ReadsBits w f text b = Reads text f (least w) (greatest w) b
        /// ```
        /// [`Reads`], [`least`], [`greatest`]
        pub mod ReadsBits {}

        /// the text is a decimal whose rounded raw value does not fit in w bits
        ///
        /// ```text
        /// abbrev IsTooFar : ℕ → ℕ → List ℕ → Type 0
        /// IsTooFar w f text = IsOutOfRange text f (least w) (greatest w)
        /// ```
        /// [`IsOutOfRange`], [`least`], [`greatest`]
        pub mod IsTooFar {}

        /// the result of parsing as a w-bit raw value with f fraction bits
        ///
        /// ```text
        /// abbrev ParsesBits : ℕ → ℕ → List ℕ → Result ℤ DecimalFault → Type 0
        /// ParsesBits w f text result = Parses text f (least w) (greatest w) result
        /// ```
        /// [`Parses`], [`least`], [`greatest`]
        pub mod ParsesBits {}

        /// z saturated to w bits
        ///
        /// ```text
        /// abbrev clamp : ℕ → ℤ → ℤ
        /// clamp w z = saturate_to_bits (w - 1) z
        /// ```
        pub mod clamp {}

        /// exactly one of two integers is negative
        ///
        /// ```text
        /// abbrev differ_in_sign : ℤ → ℤ → Bool
        /// differ_in_sign x y = if is_negative x then not (is_negative y) else is_negative y
        /// ```
        pub mod differ_in_sign {}

        /// r is the product of the raw values x and y: x * y / 2^f, rounded half away from zero and wrapped
        ///
        /// ```text
        /// abbrev IsProduct : ℕ → ℕ → ℤ → ℤ → ℤ → Type 0
        /// IsProduct w f x y r = IsWrappedNear w (x *ℤ y) (2 ^ f) r
        /// ```
        /// [`IsWrappedNear`]
        pub mod IsProduct {}

        /// r is x * a / c, rounded half away from zero and wrapped; if c is 0, the largest w-bit integer, negated if exactly one
        /// of x and a is negative
        ///
        /// ```text
        /// abbrev IsMulDiv : ℕ → ℤ → ℤ → ℤ → ℤ → Type 0
        /// IsMulDiv w x a (pos zero) r = r ≡ signed (differ_in_sign x a) (half_range w - 1)
        /// IsMulDiv w x a (pos (suc c)) r = IsWrappedNear w (x *ℤ a) (suc c) r
        /// IsMulDiv w x a (negsuc c) r = IsWrappedNear w (neg_ℤ (x *ℤ a)) (suc c) r
        /// ```
        /// [`signed`], [`differ_in_sign`], [`half_range`], [`IsWrappedNear`]
        pub mod IsMulDiv {}

        /// r is the quotient of the raw values x and y: x * 2^f / y, rounded half away from zero and wrapped; if y is 0, as in
        /// `IsMulDiv`
        ///
        /// ```text
        /// abbrev IsQuotient : ℕ → ℕ → ℤ → ℤ → ℤ → Type 0
        /// IsQuotient w f x y r = IsMulDiv w x (pos (2 ^ f)) y r
        /// ```
        /// [`IsMulDiv`]
        pub mod IsQuotient {}

        /// x * a / c of raw values, rounded once, half away from zero, for c other than 0
        ///
        /// ```text
        /// abbrev rounded_mul_div : ℤ → ℤ → ℤ → ℤ
        /// rounded_mul_div x a (pos c) = near (x *ℤ a) c
        /// rounded_mul_div x a (negsuc c) = near (neg_ℤ (x *ℤ a)) (suc c)
        /// ```
        /// [`near`]
        pub mod rounded_mul_div {}
    }

    /// Parsing a decimal as a value of a fixed-point type.
    ///
    /// In the order of `crates/font_fixed/specs/Reading.antt`: [`ParsesFixedPoint`](mod@Reading_antt::ParsesFixedPoint).
    pub mod Reading_antt {
        use crate::definitions::font_decimal::{
            Grammar_antt::IsNoDecimal, Shortest_antt::shortest_text,
        };
        use crate::definitions::font_fixed::Operations_antt::{IsTooFar, ParsesBits, ReadsBits};
        /// The result of parsing: the nearest value of the type with width w and f fraction bits; `Syntax` if the text is not a
        /// decimal; `OutOfRange` if its nearest value does not fit in the width. The printed text of a value parses as that
        /// value.
        ///
        /// ```text
        /// record ParsesFixedPoint {T : Type 0} (w : Width) (f : ℕ) (bits_of : T → ℤ) (text : List ℕ)
        ///     (result : Result T DecimalFault) : Type 0 where
        ///   ok : (x : T) → (result ≡ Ok x) ↔ ReadsBits (bits w) f text (bits_of x)
        ///   -- for proofs: forms of `ok`, and the printed text of a value
        ///   reads : IfOk result (λ x. ReadsBits (bits w) f text (bits_of x))
        ///   gives : ParsesBits (bits w) f text (result_map_both bits_of (λ fault. fault) result)
        ///   printed : (x : T) → FitsSigned w (bits_of x) → text ≡ shortest_text (bits_of x) f → result ≡ Ok x
        ///   -- the two errors
        ///   out_of_range : (result ≡ Err OutOfRange) ↔ IsTooFar (bits w) f text
        ///   syntax : (result ≡ Err Syntax) ↔ IsNoDecimal text
        /// ```
        /// [`ReadsBits`], [`ParsesBits`], [`shortest_text`], [`IsTooFar`], [`IsNoDecimal`]
        pub mod ParsesFixedPoint {}
    }

    /// Rounding a fixed-point number to an integer, half up: the raw value of that integer.
    ///
    /// In the order of `crates/font_fixed/specs/Rounding.antt`: [`rounded`](mod@Rounding_antt::rounded).
    pub mod Rounding_antt {
        use crate::definitions::font_decimal::Near_antt::Up as up;
        /// the raw value of the integer nearest to b / 2^f, half up
        ///
        /// ```text
        /// abbrev rounded : ℕ → ℤ → ℤ
        /// rounded f b = up b (2 ^ f) *ℤ pos (2 ^ f)
        /// ```
        /// [`up`]
        pub mod rounded {}
    }
}

/// Definitions of the crate `font_tags`.
pub mod font_tags {
    /// Dates and times (OpenType, data types: LONGDATETIME, "Date and time represented in number of seconds since 12:00
    /// midnight, January 1, 1904, UTC").
    ///
    /// In the order of `crates/font_tags/specs/LongDateTime.antt`: [`date_seconds`](mod@LongDateTime_antt::date_seconds), [`date_of`](mod@LongDateTime_antt::date_of).
    pub mod LongDateTime_antt {
        /// the seconds since 1904, negative before that, and the date with these seconds
        ///
        /// ```text
        /// abbrev date_seconds : LongDateTime → ℤ
        /// date_seconds date = date.0
        /// ```
        pub mod date_seconds {}

        /// the seconds since 1904, negative before that, and the date with these seconds
        ///
        /// ```text
        /// abbrev date_of : ℤ → LongDateTime
        /// date_of seconds = record { 0 = seconds }
        /// ```
        pub mod date_of {}
    }

    /// Four-byte tags (OpenType, data types: Tag, "Array of four uint8s (length = 32 bits) used to identify a table,
    /// design-variation axis, script, language system, feature, or baseline").
    ///
    /// In the order of `crates/font_tags/specs/Tag.antt`: [`tag_bytes`](mod@Tag_antt::tag_bytes), [`tag_of`](mod@Tag_antt::tag_of), [`four_spaces`](mod@Tag_antt::four_spaces), [`IsVisible`](mod@Tag_antt::IsVisible), [`IsGood`](mod@Tag_antt::IsGood), [`IsFault`](mod@Tag_antt::IsFault), [`IsTagLength`](mod@Tag_antt::IsTagLength), [`IsAcceptable`](mod@Tag_antt::IsAcceptable), [`filled`](mod@Tag_antt::filled), [`IsChecked`](mod@Tag_antt::IsChecked), [`IsValidated`](mod@Tag_antt::IsValidated), [`byte_text`](mod@Tag_antt::byte_text), [`tag_text`](mod@Tag_antt::tag_text).
    pub mod Tag_antt {
        /// the four bytes of a tag
        ///
        /// ```text
        /// abbrev tag_bytes : Tag → List ℕ
        /// tag_bytes tag = tag.0
        /// ```
        pub mod tag_bytes {}

        /// the tag with these bytes
        ///
        /// ```text
        /// abbrev tag_of : List ℕ → Tag
        /// tag_of bytes = record { 0 = bytes }
        /// ```
        pub mod tag_of {}

        /// four spaces, which mean no tag
        ///
        /// ```text
        /// abbrev four_spaces : List ℕ
        /// four_spaces = replicate 4 0x20
        /// ```
        pub mod four_spaces {}

        /// a printable byte other than the space
        /// (OpenType: the bytes of a tag are printable ASCII characters, from 0x20, the space, to 0x7E)
        ///
        /// ```text
        /// abbrev IsVisible : ℕ → Type 0
        /// IsVisible byte = (0x21 ≤ byte) × (byte ≤ 0x7E)
        /// ```
        pub mod IsVisible {}

        /// a valid list of bytes, of any length: one or more visible bytes, followed by any number of spaces
        /// (OpenType: a tag has one to four printable characters, padded with trailing spaces)
        ///
        /// ```text
        /// record IsGood (bytes : List ℕ) : Type 0 where
        ///   run : List ℕ
        ///   spaces : ℕ
        ///   nonempty : 0 < length run
        ///   visible : All IsVisible run
        ///   whole : bytes ≡ run ++ replicate spaces 0x20
        /// ```
        /// [`IsVisible`]
        pub mod IsGood {}

        /// the index of the first invalid byte: the least index such that the bytes up to and including it are not valid
        ///
        /// ```text
        /// record IsFault (bytes : List ℕ) (index : ℕ) : Type 0 where
        ///   within : index < length bytes
        ///   fails : ¬ IsGood (take (index + 1) bytes)
        ///   least : (i : ℕ) → i < index → IsGood (take (i + 1) bytes)
        /// ```
        /// [`IsGood`]
        pub mod IsFault {}

        /// a tag has one to four bytes
        ///
        /// ```text
        /// abbrev IsTagLength : ℕ → Type 0
        /// IsTagLength n = (0 < n) × (n ≤ 4)
        /// ```
        pub mod IsTagLength {}

        /// bytes from which a tag can be created
        ///
        /// ```text
        /// abbrev IsAcceptable : List ℕ → Type 0
        /// IsAcceptable bytes = IsTagLength (length bytes) × IsGood bytes
        /// ```
        /// [`IsTagLength`], [`IsGood`]
        pub mod IsAcceptable {}

        /// bytes padded to four with spaces
        ///
        /// ```text
        /// abbrev filled : List ℕ → List ℕ
        /// filled bytes = bytes ++ replicate (4 - length bytes) 0x20
        /// ```
        pub mod filled {}

        /// the result of `new_checked`: the length is checked first, and then the first invalid byte is `InvalidByte`, whatever
        /// it is
        ///
        /// ```text
        /// abbrev IsChecked : List ℕ → Result Tag InvalidTag → Type 0
        /// IsChecked bytes (Ok tag) = IsAcceptable bytes × (tag_bytes tag ≡ filled bytes)
        /// IsChecked bytes (Err (InvalidLength n)) = (¬ IsTagLength (length bytes)) × (n ≡ length bytes)
        /// IsChecked bytes (Err (InvalidByte index byte)) = IsTagLength (length bytes) × IsFault bytes index
        ///     × (byte ≡ slice_index bytes index)
        /// IsChecked bytes (Err (ByteAfterSpace index)) = ⊥
        /// ```
        /// [`IsAcceptable`], [`tag_bytes`], [`filled`], [`IsTagLength`], [`IsFault`]
        pub mod IsChecked {}

        /// the result of `validate`: four spaces have length 0, and if the first invalid byte is visible, it follows a space
        ///
        /// ```text
        /// abbrev IsValidated : List ℕ → Result (Unit {0}) InvalidTag → Type 0
        /// IsValidated bytes (Ok _) = IsGood bytes
        /// IsValidated bytes (Err (InvalidLength n)) = (bytes ≡ four_spaces) × (n ≡ 0)
        /// IsValidated bytes (Err (InvalidByte index byte)) = (bytes ≢ four_spaces) × IsFault bytes index × (¬ IsVisible byte)
        ///     × (byte ≡ slice_index bytes index)
        /// IsValidated bytes (Err (ByteAfterSpace index)) = IsFault bytes index × IsVisible (slice_index bytes index)
        /// ```
        /// [`IsGood`], [`four_spaces`], [`IsFault`], [`IsVisible`]
        pub mod IsValidated {}

        /// the text of a byte: 0x20 to 0x7E as it is, any other as `{0xNN}` with two uppercase hexadecimal digits (own)
        ///
        /// ```text
        /// abbrev byte_text : ℕ → List ℕ
        /// byte_text byte = if nat_le 0x20 byte && nat_le byte 0x7E then byte ∷ [] else codes "{0x" ++ digit_glyph true (byte / 16)
        ///     ∷ digit_glyph true (byte % 16) ∷ codes "}"
        /// ```
        pub mod byte_text {}

        /// the text of a tag
        ///
        /// ```text
        /// abbrev tag_text : List ℕ → List ℕ
        /// tag_text bytes = flat_map byte_text bytes
        /// ```
        /// [`byte_text`]
        pub mod tag_text {}
    }

    /// Table versions.
    ///
    /// In the order of `crates/font_tags/specs/Version.antt`: [`version_bits`](mod@Version_antt::version_bits), [`version_of`](mod@Version_antt::version_of), [`version_major`](mod@Version_antt::version_major), [`version_minor`](mod@Version_antt::version_minor), [`packed_version`](mod@Version_antt::packed_version), [`version_text`](mod@Version_antt::version_text), [`hex_text`](mod@Version_antt::hex_text), [`major_minor_bytes`](mod@Version_antt::major_minor_bytes), [`major_minor_of`](mod@Version_antt::major_minor_of), [`IsCompatible`](mod@Version_antt::IsCompatible).
    pub mod Version_antt {
        use crate::definitions::font_base::Bytes_antt::{bytes_of, numeral};
        /// the 32 bits of a version (OpenType, data types: Version16Dot16, "Packed 32-bit value with major and minor version
        /// numbers"), and the version with these bits
        ///
        /// ```text
        /// abbrev version_bits : Version16Dot16 → ℕ
        /// version_bits version = version.0
        /// ```
        pub mod version_bits {}

        /// the 32 bits of a version (OpenType, data types: Version16Dot16, "Packed 32-bit value with major and minor version
        /// numbers"), and the version with these bits
        ///
        /// ```text
        /// abbrev version_of : ℕ → Version16Dot16
        /// version_of bits = record { 0 = bits }
        /// ```
        pub mod version_of {}

        /// the major number, which is the high half of the bits, and the minor number, which is the highest four bits of the low
        /// half (OpenType, table version numbers: 0x00005000 is version 0.5, and 0x00011000 is version 1.1)
        ///
        /// ```text
        /// abbrev version_major : Version16Dot16 → ℕ
        /// version_major version = version_bits version / 65536
        /// ```
        /// [`version_bits`]
        pub mod version_major {}

        /// the major number, which is the high half of the bits, and the minor number, which is the highest four bits of the low
        /// half (OpenType, table version numbers: 0x00005000 is version 0.5, and 0x00011000 is version 1.1)
        ///
        /// ```text
        /// abbrev version_minor : Version16Dot16 → ℕ
        /// version_minor version = version_bits version % 65536 / 4096
        /// ```
        /// [`version_bits`]
        pub mod version_minor {}

        /// the bits of the version with these numbers; a minor number above 9 counts as 9
        ///
        /// ```text
        /// abbrev packed_version : ℕ → ℕ → ℕ
        /// packed_version major minor = major * 65536 + min minor 9 * 4096
        /// ```
        pub mod packed_version {}

        /// the text of a version: `major.minor`
        ///
        /// ```text
        /// abbrev version_text : ℕ → ℕ → List ℕ
        /// version_text major minor = decimal major ++ (codes "." ++ decimal minor)
        /// ```
        pub mod version_text {}

        /// 32 bits as eight lowercase hexadecimal digits, with leading zeros
        ///
        /// ```text
        /// abbrev hex_text : ℕ → List ℕ
        /// hex_text bits = let shown = digits 16 false bits in replicate (8 - length shown) 48 ++ shown
        /// ```
        pub mod hex_text {}

        /// the four bytes of a version, two for each number, the major number first; and the version with these bytes
        ///
        /// ```text
        /// abbrev major_minor_bytes : MajorMinor → List ℕ
        /// major_minor_bytes version = bytes_of 2 (pos version.major) ++ bytes_of 2 (pos version.minor)
        /// ```
        /// [`bytes_of`]
        pub mod major_minor_bytes {}

        /// the four bytes of a version, two for each number, the major number first; and the version with these bytes
        ///
        /// ```text
        /// abbrev major_minor_of : List ℕ → MajorMinor
        /// major_minor_of bytes = record { major = numeral (take 2 bytes); minor = numeral (drop 2 bytes) }
        /// ```
        /// [`numeral`]
        pub mod major_minor_of {}

        /// a table of this version has every field that a reader of the other needs: the major numbers are equal, and this minor
        /// number is at least the other's (own)
        ///
        /// ```text
        /// record IsCompatible (major minor other_major other_minor : ℕ) : Type 0 where
        ///   same_major : major ≡ other_major
        ///   minor_at_least : other_minor ≤ minor
        /// ```
        pub mod IsCompatible {}
    }
}

/// Definitions of the crate `font_ids`.
pub mod font_ids {
    /// Quantities in font design units.
    ///
    /// In the order of `crates/font_ids/specs/FWord.antt`: [`fword_number`](mod@FWord_antt::fword_number), [`fword_of`](mod@FWord_antt::fword_of), [`ufword_number`](mod@FWord_antt::ufword_number), [`ufword_of`](mod@FWord_antt::ufword_of), [`nearest_unit`](mod@FWord_antt::nearest_unit).
    pub mod FWord_antt {
        use crate::definitions::font_decimal::Near_antt::Up as up;
        /// the value of an `FWord` (OpenType, data types: FWORD, "int16 that describes a quantity in font design units"),
        /// and the `FWord` with this value
        ///
        /// ```text
        /// abbrev fword_number : FWord → ℤ
        /// fword_number word = word.0
        /// ```
        pub mod fword_number {}

        /// the value of an `FWord` (OpenType, data types: FWORD, "int16 that describes a quantity in font design units"),
        /// and the `FWord` with this value
        ///
        /// ```text
        /// abbrev fword_of : ℤ → FWord
        /// fword_of number = record { 0 = number }
        /// ```
        pub mod fword_of {}

        /// the same for `UfWord` (OpenType, data types: UFWORD, "uint16 that describes a quantity in font design units")
        ///
        /// ```text
        /// abbrev ufword_number : UfWord → ℕ
        /// ufword_number word = word.0
        /// ```
        pub mod ufword_number {}

        /// the same for `UfWord` (OpenType, data types: UFWORD, "uint16 that describes a quantity in font design units")
        ///
        /// ```text
        /// abbrev ufword_of : ℕ → UfWord
        /// ufword_of number = record { 0 = number }
        /// ```
        pub mod ufword_of {}

        /// a 16.16 raw value rounded half up to an integer
        ///
        /// ```text
        /// abbrev nearest_unit : ℤ → ℤ
        /// nearest_unit steps = up steps 65536
        /// ```
        /// [`up`]
        pub mod nearest_unit {}
    }

    /// Glyph ids (OpenType: the glyphs of a font are numbered from 0; ids are stored as uint16 or uint24).
    ///
    /// In the order of `crates/font_ids/specs/GlyphId.antt`: [`glyph16_number`](mod@GlyphId_antt::glyph16_number), [`glyph16_of`](mod@GlyphId_antt::glyph16_of), [`glyph24_number`](mod@GlyphId_antt::glyph24_number), [`glyph24_of`](mod@GlyphId_antt::glyph24_of), [`glyph_number`](mod@GlyphId_antt::glyph_number), [`refused_number`](mod@GlyphId_antt::refused_number), [`glyph_text`](mod@GlyphId_antt::glyph_text).
    pub mod GlyphId_antt {
        use crate::definitions::font_base::Uint24_antt::uint24_number;
        /// the number of a 16-bit glyph id, and the glyph id with this number
        ///
        /// ```text
        /// abbrev glyph16_number : GlyphId16 → ℕ
        /// glyph16_number id = id.0
        /// ```
        pub mod glyph16_number {}

        /// the number of a 16-bit glyph id, and the glyph id with this number
        ///
        /// ```text
        /// abbrev glyph16_of : ℕ → GlyphId16
        /// glyph16_of number = record { 0 = number }
        /// ```
        pub mod glyph16_of {}

        /// the number of a 24-bit glyph id, and the glyph id with this number
        ///
        /// ```text
        /// abbrev glyph24_number : GlyphId24 → ℕ
        /// glyph24_number id = uint24_number id.0
        /// ```
        /// [`uint24_number`]
        pub mod glyph24_number {}

        /// the number of a 24-bit glyph id, and the glyph id with this number
        ///
        /// ```text
        /// abbrev glyph24_of : Uint24 → GlyphId24
        /// glyph24_of number = record { 0 = number }
        /// ```
        pub mod glyph24_of {}

        /// the number of a 32-bit glyph id
        ///
        /// ```text
        /// abbrev glyph_number : GlyphId → ℕ
        /// glyph_number id = id.0
        /// ```
        pub mod glyph_number {}

        /// the number that was too large
        ///
        /// ```text
        /// abbrev refused_number : TryFromGlyphIdError → ℕ
        /// refused_number error = error.0
        /// ```
        pub mod refused_number {}

        /// the text of a glyph id: `GID_` and its number
        ///
        /// ```text
        /// abbrev glyph_text : ℕ → List ℕ
        /// glyph_text number = codes "GID_" ++ decimal number
        /// ```
        pub mod glyph_text {}
    }

    /// Name ids (OpenType, name IDs: 0 to 25 except 15 are predefined, those up to 255 are reserved, and 256 to 32767 are
    /// font-specific).
    ///
    /// In the order of `crates/font_ids/specs/NameId.antt`: [`name_number`](mod@NameId_antt::name_number), [`name_id_of`](mod@NameId_antt::name_id_of), [`names`](mod@NameId_antt::names), [`text_in`](mod@NameId_antt::text_in), [`name_text`](mod@NameId_antt::name_text), [`predefined_numbers`](mod@NameId_antt::predefined_numbers), [`predefined_left`](mod@NameId_antt::predefined_left), [`last_reserved`](mod@NameId_antt::last_reserved), [`last_allowed`](mod@NameId_antt::last_allowed).
    pub mod NameId_antt {
        /// the number of a name id, and the name id with this number
        ///
        /// ```text
        /// abbrev name_number : NameId → ℕ
        /// name_number id = id.0
        /// ```
        pub mod name_number {}

        /// the number of a name id, and the name id with this number
        ///
        /// ```text
        /// abbrev name_id_of : ℕ → NameId
        /// name_id_of number = record { 0 = number }
        /// ```
        pub mod name_id_of {}

        /// the predefined numbers, each with the name of its constant
        ///
        /// ```text
        /// abbrev names : List (ℕ × List ℕ)
        /// names =
        ///     (0, codes "COPYRIGHT_NOTICE") ∷ (1, codes "FAMILY_NAME") ∷ (2, codes "SUBFAMILY_NAME") ∷ (3, codes "UNIQUE_ID")
        ///     ∷ (4, codes "FULL_NAME")
        ///     ∷ (5, codes "VERSION_STRING") ∷ (6, codes "POSTSCRIPT_NAME") ∷ (7, codes "TRADEMARK") ∷ (8, codes "MANUFACTURER")
        ///     ∷ (9, codes "DESIGNER")
        ///     ∷ (10, codes "DESCRIPTION") ∷ (11, codes "VENDOR_URL") ∷ (12, codes "DESIGNER_URL")
        ///     ∷ (13, codes "LICENSE_DESCRIPTION") ∷ (14, codes "LICENSE_URL")
        ///     ∷ (16, codes "TYPOGRAPHIC_FAMILY_NAME") ∷ (17, codes "TYPOGRAPHIC_SUBFAMILY_NAME")
        ///     ∷ (18, codes "COMPATIBLE_FULL_NAME") ∷ (19, codes "SAMPLE_TEXT")
        ///     ∷ (20, codes "POSTSCRIPT_CID_NAME") ∷ (21, codes "WWS_FAMILY_NAME") ∷ (22, codes "WWS_SUBFAMILY_NAME")
        ///     ∷ (23, codes "LIGHT_BACKGROUND_PALETTE")
        ///     ∷ (24, codes "DARK_BACKGROUND_PALETTE") ∷ (25, codes "VARIATIONS_POSTSCRIPT_NAME_PREFIX") ∷ []
        /// ```
        pub mod names {}

        /// the name of a number in such a table, or `NameId` and the number if it is not in it
        ///
        /// ```text
        /// abbrev text_in : List (ℕ × List ℕ) → ℕ → List ℕ
        /// text_in [] number = codes "NameId " ++ decimal number
        /// text_in (row ∷ rows) number = if number == row.0 then row.1 else text_in rows number
        /// ```
        pub mod text_in {}

        /// the text of a name id
        ///
        /// ```text
        /// abbrev name_text : ℕ → List ℕ
        /// name_text number = text_in names number
        /// ```
        /// [`text_in`], [`names`]
        pub mod name_text {}

        /// the predefined numbers, in order
        ///
        /// ```text
        /// abbrev predefined_numbers : List ℕ
        /// predefined_numbers = map (λ row. row.0) names
        /// ```
        /// [`names`]
        pub mod predefined_numbers {}

        /// the ids that are left: those whose number is at least the next one
        ///
        /// ```text
        /// unfoldable predefined_left : Predefined → List NameId
        /// predefined_left ids = map name_id_of (filter (λ number. nat_le ids.next number) predefined_numbers)
        /// ```
        /// [`name_id_of`], [`predefined_numbers`]
        pub mod predefined_left {}

        /// the largest reserved number, and the largest that is allowed
        ///
        /// ```text
        /// abbrev last_reserved : ℕ
        /// last_reserved = 255
        /// ```
        pub mod last_reserved {}

        /// the largest reserved number, and the largest that is allowed
        ///
        /// ```text
        /// abbrev last_allowed : ℕ
        /// last_allowed = 32767
        /// ```
        pub mod last_allowed {}
    }

    /// Offsets to tables (OpenType, data types: Offset16, Offset24 and Offset32 are offsets to a table, same as uint16,
    /// uint24 and uint32, and zero is the NULL offset).
    ///
    /// In the order of `crates/font_ids/specs/Offset.antt`: [`offset16_number`](mod@Offset_antt::offset16_number), [`offset16_of`](mod@Offset_antt::offset16_of), [`offset24_number`](mod@Offset_antt::offset24_number), [`offset24_of`](mod@Offset_antt::offset24_of), [`offset32_number`](mod@Offset_antt::offset32_number), [`offset32_of`](mod@Offset_antt::offset32_of), [`nullable_offset`](mod@Offset_antt::nullable_offset), [`nullable_of`](mod@Offset_antt::nullable_of).
    pub mod Offset_antt {
        use crate::definitions::font_base::Uint24_antt::uint24_number;
        /// the number of an offset, and the offset with this number
        ///
        /// ```text
        /// abbrev offset16_number : Offset16 → ℕ
        /// offset16_number offset = offset.0
        /// ```
        pub mod offset16_number {}

        /// the number of an offset, and the offset with this number
        ///
        /// ```text
        /// abbrev offset16_of : ℕ → Offset16
        /// offset16_of number = record { 0 = number }
        /// ```
        pub mod offset16_of {}

        /// the number of an offset, and the offset with this number
        ///
        /// ```text
        /// abbrev offset24_number : Offset24 → ℕ
        /// offset24_number offset = uint24_number offset.0
        /// ```
        /// [`uint24_number`]
        pub mod offset24_number {}

        /// the number of an offset, and the offset with this number
        ///
        /// ```text
        /// abbrev offset24_of : Uint24 → Offset24
        /// offset24_of number = record { 0 = number }
        /// ```
        pub mod offset24_of {}

        /// the number of an offset, and the offset with this number
        ///
        /// ```text
        /// abbrev offset32_number : Offset32 → ℕ
        /// offset32_number offset = offset.0
        /// ```
        pub mod offset32_number {}

        /// the number of an offset, and the offset with this number
        ///
        /// ```text
        /// abbrev offset32_of : ℕ → Offset32
        /// offset32_of number = record { 0 = number }
        /// ```
        pub mod offset32_of {}

        /// the offset of a `Nullable`, and the `Nullable` of an offset
        ///
        /// ```text
        /// abbrev nullable_offset : {T : Type 0} → Nullable T → T
        /// nullable_offset nullable = nullable.0
        /// ```
        pub mod nullable_offset {}

        /// the offset of a `Nullable`, and the `Nullable` of an offset
        ///
        /// ```text
        /// abbrev nullable_of : {T : Type 0} → T → Nullable T
        /// nullable_of offset = record { 0 = offset }
        /// ```
        pub mod nullable_of {}
    }
}

/// Definitions of the crate `font_geom`.
pub mod font_geom {
    /// Axis-aligned bounding boxes.
    ///
    /// In the order of `crates/font_geom/specs/BoundingBox.antt`: [`CanScale`](mod@BoundingBox_antt::CanScale), [`IsScaled`](mod@BoundingBox_antt::IsScaled), [`is_normalized`](mod@BoundingBox_antt::is_normalized), [`normalized_box`](mod@BoundingBox_antt::normalized_box), [`IsSamePair`](mod@BoundingBox_antt::IsSamePair), [`HasSamePairs`](mod@BoundingBox_antt::HasSamePairs), [`ComparesPair`](mod@BoundingBox_antt::ComparesPair), [`Compares`](mod@BoundingBox_antt::Compares).
    pub mod BoundingBox_antt {
        /// each coordinate may be multiplied by the factor
        ///
        /// ```text
        /// record CanScale {T : Type 0} (can_multiply : T → T → Type 0) (box : BoundingBox T) (factor : T) : Type 0 where
        ///   x_min : can_multiply box.x_min factor
        ///   y_min : can_multiply box.y_min factor
        ///   x_max : can_multiply box.x_max factor
        ///   y_max : can_multiply box.y_max factor
        /// ```
        pub mod CanScale {}

        /// each coordinate of `scaled` is the product of the coordinate and the factor
        ///
        /// ```text
        /// record IsScaled {T : Type 0} (product : T → T → T → Type 0) (box : BoundingBox T) (factor : T)
        ///     (scaled : BoundingBox T) : Type 0 where
        ///   x_min : product box.x_min factor scaled.x_min
        ///   y_min : product box.y_min factor scaled.y_min
        ///   x_max : product box.x_max factor scaled.x_max
        ///   y_max : product box.y_max factor scaled.y_max
        /// ```
        pub mod IsScaled {}

        /// `le` is true for both pairs
        ///
        /// ```text
        /// abbrev is_normalized : {T : Type 0} → (T → T → Bool) → BoundingBox T → Bool
        /// is_normalized le box = le box.x_min box.x_max && le box.y_min box.y_max
        /// ```
        pub mod is_normalized {}

        /// each pair is swapped unless `le` is true for it
        ///
        /// ```text
        /// abbrev normalized_box : {T : Type 0} → (T → T → Bool) → BoundingBox T → BoundingBox T
        /// normalized_box le box = record {
        ///   x_min = if le box.x_min box.x_max then box.x_min else box.x_max;
        ///   y_min = if le box.y_min box.y_max then box.y_min else box.y_max;
        ///   x_max = if le box.x_min box.x_max then box.x_max else box.x_min;
        ///   y_max = if le box.y_min box.y_max then box.y_max else box.y_min;
        /// }
        /// ```
        pub mod normalized_box {}

        /// a and b are c and d, in either order
        ///
        /// ```text
        /// abbrev IsSamePair : {T : Type 0} → T → T → T → T → Type 0
        /// IsSamePair a b c d = ((a ≡ c) × (b ≡ d)) ⊎ ((a ≡ d) × (b ≡ c))
        /// ```
        pub mod IsSamePair {}

        /// both pairs have the same values as before
        ///
        /// ```text
        /// record HasSamePairs {T : Type 0} (old new : BoundingBox T) : Type 0 where
        ///   on_x : IsSamePair new.x_min new.x_max old.x_min old.x_max
        ///   on_y : IsSamePair new.y_min new.y_max old.y_min old.y_max
        /// ```
        /// [`IsSamePair`]
        pub mod HasSamePairs {}

        /// `le` is true for a and b, in either order
        ///
        /// ```text
        /// abbrev ComparesPair : {T : Type 0} → (T → T → Bool) → T → T → Type 0
        /// ComparesPair le a b = IsTrue (le a b) ⊎ IsTrue (le b a)
        /// ```
        pub mod ComparesPair {}

        /// both pairs compare
        ///
        /// ```text
        /// record Compares {T : Type 0} (le : T → T → Bool) (box : BoundingBox T) : Type 0 where
        ///   on_x : ComparesPair le box.x_min box.x_max
        ///   on_y : ComparesPair le box.y_min box.y_max
        /// ```
        /// [`ComparesPair`]
        pub mod Compares {}
    }

    /// A function that is called on each element of a list, in order, and may change its state.
    ///
    /// In the order of `crates/font_geom/specs/Calls.antt`: [`CanCallEach`](mod@Calls_antt::CanCallEach), [`CallsEach`](mod@Calls_antt::CallsEach).
    pub mod Calls_antt {
        /// in the state f it may be called on each of these, in order: `pre f x` means that it may be called on x, and
        /// `step f x y g` that the call may return y and leave the state g
        ///
        /// ```text
        /// abbrev CanCallEach : {F A B : Type 0} → (F → A → Type 0) → (F → A → B → F → Type 0) → F → List A → Type 0
        /// CanCallEach pre step f [] = ⊤
        /// CanCallEach {F} {A} {B} pre step f (x ∷ xs) = pre f x × ((y : B) (g : F) → step f x y g → CanCallEach pre step g xs)
        /// ```
        pub mod CanCallEach {}

        /// calls on each element of the first list, in order, returned the second
        ///
        /// ```text
        /// abbrev CallsEach : {F A B : Type 0} → (F → A → B → F → Type 0) → F → List A → List B → Type 0
        /// CallsEach step f [] [] = ⊤
        /// CallsEach step f [] (y ∷ ys) = ⊥
        /// CallsEach step f (x ∷ xs) [] = ⊥
        /// CallsEach {F} step f (x ∷ xs) (y ∷ ys) = (g : F) × step f x y g × CallsEach step g xs ys
        /// ```
        pub mod CallsEach {}
    }

    /// Matrices of `Fixed`, over their raw values (OpenType, data types: Fixed is 16.16), and the distance of a transformed
    /// point from its exact image.
    ///
    /// In the order of `crates/font_geom/specs/FixedMatrix.antt`: [`matrix_bits`](mod@FixedMatrix_antt::matrix_bits), [`point_bits`](mod@FixedMatrix_antt::point_bits), [`bits_of_point`](mod@FixedMatrix_antt::bits_of_point), [`rounded_product`](mod@FixedMatrix_antt::rounded_product), [`rounded_image`](mod@FixedMatrix_antt::rounded_image), [`rounded_matrix_product`](mod@FixedMatrix_antt::rounded_matrix_product), [`wrapped_product`](mod@FixedMatrix_antt::wrapped_product), [`wrapped_sum`](mod@FixedMatrix_antt::wrapped_sum), [`fixed_product`](mod@FixedMatrix_antt::fixed_product), [`ProductsAssociate`](mod@FixedMatrix_antt::ProductsAssociate), [`FitsPoint`](mod@FixedMatrix_antt::FitsPoint), [`FitsComposed`](mod@FixedMatrix_antt::FitsComposed), [`FitsInTurn`](mod@FixedMatrix_antt::FitsInTurn), [`exact_row`](mod@FixedMatrix_antt::exact_row), [`IsCloseImage`](mod@FixedMatrix_antt::IsCloseImage), [`exact_coordinate`](mod@FixedMatrix_antt::exact_coordinate), [`exact_image`](mod@FixedMatrix_antt::exact_image), [`IsWithin`](mod@FixedMatrix_antt::IsWithin), [`IsCloseComposed`](mod@FixedMatrix_antt::IsCloseComposed), [`IsCloseInTurn`](mod@FixedMatrix_antt::IsCloseInTurn).
    pub mod FixedMatrix_antt {
        use crate::definitions::font_base::Wrap_antt::{FitsBits, wrap};
        use crate::definitions::font_decimal::Near_antt::Near as near;
        use crate::definitions::font_fixed::{
            Fixed_antt::{fixed_bits, fixed_of},
            FixedI32_antt::bits_of,
        };
        use crate::definitions::font_geom::Matrix_antt::{FitsEach, image_of, matrix_product};
        /// the raw value of each element, and of each coordinate
        ///
        /// ```text
        /// abbrev matrix_bits : Matrix Fixed → Matrix ℤ
        /// matrix_bits m = record {
        ///   xx = fixed_bits m.xx;
        ///   yx = fixed_bits m.yx;
        ///   xy = fixed_bits m.xy;
        ///   yy = fixed_bits m.yy;
        ///   dx = fixed_bits m.dx;
        ///   dy = fixed_bits m.dy;
        /// }
        /// ```
        /// [`fixed_bits`]
        pub mod matrix_bits {}

        /// the raw value of each element, and of each coordinate
        ///
        /// ```text
        /// abbrev point_bits : Point Fixed → Point ℤ
        /// point_bits p = record { x = fixed_bits p.x; y = fixed_bits p.y }
        /// ```
        /// [`fixed_bits`]
        pub mod point_bits {}

        /// the same of a point of any format of 32 bits
        ///
        /// ```text
        /// abbrev bits_of_point : {F : ℕ} → Point (FixedI32 F) → Point ℤ
        /// bits_of_point p = record { x = bits_of p.x; y = bits_of p.y }
        /// ```
        /// [`bits_of`]
        pub mod bits_of_point {}

        /// the product of two raw values, rounded half away from zero, and not wrapped
        ///
        /// ```text
        /// abbrev rounded_product : ℤ → ℤ → ℤ
        /// rounded_product x y = near (x *ℤ y) 65536
        /// ```
        /// [`near`]
        pub mod rounded_product {}

        /// the image of a point and the product of two matrices, as exact sums of rounded products: nothing is wrapped
        ///
        /// ```text
        /// abbrev rounded_image : Matrix ℤ → Point ℤ → Point ℤ
        /// rounded_image m p = image_of ◌+ℤ◌ rounded_product m p
        /// ```
        /// [`image_of`], [`rounded_product`]
        pub mod rounded_image {}

        /// the image of a point and the product of two matrices, as exact sums of rounded products: nothing is wrapped
        ///
        /// ```text
        /// abbrev rounded_matrix_product : Matrix ℤ → Matrix ℤ → Matrix ℤ
        /// rounded_matrix_product a b = matrix_product ◌+ℤ◌ rounded_product a b
        /// ```
        /// [`matrix_product`], [`rounded_product`]
        pub mod rounded_matrix_product {}

        /// the results of `*` and `+`: the rounded product and the sum, each wrapped to 32 bits
        ///
        /// ```text
        /// abbrev wrapped_product : ℤ → ℤ → ℤ
        /// wrapped_product x y = wrap 32 (rounded_product x y)
        /// ```
        /// [`wrap`], [`rounded_product`]
        pub mod wrapped_product {}

        /// the results of `*` and `+`: the rounded product and the sum, each wrapped to 32 bits
        ///
        /// ```text
        /// abbrev wrapped_sum : ℤ → ℤ → ℤ
        /// wrapped_sum x y = wrap 32 (x +ℤ y)
        /// ```
        /// [`wrap`]
        pub mod wrapped_sum {}

        /// the result of `*`, as a `Fixed`
        ///
        /// ```text
        /// abbrev fixed_product : Fixed → Fixed → Fixed
        /// fixed_product x y = fixed_of (wrapped_product (fixed_bits x) (fixed_bits y))
        /// ```
        /// [`fixed_of`], [`wrapped_product`], [`fixed_bits`]
        pub mod fixed_product {}

        /// products are associative, as in a ring; those of `Fixed` are not
        ///
        /// ```text
        /// abbrev ProductsAssociate : Type 0
        /// ProductsAssociate = (x y z : Fixed) → fixed_product (fixed_product x y) z ≡ fixed_product x (fixed_product y z)
        /// ```
        /// [`fixed_product`]
        pub mod ProductsAssociate {}

        /// both coordinates fit in 32 bits
        ///
        /// ```text
        /// record FitsPoint (p : Point ℤ) : Type 0 where
        ///   x : FitsBits 32 p.x
        ///   y : FitsBits 32 p.y
        /// ```
        /// [`FitsBits`]
        pub mod FitsPoint {}

        /// every entry of a * b and every coordinate of (a * b) * p fits in 32 bits, as the exact sum of rounded products
        ///
        /// ```text
        /// record FitsComposed (a b : Matrix ℤ) (p : Point ℤ) : Type 0 where
        ///   product : FitsEach (FitsBits 32) (matrix_product ◌+ℤ◌ rounded_product a b)
        ///   image : FitsPoint (image_of ◌+ℤ◌ rounded_product (matrix_product ◌+ℤ◌ rounded_product a b) p)
        /// ```
        /// [`FitsEach`], [`FitsBits`], [`matrix_product`], [`rounded_product`], [`FitsPoint`], [`image_of`]
        pub mod FitsComposed {}

        /// every coordinate of b * p and of a * (b * p) fits in 32 bits, as the exact sum of rounded products
        ///
        /// ```text
        /// record FitsInTurn (a b : Matrix ℤ) (p : Point ℤ) : Type 0 where
        ///   first : FitsPoint (image_of ◌+ℤ◌ rounded_product b p)
        ///   image : FitsPoint (image_of ◌+ℤ◌ rounded_product a (image_of ◌+ℤ◌ rounded_product b p))
        /// ```
        /// [`FitsPoint`], [`image_of`], [`rounded_product`]
        pub mod FitsInTurn {}

        /// 2^16 times the exact coordinate, as a raw value, of the point p by the row (u, v, d) of a matrix
        ///
        /// ```text
        /// abbrev exact_row : ℤ → ℤ → ℤ → Point ℤ → ℤ
        /// exact_row u v d p = (u *ℤ p.x) +ℤ (v *ℤ p.y) +ℤ (pos 65536 *ℤ d)
        /// ```
        pub mod exact_row {}

        /// the bound for a * p: one unit of the raw value
        ///
        /// ```text
        /// record IsCloseImage (a : Matrix ℤ) (p moved : Point ℤ) : Type 0 where
        ///   x : unsigned_abs ((pos 65536 *ℤ moved.x) -ℤ exact_row a.xx a.xy a.dx p) ≤ 65536
        ///   y : unsigned_abs ((pos 65536 *ℤ moved.y) -ℤ exact_row a.yx a.yy a.dy p) ≤ 65536
        /// ```
        /// [`exact_row`]
        pub mod IsCloseImage {}

        /// 2^32 times the exact coordinate, as a raw value, of the point p after b and then the row (u, v, d) of another matrix
        ///
        /// ```text
        /// abbrev exact_coordinate : ℤ → ℤ → ℤ → Matrix ℤ → Point ℤ → ℤ
        /// exact_coordinate u v d b p =
        ///     (u *ℤ ((b.xx *ℤ p.x) +ℤ (b.xy *ℤ p.y) +ℤ (pos 65536 *ℤ b.dx)))
        ///     +ℤ (v *ℤ ((b.yx *ℤ p.x) +ℤ (b.yy *ℤ p.y) +ℤ (pos 65536 *ℤ b.dy)))
        ///     +ℤ (pos (2 ^ 32) *ℤ d)
        /// ```
        pub mod exact_coordinate {}

        /// 2^32 times the exact image of p, as raw values, after b and then a
        ///
        /// ```text
        /// abbrev exact_image : Matrix ℤ → Matrix ℤ → Point ℤ → Point ℤ
        /// exact_image a b p = record { x = exact_coordinate a.xx a.xy a.dx b p; y = exact_coordinate a.yx a.yy a.dy b p }
        /// ```
        /// [`exact_coordinate`]
        pub mod exact_image {}

        /// the raw coordinate is within e / 2^32 of the exact one
        ///
        /// ```text
        /// abbrev IsWithin : ℕ → ℤ → ℤ → Type 0
        /// IsWithin e exact coordinate = unsigned_abs ((pos (2 ^ 32) *ℤ coordinate) -ℤ exact) ≤ e
        /// ```
        pub mod IsWithin {}

        /// the bound for (a * b) * p: (|x| + |y|) / 65536 + 2, in units of the raw value
        ///
        /// ```text
        /// record IsCloseComposed (a b : Matrix ℤ) (p moved : Point ℤ) : Type 0 where
        ///   x : IsWithin (65536 * (unsigned_abs p.x + unsigned_abs p.y + 2 * 65536)) (exact_image a b p).x moved.x
        ///   y : IsWithin (65536 * (unsigned_abs p.x + unsigned_abs p.y + 2 * 65536)) (exact_image a b p).y moved.y
        /// ```
        /// [`IsWithin`], [`exact_image`]
        pub mod IsCloseComposed {}

        /// the bound for a * (b * p): the sum of the magnitudes of the linear entries of a's row over 65536, plus 1
        ///
        /// ```text
        /// record IsCloseInTurn (a b : Matrix ℤ) (p moved : Point ℤ) : Type 0 where
        ///   x : IsWithin (65536 * (unsigned_abs a.xx + unsigned_abs a.xy + 65536)) (exact_image a b p).x moved.x
        ///   y : IsWithin (65536 * (unsigned_abs a.yx + unsigned_abs a.yy + 65536)) (exact_image a b p).y moved.y
        /// ```
        /// [`IsWithin`], [`exact_image`]
        pub mod IsCloseInTurn {}
    }

    /// Affine transformations of the plane, over any element type.
    ///
    /// In the order of `crates/font_geom/specs/Matrix.antt`: [`elements_of`](mod@Matrix_antt::elements_of), [`FitsEach`](mod@Matrix_antt::FitsEach), [`identity_matrix`](mod@Matrix_antt::identity_matrix), [`IsLinearForm`](mod@Matrix_antt::IsLinearForm), [`IsAffineForm`](mod@Matrix_antt::IsAffineForm), [`IsTransformed`](mod@Matrix_antt::IsTransformed), [`IsProductOf`](mod@Matrix_antt::IsProductOf), [`CanTakeLinearForm`](mod@Matrix_antt::CanTakeLinearForm), [`CanTakeAffineForm`](mod@Matrix_antt::CanTakeAffineForm), [`CanTransform`](mod@Matrix_antt::CanTransform), [`CanMultiply`](mod@Matrix_antt::CanMultiply), [`linear_form`](mod@Matrix_antt::linear_form), [`affine_form`](mod@Matrix_antt::affine_form), [`image_of`](mod@Matrix_antt::image_of), [`matrix_product`](mod@Matrix_antt::matrix_product).
    pub mod Matrix_antt {
        /// the elements in the order of `elements`
        ///
        /// ```text
        /// abbrev elements_of : {T : Type 0} → Matrix T → List T
        /// elements_of m = m.xx ∷ m.yx ∷ m.xy ∷ m.yy ∷ m.dx ∷ m.dy ∷ []
        /// ```
        pub mod elements_of {}

        /// each element has the property
        ///
        /// ```text
        /// record FitsEach {T : Type 0} (fits : T → Type 0) (m : Matrix T) : Type 0 where
        ///   xx : fits m.xx
        ///   yx : fits m.yx
        ///   xy : fits m.xy
        ///   yy : fits m.yy
        ///   dx : fits m.dx
        ///   dy : fits m.dy
        /// ```
        pub mod FitsEach {}

        /// the identity matrix
        ///
        /// ```text
        /// abbrev identity_matrix : {T : Type 0} → T → T → Matrix T
        /// identity_matrix zero one = record { xx = one; yx = zero; xy = zero; yy = one; dx = zero; dy = zero }
        /// ```
        pub mod identity_matrix {}

        /// r is p * x + q * y
        ///
        /// ```text
        /// module _ {T : Type 0} (product sum : T → T → T → Type 0) where
        ///   record IsLinearForm (p x q y r : T) : Type 0 where
        ///     first : T
        ///     second : T
        ///     is_first : product p x first
        ///     is_second : product q y second
        ///     is_sum : sum first second r
        /// ```
        pub mod IsLinearForm {}

        /// r is p * x + q * y + d, added from left to right
        ///
        /// ```text
        /// module _ {T : Type 0} (product sum : T → T → T → Type 0) where
        ///   record IsAffineForm (p x q y d r : T) : Type 0 where
        ///     linear : T
        ///     is_linear : IsLinearForm p x q y linear
        ///     is_sum : sum linear d r
        /// ```
        /// [`IsLinearForm`]
        pub mod IsAffineForm {}

        /// m transforms the point (x, y) to (x', y')
        ///
        /// ```text
        /// module _ {T : Type 0} (product sum : T → T → T → Type 0) where
        ///   record IsTransformed (m : Matrix T) (x y x' y' : T) : Type 0 where
        ///     on_x : IsAffineForm m.xx x m.xy y m.dx x'
        ///     on_y : IsAffineForm m.yx x m.yy y m.dy y'
        /// ```
        /// [`IsAffineForm`]
        pub mod IsTransformed {}

        /// c is the product a * b, which applies b first, then a
        ///
        /// ```text
        /// module _ {T : Type 0} (product sum : T → T → T → Type 0) where
        ///   record IsProductOf (a b c : Matrix T) : Type 0 where
        ///     xx : IsLinearForm a.xx b.xx a.xy b.yx c.xx
        ///     yx : IsLinearForm a.yx b.xx a.yy b.yx c.yx
        ///     xy : IsLinearForm a.xx b.xy a.xy b.yy c.xy
        ///     yy : IsLinearForm a.yx b.xy a.yy b.yy c.yy
        ///     dx : IsAffineForm a.xx b.dx a.xy b.dy a.dx c.dx
        ///     dy : IsAffineForm a.yx b.dx a.yy b.dy a.dy c.dy
        /// ```
        /// [`IsLinearForm`], [`IsAffineForm`]
        pub mod IsProductOf {}

        /// p * x + q * y may be computed
        ///
        /// ```text
        /// module _ {T : Type 0} (can_multiply : T → T → Type 0) (product : T → T → T → Type 0) (can_add : T → T → Type 0)
        ///     (sum : T → T → T → Type 0) where
        ///   record CanTakeLinearForm (p x q y : T) : Type 0 where
        ///     first : can_multiply p x
        ///     second : can_multiply q y
        ///     both : (r s : T) → product p x r → product q y s → can_add r s
        /// ```
        pub mod CanTakeLinearForm {}

        /// p * x + q * y + d may be computed
        ///
        /// ```text
        /// module _ {T : Type 0} (can_multiply : T → T → Type 0) (product : T → T → T → Type 0) (can_add : T → T → Type 0)
        ///     (sum : T → T → T → Type 0) where
        ///   record CanTakeAffineForm (p x q y d : T) : Type 0 where
        ///     linear : CanTakeLinearForm p x q y
        ///     shift : (r : T) → IsLinearForm product sum p x q y r → can_add r d
        /// ```
        /// [`CanTakeLinearForm`], [`IsLinearForm`]
        pub mod CanTakeAffineForm {}

        /// m may be applied to the point (x, y)
        ///
        /// ```text
        /// module _ {T : Type 0} (can_multiply : T → T → Type 0) (product : T → T → T → Type 0) (can_add : T → T → Type 0)
        ///     (sum : T → T → T → Type 0) where
        ///   record CanTransform (m : Matrix T) (x y : T) : Type 0 where
        ///     on_x : CanTakeAffineForm m.xx x m.xy y m.dx
        ///     on_y : CanTakeAffineForm m.yx x m.yy y m.dy
        /// ```
        /// [`CanTakeAffineForm`]
        pub mod CanTransform {}

        /// a may be multiplied by b
        ///
        /// ```text
        /// module _ {T : Type 0} (can_multiply : T → T → Type 0) (product : T → T → T → Type 0) (can_add : T → T → Type 0)
        ///     (sum : T → T → T → Type 0) where
        ///   record CanMultiply (a b : Matrix T) : Type 0 where
        ///     xx : CanTakeLinearForm a.xx b.xx a.xy b.yx
        ///     yx : CanTakeLinearForm a.yx b.xx a.yy b.yx
        ///     xy : CanTakeLinearForm a.xx b.xy a.xy b.yy
        ///     yy : CanTakeLinearForm a.yx b.xy a.yy b.yy
        ///     dx : CanTakeAffineForm a.xx b.dx a.xy b.dy a.dx
        ///     dy : CanTakeAffineForm a.yx b.dx a.yy b.dy a.dy
        /// ```
        /// [`CanTakeLinearForm`], [`CanTakeAffineForm`]
        pub mod CanMultiply {}

        /// p * x + q * y
        ///
        /// ```text
        /// module _ {T : Type 0} (plus times : T → T → T) where
        ///   abbrev linear_form : T → T → T → T → T
        ///   linear_form p x q y = plus (times p x) (times q y)
        /// ```
        pub mod linear_form {}

        /// p * x + q * y + d, added from left to right
        ///
        /// ```text
        /// module _ {T : Type 0} (plus times : T → T → T) where
        ///   abbrev affine_form : T → T → T → T → T → T
        ///   affine_form p x q y d = plus (linear_form p x q y) d
        /// ```
        /// [`linear_form`]
        pub mod affine_form {}

        /// the image of the point under m
        ///
        /// ```text
        /// module _ {T : Type 0} (plus times : T → T → T) where
        ///   abbrev image_of : Matrix T → Point T → Point T
        ///   image_of m p = record { x = affine_form m.xx p.x m.xy p.y m.dx; y = affine_form m.yx p.x m.yy p.y m.dy }
        /// ```
        /// [`affine_form`]
        pub mod image_of {}

        /// the product a * b, which applies b first, then a
        ///
        /// ```text
        /// module _ {T : Type 0} (plus times : T → T → T) where
        ///   abbrev matrix_product : Matrix T → Matrix T → Matrix T
        ///   matrix_product a b = record {
        ///     xx = linear_form a.xx b.xx a.xy b.yx;
        ///     yx = linear_form a.yx b.xx a.yy b.yx;
        ///     xy = linear_form a.xx b.xy a.xy b.yy;
        ///     yy = linear_form a.yx b.xy a.yy b.yy;
        ///     dx = affine_form a.xx b.dx a.xy b.dy a.dx;
        ///     dy = affine_form a.yx b.dx a.yy b.dy a.dy;
        ///   }
        /// ```
        /// [`linear_form`], [`affine_form`]
        pub mod matrix_product {}
    }

    /// Elements that form a ring (without negation), so that products of their matrices are associative.
    ///
    /// In the order of `crates/font_geom/specs/Ring.antt`: [`RingLaws`](mod@Ring_antt::RingLaws).
    pub mod Ring_antt {
        /// Addition is associative and commutative, with `zero` neutral. Multiplication is associative, with `one` neutral and
        /// `zero` absorbing on both sides, and distributes over addition on both sides.
        ///
        /// ```text
        /// record RingLaws {T : Type 0} (zero one : T) (plus times : T → T → T) : Type 0 where
        ///   sums_associate : (x y z : T) → plus (plus x y) z ≡ plus x (plus y z)
        ///   sums_commute : (x y : T) → plus x y ≡ plus y x
        ///   plus_zero : (x : T) → plus x zero ≡ x
        ///   products_associate : (x y z : T) → times (times x y) z ≡ times x (times y z)
        ///   one_times : (x : T) → times one x ≡ x
        ///   times_one : (x : T) → times x one ≡ x
        ///   times_sum : (x y z : T) → times x (plus y z) ≡ plus (times x y) (times x z)
        ///   sum_times : (x y z : T) → times (plus x y) z ≡ plus (times x z) (times y z)
        ///   zero_times : (x : T) → times zero x ≡ zero
        ///   times_zero : (x : T) → times x zero ≡ zero
        /// ```
        pub mod RingLaws {}
    }

    /// Scales of outlines: 16.16 numbers of pixels in 26.6 for each font unit, over their raw values (FreeType:
    /// FT_Size_Metrics, "x_scale: a 16.16 fractional scaling value used to convert horizontal metrics from font units to
    /// 26.6 fractional pixels").
    ///
    /// In the order of `crates/font_geom/specs/Scale.antt`: [`scale_bits`](mod@Scale_antt::scale_bits), [`factor_of`](mod@Scale_antt::factor_of), [`IsCloseScaled`](mod@Scale_antt::IsCloseScaled).
    pub mod Scale_antt {
        use crate::definitions::font_decimal::Near_antt::Near as near;
        use crate::definitions::font_fixed::Fixed_antt::fixed_bits;
        /// the raw value of the factor
        ///
        /// ```text
        /// abbrev scale_bits : Scale → ℤ
        /// scale_bits scale = fixed_bits scale.0
        /// ```
        /// [`fixed_bits`]
        pub mod scale_bits {}

        /// the factor of a size, a raw value in 26.6, for so many units per em: FT_DivFix
        ///
        /// ```text
        /// abbrev factor_of : ℤ → ℕ → ℤ
        /// factor_of size units_per_em = near (size *ℤ pos 65536) units_per_em
        /// ```
        /// [`near`]
        pub mod factor_of {}

        /// the raw value in 26.6 is at most 1/2 + |units| / 2^17 from units * size / units_per_em, with both sides multiplied by
        /// 2^17 * units_per_em
        ///
        /// ```text
        /// abbrev IsCloseScaled : ℤ → ℕ → ℤ → ℤ → Type 0
        /// IsCloseScaled size units_per_em units pixels =
        ///     2 ^ 17 * unsigned_abs (pixels *ℤ pos units_per_em -ℤ units *ℤ size) ≤ units_per_em * (65536 + unsigned_abs units)
        /// ```
        pub mod IsCloseScaled {}
    }
}

/// Definitions of the crate `font_types`.
pub mod font_types {
    /// Sums of deltas: each term is the product of a scalar, a `Fixed`, and a delta in font units.
    /// (OpenType, item variation stores: an interpolated delta is the sum of the scaled deltas of all regions)
    /// A joined list has the sum of both, and the order of the terms does not matter (lemmas `total-append`,
    /// `total-permuted`).
    ///
    /// In the order of `crates/font_types/specs/Delta.antt`: [`total`](mod@Delta_antt::total), [`term_product`](mod@Delta_antt::term_product), [`exact_sum`](mod@Delta_antt::exact_sum), [`scaled`](mod@Delta_antt::scaled).
    pub mod Delta_antt {
        use crate::definitions::font_base::Wrap_antt::half_range;
        use crate::definitions::font_decimal::Near_antt::signed;
        use crate::definitions::font_fixed::{
            Fixed_antt::fixed_bits,
            Operations_antt::{differ_in_sign, rounded_mul_div},
        };
        /// the exact sum of an integer for each element of a list
        ///
        /// ```text
        /// abbrev total : {T : Type 0} → (T → ℤ) → List T → ℤ
        /// total number_of xs = fold (λ sum x. sum +ℤ number_of x) (pos 0) xs
        /// ```
        pub mod total {}

        /// the exact product of a term, as a 16.16 raw value
        ///
        /// ```text
        /// abbrev term_product : Fixed × ℤ → ℤ
        /// term_product term = fixed_bits term.0 *ℤ term.1
        /// ```
        /// [`fixed_bits`]
        pub mod term_product {}

        /// the exact sum of the products, as a 16.16 raw value
        ///
        /// ```text
        /// abbrev exact_sum : List (Fixed × ℤ) → ℤ
        /// exact_sum terms = total term_product terms
        /// ```
        /// [`total`], [`term_product`]
        pub mod exact_sum {}

        /// the raw value of a number that is scaled by a / c and rounded; if c is 0, the greatest, negated if exactly one of the
        /// number and a is negative
        ///
        /// ```text
        /// abbrev scaled : ℤ → ℤ → Fixed → ℤ
        /// scaled a (pos zero) x = signed (differ_in_sign (fixed_bits x) a) (half_range 32 - 1)
        /// scaled a (pos (suc c)) x = rounded_mul_div (fixed_bits x) a (pos (suc c))
        /// scaled a (negsuc c) x = rounded_mul_div (fixed_bits x) a (negsuc c)
        /// ```
        /// [`signed`], [`differ_in_sign`], [`fixed_bits`], [`half_range`], [`rounded_mul_div`]
        pub mod scaled {}
    }

    /// An accumulator of deltas.
    ///
    /// In the order of `crates/font_types/specs/DeltaSum.antt`: [`steps_of`](mod@DeltaSum_antt::steps_of).
    pub mod DeltaSum_antt {
        /// the 16.16 raw value of the sum
        ///
        /// ```text
        /// abbrev steps_of : DeltaSum → ℤ
        /// steps_of sum = sum.steps
        /// ```
        pub mod steps_of {}
    }
}
