//! Each scalar: read from bytes, written, and in a `BigEndian` field.

use compare::{Random, assert_same};

macro_rules! each_scalar {
    ($($Type:ident)*) => {
        #[test]
        fn fields() {
            let mut random = Random::new(1);
            for _ in 0..50_000 {
                let pair = pair(&mut random);
                $(assert_same!((stringify!($Type), pair), |k| {
                    #[allow(unused_imports)]
                    use k::*;
                    const LEN: usize = <$Type as k::FixedSize>::RAW_BYTE_LEN;
                    let [first, second] = pair.map(|bytes| *bytes.first_chunk::<LEN>().unwrap());
                    let of_raw = k::Scalar::to_raw(<$Type as k::Scalar>::from_raw(first));
                    let read = <$Type as k::Scalar>::read(&first).map(k::Scalar::to_raw);
                    let is_short = <$Type as k::Scalar>::read(&first[1..]).is_none();
                    let [x, y] = [first, second].map(k::BigEndian::<$Type>::new);
                    let mut set = x;
                    set.set(y.get());
                    let of_slice = k::BigEndian::<$Type>::from_slice(&first).unwrap();
                    let fields = [set, x.get().into(), of_slice];
                    let bytes = fields.map(|field| field.be_bytes().to_vec());
                    let order = (x == y, x == y.get(), x.cmp(&y), x.partial_cmp(&y));
                    (LEN, of_raw, read, is_short, order, bytes, format!("{x:?}"))
                });)*
            }
        }
    };
}

/// Returns the bytes of two values; one pair in four is equal.
fn pair(random: &mut Random) -> [[u8; 8]; 2] {
    let [first, second] = [random.u64(), random.u64()].map(u64::to_be_bytes);
    [first, if random.below(4) == 0 { first } else { second }]
}

each_scalar! {
    u8 i8 u16 i16 u32 i32 i64 Uint24 Int24 Fixed F2Dot14 F4Dot12 F6Dot10 FWord UfWord GlyphId16
    GlyphId24 NameId Offset16 Offset24 Offset32 LongDateTime Version16Dot16 MajorMinor Tag
}
