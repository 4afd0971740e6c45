//! Tags: checks, parsing, text and order.

use compare::{Random, assert_same, sampled};

fn assert_same_check(bytes: &[u8]) {
    assert_same!(bytes, |k| {
        let tag = k::Tag::new_checked(bytes).map(k::Tag::to_be_bytes);
        tag.map_err(|error| {
            format!("{error} {error:?} {}", error == k::InvalidTag::InvalidLength(0))
        })
    });
    if let Ok(text) = str::from_utf8(bytes) {
        assert_same!(text, |k| {
            let tag = text.parse::<k::Tag>().map(k::Tag::to_be_bytes);
            tag.map_err(|error| format!("{error:?}"))
        });
    }
}

fn assert_same_tag(number: u32) {
    let bytes = number.to_be_bytes();
    assert_same_check(&bytes);
    assert_same!(bytes, |k| {
        let valid = k::Tag::new(&bytes).validate();
        valid.map_err(|error| format!("{error:?}"))
    });
}

#[test]
fn four_bytes() {
    sampled().for_each(assert_same_tag);
    // Most bytes are visible characters or spaces, as in a valid tag.
    let mut random = Random::new(1);
    for _ in 0..1_000_000 {
        let bytes = [0; 4].map(|_| match random.below(8) {
            0 => b' ',
            1 => random.u64() as u8,
            _ => b'!' + random.below(94) as u8,
        });
        assert_same_tag(u32::from_be_bytes(bytes));
    }
}

#[test]
fn other_lengths() {
    for length in 0..=2 {
        (0..1u32 << (8 * length)).for_each(|n| assert_same_check(&n.to_le_bytes()[..length]));
    }
    let mut random = Random::new(2);
    for _ in 0..500_000 {
        let bytes = random.u64().to_le_bytes();
        assert_same_check(&bytes[..3]);
        assert_same_check(&bytes[..5]);
    }
}

#[test]
fn text_order_and_numbers() {
    let mut random = Random::new(3);
    for _ in 0..500_000 {
        let [a, b] = [0; 2].map(|_| random.u64() as u32);
        assert_same!((a, b), |k| {
            let [x, y] = [a, b].map(|n| k::Tag::new(&n.to_be_bytes()));
            let bytes = k::Tag::from_u32(a).into_bytes();
            let read = k::Tag::from_be_bytes(bytes);
            let (slice, text) = (&bytes[..], str::from_utf8(&bytes).unwrap_or("head"));
            let same = (x == y, y == slice, x == *text, x == text, y == bytes, read == x);
            let lent: (&[u8], &[u8; 4]) = (x.as_ref(), std::borrow::Borrow::borrow(&x));
            let lent = (lent.0.to_vec(), *lent.1);
            (format!("{x} {x:?}"), x.cmp(&y), bytes, same, lent)
        });
    }
}
