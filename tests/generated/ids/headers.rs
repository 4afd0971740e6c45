// @generated from crates/rows/src/tests/ids/headers.rt by tools/erase

//! An impl of a caller: a header of a tag, an offset and a version.

use crate::font_base::{BigEndian, TableDataRef, TableHeader};
use crate::font_ids::{Offset32, Tag, Version16Dot16};
use crate::std_for_tests::test::Fail;

struct RecordHeader {
    tag: BigEndian<Tag>,
    offset: BigEndian<Offset32>,
    version: BigEndian<Version16Dot16>,
}

impl TableHeader for RecordHeader {
    const BYTE_LEN: usize = 12;

    fn decode(bytes: &[u8]) -> RecordHeader {
        RecordHeader {
            tag: BigEndian::from_slice(&bytes[..4]).unwrap(),
            offset: BigEndian::from_slice(&bytes[4..8]).unwrap(),
            version: BigEndian::from_slice(&bytes[8..]).unwrap(),
        }
    }
}

const BYTES: [u8; 13] =
    [0x68, 0x65, 0x61, 0x64, 0x00, 0x00, 0x00, 0x2C, 0x00, 0x02, 0x50, 0x00, 0xFF];

#[test]
fn header_of_twelve_bytes() -> Result<(), Fail> {
    let rt = crate::std_for_tests::Host;
    for len in [12, 13] {
        let table = TableDataRef::<RecordHeader>::new(&BYTES[..len]).ok_or("long enough")?;
        let header = table.header();
        assert!(rt; header.tag.get().eq_bytes(b"head"), "tag of {len} bytes");
        assert!(rt; header.offset.get().to_u32() == 44, "offset of {len} bytes");
        let version = header.version.eq_value(&Version16Dot16::VERSION_2_5);
        assert!(rt;
            version && table.data().len() == len,
            "version of {len} bytes"
        );
    }
    assert!(rt; TableDataRef::<RecordHeader>::new(&BYTES[..11]).is_none());
    Ok(())
}
