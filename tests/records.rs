//! Records of tables: every field at the offset of the OpenType specification, and back.

use font_types_proved::{
    ByteRecords, F2Dot14, FWord, Fixed, FixedSize, LongDateTime, MajorMinor, NameId, Scalar,
    ScalarArray, TableDataRef, Tag, record,
};

record! {
    #[derive(Clone, Copy, Debug, PartialEq)]
    struct Os2 {
        version: u16,
        average_width: FWord,
        weight_class: u16,
        width_class: u16,
        fs_type: u16,
        subscript: [FWord; 4],
        superscript: [FWord; 4],
        strikeout: [FWord; 2],
        family_class: i16,
        panose: [u8; 10],
        unicode_ranges: [u32; 4],
        vendor: Tag,
        selection: u16,
        first_char: u16,
        last_char: u16,
        typo_ascender: FWord,
    }
}

record! {
    #[derive(Clone, Copy, Debug, PartialEq)]
    struct Head {
        version: MajorMinor,
        revision: Fixed,
        checksum_adjustment: u32,
        magic: u32,
        flags: u16,
        units_per_em: u16,
        created: LongDateTime,
        modified: LongDateTime,
        bounds: [FWord; 4],
        mac_style: u16,
        lowest_ppem: u16,
        hints: [i16; 3],
    }
}

record! {
    struct Fvar {
        version: MajorMinor,
        axes_offset: u16,
        reserved: u16,
        axis_count: u16,
        axis_size: u16,
        instance_count: u16,
        instance_size: u16,
    }
}

record! {
    #[derive(Clone, Copy, Debug, PartialEq)]
    struct Axis {
        tag: Tag,
        range: [Fixed; 3],
        flags: u16,
        name: NameId,
    }
}

record! {
    #[derive(Clone, Copy, Debug, PartialEq)]
    struct AxisMap {
        from: F2Dot14,
        to: F2Dot14,
    }
}

record! {
    #[derive(Clone, Copy, Debug, PartialEq)]
    struct Nested {
        axes: [Axis; 2],
        map: AxisMap,
    }
}

#[test]
fn sizes_are_those_of_the_specification() {
    let sizes = [Os2::RAW_BYTE_LEN, Head::RAW_BYTE_LEN, Fvar::RAW_BYTE_LEN];
    assert_eq!(sizes, [70, 54, 16]);
    assert_eq!([Axis::RAW_BYTE_LEN, Nested::RAW_BYTE_LEN], [20, 44]);
}

#[test]
fn fields_are_at_their_offsets_and_written_back() {
    let bytes: [u8; 80] = std::array::from_fn(|n| n as u8);
    let os2 = Os2::read_at(&bytes, 0).unwrap();
    assert_eq!(os2.panose, [32, 33, 34, 35, 36, 37, 38, 39, 40, 41]);
    assert_eq!(os2.unicode_ranges[3].to_be_bytes(), [54, 55, 56, 57]);
    assert_eq!(os2.vendor.to_be_bytes(), [58, 59, 60, 61]);
    assert_eq!(os2.typo_ascender.to_i16().to_be_bytes(), [68, 69]);
    assert_eq!(os2.to_raw(), bytes[..70]);
    let head = Head::read_at(&bytes, 0).unwrap();
    assert_eq!(head.bounds.map(FWord::to_raw), [[36, 37], [38, 39], [40, 41], [42, 43]]);
    assert_eq!(head.to_raw(), bytes[..54]);
    let nested = Nested::read_at(&bytes, 3).unwrap();
    assert_eq!(nested.axes[1].range[0].to_be_bytes(), [27, 28, 29, 30]);
    let mut written = [0xFF; 80];
    assert_eq!(nested.write_at(&mut written, 36), Some(()));
    assert_eq!(written[36..], bytes[3..47]);
    assert_eq!(nested.write_at(&mut written, 37), None);
}

#[test]
fn a_record_is_the_head_of_a_table() {
    let bytes: [u8; 17] = std::array::from_fn(|n| n as u8);
    let (fvar, rest) = TableDataRef::<Fvar>::new(&bytes).unwrap().split();
    assert_eq!((fvar.axis_size, fvar.instance_size, rest), (0x0A0B, 0x0E0F, &[16][..]));
    assert!(TableDataRef::<Fvar>::new(&bytes[..15]).is_none());
}

/// The axes and the instances of `fvar`, each longer than what is read of it.
#[test]
fn records_of_a_size_in_the_table() {
    let (axis_count, axis_size, instance_size) = (2, 22, 16);
    let mut bytes = vec![0, 1, 0, 0, 0, 16, 0, 2, 0, 2, 0, 22, 0, 3, 0, 16];
    for (tag, min) in [(b"wght", 100), (b"wdth", 75)] {
        bytes.extend(tag);
        bytes.extend(
            [min, min + 1, min + 2].map(|n| Fixed::from_i32(n).to_be_bytes()).as_flattened(),
        );
        bytes.extend([0, 0, 1, 0, 0xEE, 0xEE]);
    }
    for n in 0..3 {
        bytes.extend([1, n, 0, 0]);
        bytes.extend(
            [100 + i32::from(n), 75].map(|n| Fixed::from_i32(n).to_be_bytes()).as_flattened(),
        );
        bytes.extend([2, n, 0xEE, 0xEE]);
    }
    let (fvar, _) = TableDataRef::<Fvar>::new(&bytes).unwrap().split();
    let start = usize::from(fvar.axes_offset);
    assert_eq!((fvar.axis_size, fvar.instance_size), (axis_size as u16, instance_size as u16));
    let axes = ByteRecords { offset: start, count: axis_count, size: axis_size };
    let axes: Vec<_> = axes
        .of(&bytes)
        .unwrap()
        .map(|axis| Some((Tag::read_at(axis, 0)?, Fixed::read_at(axis, 8)?.to_i32())))
        .collect::<Option<_>>()
        .unwrap();
    assert_eq!(axes, [(Tag::new(b"wght"), 101), (Tag::new(b"wdth"), 76)]);
    let instances_at = start + axis_count * axis_size;
    let instances = ByteRecords { offset: instances_at, count: 3, size: instance_size };
    let instances = instances.of(&bytes).unwrap();
    assert_eq!((instances.len(), instances.remainder().len()), (3, 0));
    for (n, instance) in instances.enumerate() {
        let at = ScalarArray::<Fixed>::read_at(instance, 4, axis_count).unwrap();
        assert_eq!(at.get(0), Some(Fixed::from_i32(100 + n as i32)));
        let name = (instance_size >= 6 + 4 * axis_count).then(|| NameId::read_at(instance, 12));
        assert_eq!(name, Some(Some(NameId::new(0x200 + n as u16))));
    }
    for (offset, count, size, len) in [
        (instances_at, 4, 16, None),
        (0, 1, 0, None),
        (usize::MAX, 1, 1, None),
        (1, usize::MAX, 3, None),
        (bytes.len(), 0, 5, Some(0)),
    ] {
        let records = ByteRecords { offset, count, size };
        assert_eq!(records.of(&bytes).map(|found| found.len()), len, "{records:?}");
    }
}

#[test]
fn arrays_of_arrays() {
    let bytes = [0, 1, 0, 2, 0, 3, 0, 4];
    let pairs = ScalarArray::<[u16; 2]>::new(&bytes).unwrap();
    assert_eq!((pairs.len(), pairs.get(1)), (2, Some([3, 4])));
    assert_eq!(pairs.as_bytes(), bytes);
    assert!(ScalarArray::<[u16; 2]>::new(&bytes[..6]).is_none());
    for len in 0..=bytes.len() {
        let read = <[u16; 2]>::read(&bytes[..len]);
        assert_eq!(read, (len == 4).then_some([1, 2]), "{len} bytes");
    }
    assert_eq!(ScalarArray::<[u16; 3]>::read_at(&bytes, 2, 1).unwrap().first(), Some([2, 3, 4]));
    assert_eq!(ScalarArray::<[u16; 0]>::new(&[]).unwrap().len(), 0);
    assert!(ScalarArray::<[u16; 0]>::new(&[1]).is_none());
    // Of elements of no bytes.
    record! { struct Nothing { none: [u8; 0] } }
    assert!(ScalarArray::<[Nothing; 3]>::new(&[1]).is_none());
}
