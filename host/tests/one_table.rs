// The calls on one table, by document 01's boundary cases.
use bavolinesk::{height_for, raw, Kind, Lookup, Refusal, Table, MAX_KEY, MAX_NUMBER, MAX_VALUE};

// Table T: a@1=x, a@3-, b@2=y, c@0=w, c@4=v.
fn fill(table: &mut Table<'_>) {
    for (key, number, kind, value) in [
        (b"a", 1, Kind::Value, b"x"),
        (b"a", 3, Kind::Deletion, b"z"),
        (b"b", 2, Kind::Value, b"y"),
        (b"c", 0, Kind::Value, b"w"),
        (b"c", 4, Kind::Value, b"v"),
    ] {
        table.add(key, number, kind, value, 2).unwrap();
    }
}

#[test]
fn lengths_of_an_image() {
    for (length, expected) in [(0, false), (63, false), (64, true), (65_536, true), (65_537, false)] {
        let mut memory = vec![7u8; length];
        let refusal = Table::fresh(&mut memory).err();
        assert_eq!(refusal, (!expected).then_some(Refusal::BadImage), "{length}");
        if expected {
            assert!(memory[64..].iter().all(|&byte| byte == 7));
        }
    }
}

#[test]
fn the_bytes_of_one_addition() {
    let mut memory = [0u8; 92];
    let mut table = Table::fresh(&mut memory).unwrap();
    assert_eq!(table.add(b"a", 1, Kind::Value, b"x", 1), Ok(1));
    let mut expected = Vec::new();
    for word in [92u32, 1, 88, 12, 1, 0, 0, 0, 0, 0, 0, 0, 0, 0, 0, 0, 1, 12, 0] {
        expected.extend_from_slice(&word.to_le_bytes());
    }
    expected.extend_from_slice(&[9, 0x61, 1, 1, 0, 0, 0, 0, 0, 0, 1, 0x78, 0x40, 0, 0, 0]);
    assert_eq!(table.bytes(), expected);
    assert_eq!(table.room(), 0);
    assert_eq!(table.put(b"a", 1, b""), Err(Refusal::Duplicate));
    assert_eq!(table.into_bytes(), expected);
    let mut memory = [0u8; 91];
    let mut table = Table::fresh(&mut memory).unwrap();
    assert_eq!(table.add(b"a", 1, Kind::Value, b"x", 1), Err(Refusal::NoRoom));
    assert!(table.is_empty());
}

#[test]
fn limits_of_an_entry() {
    let mut memory = vec![0u8; 65_536];
    let mut table = Table::fresh(&mut memory).unwrap();
    let (key, value) = (vec![1u8; MAX_KEY + 1], vec![2u8; MAX_VALUE + 1]);
    let value_kind = Kind::Value;
    assert_eq!(table.add(b"", 0, value_kind, b"", 1), Ok(1));
    assert_eq!(table.add(b"k", 0, value_kind, b"", 0), Err(Refusal::BadHeight));
    assert_eq!(table.add(b"k", 0, value_kind, b"", 13), Err(Refusal::BadHeight));
    assert_eq!(table.add(b"k", 0, value_kind, b"", 12), Ok(2));
    assert_eq!(table.put(&key[1..], 0, b""), Ok(3));
    assert_eq!(table.put(&key, 0, b""), Err(Refusal::LongKey));
    assert_eq!(table.put(b"v", 0, &value[1..]), Ok(4));
    assert_eq!(table.put(b"v", 1, &value), Err(Refusal::LongValue));
    assert_eq!(table.put(b"n", MAX_NUMBER, b"max"), Ok(5));
    assert_eq!(table.put(b"n", MAX_NUMBER + 1, b""), Err(Refusal::BadNumber));
    assert_eq!(table.get(b"n", MAX_NUMBER), Ok(Some(&b"max"[..])));
    assert_eq!(table.get(b"n", MAX_NUMBER + 1), Err(Refusal::BadNumber));
    assert_eq!(table.get(&key, 1), Err(Refusal::LongKey));
    assert_eq!(table.get(b"v", 9).unwrap().map(<[u8]>::len), Some(MAX_VALUE));
    assert_eq!(table.get(b"", 0), Ok(Some(&b""[..])));
    assert!(table.check());
}

#[test]
fn lookups_say_found_deleted_or_absent() {
    let mut memory = [0u8; 512];
    let mut table = Table::fresh(&mut memory).unwrap();
    fill(&mut table);
    assert!(matches!(
        table.lookup(b"a", 2),
        Ok(Lookup::Found {
            node: 1,
            value: b"x",
            ..
        })
    ));
    assert!(matches!(table.lookup(b"a", 3), Ok(Lookup::Deleted { .. })));
    assert!(matches!(table.lookup(b"b", 1), Ok(Lookup::Absent { .. })));
    assert_eq!(table.contains(b"a", 3, Kind::Deletion), Ok(true));
    assert_eq!(table.contains(b"a", 3, Kind::Value), Ok(false));
    assert_eq!(table.contains(b"a", 2, Kind::Value), Ok(false));
    let entries: Vec<_> = table.entries().map(|entry| entry.unwrap()).collect();
    let shown: Vec<_> = entries
        .iter()
        .map(|entry| (entry.key, entry.number, entry.value))
        .collect();
    let expected: [(&[u8], u64, &[u8]); 5] = [
        (b"a", 3, b""),
        (b"a", 1, b"x"),
        (b"b", 2, b"y"),
        (b"c", 4, b"v"),
        (b"c", 0, b"w"),
    ];
    assert_eq!(shown, expected);
}

#[test]
fn a_damaged_image_is_told() {
    let mut memory = [0u8; 512];
    fill(&mut Table::fresh(&mut memory).unwrap());
    assert_eq!(Table::open(&mut memory).unwrap().len(), 5);
    memory[64 + 8] = 1; // the lowest link of node 1, to itself
    assert_eq!(Table::open(&mut memory).err(), Some(Refusal::Damaged));
    memory[64 + 12] = 1; // and the one above
    assert_eq!(raw::get(&memory, b"b", 2).refusal, 9);
    let kept = memory;
    assert_eq!(raw::add(&mut memory, b"b", 1, 1, b"", 1).refusal, 9);
    assert_eq!(memory, kept);
}

#[test]
fn any_cursor_may_be_handed_in() {
    let mut memory = [0u8; 512];
    fill(&mut Table::fresh(&mut memory).unwrap());
    for at in [(1, 0), (1, 6), (1, usize::MAX), (2, 1), (u32::MAX, 1)] {
        let at = raw::EntryCursor { on: at.0, node: at.1 };
        for moved in [
            raw::entry_first(&memory, at),
            raw::entry_seek(&memory, at, b"", 0),
            raw::entry_next(&memory, at),
            raw::entry_prev(&memory, at),
        ] {
            assert_eq!((moved.refusal, moved.cursor()), (10, at));
        }
        assert_eq!(raw::entry_refusal(&memory, at), 10);
        let refused = raw::View {
            refusal: 10,
            offset: 0,
            length: 0,
        };
        assert_eq!(raw::entry_key(&memory, at), refused);
        assert_eq!(raw::entry_value(&memory, at), refused);
    }
}

#[test]
fn heights_are_drawn_one_in_four() {
    let mut counts = [0usize; 13];
    for number in 0..40_000 {
        counts[height_for(b"card", number)] += 1;
    }
    assert_eq!(counts[0], 0);
    assert!((29_000..31_000).contains(&counts[1]), "{counts:?}");
    assert!((7_000..8_000).contains(&counts[2]), "{counts:?}");
}

#[test]
fn refusals_have_their_numbers() {
    for (index, refusal) in Refusal::ALL.iter().enumerate() {
        assert_eq!(refusal.code() as usize, index + 1);
        assert_eq!(Refusal::from_code(refusal.code()), Some(*refusal));
        assert!(!refusal.to_string().is_empty());
    }
    assert_eq!(Refusal::from_code(0), None);
    assert_eq!(Refusal::from_code(11), None);
}
