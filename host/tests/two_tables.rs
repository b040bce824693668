// The visible cursor over one table and two, by document 01's boundary cases.
use bavolinesk::{raw, Kind, Refusal, Row, Snapshot, Table, MAX_NUMBER};

type Fill<'a> = &'a [(&'a [u8], u64, Option<&'a [u8]>)];

fn table<'m>(memory: &'m mut [u8], entries: Fill<'_>) -> Table<'m> {
    let mut table = Table::fresh(memory).unwrap();
    for &(key, number, value) in entries {
        match value {
            Some(value) => table.put(key, number, value).unwrap(),
            None => table.delete(key, number).unwrap(),
        };
    }
    table
}

const T: Fill<'static> = &[
    (b"a", 1, Some(b"x")),
    (b"a", 3, None),
    (b"b", 2, Some(b"y")),
    (b"c", 0, Some(b"w")),
    (b"c", 4, Some(b"v")),
];

fn text(rows: impl Iterator<Item = Result<Row<'static>, Refusal>>) -> String {
    let mut out = String::new();
    for row in rows {
        let row = row.unwrap();
        let (key, value) = (String::from_utf8_lossy(row.key), String::from_utf8_lossy(row.value));
        out.push_str(&format!("{key}={value} "));
    }
    out
}

// The rows of a snapshot as text, with the images kept for good, which a test may.
fn leaked(entries: Fill<'_>) -> &'static Table<'static> {
    let memory: &'static mut [u8] = Box::leak(vec![0u8; 1024].into_boxed_slice());
    Box::leak(Box::new(table(memory, entries)))
}

#[test]
fn rows_of_t_at_each_snapshot() {
    let t = leaked(T);
    for (s, up, down) in [
        (0, "c=w ", "c=w "),
        (1, "a=x c=w ", "c=w a=x "),
        (2, "a=x b=y c=w ", "c=w b=y a=x "),
        (3, "b=y c=w ", "c=w b=y "),
        (4, "b=y c=v ", "c=v b=y "),
        (MAX_NUMBER, "b=y c=v ", "c=v b=y "),
    ] {
        let snapshot = Snapshot::of(t, s);
        assert_eq!(text(snapshot.rows()), up, "{s}");
        assert_eq!(text(snapshot.rows_back()), down, "{s}");
    }
    let snapshot = Snapshot::of(t, 4);
    assert_eq!(text(snapshot.rows_from(b"bb")), "c=v ");
    assert_eq!(text(snapshot.rows_below(b"c")), "b=y ");
    assert_eq!(text(snapshot.rows_below(b"d")), "c=v b=y ");
    assert_eq!(text(snapshot.rows_below(b"a")), "");
}

#[test]
fn where_the_crate_strays() {
    let t = leaked(T);
    let mut cursor = Snapshot::of(t, 3).cursor();
    assert_eq!(cursor.seek(b"c"), Ok(true));
    assert_eq!((cursor.prev(), cursor.prev()), (Ok(true), Ok(false)));
    let zero = leaked(&[(b"c", 0, Some(b"w")), (b"e", 1, Some(b"u"))]);
    let mut cursor = Snapshot::of(zero, 1).cursor();
    assert_eq!((cursor.seek(b"e"), cursor.prev()), (Ok(true), Ok(true)));
    assert_eq!(cursor.current().unwrap().map(|row| row.value), Some(&b"w"[..]));
    let (first, second) = (leaked(&[(b"a", 1, Some(b"x"))]), leaked(&[(b"b", 2, Some(b"y"))]));
    let mut cursor = Snapshot::over(first, second, 2).cursor();
    assert_eq!(
        (cursor.first(), cursor.next(), cursor.prev()),
        (Ok(true), Ok(true), Ok(true))
    );
    assert_eq!(cursor.current().unwrap().map(|row| row.key), Some(&b"a"[..]));
}

#[test]
fn a_tie_goes_to_the_first_table() {
    let first = leaked(&[(b"k", 5, Some(b"first")), (b"l", 1, Some(b"low"))]);
    let second = leaked(&[(b"k", 5, Some(b"second")), (b"l", 2, Some(b"high")), (b"m", 5, None)]);
    let snapshot = Snapshot::over(first, second, 5);
    assert_eq!(text(snapshot.rows()), "k=first l=high ");
    assert_eq!(text(Snapshot::over(second, first, 5).rows()), "k=second l=high ");
    // A lookup takes the first table to be the newer.
    assert_eq!(snapshot.get(b"l"), Ok(Some(&b"low"[..])));
    assert_eq!(snapshot.get(b"m"), Ok(None));
}

#[test]
fn an_entry_added_between_moves_shows() {
    let mut memory = [0u8; 512];
    let mut table = table(&mut memory, T);
    let mut cursor = Snapshot::of(&table, 4).cursor();
    assert_eq!(cursor.first(), Ok(true));
    let place = cursor.place();
    table.add(b"bb", 4, Kind::Value, b"new", 3).unwrap();
    table.add(b"b", 5, Kind::Deletion, b"", 1).unwrap();
    let mut cursor = Snapshot::of(&table, 4).cursor_at(place);
    assert_eq!(cursor.current().unwrap().map(|row| row.value), Some(&b"y"[..]));
    assert_eq!(cursor.next(), Ok(true));
    assert_eq!(cursor.current().unwrap().map(|row| row.value), Some(&b"new"[..]));
    assert_eq!(cursor.prev(), Ok(true));
    assert_eq!(cursor.place(), place);
}

#[test]
fn refused_moves_keep_the_cursor() {
    let t = leaked(T);
    let mut cursor = Snapshot::of(t, MAX_NUMBER + 1).cursor();
    assert_eq!(cursor.first(), Err(Refusal::BadNumber));
    assert!(!cursor.is_on());
    let mut cursor = Snapshot::of(t, 4).cursor();
    cursor.first().unwrap();
    let place = cursor.place();
    assert_eq!(cursor.seek(&[0; 1025]), Err(Refusal::LongKey));
    assert_eq!(cursor.place(), place);
    let short = [0u8; 63];
    let mut cursor = Snapshot::of_images(t.bytes(), &short, 4).cursor();
    assert_eq!(cursor.first(), Err(Refusal::BadImage));
    assert_eq!(cursor.current(), Err(Refusal::BadImage));
    assert_eq!(
        Snapshot::of_images(&short, t.bytes(), 4).get(b"a"),
        Err(Refusal::BadImage)
    );
    for (table, node) in [(1, 0), (1, 6), (2, 0), (2, 6), (3, 1), (u32::MAX, usize::MAX)] {
        let at = raw::Cursor { table, node };
        for moved in [
            raw::first(t.bytes(), t.bytes(), 4, at),
            raw::seek(t.bytes(), t.bytes(), 4, at, b"a"),
            raw::next(t.bytes(), t.bytes(), 4, at),
            raw::prev(t.bytes(), t.bytes(), 4, at),
        ] {
            assert_eq!((moved.refusal, moved.cursor()), (10, at));
        }
        assert_eq!(raw::row_key(t.bytes(), t.bytes(), at).refusal, 10);
        assert_eq!(raw::row_value(t.bytes(), t.bytes(), at).refusal, 10);
    }
}
