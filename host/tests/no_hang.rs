// A scan ends, whatever the bytes: tables with one damaged byte or link, read by both cursors. A scan that does not end is cut off
// and reported instead of waited for.
use bavolinesk::raw::{self, Cursor, EntryCursor};
use bavolinesk::{Refusal, Snapshot};
use std::sync::mpsc;
use std::time::Duration;

const LENGTH: usize = 200;
const SNAPSHOT: u64 = 9;
const DAMAGED: u32 = 9;

// A table of the keys, each @1=x in a node of height 1. A node takes 24 bytes: height, entry length, one link, and 12 bytes of
// entry: length of key plus 8, key, tag with the type first, length of value, value.
fn table(keys: &str) -> Vec<u8> {
    let mut image = vec![0u8; LENGTH];
    assert_eq!(raw::fresh(&mut image), 0);
    for (index, key) in keys.bytes().enumerate() {
        let added = raw::add(&mut image, &[key], 1, 1, b"x", 1);
        assert_eq!((added.refusal, added.node), (0, index + 1));
    }
    assert!(raw::check(&image));
    image
}

fn fresh() -> Vec<u8> {
    table("")
}

fn start(node: usize) -> usize {
    64 + 24 * (node - 1)
}

fn link(node: usize) -> usize {
    start(node) + 8
}

// The type of node 3 above 1, and the length of its value above what its entry holds: neither can be read whole.
fn damaged_at_three(keys: &str) -> [Vec<u8>; 2] {
    [14, 22].map(|byte| {
        let mut image = table(keys);
        image[start(3) + byte] = 2;
        assert!(!raw::check(&image));
        image
    })
}

fn on(table: u32, node: usize) -> Cursor {
    Cursor { table, node }
}

// The nodes that `next` shows from nowhere on, and the refusal that it ends with; cut off after one hundred.
fn scan(first: &[u8], second: &[u8]) -> (Vec<Cursor>, u32) {
    let (mut at, mut shown) = (Cursor::NOWHERE, Vec::new());
    while shown.len() < 100 {
        let moved = raw::next(first, second, SNAPSHOT, at);
        if moved.refusal != 0 || moved.table == 0 {
            return (shown, moved.refusal);
        }
        at = moved.cursor();
        shown.push(at);
    }
    panic!("the scan does not end, it shows {shown:?}");
}

fn entry_scan(image: &[u8]) -> (Vec<usize>, u32) {
    let (mut at, mut shown) = (EntryCursor::NOWHERE, Vec::new());
    while shown.len() < 100 {
        let moved = raw::entry_next(image, at);
        if moved.refusal != 0 || moved.on == 0 {
            return (shown, moved.refusal);
        }
        at = moved.cursor();
        shown.push(at.node);
    }
    panic!("the scan does not end, it shows {shown:?}");
}

// What a closure answers, unless it has not returned after five seconds.
fn returned<T: Send + 'static>(what: &str, call: impl FnOnce() -> T + Send + 'static) -> T {
    let (sender, receiver) = mpsc::channel();
    std::thread::spawn(move || sender.send(call()));
    let answer = receiver.recv_timeout(Duration::from_secs(5));
    answer.unwrap_or_else(|_| panic!("{what} does not return"))
}

#[test]
fn next_stops_before_a_node_that_cannot_be_read() {
    for image in damaged_at_three("abc") {
        assert_eq!(scan(&image, &fresh()), (vec![on(1, 1), on(1, 2)], DAMAGED));
        assert_eq!(scan(&fresh(), &image), (vec![on(2, 1), on(2, 2)], DAMAGED));
    }
}

#[test]
fn entry_next_stops_before_a_node_that_cannot_be_read() {
    for image in damaged_at_three("abc") {
        assert_eq!(entry_scan(&image), (vec![1, 2], DAMAGED));
    }
}

#[test]
fn seek_to_a_node_that_cannot_be_read_is_refused() {
    for image in damaged_at_three("abc") {
        let moved = raw::seek(&image, &fresh(), SNAPSHOT, Cursor::NOWHERE, b"c");
        assert_eq!((moved.refusal, moved.cursor()), (DAMAGED, Cursor::NOWHERE));
        let moved = raw::entry_seek(&image, EntryCursor::NOWHERE, b"c", 1);
        assert_eq!((moved.refusal, moved.cursor()), (DAMAGED, EntryCursor::NOWHERE));
    }
}

#[test]
fn prev_stops_behind_a_node_that_cannot_be_read() {
    for image in damaged_at_three("abcd") {
        let moved = raw::prev(&image, &fresh(), SNAPSHOT, on(1, 4));
        assert_eq!((moved.refusal, moved.cursor()), (DAMAGED, on(1, 4)));
        let moved = raw::entry_prev(&image, EntryCursor::on(4));
        assert_eq!((moved.refusal, moved.cursor()), (DAMAGED, EntryCursor::on(4)));
    }
}

#[test]
fn rows_end_with_one_error() {
    for image in damaged_at_three("abc") {
        let no_rows = fresh();
        let mut rows = Snapshot::of_images(&image, &no_rows, SNAPSHOT).rows();
        let shown: Vec<_> = rows.by_ref().take(100).map(|row| row.map(|row| row.key)).collect();
        assert_eq!(shown, [Ok(&b"a"[..]), Ok(&b"b"[..]), Err(Refusal::Damaged)]);
        assert!(rows.next().is_none() && rows.next().is_none());
    }
}

#[test]
fn the_last_row_and_the_rows_back_return() {
    for image in damaged_at_three("abc") {
        let (last, place, back) = returned("last", move || {
            let no_rows = fresh();
            let snapshot = Snapshot::of_images(&image, &no_rows, SNAPSHOT);
            let mut cursor = snapshot.cursor();
            assert_eq!(cursor.first(), Ok(true));
            let before = cursor.place();
            let last = cursor.last();
            let back: Vec<_> = snapshot.rows_back().map(|row| row.err()).collect();
            (last, cursor.place() == before, back)
        });
        assert_eq!(last, Err(Refusal::Damaged));
        assert!(place, "a refused move leaves the cursor where it was");
        assert_eq!(back, [Some(Refusal::Damaged)]);
    }
}

#[test]
fn a_link_to_itself() {
    let mut image = table("ab");
    image[link(1)] = 1;
    let moved = raw::entry_next(&image, EntryCursor::on(1));
    assert_eq!((moved.refusal, moved.cursor()), (DAMAGED, EntryCursor::on(1)));
    let moved = raw::next(&image, &fresh(), SNAPSHOT, on(1, 1));
    assert_eq!((moved.refusal, moved.cursor()), (DAMAGED, on(1, 1)));
    assert_eq!(entry_scan(&image), (vec![1], DAMAGED));
    assert_eq!(scan(&image, &fresh()), (vec![on(1, 1)], DAMAGED));
}

#[test]
fn a_link_back() {
    let mut image = table("ab");
    image[link(2)] = 1;
    let moved = raw::entry_next(&image, EntryCursor::on(2));
    assert_eq!((moved.refusal, moved.cursor()), (DAMAGED, EntryCursor::on(2)));
    let moved = raw::next(&image, &fresh(), SNAPSHOT, on(1, 2));
    assert_eq!((moved.refusal, moved.cursor()), (DAMAGED, on(1, 2)));
    assert_eq!(entry_scan(&image), (vec![1, 2], DAMAGED));
    assert_eq!(scan(&image, &fresh()), (vec![on(1, 1), on(1, 2)], DAMAGED));
}
