// The crate on the inputs where it is known to stray from document 01's rule: a line each with what it answers, and what the
// library answers. Ends with status 1 if the crate answers otherwise than docs/DIFFERENCES.md says.
use bavolinesk::{Kind, Snapshot, Table};
use oracle::DB::{DefaultCmp, LdbIterator, SkipMap};
use oracle::{merge, row, Cursors, Memory};
use std::process::exit;
use std::rc::Rc;

type Fill = &'static [(&'static str, u64, Option<&'static str>)];

// What the controller writes in the riser's story (host/c/example.c): the newer table, and the older one.
const NEWER: Fill = &[("ssd0", 4, Some("x4")), ("gpu0", 5, Some("x8"))];
const OLDER: Fill = &[("nic0", 1, Some("x8")), ("gpu0", 2, Some("x16")), ("gpu0", 3, None)];

const T: Fill = &[
    ("a", 1, Some("x")),
    ("a", 3, None),
    ("b", 2, Some("y")),
    ("c", 0, Some("w")),
    ("c", 4, Some("v")),
];

struct Case {
    name: &'static str,
    first: Fill,
    second: Fill,
    snapshot: u64,
    moves: &'static [&'static str],
    /// What document 01's rule says after each move, and what the crate is known to answer.
    rule: &'static str,
    strays: &'static str,
}

const CASES: &[Case] = &[
    Case {
        name: "prev skips deletions",
        first: &[("a", 1, Some("x")), ("a", 2, None), ("b", 1, Some("y"))],
        second: &[],
        snapshot: 2,
        moves: &["seek b", "prev"],
        rule: "b=y, nowhere",
        strays: "b=y, a=x",
    },
    Case {
        name: "the same in T (P6)",
        first: T,
        second: &[],
        snapshot: 3,
        moves: &["seek c", "prev", "prev"],
        rule: "c=w, b=y, nowhere",
        strays: "c=w, b=y, a=x",
    },
    Case {
        name: "number 0 is ignored backward (P7)",
        first: &[("c", 0, Some("w")), ("e", 1, Some("u"))],
        second: &[],
        snapshot: 1,
        moves: &["seek e", "prev"],
        rule: "e=u, c=w",
        strays: "e=u, nowhere (true)",
    },
    Case {
        name: "a finished child is lost",
        first: &[("b", 2, Some("y"))],
        second: &[("a", 1, Some("x"))],
        snapshot: 2,
        moves: &["seek b", "prev"],
        rule: "b=y, a=x",
        strays: "b=y, nowhere",
    },
    Case {
        name: "the same the other way (P8)",
        first: &[("a", 1, Some("x"))],
        second: &[("b", 2, Some("y"))],
        snapshot: 2,
        moves: &["first", "next", "prev"],
        rule: "a=x, b=y, a=x",
        strays: "a=x, b=y, nowhere",
    },
    Case {
        name: "next after prev repeats a row",
        first: &[("a", 5, None), ("aa", 6, Some("v")), ("bba", 5, Some("v"))],
        second: &[],
        snapshot: 6,
        moves: &["seek bb", "prev", "next"],
        rule: "bba=v, aa=v, bba=v",
        strays: "bba=v, aa=v, aa=v",
    },
    Case {
        name: "the riser's story, the gpu lost",
        first: NEWER,
        second: OLDER,
        snapshot: 3,
        moves: &["seek nic0", "prev"],
        rule: "nic0=x8, nowhere",
        strays: "nic0=x8, gpu0=x16",
    },
    Case {
        name: "the riser's story, an ssd beside it",
        first: NEWER,
        second: OLDER,
        snapshot: 4,
        moves: &["seek ssd0", "prev", "prev"],
        rule: "ssd0=x4, nic0=x8, nowhere",
        strays: "ssd0=x4, nowhere (true), nowhere",
    },
];

fn text(row: Option<(Vec<u8>, Vec<u8>)>) -> String {
    row.map_or("nowhere".into(), |(key, value)| {
        format!("{}={}", String::from_utf8_lossy(&key), String::from_utf8_lossy(&value))
    })
}

fn fill_crate(fill: Fill) -> Memory {
    let mut table = Memory::new();
    for (key, number, value) in fill {
        table.add(
            key.as_bytes(),
            *number,
            u8::from(value.is_some()),
            value.unwrap_or("").as_bytes(),
        );
    }
    table
}

fn crate_says(case: &Case) -> String {
    let (first, second) = (fill_crate(case.first), fill_crate(case.second));
    let mut iter = Cursors::new().over(&first, &second, case.snapshot);
    let mut out = Vec::new();
    for &how in case.moves {
        let mut said = true;
        match how {
            "first" => iter.seek_to_first(),
            "next" => drop(iter.advance()),
            "prev" => said = iter.prev(),
            _ => iter.seek(how[5..].as_bytes()),
        }
        let true_though = if how == "prev" && said && !iter.valid() {
            " (true)"
        } else {
            ""
        };
        out.push(text(row(&iter)) + true_though);
    }
    out.join(", ")
}

fn library_says(case: &Case) -> String {
    let mut memories = [[0u8; 1024]; 2];
    let [one, two] = &mut memories;
    let mut tables = [one, two].map(|memory| Table::fresh(memory).expect("a fresh table"));
    for (table, fill) in tables.iter_mut().zip([case.first, case.second]) {
        for (key, number, value) in fill {
            let added = match value {
                Some(value) => table.put(key.as_bytes(), *number, value.as_bytes()),
                None => table.delete(key.as_bytes(), *number),
            };
            added.expect("room for an entry");
        }
    }
    let mut cursor = Snapshot::over(&tables[0], &tables[1], case.snapshot).cursor();
    let mut out = Vec::new();
    for &how in case.moves {
        let moved = match how {
            "first" => cursor.first(),
            "next" => cursor.next(),
            "prev" => cursor.prev(),
            _ => cursor.seek(how[5..].as_bytes()),
        };
        moved.expect("a sound table");
        let shown = cursor.current().expect("a sound table");
        out.push(text(shown.map(|row| (row.key.to_vec(), row.value.to_vec()))));
    }
    out.join(", ")
}

fn entry_text(iter: &impl LdbIterator) -> String {
    row(iter).map_or("nowhere".into(), |(key, _)| {
        let (user, tag) = key.split_at(key.len() - 8);
        format!("{}@{}", String::from_utf8_lossy(user), tag[1])
    })
}

// Seek and reset keep the old direction: a merging iterator after first, prev, first, prev, beside one after first, prev alone.
fn merging(a: Fill, b: Fill) -> (String, String) {
    let (a, b) = (fill_crate(a), fill_crate(b));
    let mut old = merge(&a, &b);
    for _ in 0..2 {
        old.seek_to_first();
        old.prev();
    }
    let mut new = merge(&a, &b);
    new.seek_to_first();
    new.prev();
    (entry_text(&old), entry_text(&new))
}

fn fill_text(fill: Fill) -> String {
    let entries = fill.iter().map(|(key, number, value)| match value {
        Some(value) => format!("{key}@{number}={value}"),
        None => format!("{key}@{number}-"),
    });
    format!("{{{}}}", entries.collect::<Vec<_>>().join(", "))
}

fn input(case: &Case) -> String {
    let second = match case.second.is_empty() {
        true => String::new(),
        false => format!(", second {}", fill_text(case.second)),
    };
    let (first, s, moves) = (fill_text(case.first), case.snapshot, case.moves.join(", "));
    format!("first {first}{second}, s={s}: {moves}")
}

// The crate adds the second of two entries with equal key and number, or panics.
fn adds_again(kind: u8) -> &'static str {
    let quiet = std::panic::take_hook();
    std::panic::set_hook(Box::new(|_| ()));
    let added = std::panic::catch_unwind(|| {
        let mut table = Memory::new();
        table.add(b"a", 1, 1, b"x");
        table.add(b"a", 1, kind, b"x");
    });
    std::panic::set_hook(quiet);
    match added {
        Ok(()) => "added",
        Err(_) => "panics",
    }
}

fn library_adds_again(kind: Kind) -> String {
    let mut memory = [0u8; 256];
    let mut table = Table::fresh(&mut memory).expect("a fresh table");
    table.put(b"a", 1, b"x").expect("room for an entry");
    let added = table.add(b"a", 1, kind, b"x", 1);
    added.map_or_else(|refusal| format!("refusal {}", refusal.code()), |_| "added".into())
}

fn contains_prefix() -> (&'static str, &'static str) {
    let yes = |held: bool| if held { "yes" } else { "no" };
    let mut list = SkipMap::new(Rc::new(Box::new(DefaultCmp)));
    list.insert(b"ab".to_vec(), Vec::new());
    let mut memory = [0u8; 128];
    let mut table = Table::fresh(&mut memory).expect("a fresh table");
    table.put(b"ab", 1, b"").expect("room for an entry");
    (
        yes(list.contains(b"a")),
        yes(table.contains(b"a", 1, Kind::Value).expect("a sound table")),
    )
}

fn main() {
    let mut wrong = false;
    let mut line = |name: &str, input: &str, rule: &str, strays: &str, theirs: &str, ours: &str| {
        let ok = theirs == strays && ours == rule;
        wrong |= !ok;
        let known = if ok { "as known" } else { "OTHERWISE" };
        println!("| {name} | {input} | {rule} | {theirs} | {ours} | {known} |");
    };
    println!("| Stray | Input | The rule | The crate | The library | |\n|---|---|---|---|---|---|");
    for case in CASES {
        line(
            case.name,
            &input(case),
            case.rule,
            case.strays,
            &crate_says(case),
            &library_says(case),
        );
    }
    let (a, b): (Fill, Fill) = (&[("a", 1, Some("x"))], &[("b", 2, Some("y"))]);
    let twice = Case {
        name: "seek and reset keep the direction",
        first: a,
        second: b,
        snapshot: 2,
        moves: &["first", "prev", "first", "prev"],
        rule: "a=x, nowhere, a=x, nowhere",
        strays: "ends on b@2",
    };
    let (old, new) = merging(a, b);
    let theirs = format!("ends on {old}");
    line(
        twice.name,
        &input(&twice),
        twice.rule,
        twice.strays,
        &theirs,
        &library_says(&twice),
    );
    let (theirs, ours) = contains_prefix();
    line("contains by prefix", "{ab}: contains a", "no", "yes", theirs, ours);
    let again = "a key and number twice";
    line(
        again,
        "a@1=x, a@1=x",
        "refusal 8",
        "panics",
        adds_again(1),
        &library_adds_again(Kind::Value),
    );
    line(
        again,
        "a@1=x, a@1-",
        "refusal 8",
        "panics",
        adds_again(0),
        &library_adds_again(Kind::Deletion),
    );
    println!("\nThe direction is seen on the crate's MergingIter alone, whose rows are entries. A fresh one after first, prev: {new}.");
    println!(
        "With its children the other way round, first, prev, first, prev ends on {}.",
        merging(b, a).0
    );
    exit(i32::from(wrong));
}
