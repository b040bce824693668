// Calls on damaged images.
//   damage [--seed N|clock] [--calls N] [--scans N] [--count-wrong-scans] [--exact] [--no-full-size]
// --exact hands every call copies of its own, of exact length: for valgrind. --scans says how many pairs of small images are damaged
// and scanned to their end, besides those that get calls; with --count-wrong-scans a scan that goes wrong does not end the run.
use bavolinesk::{height_for, raw, MAX_NUMBER};
use runs::args::Args;
use runs::checker::header;
use runs::damage::{Caller, Counts, Images};
use runs::gen::Shape;
use runs::harm::harm;
use runs::rng::Rng;
use runs::scan_images::Pair;
use runs::scans::{Counts as Scans, Scanner};
use std::fmt::Debug;
use std::sync::atomic::{AtomicBool, AtomicU64, Ordering};
use std::time::{Duration, Instant};

static CASE: AtomicU64 = AtomicU64::new(0);
static COUNTING: AtomicBool = AtomicBool::new(false);

// Says which case does not end, should there be one.
fn watch(seed: u64) {
    std::thread::spawn(move || {
        let mut last = u64::MAX;
        loop {
            std::thread::sleep(Duration::from_secs(120));
            let now = CASE.load(Ordering::Relaxed);
            if now == last {
                eprintln!("case {now} of seed {seed} has not ended for two minutes");
                std::process::exit(3);
            }
            last = now;
        }
    });
}

// A sound image of some length, with so many additions tried.
fn grow(rng: &mut Rng, shape: &Shape, length: usize, additions: usize) -> Box<[u8]> {
    let mut image = vec![0u8; length].into_boxed_slice();
    assert_eq!(raw::fresh(&mut image), 0);
    for _ in 0..additions {
        let (key, number, value) = (shape.key(rng), shape.number(rng), shape.value(rng));
        let (kind, height) = (shape.kind(rng), shape.height(rng));
        raw::add(&mut image, &key, number, kind, &value, height);
    }
    image
}

// Scans two images to their end; the first scan that goes wrong is printed with their bytes. Answers whether the run may go on.
fn scan(images: [&[u8]; 2], rng: &mut Rng, scans: &mut Scans, damage: &dyn Debug) -> bool {
    let snapshot = *rng.pick(&[0, 2, 3, 5, 9, MAX_NUMBER]);
    let Err(wrong) = Scanner::new(images, snapshot, scans).all(rng) else {
        return true;
    };
    scans.wrong += 1;
    if scans.wrong == 1 {
        println!("{wrong}\ndamage: {damage:?}");
        for image in images.iter().filter(|image| image.len() <= 1_000) {
            println!("image of {} bytes: {image:02x?}", image.len());
        }
    }
    COUNTING.load(Ordering::Relaxed)
}

// Pairs of small images, each damaged many times over.
fn small_scans(seed: u64, wanted: u64) -> Scans {
    let mut scans = Scans::default();
    let mut rng = Rng::new(seed ^ 0x5ca5_5ca5);
    let mut pair = Pair::draw(&mut rng);
    while scans.pairs < wanted {
        if scans.pairs % 64 == 0 {
            CASE.fetch_add(1, Ordering::Relaxed);
            pair = Pair::draw(&mut rng);
        } else {
            pair.damage(&mut rng);
        }
        let [one, two] = &pair.bytes;
        if !scan([one, two], &mut rng, &mut scans, &pair.patches) {
            println!("pair {} of the scans of seed {seed} fails", scans.pairs);
            std::process::exit(1);
        }
    }
    scans
}

fn one(rng: &mut Rng, exact: bool, counts: &mut Counts, scans: &mut Scans) {
    let shape = Shape::draw(rng, false);
    let mut bytes = [0, 1].map(|_| {
        let (length, additions) = match rng.below(12) {
            0 => (rng.between(64, 120), 2),
            1 => (8_192, 150),
            _ => (rng.between(200, 2_500), rng.between(1, 40)),
        };
        grow(rng, &shape, length, additions)
    });
    let times = if rng.one_in(8) { 0 } else { rng.between(1, 4) };
    for _ in 0..times {
        harm(&mut bytes[rng.below(2)], rng);
    }
    let right = scan([&bytes[0], &bytes[1]], rng, scans, &format_args!("{times} times"));
    assert!(right, "a scan went wrong");
    calls(rng, bytes, exact, 25, counts);
}

fn calls(rng: &mut Rng, bytes: [Box<[u8]>; 2], exact: bool, number: usize, counts: &mut Counts) {
    let shape = Shape::draw(rng, true);
    let kept = bytes.clone();
    let mut images = Images::new(bytes, exact, counts);
    let mut caller = Caller { rng, shape, counts };
    for _ in 0..number {
        caller.call(&mut images);
    }
    assert!(images.bytes == kept, "a call that reads changed a byte");
}

// An image of 65,536 bytes whose header says 4,096 nodes. So many do not fit, so slots share nodes.
fn crowded(rng: &mut Rng) -> Box<[u8]> {
    let shape = Shape::draw(rng, false);
    let mut image = grow(rng, &shape, 65_536, 1_500);
    let word = |image: &[u8], at: usize| u32::from_le_bytes(image[at..at + 4].try_into().expect("four bytes"));
    let put = |image: &mut [u8], at: usize, value: u32| image[at..at + 4].copy_from_slice(&value.to_le_bytes());
    let free = word(&image, 8).min(65_536 - 4 * 4_096);
    let offsets: Vec<u32> = (1..=word(&image, 4))
        .map(|node| word(&image, 65_536 - 4 * node as usize))
        .collect();
    let offsets: Vec<u32> = offsets.into_iter().filter(|&at| at + 400 < free).collect();
    put(&mut image, 4, 4_096);
    put(&mut image, 8, free);
    for node in 1..=4_096 {
        let own = offsets.get(node - 1).copied();
        let at = own.unwrap_or_else(|| offsets.get(rng.below(offsets.len())).copied().unwrap_or(64));
        put(&mut image, 65_536 - 4 * node, at);
    }
    for _ in 0..rng.below(2_000) {
        let at = *offsets.get(rng.below(offsets.len())).unwrap_or(&64) as usize;
        put(&mut image, at + 8, rng.between(1, 4_096) as u32);
    }
    image
}

// The most nodes that additions reach: 2,518 of an empty key, an empty value and height 1.
fn largest(seed: u64, counts: &mut Counts) -> Box<[u8]> {
    let mut image = vec![0xa5u8; 65_536].into_boxed_slice();
    assert_eq!(raw::fresh(&mut image), 0);
    for number in 0..2_518 {
        let scattered = (number * 1_009) % 2_518;
        assert_eq!(raw::add(&mut image, b"", scattered, 1, b"", 1).refusal, 0);
    }
    let kept = image.clone();
    assert_eq!(raw::add(&mut image, b"", 5_000, 1, b"", 1).refusal, 7);
    assert_eq!(raw::add(&mut image, b"", 2_000, 0, b"", 1).refusal, 8);
    assert!(image == kept && raw::check(&image));
    let far = raw::contains(&image, b"z", 0, 1);
    assert_eq!((far.refusal, far.held, far.looks), (0, 0, 2_518 + 12));
    calls(&mut Rng::new(seed), [image.clone(), image.clone()], false, 300, counts);
    image
}

// The longest moves of sound tables: two of them full of deletions, so that a move passes every key; of height 1, so that every
// search passes every node before it, and of heights as they are drawn.
fn deserted(drawn: bool) {
    let mut images = [vec![0u8; 65_536], vec![0u8; 65_536]];
    let mut held = 0;
    for (t, image) in images.iter_mut().enumerate() {
        assert_eq!(raw::fresh(image), 0);
        for number in 0..4_096u16 {
            let key = (2 * number + t as u16).to_be_bytes();
            let height = if drawn { height_for(&key, 1) } else { 1 };
            held += usize::from(raw::add(image, &key, 1, 0, b"", height).refusal == 0);
        }
    }
    let [one, two] = &images;
    assert!(raw::check(one) && raw::check(two));
    let nowhere = raw::Cursor::NOWHERE;
    let last = raw::Cursor {
        table: 1,
        node: header(one).map_or(1, |(count, _)| count),
    };
    for (name, moved) in [("first", 0), ("previous", 1)] {
        let before = Instant::now();
        let moved = match moved {
            0 => raw::first(one, two, 1, nowhere),
            _ => raw::prev(one, two, 1, last),
        };
        let took = before.elapsed();
        assert_eq!(moved.refusal, 0);
        let heights = if drawn { "drawn heights" } else { "height 1" };
        let millis = took.as_secs_f64() * 1e3;
        println!("{name} past {held} deletions of {heights}: {millis:.1} ms");
    }
}

fn full_size(seed: u64, exact: bool, counts: &mut Counts, scans: &mut Scans) {
    let largest = largest(seed, counts);
    for case in 0..100 {
        let mut rng = Rng::new(seed ^ (case << 40));
        let mut bytes = [crowded(&mut rng), crowded(&mut rng)];
        if case % 3 == 0 {
            bytes[0] = largest.clone();
            harm(&mut bytes[0], &mut rng);
        }
        CASE.fetch_add(1, Ordering::Relaxed);
        // A scan of so many nodes is long, so one case in ten gets them.
        if case % 10 == 0 {
            let right = scan([&bytes[0], &bytes[1]], &mut rng, scans, &format_args!("case {case}"));
            assert!(right, "a scan of case {case} of seed {seed} went wrong");
        }
        calls(&mut rng, bytes, exact, 100, counts);
    }
}

// Pairs of images until so many calls are made on them; answers how many scans went wrong.
fn called(seed: u64, wanted: u64, exact: bool) -> u64 {
    let (mut counts, mut scans, mut case) = (Counts::default(), Scans::default(), 0u64);
    while counts.calls < wanted {
        CASE.store(case, Ordering::Relaxed);
        let mut rng = Rng::new(seed ^ case.wrapping_mul(0x9fb2_1c65_1e98_df25));
        let before = std::panic::catch_unwind(std::panic::AssertUnwindSafe(|| {
            one(&mut rng, exact, &mut counts, &mut scans)
        }));
        if before.is_err() {
            println!("case {case} of seed {seed} fails");
            std::process::exit(1);
        }
        case += 1;
    }
    println!("damage: {case} pairs of images: {counts:?}");
    println!("their scans: {scans:?}");
    scans.wrong
}

fn main() {
    let args = Args::new();
    let (seed, exact) = (args.seed(), args.has("--exact"));
    println!("seed {seed}");
    watch(seed);
    COUNTING.store(args.has("--count-wrong-scans"), Ordering::Relaxed);
    let small = small_scans(seed, args.number("--scans", 20_000));
    println!("scans of small images: {small:?}");
    let mut wrong = small.wrong + called(seed, args.number("--calls", 1_500_000), exact);
    if !args.has("--no-full-size") {
        let (mut counts, mut scans) = (Counts::default(), Scans::default());
        full_size(seed, exact, &mut counts, &mut scans);
        println!("full size: {counts:?}");
        println!("their scans: {scans:?}");
        wrong += scans.wrong;
        deserted(false);
        deserted(true);
    }
    if wrong > 0 {
        println!("{wrong} pairs of images with a scan that went wrong");
        std::process::exit(1);
    }
}
