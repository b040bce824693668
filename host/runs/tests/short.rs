// Short forms of the runs, so that the plain tests have them too.
use bavolinesk::raw;
use runs::checker::sound;
use runs::damage::{Caller, Counts as Damage, Images};
use runs::draw::draw;
use runs::gen::Shape;
use runs::harm::harm;
use runs::model::{Entry, Model};
use runs::ops::{Counts, Op};
use runs::replay::replay;
use runs::rng::Rng;
use runs::scan_images::Pair;
use runs::scans::{Counts as Scans, Scanner};
use runs::script::{run, shrink};

#[test]
fn scripts_agree_with_the_model() {
    for case in 0..500 {
        let ops = draw(&mut Rng::new(case));
        if run(&ops, &mut Counts::default()).is_err() {
            panic!("{:?}", shrink(ops));
        }
    }
}

#[test]
fn the_checker_takes_what_the_model_makes() {
    for case in 0..300 {
        let mut rng = Rng::new(case);
        let shape = Shape::draw(&mut rng, false);
        let (mut model, _) = Model::fresh(rng.bytes(600));
        for _ in 0..20 {
            let (key, number) = (shape.key(&mut rng), shape.number(&mut rng));
            let (kind, value) = (shape.kind(&mut rng), shape.value(&mut rng));
            let height = shape.height(&mut rng);
            model.add(
                Entry {
                    key,
                    number,
                    kind,
                    value,
                },
                height,
            );
        }
        let parsed = sound(&model.image).expect("a sound image");
        assert_eq!(parsed.sorted, model.sorted);
        assert!(raw::check(&model.image));
    }
}

#[test]
fn damaged_images_keep_the_calls_in_bounds() {
    let mut counts = Damage::default();
    for case in 0..300 {
        let mut rng = Rng::new(case);
        let shape = Shape::draw(&mut rng, false);
        let bytes = [0, 1].map(|_| {
            let mut image = vec![0u8; 900].into_boxed_slice();
            raw::fresh(&mut image);
            for _ in 0..15 {
                raw::add(
                    &mut image,
                    &shape.key(&mut rng),
                    shape.number(&mut rng),
                    1,
                    b"v",
                    shape.height(&mut rng),
                );
            }
            harm(&mut image, &mut rng);
            image
        });
        let mut images = Images::new(bytes, true, &mut counts);
        let shape = Shape::draw(&mut rng, true);
        let rng = &mut rng;
        let counts = &mut counts;
        let mut caller = Caller { rng, shape, counts };
        for _ in 0..20 {
            caller.call(&mut images);
        }
    }
    assert!(counts.refusals[9] > 0 && counts.sound_images > 0);
}

#[test]
fn a_script_that_holds_is_not_cut_down() {
    let (ops, words) = shrink(vec![Op::Check(0)]);
    assert_eq!((ops.len(), words.as_str()), (1, ""));
}

#[test]
fn scans_of_damaged_images_end() {
    let (mut counts, mut rng) = (Scans::default(), Rng::new(7));
    for case in 0..2_000 {
        let mut pair = Pair::draw(&mut rng);
        if case % 8 != 0 {
            pair.damage(&mut rng);
        }
        let [one, two] = &pair.bytes;
        let scanned = Scanner::new([one, two], 3, &mut counts).all(&mut rng);
        assert_eq!(scanned, Ok(()), "damage: {:?}", pair.patches);
    }
    assert!(counts.ended_refused > 0 && counts.ended_nowhere > 0 && counts.unsound_pairs > 0);
}

#[test]
fn the_text_of_cases_holds() {
    let file = concat!(env!("CARGO_MANIFEST_DIR"), "/../../crates/cases/stdin");
    let counts = replay(&std::fs::read_to_string(file).expect("the text")).expect("every answer");
    assert!(counts.iter().all(|count| *count > 600), "{counts:?}");
}
