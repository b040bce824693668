//! Every call of the interface on images that a card may write to meanwhile, with what must hold of its answer even so.

use crate::guarded::Guarded;
use crate::shared_calls::Caller;
use crate::shared_world::Lent;
use bavolinesk::ffi::*;
use bavolinesk::MAX_NODES;

/// The looks that a search in one table may take.
const MOST_LOOKS: usize = MAX_NODES + 12;

fn inside(image: Lent, offset: usize, length: usize) -> bool {
    offset.checked_add(length).is_some_and(|end| end <= image.length)
}

impl Caller<'_> {
    /// One call, by its place in the names.
    pub fn call(&mut self, which: usize) {
        match which {
            0..=6 => self.one_table(which),
            7..=10 => self.entry_move(which),
            11..=15 => self.entry_view(which),
            16 => self.pair_get(which),
            17..=20 => self.visible_move(which),
            21..=23 => self.row_view(which),
            _ => self.get_value(which),
        }
    }

    // SAFETY, for every call below: the parts that are lent lie in mapped memory for as long as the call lasts. A card may write to
    // the images meanwhile, and what the library promises of that is what is tried here; no reference to their bytes is made.

    fn one_table(&mut self, which: usize) {
        let t = self.rng.below(2);
        let (image, node) = (self.world.images[t], self.node(t));
        let (at, length) = (image.at(), image.length);
        match which {
            0 => {
                let refusal = self.timed(which, || unsafe { bavo_fresh(at, length) });
                self.noted(which, refusal, true, refusal);
                self.kept_outside(which, t, refusal);
            }
            1 => self.add(which, t),
            2 => {
                self.timed(which, || unsafe { bavo_check(at, length) });
                self.noted(which, 0, true, ());
            }
            3 | 4 => self.search(which, image),
            5 => {
                let view = self.timed(which, || unsafe { bavo_value(at, length, node) });
                self.noted(
                    which,
                    view.refusal,
                    inside(image, view.offset, view.length),
                    (node, view),
                );
            }
            _ => {
                let refusal = self.timed(which, || unsafe { bavo_value_refusal(at, length, node) });
                self.noted(which, refusal, true, (node, refusal));
            }
        }
    }

    fn add(&mut self, which: usize, t: usize) {
        let image = self.world.images[t];
        let (key, number) = (self.draw_key(), self.number());
        let bytes = vec![b'w'; if self.rng.one_in(50) { 4_097 } else { self.rng.below(20) }];
        let value = self.value.put(&bytes, self.rng.one_in(2));
        let (kind, height) = (
            self.rng.below(2) as u8,
            if self.rng.one_in(50) { 13 } else { self.rng.tower() },
        );
        let (at, length) = (image.at(), image.length);
        let added = self.timed(which, || unsafe {
            let key = (key.at, key.bytes.len());
            bavo_add(at, length, key.0, key.1, number, kind, value, bytes.len(), height)
        });
        let holds = added.node <= MAX_NODES && key.stands() && Guarded::holds(value, &bytes);
        let said = (&key.bytes, number, height, added);
        self.noted(which, added.refusal, holds, said);
        self.kept_outside(which, t, said);
    }

    fn search(&mut self, which: usize, image: Lent) {
        let (key, number) = (self.draw_key(), self.number());
        let (at, length) = (image.at(), image.length);
        if which == 3 {
            let kind = self.rng.below(2) as u8;
            let key_length = key.bytes.len();
            let found = self.timed(which, || unsafe {
                bavo_contains(at, length, key.at, key_length, number, kind)
            });
            let holds = found.looks <= MOST_LOOKS && key.stands();
            self.noted(which, found.refusal, holds, (&key.bytes, number, found));
            return;
        }
        let found = self.timed(which, || unsafe {
            bavo_get(at, length, key.at, key.bytes.len(), number)
        });
        let holds = found.looks <= MOST_LOOKS && found.node <= MAX_NODES && key.stands();
        self.noted(which, found.refusal, holds, (&key.bytes, number, found));
    }

    fn entry_move(&mut self, which: usize) {
        let t = self.rng.below(2);
        let (image, from) = (self.world.images[t], self.draw_entry_at(t));
        let (key, number) = (self.draw_key(), self.number());
        let (at, length) = (image.at(), image.length);
        let moved = self.timed(which, || unsafe {
            match which {
                7 => bavo_entry_first(at, length, from),
                8 => bavo_entry_seek(at, length, from, key.at, key.bytes.len(), number),
                9 => bavo_entry_next(at, length, from),
                _ => bavo_entry_prev(at, length, from),
            }
        });
        let named = moved.on == 0 || (moved.on == 1 && (1..=MAX_NODES).contains(&moved.node));
        let holds = (moved.refusal != 0 || named) && key.stands();
        self.noted(which, moved.refusal, holds, (from, moved));
        if moved.refusal == 0 {
            self.entry_at[t] = moved.cursor();
        }
    }

    fn entry_view(&mut self, which: usize) {
        let t = self.rng.below(2);
        let (image, from) = (self.world.images[t], self.draw_entry_at(t));
        let (at, length) = (image.at(), image.length);
        match which {
            11 | 12 => {
                let view = self.timed(which, || unsafe {
                    match which {
                        11 => bavo_entry_key(at, length, from),
                        _ => bavo_entry_value(at, length, from),
                    }
                });
                self.noted(
                    which,
                    view.refusal,
                    inside(image, view.offset, view.length),
                    (from, view),
                );
            }
            13 => {
                self.timed(which, || unsafe { bavo_entry_number(at, length, from) });
                self.noted(which, 0, true, from);
            }
            14 => {
                self.timed(which, || unsafe { bavo_entry_kind(at, length, from) });
                self.noted(which, 0, true, from);
            }
            _ => {
                let refusal = self.timed(which, || unsafe { bavo_entry_refusal(at, length, from) });
                self.noted(which, refusal, true, (from, refusal));
            }
        }
    }

    fn pair_get(&mut self, which: usize) {
        let [one, two] = self.world.images;
        let (key, number) = (self.draw_key(), self.number());
        let found = self.timed(which, || unsafe {
            bavo_pair_get(
                one.at(),
                one.length,
                two.at(),
                two.length,
                key.at,
                key.bytes.len(),
                number,
            )
        });
        let holds = found.looks <= 2 * MOST_LOOKS && found.node <= MAX_NODES && found.table <= 2 && key.stands();
        self.noted(which, found.refusal, holds, (&key.bytes, number, found));
    }

    fn visible_move(&mut self, which: usize) {
        let ([one, two], from) = (self.world.images, self.draw_at());
        let (key, number) = (self.draw_key(), self.number());
        let (a, b, c, d) = (one.at(), one.length, two.at(), two.length);
        let moved = self.timed(which, || unsafe {
            match which {
                17 => bavo_first(a, b, c, d, number, from),
                18 => bavo_seek(a, b, c, d, number, from, key.at, key.bytes.len()),
                19 => bavo_next(a, b, c, d, number, from),
                _ => bavo_prev(a, b, c, d, number, from),
            }
        });
        let named = moved.table == 0 || (moved.table <= 2 && (1..=MAX_NODES).contains(&moved.node));
        let holds = (moved.refusal != 0 || named) && key.stands();
        self.noted(which, moved.refusal, holds, (from, number, moved));
        if moved.refusal == 0 {
            self.at = moved.cursor();
        }
    }

    fn row_view(&mut self, which: usize) {
        let ([one, two], from) = (self.world.images, self.draw_at());
        let (a, b, c, d) = (one.at(), one.length, two.at(), two.length);
        if which == 23 {
            let refusal = self.timed(which, || unsafe { bavo_row_refusal(a, b, c, d, from) });
            self.noted(which, refusal, true, (from, refusal));
            return;
        }
        let view = self.timed(which, || unsafe {
            match which {
                21 => bavo_row_key(a, b, c, d, from),
                _ => bavo_row_value(a, b, c, d, from),
            }
        });
        let image = if view.table == 2 { two } else { one };
        let holds = view.table <= 2 && inside(image, view.offset, view.length);
        self.noted(which, view.refusal, holds, (from, view));
    }

    fn get_value(&mut self, which: usize) {
        let t = self.rng.below(2);
        let image = self.world.images[t];
        let (key, number) = (self.draw_key(), self.number());
        let (at, length) = (image.at(), image.length);
        let view = self.timed(which, || unsafe {
            bavo_get_value(at, length, key.at, key.bytes.len(), number)
        });
        let holds = inside(image, view.offset, view.length) && key.stands();
        self.noted(which, view.refusal, holds, (&key.bytes, number, view));
    }
}
