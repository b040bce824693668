//! Moves and views of both cursors on images that may be damaged.

use crate::damage::{asked, part_fits, refusal_fits, Caller, Images};
use crate::moves::{entry_move, row_move, Move};
use bavolinesk::raw::{self, Cursor, EntryCursor};

impl Caller<'_> {
    fn draw_move(&mut self, images: &Images, t: usize) -> Move {
        match self.rng.below(6) {
            0 => Move::First,
            1 | 2 => Move::Seek(self.key(images, t).to_vec()),
            3 | 4 => Move::Next,
            _ => Move::Prev,
        }
    }

    pub(crate) fn entry_cursor(&mut self, images: &Images, t: usize) -> u32 {
        let (image, number) = (&images.bytes[t], self.shape.number(self.rng));
        let at = EntryCursor {
            on: *self.rng.pick(&[0, 1, 1, 1, 1, 1, 1, 2, 9, u32::MAX]),
            node: self.node(images, t),
        };
        let how = self.draw_move(images, t);
        let key: Box<[u8]> = how.key().into();
        let moved = self.timed(|| match how {
            Move::First => raw::entry_first(image, at),
            Move::Seek(_) => raw::entry_seek(image, at, &key, number),
            Move::Next => raw::entry_next(image, at),
            Move::Prev => raw::entry_prev(image, at),
        });
        let mut expected = images.names(t, at.on, at.node);
        if let Move::Seek(_) = how {
            expected = asked(&key, number, expected);
        }
        refusal_fits(moved.refusal, expected, images.models[t].is_some(), &[]);
        if moved.refusal != 0 {
            assert_eq!(moved.cursor(), at, "a refused move hands back its cursor");
        } else {
            assert!(moved.on <= 1 && images.names(t, moved.on, moved.node) == 0);
        }
        if let Some(model) = &images.models[t] {
            assert_eq!((moved.refusal, moved.cursor()), entry_move(model, at, &how, number));
        }
        moved.refusal
    }

    pub(crate) fn entry_views(&mut self, images: &Images, t: usize) -> u32 {
        let image = &images.bytes[t];
        let (on, node) = (*self.rng.pick(&[0, 1, 1, 1, 1, 1, 3]), self.node(images, t));
        let at = EntryCursor { on, node };
        let (key, value) = (raw::entry_key(image, at), raw::entry_value(image, at));
        let refusal = self.timed(|| raw::entry_refusal(image, at));
        refusal_fits(refusal, images.names(t, on, node), images.models[t].is_some(), &[]);
        part_fits(image, key.refusal, key.offset, key.length);
        part_fits(image, value.refusal, value.offset, value.length);
        let (number, kind) = (raw::entry_number(image, at), raw::entry_kind(image, at));
        assert!((key.refusal, value.refusal) == (refusal, refusal) && kind <= 1 && number < 1 << 56);
        if on == 1 {
            let found = raw::value(image, node);
            assert_eq!(found, value, "the value of a node");
            assert_eq!(raw::value_refusal(image, node), refusal);
        }
        self.counts.calls += 4;
        refusal
    }

    fn place(&mut self, images: &Images) -> Cursor {
        let table = *self.rng.pick(&[0, 1, 1, 1, 2, 2, 2, 3, u32::MAX]);
        let t = usize::from(table == 2);
        let node = self.node(images, t);
        Cursor { table, node }
    }

    pub(crate) fn visible_cursor(&mut self, images: &Images) -> u32 {
        let ([one, two], at, snapshot) = (&images.bytes, self.place(images), self.shape.number(self.rng));
        let t = self.rng.below(2);
        let how = self.draw_move(images, t);
        let key: Box<[u8]> = how.key().into();
        let moved = self.timed(|| match how {
            Move::First => raw::first(one, two, snapshot, at),
            Move::Seek(_) => raw::seek(one, two, snapshot, at, &key),
            Move::Next => raw::next(one, two, snapshot, at),
            Move::Prev => raw::prev(one, two, snapshot, at),
        });
        let expected = asked(&key, snapshot, images.names_row(at));
        refusal_fits(moved.refusal, expected, images.models.iter().all(Option::is_some), &[]);
        if moved.refusal != 0 {
            assert_eq!(moved.cursor(), at, "a refused move hands back its cursor");
        } else {
            assert!(images.names_row(moved.cursor()) == 0);
        }
        if let [Some(first), Some(second)] = &images.models {
            assert_eq!(
                (moved.refusal, moved.cursor()),
                row_move(first, second, snapshot, at, &how)
            );
        }
        moved.refusal
    }

    pub(crate) fn row_views(&mut self, images: &Images) -> u32 {
        let ([one, two], at) = (&images.bytes, self.place(images));
        let key = self.timed(|| raw::row_key(one, two, at));
        let value = self.timed(|| raw::row_value(one, two, at));
        let refusal = self.timed(|| raw::row_refusal(one, two, at));
        assert_eq!((key.refusal, value.refusal), (refusal, refusal));
        let both_sound = images.models.iter().all(Option::is_some);
        refusal_fits(key.refusal, images.names_row(at), both_sound, &[]);
        for view in [key, value] {
            let image = if view.table == 2 { two } else { one };
            part_fits(image, view.refusal, view.offset, view.length);
            assert!(view.table <= 2);
        }
        key.refusal
    }
}
