//! Whether an image is sound, written from document 01 alone: parse everything first, then hold each level's chain to the order.

use crate::model::{Entry, Model, LEVELS};

pub fn word(image: &[u8], at: usize) -> Option<usize> {
    let bytes = image.get(at..at.checked_add(4)?)?;
    Some(u32::from_le_bytes(bytes.try_into().ok()?) as usize)
}

/// Count and first free byte of a header that holds.
pub fn header(image: &[u8]) -> Option<(usize, usize)> {
    let length = image.len();
    let (count, free) = (word(image, 4)?, word(image, 8)?);
    let holds = (64..=65_536).contains(&length)
        && word(image, 0)? == length
        && word(image, 12)? == 12
        && count <= 4_096
        && free >= 64
        && free <= length.checked_sub(4 * count)?;
    holds.then_some((count, free))
}

struct Parsed {
    height: usize,
    links: Vec<usize>,
    entry: Entry,
}

// A varint in its shortest form, taken off the front.
fn varint(bytes: &mut &[u8]) -> Option<usize> {
    let mut number = 0usize;
    for groups in 0..5 {
        let (&byte, rest) = bytes.split_first()?;
        *bytes = rest;
        number += usize::from(byte % 128) << (7 * groups);
        if byte < 128 {
            let shortest = groups == 0 || byte != 0;
            return shortest.then_some(number);
        }
    }
    None
}

fn take<'a>(bytes: &mut &'a [u8], length: usize) -> Option<&'a [u8]> {
    let (part, rest) = (bytes.get(..length)?, bytes.get(length..)?);
    *bytes = rest;
    Some(part)
}

fn entry(mut bytes: &[u8]) -> Option<Entry> {
    let key_length = varint(&mut bytes)?.checked_sub(8)?;
    let key = take(&mut bytes, key_length)?.to_vec();
    let tag = u64::from_le_bytes(take(&mut bytes, 8)?.try_into().ok()?);
    let value_length = varint(&mut bytes)?;
    let value = take(&mut bytes, value_length)?.to_vec();
    let (number, kind) = (tag >> 8, tag as u8);
    let fits = bytes.is_empty() && key.len() <= 1_024 && value.len() <= 4_096 && kind <= 1;
    fits.then_some(Entry {
        key,
        number,
        kind,
        value,
    })
}

// The node at an offset, and where it ends.
fn node(image: &[u8], free: usize, at: usize) -> Option<(Parsed, usize)> {
    let used = image.get(..free)?;
    let (height, length) = (word(used, at)?, word(used, at + 4)?);
    if !(1..=LEVELS).contains(&height) {
        return None;
    }
    let links = (0..height)
        .map(|level| word(used, at + 8 + 4 * level))
        .collect::<Option<_>>()?;
    let start = at + 8 + 4 * height;
    let entry = entry(used.get(start..start.checked_add(length)?)?)?;
    Some((Parsed { height, links, entry }, start + length))
}

// The nodes that a level's links lead through; none if a link is stray or they do not end.
fn chain(image: &[u8], nodes: &[Parsed], level: usize) -> Option<Vec<usize>> {
    let mut met = Vec::new();
    let mut link = word(image, 16 + 4 * level)?;
    while link != 0 {
        if met.len() == nodes.len() {
            return None;
        }
        met.push(link - 1);
        link = *nodes.get(link - 1)?.links.get(level)?;
    }
    Some(met)
}

/// The table that a sound image holds; none for an unsound one.
pub fn sound(image: &[u8]) -> Option<Model> {
    let (count, free) = header(image)?;
    let mut nodes = Vec::new();
    let mut at = 64;
    for number in 1..=count {
        if word(image, image.len() - 4 * number)? != at {
            return None;
        }
        let (parsed, end) = node(image, free, at)?;
        nodes.push(parsed);
        at = end;
    }
    if at != free {
        return None;
    }
    let lowest = chain(image, &nodes, 0)?;
    let ascending = lowest.windows(2).all(|pair| {
        let (a, b) = (&nodes[pair[0]].entry, &nodes[pair[1]].entry);
        a.order(&b.key, b.number).is_lt()
    });
    if lowest.len() != count || !ascending {
        return None;
    }
    for level in 1..LEVELS {
        let tall: Vec<usize> = lowest
            .iter()
            .copied()
            .filter(|&index| nodes[index].height > level)
            .collect();
        if chain(image, &nodes, level)? != tall {
            return None;
        }
    }
    let (mut model, refusal) = Model::fresh(vec![0; image.len()]);
    assert_eq!(refusal, 0);
    for Parsed { height, entry, .. } in nodes {
        assert_eq!(model.add_unrendered(entry, height).0, 0, "what was parsed can be added");
    }
    model.image = image.to_vec();
    Some(model)
}
