"""Plants: bodies that read what they should not, each of which tools/moving has to find at fault. A plant is the source of a module in
which a few words are replaced by others. `tools/moving --check` tries all of them each time, in memory, and writes none to a file. It
fails where a plant is not found at fault, or not for what it does; and where the words to be replaced do not stand in the source just
once: then the source is another one, and its plants have to be written anew."""
import moving_reads

# For each module, a function of it and the words that are replaced: what stands in their place, and what has to be said of it.
PLANTS = {
    ("words", "get_word", "    u32::from_le_bytes([s[o], s[o + 1],"): {
        "    u32::from_le_bytes([s[o], s[o],": "reads s[o] more than once",
        "    u32::from_le_bytes([s[o], *&s[o],": "reads s[o] more than once",
        "    u32::from_le_bytes([s[o], (s)[o],": "reads s[o] more than once",
        "    let r = &s[o];\n    u32::from_le_bytes([s[o], *r,": "reads s[o] more than once",
        "    let r = &s[o];\n    u32::from_le_bytes([*r, *r,": "could read s by a second name",
        "    let t = s;\n    u32::from_le_bytes([s[o], t[o],": "indexes t[o]",
        "    let t = &s[o..];\n    u32::from_le_bytes([s[o], t[0],": "indexes t[0]",
        "    let t = if o < 8 { s } else { s };\n    u32::from_le_bytes([s[o], t[o],": "indexes t[o]",
        "    let s = &s[1..];\n    u32::from_le_bytes([s[o], s[o + 1],": "could read s by a second name",
        "    let w = [1u8; 4];\n    u32::from_le_bytes([w[0], s[o + 1],": "indexes w[0]",
        "    let len_size = |i: usize| s[i];\n    u32::from_le_bytes([len_size(o), len_size(o),": "in a closure",
    },
    ("words", "put_bytes", "        s[at + i] = b[i];"): {
        "        s[at + i] = b[i] | b[i];": "reads b[i] more than once",
        "        let d = &b[i];\n        s[at + i] = b[i] | *d;": "reads b[i] more than once",
        "        let c = b;\n        s[at + i] = b[i] | c[i];": "indexes c[i]",
        "        s[at] = b[0];": "reads b[0] more than once",
        "        s[at + i] = b[i];\n        s[at..at + b.len()].copy_from_slice(b);": "reads b more than once",
    },
    ("words", "get_u64", "    let low = get_word(s, o);"): {
        "    let low = s[o] as u32;": "indexes s[o]",
        "    let q = b'\"';\n    let low = s[o] as u32;\n    let q = b'\"';": "indexes s[o]",
        "    let q = '\"';\n    let low = s[o] as u32;\n    let q = '\\'';\n    let q = '\"';": "indexes s[o]",
        '    let q = "//";\n    let low = s[o] as u32;\n    let q = "\\"";': "indexes s[o]",
        "    let low = { s }[o] as u32;": "indexes [o]",
    },
    ("key_types", "len_at", "    let high = usize::from(s[next]);"): {
        "    let t = s;\n    let low = usize::from(t[o]);\n    let high = usize::from(s[next]);": "indexes t[o]",
        "    let again = &s[o];\n    let low = usize::from(*again);\n    let high = usize::from(s[next]);": "reads s[o] more than once",
        "    let s = &s[..end];\n    let high = usize::from(s[next]) + usize::from(s[o]);": "reads s[o] more than once",
    },
    ("key_types", "compare_keys", "        let x = a[i];"): {
        "        let c = a;\n        let x = a[i].min(c[i]);": "indexes c[i]",
        "        let i = front;\n        let x = a[front];": "reads a[front] more than once",
        "        let c = a;\n        if c.cmp(b).is_lt() {\n            return Ordering::Less;\n        }": "calls cmp on c",
        "        let x = a[i];\n        if a.cmp(b).is_lt() {\n            return Ordering::Less;\n        }": "reads a more than once",
    },
    ("key_types", "LookupKey::compare", "        compare_keys(self.key, other.key)"): {
        "        self.key.cmp(other.key)": "calls cmp on self.key",
        "        let w = [0u8; 4];\n        let k = w[0];\n        compare_keys(self.key, other.key)": "indexes w[0]",
    },
    ("skipmap", "Table::search", "        let n = self.frame.count;"): {
        "        let n = usize::from(self.bytes[4]);": "indexes self.bytes[4]",
        "        let n = usize::from({ self.bytes }[4]);": "indexes [4]",
        "        let q = { self.bytes };\n        let n = usize::from(q[4]);": "indexes q[4]",
        "        let q = if true { self.bytes } else { probe.key };\n        let n = usize::from(q[4]);": "indexes q[4]",
        "        let q = (if true { self.bytes } else { probe.key });\n        let n = usize::from(q[4]);": "indexes q[4]",
        "        let q = match mode {\n            _ => self.bytes,\n        };\n        let n = usize::from(q[4]);": "indexes q[4]",
        "        let q;\n        q = self.bytes;\n        let n = usize::from(q[4]);": "indexes q[4]",
    },
    ("merging_iter", "get_pair", "    if !header_holds(second) {"): {
        "    if [first] == [second] {": "compares [first]",
        "    let w = [first];\n    let v = [second];\n    if w == v {": "compares w",
        "    let w = { first };\n    let v = { second };\n    if w == v {": "compares w",
        "    let w = if snapshot == 0 { first } else { key };\n    let v = (0, second);\n    if w == v.1 {": "compares v.1",
    },
}


def faults(files):
    """The plants that are not found at fault as they should be, and those whose words do not stand just once in these sources."""
    for (module, function, old), plants in PLANTS.items():
        source = "\n".join(files.get(module, []))
        if source.count(old) != 1:
            yield f"tools/moving_plants.py: {source.count(old)} times in {module}, not once: {old.strip()}"
            continue
        for new, said in plants.items():
            found = moving_reads.faults({**files, module: source.replace(old, new).splitlines()}, module)
            if not any(fault.startswith(f"{module}: {function} ") and said in fault for fault in found):
                yield f"tools/moving_plants.py: not said that {function} of {module} {said}, with this in it: {' '.join(new.split())}"
