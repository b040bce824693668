"""Which functions of table and cursor read a lent slice, and how: what tools/moving leans on. A slice is lent where it is a parameter,
a field of a struct, what a function gives that gives a slice, or a part of one of these, also by a name that stands for it. A body
may hand a lent slice on, take a part of it, and ask for its length. All else reads: an index, a library call, a comparison, a loop
over it, a pattern. So every library call has to stand in a list here; one that is in none is at fault. A function that may read does
so by the names of its parameters alone, and none of these may get a second name."""
import re

# The functions that read a lent slice themselves, or write to one by an index.
LENT = {"words": ["get_word", "put_bytes"], "key_types": ["put_len", "len_at", "compare_keys"]}

# The functions that index arrays of fixed length or parts of them, slices of numbers that are no bytes, or hand these to a library call
# that can read a slice: values that the call has made, no part of an image; and the function that hands numbers to such a call.
ARRAYS = {
    "skipmap": ["Table::search"],
    "insert": ["put_links", "lead_to", "read_links"],
    "check": ["all_meet", "step", "Table::threads"],
}
ORDERS = {"key_types": ["LookupKey::compare"]}

# Library calls that read no slice, whatever they are given here: `len` of a slice, and calls on numbers, options, results and answers
# of a comparison.
QUIET = {
    "len", "min", "checked_sub", "to_le_bytes", "then", "is_lt", "is_ne", "is_ok", "is_some", "ok_or", "err", "map", "map_err",
    "write_str", "usize::from", "u64::from", "u32::from_le_bytes", "Some", "Ok", "Err",
}  # fmt: skip

# Library calls that read a slice which they are given; of copy_from_slice that is the argument.
READING = {"cmp", "copy_from_slice", "iter", "all"}

# Comments, strings and characters, which hold no code whatever stands in them.
TOLD = re.compile(r"""//[^\n]*|/\*.*?\*/|b?r(#*)".*?"\1|b?"(?:\\.|[^"\\])*"|b?'(?:\\.[^']*|[^'\\])'""", re.DOTALL)

BINARY = re.compile(r" (==|!=|<|>|<=|>=) ")
KEYWORDS = {"if", "match", "in", "return", "else", "let", "for"}
SLICE = r"&(?:'\w+ )?(?:mut )?\[(?:\w+|u8; \w+)\]"
ARRAY = r"&(?:'\w+ )?(?:mut )?\[\w+; \w+\]"
NUMBERS = r"&(?:'\w+ )?\[(?:usize|u32)\]"
HEAD = re.compile(r"\s*(pub |pub\(crate\) )?fn (\w+)")
BOUND = re.compile(r"\blet (?:mut )?([^=;]+?) =\s+|^\s*(\w+) =\s+", re.MULTILINE)
BRANCHED = re.compile(r"(if|match|loop|unsafe)\b|{")
BLOCK = re.compile(r"impl(?:<[^>]*>)? (?:(\S+(?:<.*>)?) for )?(\w+)")


class Function:
    """A function of a file: where it begins, where its body opens and closes, its head as one line, the type that it is of."""

    def __init__(self, lines, at, head, block):
        indent = re.match(r" *", lines[at])[0]
        self.at = at
        self.opens = next(i for i in range(at, len(lines)) if re.search(r"(^| ){$", lines[i].removeprefix(indent)))
        self.closes = lines.index(indent + "}", self.opens)
        self.head = " ".join(line.strip() for line in lines[at : self.opens + 1])
        self.public = head[1] == "pub "
        self.type = block[2] if block and indent else None
        self.of_trait = bool(block and indent and block[1])
        self.plain = head[2]
        self.name = f"{self.type}::{head[2]}" if self.type else head[2]
        body = "\n".join(lines[self.opens + 1 : self.closes])
        self.body = TOLD.sub(lambda told: "" if told[0][0] == "/" else "0" if told[0][-1] == "'" else '""', body)
        self.gives_slice = bool(re.search(rf"->.*{SLICE}", self.head))


def functions(lines):
    """Each function of a file."""
    block = None
    for at, line in enumerate(lines):
        block = BLOCK.match(line) or block
        head = HEAD.match(line)
        if head:
            yield Function(lines, at, head, block)


def matching(text, at, step):
    """Where the bracket at a place of the text has its partner, to the right or to the left of it."""
    opening, closing = ("([{", ")]}") if step > 0 else (")]}", "([{")
    depth = 0
    while True:
        depth += (text[at] in opening) - (text[at] in closing)
        if not depth:
            return at
        at += step


def before(text, end):
    """The operand that ends at a place: names, fields, calls, indices and what stands before them."""
    at = end
    while at > 0:
        if text[at - 1] in ")]":
            at = matching(text, at - 1, -1)
        elif re.match(r"[\w.:?&*]", text[at - 1]):
            at -= 1
        elif text[at - 1].isspace() and re.match(r"\s*[.]", text[at - 1 :]) and at > 1:
            at -= 1
        else:
            break
    return text[at:end].strip()


def behind(text, start):
    """The operand that begins at a place."""
    at = start
    while at < len(text):
        if text[at] in "([":
            at = matching(text, at, 1) + 1
        elif re.match(r"[\w.:?&*]", text[at]):
            at += 1
        else:
            break
    return text[start:at].strip()


def root(operand):
    """The name of which an operand is a part."""
    return operand.strip("&*()").split("[")[0]


def split(text):
    """The parts of a list between its commas."""
    parts, depth = [""], 0
    for sign in text:
        depth += (sign in "([{") - (sign in ")]}")
        if sign == "," and not depth:
            parts.append("")
        else:
            parts[-1] += sign
    return [part.strip() for part in parts]


def bindings(body):
    """What each binding of a body binds, by a let or later, and the value that this gets."""
    for bound in BOUND.finditer(body):
        at = bound.end()
        ends = re.compile(r"[;)\]}]" if BRANCHED.match(body, at) else r"[;)\]}]|\s+else {|{\n")
        while at < len(body) and not ends.match(body, at):
            at = matching(body, at, 1) + 1
        yield bound[1] or bound[2], body[bound.end() : at]


class Crates:
    """What the sources have: structs with their fields that are slices, and functions."""

    def __init__(self, files):
        self.fields, self.unnamed, self.holding = {}, [], []
        text = "\n".join("\n".join(lines) for lines in files.values())
        for name, body in re.findall(r"\b(?:struct|enum) (\w+)[^{;(]*( {\n.*?\n}|\([^;]*;)", text, re.DOTALL):
            self.fields[name] = set(re.findall(rf"(\w+): {SLICE}", body))
            self.unnamed += [name] if re.search(SLICE, re.sub(rf"\w+: {SLICE}", "", body)) else []
            self.holding += [name] if re.search(NUMBERS, body) else []
        self.names = set().union(*self.fields.values())
        every = [function for lines in files.values() for function in functions(lines)]
        self.calls = {function.name for function in every}
        self.methods = {function.plain for function in every if re.search(r"\bself\b", function.head)}
        self.slices = {function.plain for function in every if function.gives_slice}

    def parameters(self, function):
        """The parameters that are lent slices; arrays that another crate hands in, too, but no slices of numbers (see faults)."""
        return set(re.findall(rf"(\w+): (?:{SLICE}|{ARRAY})" if function.public else rf"(\w+): (?!{NUMBERS}){SLICE}", function.head))

    def lent_names(self, function):
        """The names in a body that stand for lent slices."""
        names = self.parameters(function)
        for pattern, value in bindings(function.body):
            given = any(re.search(rf"\b{name}\(", value) for name in self.slices)
            if given and not re.fullmatch(r"\w+", pattern) or self.is_lent(value, names, function):
                names |= set(re.findall(r"\b[a-z]\w*", pattern))
        for pattern in re.findall(r"\blet (?:mut )?([^=;]*?{[^=;]*?}[^=;]*?) = |^\s*(.*{.*}.*) =>", function.body, re.MULTILINE):
            fields = re.findall(r"(\w+)(?:: (\w+))?", "".join(pattern))
            names |= {name or field for field, name in fields if field in self.names}
        return names

    def is_lent(self, operand, names, function):
        """Whether an operand is a lent slice, a part of one, or holds one."""
        operand = re.sub(r"^(&|\*|mut\b|\s)+|(\?|\.\d+)+$", "", operand.strip())
        if BRANCHED.match(operand):
            gives = [before(operand, len(operand[: end.start()].rstrip())) for end in re.finditer("}", operand)]
            gives += [behind(operand, arm.end()) for arm in re.finditer(r"(?:=>|\bbreak\b)\s*", operand)]
            return any(self.is_lent(part, names, function) for part in gives)
        opened = matching(operand, len(operand) - 1, -1) if operand.endswith((")", "]")) else 0
        if opened and operand.endswith("]"):
            return ".." in operand[opened:] and self.is_lent(operand[:opened], names, function)
        if operand.endswith((")", "]")):
            called = re.search(r"(\w*)$", operand[:opened])[1]
            holds = not called or called[0].isupper()
            parts = split(re.sub(r"; \w+$", "", operand[opened + 1 : -1]))
            return called in self.slices or (holds and any(self.is_lent(part, names, function) for part in parts))
        if re.fullmatch(r"self\.\w+", operand):
            return operand[5:] in self.fields.get(function.type, ())
        field = re.search(r"\.(\w+)$", operand)
        return field[1] in self.names if field else operand in names


def indices(body):
    """Each index of a body: what is indexed, the index, and whether that place is written to."""
    for bracket in re.finditer(r"(?<=[\w\])}?])\[", body):
        end = matching(body, bracket.start(), 1) + 1
        index = body[bracket.end() : end - 1]
        if ".." not in index:
            yield before(body, bracket.start()), index, body.startswith(" = ", end)


def calls(body):
    """Each call of a body, and each function that it names by a path: what is called, on what, and the arguments."""
    for call in re.finditer(r"(?:(?<![\w.:])|(?<=[.]))((?:\w+::)*\w+)(?:::<[^(){};]*>)?(\()?", body):
        name, dotted = call[1], body[call.start() - 1 : call.start()] == "."
        last = name.split("::")[-1]
        if not call[2] and not ("::" in name and last[0].islower()):
            continue
        if name in KEYWORDS or (last[0].isupper() and "::" in name):
            continue
        given = body[call.end() : matching(body, call.end() - 1, 1)] if call[2] else ""
        yield name, before(body, call.start() - 1) if dotted else None, split(given)


def patterns(body):
    """Each form that can read a slice by a pattern, a loop or a macro, and what it is about."""
    yield from (f"calls the macro {name}" for name in re.findall(r"\b(\w+!)\s*[(\[{]", body))
    yield from (f"binds by {what}" for what in re.findall(r'\blet\b[^=;]*(?:\[|"")[^=;]*=', body))
    yield from (f"matches {what}" for what in re.findall(r'(?:\[[^\]\n]*\]|"")[\s)]*(?:if .*)?=>', body))
    over = re.findall(r"\bfor .* in (.*) {", body)
    yield from (f"loops over {what}" for what in over if ".." not in re.sub(r"\[[^\]]*\]|\([^)]*\)", "", what))
    yield from (f"names {what}" for what in re.findall(r"<\[.*?>::", body))


def loose(body, parameters, crates):
    """The parameters that a body names otherwise than to index them, to ask for their length or to hand them on, whole or a part."""
    body = body.replace(".cmp(&", ".cmp(")  # it takes a byte by a reference, which ends there
    stands = [what for what, _, _ in indices(body)]
    for name, on, given in calls(body):
        if name == "len":
            stands.append((on or "").split("..")[-1].lstrip("&"))
        elif name in READING | (crates.methods if on is not None else crates.calls) and name.split("::")[-1] not in crates.slices:
            stands += [re.sub(r"^&(mut )?|\[.*\.\..*\]$", "", part) for part in [on or "", *given]]
    return [name for name in sorted(parameters) if len(re.findall(rf"(?<!\w)(?<![^.]\.){name}\b", body)) != stands.count(name)]


def misreads(module, function, crates):
    """Where a function reads what it should not, or names a place twice that it reads."""
    names, parameters = crates.lent_names(function), crates.parameters(function)
    may_read, may_hold, may_order = (function.name in of.get(module, []) for of in (LENT, ARRAYS, ORDERS))
    body, listed = function.body, may_read or may_hold or may_order
    read, whole = [], []

    def lent(operand):
        return crates.is_lent(operand, names, function)

    def own(operand):
        return may_read and root(operand) in parameters

    if may_read:
        yield from (f"could read {name} by a second name" for name in loose(body, parameters, crates))
        for loop in re.finditer(r"\bfor (\w+) in [^{;]*({)", body):  # the loop at its next turn, where what it counts with is another
            turn = body[loop.start(2) : matching(body, loop.start(2), 1) + 1]
            body += "\n" + re.sub(rf"\b{loop[1]}\b", f"next_{loop[1]}", turn)
    for what, index, written in indices(body):
        if not (own(what) if lent(what) else may_hold and re.fullmatch(r"[\w.]+", root(what))):
            yield f"indexes {what}[{index}]"
        if not written:
            read.append((root(what), f"{what.strip('&*()')}[{index.strip('()')}]"))
    for name, on, given in calls(body):
        if on is not None and lent(on) and name != "len" and not (own(on) and name in READING):
            yield f"calls {name} on {on}"
        if name in READING and on is not None:
            if not listed:
                yield f"calls {name} on {on}"
            whole += [root(part) for part in [on][name == "copy_from_slice" :] + given if lent(part)]
            if any(lent(part) and not own(part) for part in given):
                yield f"gives a lent slice to {name}"
        elif name not in QUIET | (crates.methods if on is not None else crates.calls):
            yield f"calls {name}, which no list of tools/moving_reads.py has"
    given = set() if listed else {name for names in re.findall(r"\|([^|\n]*)\| ", body) for name in re.findall(r"\w+", names)}
    for sign in BINARY.finditer(body):
        pair = before(body, len(body[: sign.start()].rstrip())), behind(body, sign.end())
        yield from (f"compares {side}" for side in pair if lent(side) or re.split(r"\W", side.lstrip("&*"))[0] in given)
    for looked in re.findall(r"\bmatch (.*) {", body) + re.findall(r"\blet \w*[({].*? = (.*?)(?: else)? {", body):
        yield from (f"matches {part}" for part in split(looked.strip("()") if looked.startswith("(") else looked) if lent(part))
    yield from patterns(body)
    if may_read and re.search(r"\b(while|loop|move)\b|[(,=]\s*\|", body):
        yield "reads in a loop with no rising index, or in a closure"
    places = [place for _, place in read]
    yield from (f"reads {place} more than once" for place in sorted(set(places)) if places.count(place) > 1)
    bases = [what for what, _ in read if what in whole] + whole
    yield from (f"reads {base} more than once" for base in sorted(set(bases)) if bases.count(base) > 1)


def faults(files, only=None):
    """What is at fault in these sources, by their modules, or in one of them."""
    crates = Crates(files)
    for module, lines in files.items() if only is None else [(only, files[only])]:
        of_module = list(functions(lines))
        yield from (f"{module}: {function.name} {what}" for function in of_module for what in misreads(module, function, crates))
        handed = [function.name for function in of_module if function.public and re.search(NUMBERS, function.head)]
        yield from (f"{module}: {name} has a slice of numbers, and another crate can call it" for name in handed)
        known = {function.name for function in of_module}
        yield from (f"{module}: no function {name}" for of in (LENT, ARRAYS, ORDERS) for name in of.get(module, []) if name not in known)
        for derived, name in re.findall(r"#\[derive\((.*)\)\]\n(?:pub |pub\(crate\) )?(?:struct|enum) (\w+)", "\n".join(lines)):
            if crates.fields.get(name) and set(derived.split(", ")) - {"Clone", "Copy"}:
                yield f"{module}: {name} holds a lent slice and derives {derived}"
    yield from (f"{name} holds a lent slice that no field names" for name in crates.unnamed)
    yield from (f"{name} holds a slice of numbers" for name in crates.holding)
