"""Small bugs in the text of a crate, for bench/mutants: where one can be planted, and the text with it.

The text is read as the toolchain's own tokens (`rattle fmt --tokens`), so that clauses, ghost items, comments and texts
are told from code; a bug is planted in the body of a function alone, and never in a test. What stands between spaces
on both sides is an operator, since the formatter writes types without. A bug takes as many lines as what it replaces.
"""
import json
import re
import subprocess

COMPARE = {"<": ("<=", ">"), "<=": ("<", ">="), ">": (">=", "<"), ">=": (">", "<="), "==": ("!=",), "!=": ("==",)}
BOTH = {"&&": "||", "||": "&&"}
JOINED = {"<=", ">=", "==", "!=", "&&", "||", "->", "=>", "..", "::", "..="}
OPENS, CLOSES = {"(": ")", "[": "]", "{": "}"}, {")", "]", "}"}
# Statements that only name something, and those whose loss is no bug of its own.
NO_LOSS = {"let", "use", "const", "static", "struct", "enum", "fn", "impl", "ghost"}
# What follows a block where the statement that it belongs to goes on.
GOES_ON = {".", "?", ";", "else", "as"}
# What a function of this type answers that gives up.
GIVES_UP = {"": "return;", "bool": "return false;", "Option": "return None;", "Result<()": "return Ok(());"}
GIVES_UP.update((kind + bits, "return 0;") for kind in "ui" for bits in ("8", "16", "32", "64", "128", "size"))
# These calls ask for room: another number there changes no answer.
CAPACITY = {"with_capacity", "with_capacity_in", "reserve", "reserve_exact", "try_reserve"}


class Token:
    def __init__(self, line, start, end, kind, text):
        self.line, self.start, self.end, self.kind, self.text = line, start, end, kind, text


class Mutant:
    """A bug: in this file and function the bytes from start up to end become others."""
    def __init__(self, function, kind, start, end, new):
        self.function, self.kind, self.start, self.end = function, kind, start, end
        old = function.source.data[start:end]
        self.new = new.encode() + b"\n" * max(0, old.count(b"\n") - new.count("\n"))

    def text(self, data):
        return data[:self.start] + self.new + data[self.end:]

    def shown(self):
        """The lines around the bug, before and after it, each as one line."""
        data = self.function.source.data
        first = data.rfind(b"\n", 0, self.start) + 1
        last = data.find(b"\n", self.end)
        one_line = lambda text: " ".join(text.decode().split())
        return one_line(data[first:last]), one_line(data[first:self.start] + self.new + data[self.end:last])

    def line(self):
        return self.function.source.data.count(b"\n", 0, self.start) + 1


class Function:
    """A function: its name, the types of its parameters and of its answer as texts, the tokens of its body, and its
    first and last line, attributes and clauses included."""
    def __init__(self, source, name, first, takes, answers, body):
        self.source, self.name, self.takes, self.answers, self.body = source, name, takes, answers, body
        self.first, self.last = first, body[-1].line


class Source:
    """A file of a crate, with its tokens and functions."""
    def __init__(self, file, data, tokens):
        self.file, self.data, self.tokens = file, data, joined(tokens)
        self.functions = list(self.all_functions())

    def is_spaced(self, token):
        return self.data[token.start - 1:token.start].isspace() and self.data[token.end:token.end + 1].isspace()

    def all_functions(self):
        code = [each for each in self.tokens if each.kind in ("Code", "Literal", "Text")]
        tests = spans_of_tests(code)
        for i, token in enumerate(code[:-1]):
            if token.text != "fn" or not re.fullmatch(r"\w+", code[i + 1].text):
                continue
            opens = body_of(code, i + 2)
            if opens is None or any(a <= i < b for a, b in tests) or is_test(code, i):
                continue
            takes, answers = types_of(code[i + 2:opens])
            first = code[begin_of(code, i)].line
            yield Function(self, code[i + 1].text, first, takes, answers, code[opens:closing(code, opens) + 1])


def read_tokens(rattle, files):
    """The source of each file."""
    ran = subprocess.run([rattle, "fmt", "--tokens", *files], capture_output=True, encoding="utf-8", check=True)
    sources = []
    for file, rows in zip(files, re.split(r"(?m)^file \d+\n", ran.stdout)[1:]):
        tokens = []
        for row in rows.splitlines():
            line, start, end, kind, text = row.split(" ", 4)
            tokens.append(Token(int(line), int(start), int(end), kind, json.loads(text)))
        with open(file, "rb") as it:
            sources.append(Source(file, it.read(), tokens))
    return sources


def joined(tokens):
    """The tokens with the operators of several signs as one."""
    found = []
    for each in tokens:
        last = found[-1] if found else None
        if last and each.kind == last.kind == "Code" and last.end == each.start and last.text + each.text in JOINED:
            found[-1] = Token(last.line, last.start, each.end, "Code", last.text + each.text)
        else:
            found.append(each)
    return found


def closing(code, at):
    """The place of the bracket that closes the one at this place."""
    depth = 0
    for i in range(at, len(code)):
        depth += (code[i].text in OPENS) - (code[i].text in CLOSES)
        if not depth:
            return i
    raise ValueError("a bracket is never closed")


def body_of(code, at):
    """The place where the body of a function opens whose name stands before this place; None where it has none."""
    depth = 0
    while code[at].text not in ("{", ";") or depth:
        depth += (code[at].text in OPENS) - (code[at].text in CLOSES)
        at += 1
    return at if code[at].text == "{" else None


def types_of(head):
    """The types of the parameters that a function's head names, but for self, and of its answer, as texts."""
    opens = next(i for i, token in enumerate(head) if token.text == "(" and (not i or head[i - 1].text != "Fn"))
    closes = closing(head, opens)
    takes = []
    for first, last in parts_of(head, opens, closes):
        words = [token.text for token in head[first:last + 1]]
        if ":" in words:
            takes.append("".join(words[words.index(":") + 1:]))
        elif takes:
            takes[-1] += "," + "".join(words)  # a comma within the brackets of a type
    answer = [token.text for token in head[closes + 1:]]
    answer = answer[:answer.index("where")] if "where" in answer else answer
    return takes, "".join(answer[1:])


def spans_of_tests(code):
    """The places from and up to which modules for tests reach."""
    words = ["#", "[", "cfg", "(", "test", ")", "]", "mod"]
    return [(i, closing(code, i + len(words) + 1)) for i in range(len(code))
            if [token.text for token in code[i:i + len(words)]] == words and code[i + len(words) + 1].text == "{"]


def begin_of(code, at):
    """The place where the item begins whose word stands at this place, with its attributes."""
    while at and code[at - 1].text not in ("}", ";", "{"):
        at -= 1
    return at


def is_test(code, at):
    """Whether the function at this place has an attribute that names tests."""
    names = {token.text for token in code[begin_of(code, at):at]}
    return "#" in names and "test" in names


def variants_of(sources):
    """The enums of these files: of each its variants, each with what stands behind its name."""
    found = {}
    for source in sources:
        code = [each for each in source.tokens if each.kind == "Code"]
        for i, token in enumerate(code[:-2]):
            if token.text != "enum":
                continue
            opens = next(j for j in range(i, len(code)) if code[j].text == "{")
            found[code[i + 1].text] = dict(variants_in(code[opens + 1:closing(code, opens)]))
    return found


def variants_in(code):
    """Each variant and its shape: nothing, or its bracket with the number of its commas."""
    at = 0
    while at < len(code):
        if code[at].text == "#":
            at = closing(code, at + 1) + 1
            continue
        name, shape = code[at].text, ""
        at += 1
        if at < len(code) and code[at].text in OPENS:
            end = closing(code, at)
            shape = code[at].text + ("%d" % sum(token.text == "," for token in code[at:end])) * (code[at].text == "(")
            shape += "".join(token.text for token in code[at:end]) * (code[at].text == "{")
            at = end
        while at < len(code) and code[at].text != ",":
            at += 1
        at += 1
        yield name, shape


def takes_of(sources):
    """The types of the parameters of the functions of each name."""
    found = {}
    for source in sources:
        for function in source.functions:
            found.setdefault(function.name, []).append(function.takes)
    return found


def mutants_of(function, enums, takes):
    """Each bug that can be planted in a function, by the enums and the functions' parameters that the crate knows."""
    body = function.body
    for make in (comparisons, steps, both_or_one, negations, losses, early_ends):
        yield from make(function, body)
    yield from exchanges(function, body, takes)
    yield from other_variants(function, body, enums)


def comparisons(function, body):
    for token in body:
        if token.text in COMPARE and function.source.is_spaced(token):
            for new in COMPARE[token.text]:
                yield Mutant(function, "compare", token.start, token.end, new)


def steps(function, body):
    """A step of one lost, or one more taken behind a name that is compared, or ends a range."""
    for i, token in enumerate(body[1:-1], 1):
        if token.text in ("+", "-") and body[i + 1].text == "1" and function.source.is_spaced(token):
            yield Mutant(function, "step", body[i - 1].end, body[i + 1].end, "")
        if token.text in ("..", *COMPARE) and re.fullmatch(r"[a-z_]\w*", body[i + 1].text):
            end = i + 1
            while body[end + 1].text == "." and re.fullmatch(r"\w+", body[end + 2].text):
                end += 2
            if body[end + 1].text in (")", "]", ",", ";", "{", "&&", "||"):
                yield Mutant(function, "step", body[end].end, body[end].end, " + 1")


def both_or_one(function, body):
    for token in body:
        if token.text in BOTH and function.source.is_spaced(token):
            yield Mutant(function, "both", token.start, token.end, BOTH[token.text])


def negations(function, body):
    for i, token in enumerate(body):
        if token.text not in ("if", "while"):
            continue
        end = i + 1
        while body[end].text not in ("{", "=>"):
            end = closing(body, end) + 1 if body[end].text in OPENS else end + 1
        if not any(each.text == "let" for each in body[i + 1:end]):
            start, stop = body[i + 1].start, body[end - 1].end
            yield Mutant(function, "negate", start, stop, "!(%s)" % function.source.data[start:stop].decode())


def statements(body):
    """The first and last place of each statement that ends with a semicolon, and how deep it stands."""
    stack, begins = [], []
    for i, token in enumerate(body):
        if token.text in OPENS:
            stack.append(token.text)
            begins.append(i + 1)
        elif token.text in CLOSES:
            stack.pop()
            begins.pop()
            if begins and token.text == "}" and stack[-1] == "{" and body[i + 1].text not in GOES_ON:
                begins[-1] = i + 1
        elif token.text == ";" and stack[-1] == "{":
            yield begins[-1], i, len(stack)
            begins[-1] = i + 1


def losses(function, body):
    for first, last, _ in statements(body):
        if body[first].text not in NO_LOSS:
            yield Mutant(function, "drop", body[first].start, body[last].end, "")


def early_ends(function, body):
    # of `Option<u8>` the part before the bracket counts, of `Result<(),NoMemory>` that before the comma
    names = function.answers, function.answers.partition("<")[0], function.answers.partition(",")[0]
    gives_up = next((GIVES_UP[name] for name in names if name in GIVES_UP), None)
    if not gives_up:
        return
    for first, last, depth in statements(body):
        rest = function.source.data[body[last].end:body[-1].start].decode().strip()
        if depth == 1 and rest not in ("", gives_up[len("return "):-1]):
            yield Mutant(function, "early", body[last].end, body[last].end, " " + gives_up)


def parts_of(body, opens, closes):
    """The first and last place of each part between the commas of a bracket."""
    first, at = opens + 1, opens + 1
    while at < closes:
        if body[at].text in OPENS:
            at = closing(body, at)
        elif body[at].text == ",":
            yield first, at - 1
            first = at + 1
        at += 1
    if first < closes:
        yield first, closes - 1


def exchanges(function, body, takes):
    """Two arguments of a call exchanged whose parameters have one type."""
    data = function.source.data
    for i in range(1, len(body)):
        if body[i].text != "(" or body[i - 1].text not in takes or body[i - 1].end != body[i].start:
            continue
        parts = list(parts_of(body, i, closing(body, i)))
        for types in takes[body[i - 1].text]:
            pairs = [(j, k) for k in range(len(parts)) for j in range(k)
                     if len(types) == len(parts) and types[j] == types[k]]
            for (a, b), (c, d) in ((parts[j], parts[k]) for j, k in pairs):
                left, between, right = (data[x:y].decode() for x, y in (
                    (body[a].start, body[b].end), (body[b].end, body[c].start), (body[c].start, body[d].end)))
                if left != right:
                    yield Mutant(function, "exchange", body[a].start, body[d].end, right + between + left)


def other_variants(function, body, enums):
    for i in range(1, len(body) - 1):
        variants = enums.get(body[i - 1].text, {})
        if body[i].text != "::" or body[i + 1].text not in variants:
            continue
        for name, shape in variants.items():
            if name != body[i + 1].text and shape == variants[body[i + 1].text]:
                yield Mutant(function, "variant", body[i + 1].start, body[i + 1].end, name)


def asks_for_room(mutant):
    """Whether a bug takes away a call that asks for room, or stands in its argument."""
    body = mutant.function.body
    for i in range(len(body) - 1):
        if body[i].text in CAPACITY and body[i + 1].text == "(":
            is_within = body[i + 1].start < mutant.start and mutant.end <= body[closing(body, i + 1)].end
            if is_within or mutant.kind == "drop" and mutant.start <= body[i].start < mutant.end:
                return True
    return False
