#!/usr/bin/env python3
"""Lists each place in the sources that answers "out of memory" though no allocation was refused there.

    tools/memory_answers.py [FILE ..]     all of crates/*/src, or these files alone

Such an answer meets every contract, so no proof finds a place that gives it for another reason. This command reads the
sources of the libraries and looks at each expression that makes the answer: `memory()`, `no_memory(..)`, `AllocError`,
and a variant named `Memory` or `NoMemory`. A place is right where it passes on an error that can only mean that an
allocation was refused:

- it lies in the arm of a pattern that names such an error, as `Err(ValueError::Memory) =>`;
- it lies in an `impl From<AllocError>`, or of `AllocFailed`;
- it lies in an arm `Err(_) =>`, in the `else` of `let Ok(..) =`, after `is_err()` or `ok_or(..)`, and the call before
  it has no other error: its error type has no other value, or a clause of its contract says so.

EXCEPTIONS names the places that are right for a reason that this command can't see. Each other place is printed. The
status is 1 where there is one, or an exception that no place needs.
"""
import pathlib
import re
import sys
from dataclasses import dataclass

ROOT = pathlib.Path(__file__).resolve().parent.parent

# Tests, and the programs that run them, answer nobody.
LEFT_OUT = {"acceptance", "tests"}

# (file below crates/, function): why its answer is right.
EXCEPTIONS = {
    ("tla_check/src/checking.rt", "stopped_by_tokens"): "`lex_code` has a code for each error but out of memory",
    ("tla_check/src/checking.rt", "stopped_by_module"): "`parse_code` has a code for each error but out of memory",
    ("tla_check/src/checking.rt", "stopped_by_definitions"): "`defs_code` has a code for each error but out of memory",
    ("tla_defs/src/global.rt", "with_item"): "`with_value` and `with_replacement` of `Scopes` have no other error",
    ("tla_expand/src/builders.rt", "text_of"): "no token spells a word that isn't UTF-8",
    ("tla_explain/src/document.rt", "state_value"): "a `Vec` takes all bytes unless memory is refused",
    ("tla_explain/src/document.rt", "write_document"): "a `Vec` takes all bytes unless memory is refused",
    ("tla_names/src/refusal.rt", "text_of"): "no token spells a name that isn't UTF-8",
    ("tla_page/src/output.rt", "bytes"): "`refused` is set only where an allocation was refused",
}

# Calls of std that fail only where an allocation is refused.
STD_CALLS = {
    "Vec::with_capacity", "Vec::from_array", "Box::new", ".push", ".push_str", ".extend_from_slice", ".reserve",
}

# Error types of std that mean that an allocation was refused.
STD_ERRORS = {"AllocError", "AllocFailed", "TryReserveError"}

ANSWER = re.compile(r"\bmemory\(\)|\bno_memory\(|\bNO_MEMORY\b|\b\w+::(?:No)?Memory\b|\bAllocError\b")
MEMORY = re.compile(r"\b(?:No|OutOf)?Memory\b|\bAllocError\b|\bAllocFailed\b|\bout_of_memory\b")
SAYS_MEMORY = re.compile(r"IfErr\s+result\s+\(λ\s+(\w+)\.\s+\1\s+≡\s+(?:[\w.]*\b(?:No)?Memory|out_of_memory)\)")
SKIPPED = re.compile(r"//[^\n]*|b?\"(?:[^\"\\]|\\.)*\"|b?'(?:[^'\\\n]|\\[^\n]{1,8})'")
ALLOCATOR = re.compile(r"\s*(?:\w+\.)*alloc\b(?:\(\))?\s*[,)]")
SIGNATURE = re.compile(r"\bfn\s+(\w+)")
CONSTANT = re.compile(r"\bconst\s+(\w+)[^;{]*=\s*")
RESULT = re.compile(r"->\s*Result<(.*)$", re.S)
METHOD = re.compile(
    r"^fn\s+\w+(?:<.*?>)?\(\s*&?(?:'\w+\s+)?(?:mut\s+)?self\b\s*,?\s*(_?alloc\b)?", re.S
)

# What makes the answer, by its name.
MAKERS = {"memory", "no_memory", "NO_MEMORY"}


@dataclass
class Block:
    """A pair of braces: where it begins and ends, and the text before it."""

    begin: int
    end: int
    header: str


def blank(text):
    """The text with comments and literals as blanks, so that offsets stay."""
    return SKIPPED.sub(lambda m: re.sub(r"[^\n]", " ", m.group()), text)


def statement_before(text, end):
    """The text before an offset, from the last `;`, `{` or `}`, or the last `,` between arms or arguments."""
    depth, cut = 0, None
    for begin in range(end - 1, -1, -1):
        char = text[begin]
        if char in ")]":
            depth += 1
        elif char in "([" and depth == 0:
            cut = None
        elif char in "([":
            depth -= 1
        elif char == "," and depth == 0 and cut is None:
            cut = begin
        elif char in ";{}" and not closes_pattern(text, begin):
            return text[(begin if cut is None else cut) + 1:end]
    return text[:end]


def closes_pattern(text, at):
    """Whether a brace belongs to a pattern of named fields, as in `Err(Fault { code, .. }) =>`."""
    if text[at] == "}":
        return bool(re.match(r"\}\)*\s*(?:=>|if\b|=\s)", text[at:at + 40]))
    close = text.find("}", at)
    return close >= 0 and closes_pattern(text, close) and "\n" not in text[at:close]


def blocks_of(text):
    """The blocks of a file, the outer ones first."""
    found, opened = [], []
    for at, char in enumerate(text):
        if char == "{":
            block = Block(at, len(text), " ".join(statement_before(text, at).split()))
            opened.append(block)
            found.append(block)
        elif char == "}" and opened:
            opened.pop().end = at
    return found


@dataclass
class Source:
    """A file, its text with comments and literals as blanks, its blocks, and its functions and constants."""

    path: pathlib.Path
    text: str
    blocks: list
    bodies: list

    @property
    def name(self):
        return str(self.path.relative_to(ROOT / "crates"))

    def around(self, at):
        """The blocks around an offset, the innermost first."""
        return [b for b in reversed(self.blocks) if b.begin < at < b.end]


def read_source(path):
    text = blank(path.read_text())
    source = Source(path, text, blocks_of(text), [])
    source.bodies = list(bodies_of(source))
    return source


def body_of(source, begin):
    """The block of a function's body, where it has one, from the offset of its name on."""
    for block in sorted((b for b in source.blocks if b.begin > begin), key=lambda b: b.begin):
        between = source.text[begin:block.begin]
        if is_clause_at(source, block.begin):
            begin = block.end
        elif ";" in between:
            return None
        elif block.begin > begin:
            return block
    return None


def bodies_of(source):
    """Where the functions and constants of a file begin and end, the inner ones first, with their names."""
    found = []
    for match in SIGNATURE.finditer(source.text):
        body = body_of(source, match.end())
        if body:
            found.append((body.begin, body.end, match.group(1)))
    for match in CONSTANT.finditer(source.text):
        found.append((match.end(), source.text.find(";", match.end()), match.group(1)))
    return sorted(found, key=lambda b: b[1] - b[0])


def signatures(source):
    """Each function with the type that it belongs to, and the text from its name to its body."""
    for match in SIGNATURE.finditer(source.text):
        body = body_of(source, match.end())
        if body:
            yield type_of(source, match.start()), match.group(1), source.text[match.start():body.begin]


def is_clause_at(source, at):
    return bool(re.search(r"\b(?:requires|ensures)\b[^{};]*$", source.text[:at]))


def type_of(source, at):
    """The type of the `impl` around an offset."""
    for block in source.around(at):
        match = re.search(r"\bimpl\b(?:<.*?>)?\s+(?:.*\bfor\s+)?([A-Z]\w*)", block.header)
        if match:
            return match.group(1)
    return None


def error_type(signature):
    """The error type of a function that answers a Result."""
    head = re.split(r"\n\s*(?:requires|ensures|where)\b", signature)[0]
    match = RESULT.search(head)
    if not match:
        return None
    words = re.findall(r"[A-Za-z_]\w*", match.group(1).rsplit(",", 1)[-1])
    return words[0] if words else None


def memory_types(sources):
    """The error types that have no value but out of memory."""
    found = set(STD_ERRORS)
    for source in sources:
        for match in re.finditer(r"\benum\s+(\w+)[^{;]*\{([^{}]*)\}", source.text):
            variants = re.findall(r"^\s*([A-Z]\w*)", match.group(2), re.M)
            if variants and all(v in ("Memory", "NoMemory") for v in variants):
                found.add(match.group(1))
    return found


def memory_calls(sources):
    """The names of the functions that fail only out of memory: each function of that name does, where it can fail."""
    types, verdicts = memory_types(sources), {}
    for source in sources:
        for owner, name, signature in signatures(source):
            error = error_type(signature)
            if error:
                fails_so = error in types or bool(SAYS_MEMORY.search(signature))
                for key in keys_of(owner, name, signature):
                    verdicts.setdefault(key, []).append(fails_so)
    return {name for name, all_so in verdicts.items() if all(all_so)} | STD_CALLS


def keys_of(owner, name, signature):
    """What a function is called by: as a method, with whether it takes an allocator first, with its type, or alone."""
    method = METHOD.search(signature)
    if method:
        return {f".{name}(alloc" if method.group(1) else f".{name}", f"{owner}::{name}"}
    return {f"{owner}::{name}"} if owner else {name}


def called(expression):
    """The names of the last call of an expression: with its type, where that is written, and alone."""
    expression = expression.strip().rstrip("?").strip()
    depth = 0
    for at in range(len(expression) - 1, -1, -1):
        if expression[at] == ")":
            depth += 1
        elif expression[at] == "(":
            depth -= 1
            if depth == 0:
                return names_of(expression[:at], expression[at + 1:])
    return set()


def names_of(before, arguments):
    """The names of a call, by the text before its arguments: as `keys_of` has them."""
    match = re.search(r"(\.?[\w:]+?)(?:::<[^()]*>)?$", before)
    path = match.group(1).split("::") if match else [""]
    if path[-1].startswith(".") and ALLOCATOR.match(arguments):
        return {f"{path[-1]}(alloc"}
    return {"::".join(path[-2:]), path[-1]}


def is_pattern(text, end):
    """Whether what ends here is part of a pattern or compared, and makes no answer."""
    depth = 0
    for at in range(end, len(text)):
        char = text[at]
        if text.startswith("=>", at):
            return True
        if char == "(":
            depth += 1
        elif char == ")":
            depth -= 1
        elif char in ",;{}" or text.startswith("else", at):
            return False
        elif char == "=" and text[at + 1] != "=":
            return True
    return False


def is_answer(text, match):
    """Whether a place makes an answer: it is no pattern, no type and no comparison."""
    before, after = text[:match.start()].rstrip(), text[match.end():].lstrip()
    if before.endswith(("==", "!=", "fn", "pub const")) or re.search(r"\bmatches!\([^;]*$", before):
        return False
    if match.group() == "AllocError" and not before.endswith(("(", "=>", "return", "||", "|_|")):
        return False
    if match.group() == "AllocError" and after.startswith((">", ":")):
        return False
    return not is_pattern(text, match.end())


def arm_of(source, at):
    """The pattern of the arm that an answer is in, or the condition of the block around it."""
    head = statement_before(source.text, at)
    if "=>" in head:
        return head.rsplit("=>", 1)[0]
    header = source.around(at)[0].header
    is_arm = header.endswith(("=>", "else")) or re.match(r"(?:else\s+)?if\b", header)
    return header if is_arm else ""


def error_at_hand(source, at, arm):
    """The expressions whose error an answer passes on, if no pattern names it."""
    for pattern in (r"let\s+Ok\(.*?\)\s*=\s*(.*?)\s*else$", r"\bif\s+(.*)\.is_err\(\)$"):
        match = re.search(pattern, arm, re.S)
        if match:
            return [match.group(1)]
    head = statement_before(source.text, at)
    match = re.search(r"^(.*?)(?:\.ok\(\))?\s*\.(?:ok_or|map_err)\((?:\|_\|\s*)?$", head, re.S)
    if match:
        return [match.group(1)]
    if re.search(r"\bErr\(\w+\)\s*(?:=>)?$", arm.strip()):
        for block in source.around(at):
            match = re.search(r"\bmatch\s+(.*)$", block.header, re.S)
            if match:
                return values_of(source, block.begin, match.group(1))
    return []


def values_of(source, at, expression):
    """The expression or, where it is a variable that a `match` was bound to, the value of each of its arms."""
    if not expression.isidentifier():
        return [expression]
    bound = re.findall(rf"let\s+{expression}\s*=\s*match\b[^{{]*\{{(.*?)\n\s*\}};", source.text[:at], re.S)
    return re.findall(r"=>\s*(.*?),?$", bound[-1], re.M) if bound else [expression]


def function_of(source, at):
    """The name of the function or constant around an offset."""
    return next((name for begin, end, name in source.bodies if begin < at < end), "")


def has_error(source, at, calls):
    """Whether an answer passes on an error that means that an allocation was refused."""
    arm = arm_of(source, at)
    if MEMORY.search(arm):
        return True
    headers = [b.header for b in source.around(at)]
    if any(re.search(r"\bFrom<(?:AllocError|AllocFailed)", h) for h in headers):
        return True
    values = error_at_hand(source, at, arm)
    return bool(values) and all(called(value) & calls for value in values)


def places(source, calls):
    """The places of a file that make the answer with no such error at hand."""
    for match in ANSWER.finditer(source.text):
        inside = source.around(match.start())
        if any(is_clause_at(source, b.begin) or "ghost" in b.header for b in inside) or not inside:
            continue
        function = function_of(source, match.start())
        if function in MAKERS or not is_answer(source.text, match):
            continue
        if not has_error(source, match.start(), calls):
            yield source.text.count("\n", 0, match.start()) + 1, function


def main(words):
    crates = sorted((ROOT / "crates").iterdir())
    paths = [p for c in crates if c.name not in LEFT_OUT for p in sorted((c / "src").rglob("*.rt"))]
    sources = [read_source(p) for p in paths]
    calls = memory_calls(sources)
    wanted = {str(pathlib.Path(w).resolve()) for w in words}
    found, used = 0, set()
    for source in sources:
        if wanted and str(source.path) not in wanted:
            continue
        for line, function in places(source, calls):
            if (source.name, function) in EXCEPTIONS:
                used.add((source.name, function))
                continue
            found += 1
            print(f"crates/{source.name}:{line}: {function} answers out of memory without a refused allocation")
    unused = [] if wanted else sorted(set(EXCEPTIONS) - used)
    for name, function in unused:
        print(f"crates/{name}: {function} is an exception that no place needs")
    return 1 if found or unused else 0


if __name__ == "__main__":
    sys.exit(main(sys.argv[1:]))
