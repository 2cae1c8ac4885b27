"""Specifications with long lists, for the commands that measure what lists cost."""

MODULE = "---- MODULE M ----\nEXTENDS Integers, Sequences\nVARIABLE x\n{before}Init == x = 0\nNext == x' = {next}\n====\n"
CONFIGURATION = "INIT Init NEXT Next CHECK_DEADLOCK FALSE\n"


def module(after="0", before=""):
    return MODULE.format(before=before, next=after).encode()


def listed(count):
    """Name, module and configuration of each kind of list, with this number of parts."""
    numbers = range(count)

    def many(form, between=", "):
        return between.join(form.format(number) for number in numbers)

    plain = CONFIGURATION.encode()
    yield "elements of a set", module(f"CHOOSE y \\in {{{many('{}')}}} : y = 0"), plain
    yield "items of a tuple", module(f"<<{many('0')}>>[1]"), plain
    yield "fields", module(f"[{many('a{} |-> 0')}].a0"), plain
    ones = plain + b"CONSTANT c = {1}\n"
    yield "names of a binder", module(f"IF {{a0 : {many('a{}')} \\in c}} = c THEN 0 ELSE 1", "CONSTANT c\n"), ones
    yield "updates", module(f"[<<0, 0>> EXCEPT {many('![1] = {}')}][2]"), plain
    yield "arms", module("CASE " + many("x = {} + 1 -> 0", " [] ") + " [] OTHER -> 0"), plain
    yield "conjuncts", module("IF " + many("x = 0", " /\\ ") + " THEN 0 ELSE 0"), plain
    yield "bullets", module("0").replace(b"x' = 0", b"\n" + many("  /\\ x' = 0", "\n").encode()), plain
    yield "sums", module(many("0", " + ")), plain
    yield "definitions", module(before="".join(f"D{number} == 0\n" for number in numbers)), plain
    yield "definitions of a LET", module("LET " + many("d{} == 0", " ") + " IN 0"), plain
    yield "parameters", module(before=f"F({many('a{}')}) == 0\n", after=f"F({many('0')})"), plain
    yield "comments", module(before="(* *)\n" * count), plain
    yield "comments in comments", module(before="(*" * count + "*)" * count + "\n"), plain
    yield "invariants", module(before="Inv == TRUE\n"), plain + f"INVARIANTS {many('Inv', ' ')}\n".encode()
    yield "assumptions", module(before="ASSUME TRUE\n" * count), plain
    yield "elements in a configuration", module(before="CONSTANT c\n"), plain + f"CONSTANT c = {{{many('{}')}}}\n".encode()
    yield "braces in a configuration", module(before="CONSTANT c\n"), plain + b"CONSTANT c = " + b"{" * count


def named(count):
    """The same of lists whose names are looked up."""
    numbers = range(count)
    plain = CONFIGURATION.encode()
    definitions = "".join(f"D{number} == TRUE\n" for number in numbers)
    constants = "".join(f"CONSTANT c{number}\n" for number in numbers)
    chain = "D0 == 0\n" + "".join(f"D{number} == D{number - 1}\n" for number in numbers[1:])
    names = [f"a{number}" for number in numbers]
    items = [f"c{number} <- D{number}" for number in numbers]
    straight = [f"c{number} = {number}" for number in numbers]
    nested = "0"
    for number in range(min(count, 190)):
        nested = f"LET d{number} == {number} IN {nested}"
    yield "definitions in a chain", module(f"D{count - 1}", chain), plain
    yield "invariants of a definition each", module(before=definitions), plain + f"INVARIANTS {' '.join(f'D{number}' for number in numbers)}\n".encode()
    body = f"IF {{<<{', '.join(names[::2])}>> : {', '.join(names)} \\in c}} = {{}} THEN 1 ELSE 0"
    yield "names of a binder in its body", module(body, "CONSTANT c\n"), plain + b"CONSTANT c = {1}\n"
    yield "constants with a value", module(before=constants), plain + f"CONSTANTS {' '.join(straight)}\n".encode()
    yield "constants with a definition", module(before=constants + definitions), plain + f"CONSTANTS {' '.join(items)}\n".encode()
    yield "nested LETs (at most 190)", module(nested), plain
