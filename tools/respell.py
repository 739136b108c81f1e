#!/usr/bin/env python3
"""Spells this repository's own definitions and lemmas as today's library spells its own.

    python3 tools/respell.py [TOP]

Words are in snake case, types in upper camel case. It goes over the text of crates/, once: names that specs/ and
proofs/ define (and the other names by which a `use` takes them) lose their dashes, wherever they are cited.
What Rattle makes (goals, steps of a proof, names behind a dot) stays, and so does what a source file has outside its
clauses and ghost items.
It stops where two names would fall together, but for those that OTHER gives a name of their own.
"""
import pathlib
import re
import sys

# names that get another one than their dashes' removal gives, with the reason
OTHER = {
    # aliases that the port's scripts took for words of the library
    'number_of_lem': 'number_of',
    'Read-of': 'read_of',
}

TOP = pathlib.Path(sys.argv[1] if len(sys.argv) > 1 else '.')
# what antt reads as one name; a dot, a bracket or a blank ends it
NAME = re.compile(r"[^\s(){}\[\],;.:\"`λ∷⌜⌝⟦⟧]+")
FORM = re.compile(r"^[A-Za-z][A-Za-z0-9']*([-_][A-Za-z0-9']+)*$")
# goals, invariants and measures: Rattle's names
MADE = re.compile(r'^(Answers|Invariants|Choices|Proof)\.antt$')


def antt_files():
    for d in ('specs', 'proofs'):
        yield from sorted(TOP.glob(f'crates/*/{d}/**/*.antt'))


def without_comments(text):
    return re.sub(r'(?m)^\s*--.*$', '', text)


def goals(text):
    """The names that a file of answers gives because Rattle asks for them."""
    return set(re.findall(r"(?m)^(?:abbrev )?pub (\S+) : goal\.", text))


def defined(path):
    """The names that a file defines, with whether each is a type."""
    text = without_comments(path.read_text())
    made = goals(text) if MADE.match(path.name) else set()
    for m in re.finditer(r'(?m)^(?:pub )?(?:record|data) ([^\s(){}.;]+)', text):
        yield m.group(1), True
    for m in re.finditer(r'(?m)^[ ]*(?:abbrev |unfoldable )?(?:pub )?([^\s(){}.;]+)[ ]*:[ ](.*)$', text):
        name, ty = m.groups()
        if name not in made and FORM.match(name):
            yield name, ty.rstrip().endswith('Type 0')


def aliases(text):
    for m in re.finditer(r'\buse [^\n{]*\{([^}]*)\}', text):
        for part in m.group(1).split(','):
            if ' as ' in part:
                yield part.split(' as ')[1].strip()


def camel(name):
    return ''.join(p[:1].upper() + p[1:] for p in re.split('[-_]', name))


def table():
    names = {}
    for path in antt_files():
        for name, is_type in defined(path):
            names[name] = names.get(name, False) or (is_type and name[:1].isupper())
        for name in aliases(path.read_text()):
            names.setdefault(name, False)
    for path in sorted(TOP.glob('crates/*/src/**/*.rt')):
        for name in aliases(path.read_text()):
            names.setdefault(name, False)
    turn = {}
    for name, is_type in sorted(names.items()):
        if name in OTHER:
            turn[name] = OTHER[name]
        elif '-' in name and FORM.match(name):
            turn[name] = camel(name) if is_type else name.replace('-', '_')
    taken = {}
    for name in sorted(names):
        taken.setdefault(turn.get(name, name), []).append(name)
    for new, olds in sorted(taken.items()):
        if len(olds) > 1:
            sys.exit(f'these would fall together as {new}: {", ".join(olds)}')
    return turn


def respell(text, turn):
    out, last = [], 0
    for m in NAME.finditer(text):
        word = m.group(0)
        if word not in turn:
            continue
        before = text[:m.start()]
        # a name behind a dot is a field or a step, but for a path's last part
        if before.endswith('.') and not path_end(before):
            continue
        out += [text[last:m.start()], turn[word]]
        last = m.end()
    return ''.join(out) + text[last:]


def path_end(before):
    line = before[before.rfind('\n') + 1:]
    return bool(re.match(r'\s*(pub |ghost )?use ', line))


def spans_of_code(text):
    """The parts of a source file that are clauses, ghost items and ghost `use` lines."""
    for m in re.finditer(r'(?m)^\s*ghost use [^;]*;', text):
        yield m.span()
    for m in re.finditer(r'\b(requires|ensures|ghost)\*?(?: [A-Za-z_0-9]+)?:? ?=? ?\{', text):
        depth, i = 0, m.end() - 1
        while True:
            depth += {'{': 1, '}': -1}.get(text[i], 0)
            i += 1
            if depth == 0:
                break
        yield m.start(), i


def respell_code(text, turn):
    out, last = [], 0
    for a, b in sorted(spans_of_code(text)):
        if a < last:
            continue
        out += [text[last:a], respell(text[a:b], turn)]
        last = b
    return ''.join(out) + text[last:]


def main():
    turn = table()
    for path in antt_files():
        text = path.read_text()
        new = respell(text, turn)
        if new != text:
            path.write_text(new)
    for path in sorted(TOP.glob('crates/*/src/**/*.rt')):
        text = path.read_text()
        new = respell_code(text, turn)
        if new != text:
            path.write_text(new)
    for old, new in sorted(turn.items()):
        print(f'{old} -> {new}')


main()
