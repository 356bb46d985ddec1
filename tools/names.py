#!/usr/bin/env python3
"""Spells the definitions and lemmas of this repository in the current style: words in snake case, types and modules in
camel case. Run once, right after the kit's own script, at the top of the repository. It turns specs/, proofs/, the clauses
of src/, the must-fail edits and the names in the pages. Functions of src/, strings, inputs and outputs keep their names.
"""
import re
import subprocess

# A name; and strings, which are left alone, and comments, where names are turned too.
TOKEN = re.compile(r"[A-Za-z_][A-Za-z0-9_'’′₀-₉]*")
PARTS = {
    'antt': re.compile(r'"(?:[^"\\\n]|\\.)*"|--[^\n]*'),
    'rt': re.compile(r'b?"(?:[^"\\]|\\.)*"|//[^\n]*|b?\'(?:[^\'\\\n]|\\.)\''),
}
# Names that the standard library spells otherwise now, and a definition that would have a field's name.
OWN = {'getD': 'get_or', 'natAbs': 'unsigned_abs', 'hasGrid': 'has_grid_lem'}
# Lemmas and module names that a definition's new spelling would fall together with.
APART = {
    'no_room': 'no_room_lem',
    'size_number': 'size_number_lem',
    'unsigned_of': 'unsigned_of_lem',
    'put_entries': 'put_entries_lem',
    'same_entries': 'same_entries_lem',
    'same_memory': 'same_memory_lem',
    'not_negative': 'not_negative_lem',
    'record_of': 'record_kind',
}
APART_TOKEN = re.compile(r"(?<![A-Za-z0-9_.:'-])(" + '|'.join(APART) + r")(?![A-Za-z0-9_'-])")


def spelled(name):
    if name in OWN:
        return OWN[name]
    if not re.match(r'[a-z]', name) or not re.search(r'[A-Z]', name) or re.search(r'_[A-Z]', name):
        return name
    name = name.replace('NaN', 'Nan').replace('′', "'")
    name = re.sub(r'([a-z0-9])([A-Z])', r'\1_\2', name)
    return re.sub(r'([A-Z])([A-Z][a-z])', r'\1_\2', name).lower()


def turned(text, kind):
    """The text with its names turned, but for strings."""
    out, at = [], 0
    for part in PARTS[kind].finditer(text):
        out.append(names(text[at:part.start()], kind))
        kept = part.group(0)
        # A comment of a definition may name another.
        out.append(names(kept, kind) if kept.startswith(('--', '//')) else kept)
        at = part.end()
    out.append(names(text[at:], kind))
    return ''.join(out)


def names(text, kind):
    # Module aliases: `use M as record_of`, then `record_of.Step`.
    if kind == 'antt':
        text = APART_TOKEN.sub(lambda m: APART[m.group(1)], text)
    return TOKEN.sub(lambda m: spelled(m.group(0)), text)


def edited(text):
    """A must-fail edit: its texts are of the file that it names."""
    out, kind = [], 'rt'
    for line in text.split('\n'):
        if line.startswith('file:'):
            kind = 'antt' if line.endswith('.antt') else 'rt'
        elif line.startswith(('old:', 'new:')):
            line = line[:4] + turned(line[4:], kind)
        out.append(line)
    return '\n'.join(out)


def paged(text):
    """A page: names between backquotes."""
    return re.sub(r'`[^`\n]+`', lambda m: names(m.group(0), 'rt'), text)


def main():
    listed = subprocess.run(['git', 'ls-files', '-z', '--cached', '--others', '--exclude-standard'], capture_output=True, check=True)
    for path in listed.stdout.decode().split('\0'):
        if re.match(r'crates/[^/]+/(specs|proofs)/.*\.antt$', path):
            turn = lambda t: turned(t, 'antt')
        elif re.match(r'crates/[^/]+/src/.*\.rt$', path):
            turn = lambda t: turned(t, 'rt')
        elif re.match(r'crates/[^/]+/must-fail/.*\.edit$', path):
            turn = edited
        elif re.match(r'(README|CONTRIBUTING|docs/.*)\.md$', path):
            turn = paged
        else:
            continue
        try:
            with open(path, encoding='utf-8') as f:
                old = f.read()
        except FileNotFoundError:
            continue
        new = turn(old)
        if new != old:
            with open(path, 'w', encoding='utf-8') as f:
                f.write(new)


if __name__ == '__main__':
    main()
