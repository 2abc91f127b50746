#!/usr/bin/env python3
"""Rewrites a script so that three things are taken which the grammar refuses, and changes nothing else: a tab between fields, a carriage return at
the end of a line, and a comment behind a line.

    tools/vm_fmt.py [FILE]            the script of the file, or of standard input, on standard output
    tools/vm_fmt.py --in-place FILE   the file itself, if anything is to be changed
    tools/vm_fmt.py --check FILE      says which lines would change, and ends with 1 if any would

Each tab becomes a space. A comment behind a line gets a line of its own above it, so the numbers of the lines below it rise by one.
A line that is taken as it stands stays byte for byte, and so does each comment on a line of its own, but for a carriage return at its end.
"""
import argparse, re, sys

# a field, and where it begins
FIELD = re.compile(rb'[^ ]+')


def comment_at(line):
    """Where a comment behind the line's fields begins; none where there is none. The path of a disk may begin with # too."""
    fields = list(FIELD.finditer(line))
    first = 4 if [it[0] for it in fields[:1]] == [b'disk'] and [it[0] for it in fields[2:3]] == [b'path'] else 1
    return next((it.start() for it in fields[first:] if it[0].startswith(b'#')), None)


def rewritten(line):
    """What stands in the place of a line, without its line feed: itself, or a comment and what it stood behind."""
    line = re.sub(rb'\r+\Z', b'', line)
    plain = line.replace(b'\t', b' ')
    if plain.lstrip(b' ').startswith(b'#'):
        # a comment may have any bytes once its # is the first that isn't a space
        before = len(plain) - len(plain.lstrip(b' '))
        return [plain[:before] + line[before:]]
    at = comment_at(plain)
    if at is None:
        return [plain]
    before = len(plain) - len(plain.lstrip(b' '))
    return [plain[:before] + line[at:], plain[:at].rstrip(b' ')]


def tidy(text):
    """The script, rewritten."""
    lines = text.split(b'\n')
    return b'\n'.join(it for line in lines for it in rewritten(line))


def changed(text):
    """The numbers of the lines that would change."""
    return [number for number, line in enumerate(text.split(b'\n'), 1) if rewritten(line) != [line]]


def main():
    ways = argparse.ArgumentParser(description=__doc__, formatter_class=argparse.RawDescriptionHelpFormatter)
    ways.add_argument('file', nargs='?')
    ways.add_argument('--in-place', action='store_true')
    ways.add_argument('--check', action='store_true')
    asked = ways.parse_args()
    if asked.file is None:
        if asked.in_place:
            ways.error('--in-place wants a file')
        text = sys.stdin.buffer.read()
    else:
        try:
            with open(asked.file, 'rb') as file:
                text = file.read()
        except OSError as error:
            sys.exit(f'vm_fmt.py: {asked.file}: {error.strerror}')
    if asked.check:
        for number in changed(text):
            print(f'{asked.file or "standard input"}:{number}')
        sys.exit(1 if changed(text) else 0)
    new = tidy(text)
    if not asked.in_place:
        sys.stdout.buffer.write(new)
    elif new != text:
        with open(asked.file, 'wb') as file:
            file.write(new)


if __name__ == '__main__':
    main()
