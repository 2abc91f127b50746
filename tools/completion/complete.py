#!/usr/bin/env python3
"""Writes the completion of the command `sunvm` for a shell, from the table of its words beside this file.

    tools/completion/complete.py bash|zsh|fish

A word that is no option is the file of a script or of a trace.
"""
import os, sys

BASH = """# Completion of sunvm for bash.
_sunvm() {{
    local word=${{COMP_WORDS[COMP_CWORD]}} before=${{COMP_WORDS[COMP_CWORD - 1]}}
    COMPREPLY=()
    case $before in
        {valued}) return ;;
    esac
    if [[ $word == -* ]]; then
        mapfile -t COMPREPLY < <(compgen -W '{words}' -- "$word")
    else
        mapfile -t COMPREPLY < <(compgen -f -- "$word")
    fi
}}
complete -o filenames -F _sunvm sunvm
"""


def table():
    """Each word, its value or none, what the value is, and what the word is for."""
    path = os.path.join(os.path.dirname(os.path.abspath(__file__)), 'words')
    with open(path, encoding='utf-8') as file:
        return [line.rstrip('\n').split('\t') for line in file if line.strip() and not line.startswith('#')]


def bash(rows):
    valued = '|'.join(word for word, value, _, _ in rows if value != '-')
    return BASH.format(valued=valued, words=' '.join(word for word, _, _, _ in rows))


def zsh(rows):
    lines = ['#compdef sunvm', '# Completion of sunvm for zsh.', '_arguments \\']
    for word, value, kind, meaning in rows:
        after = f'=[{meaning}]:{kind} {value}:' if value != '-' else f'[{meaning}]'
        lines.append(f"    '{word}{after}' \\")
    return '\n'.join([*lines, "    '*:script or trace:_files'"]) + '\n'


def fish(rows):
    lines = ['# Completion of sunvm for fish.']
    for word, value, _, meaning in rows:
        name = f'-l {word[2:]}' if word.startswith('--') else f'-s {word[1:]}'
        lines.append(f"complete -c sunvm {name}{' -x' if value != '-' else ''} -d '{meaning}'")
    return '\n'.join(lines) + '\n'


SHELLS = {'bash': bash, 'zsh': zsh, 'fish': fish}


def main():
    if len(sys.argv) != 2 or sys.argv[1] not in SHELLS:
        sys.exit(__doc__)
    sys.stdout.write(SHELLS[sys.argv[1]](table()))


if __name__ == '__main__':
    main()
