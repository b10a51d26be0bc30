#!/usr/bin/env python3
"""Makes the manual page remux.1 and the completions of bash (remux), zsh (_remux) and fish (remux.fish) out of the program's own help.

Usage: python3 scripts/pages.py PROGRAM FOLDER
"""
import os
import re
import subprocess
import sys

# A row of a list in the help: what it names, and what it says of that.
ROW = re.compile(r" {2,}(\S.*?)(?: {2,}(\S.*))?$")


class Help:
    """What the program says of itself or of a command: its purpose, its usage, its lists, and the paragraphs behind them."""

    def __init__(self, program, *words):
        text = subprocess.run([program, *words, "--help"], capture_output=True, text=True, check=True).stdout
        self.name = words[-1] if words else "remux"
        self.about, self.usage, self.lists, self.paragraphs = "", "", {}, []
        for part in text.strip().split("\n\n"):
            head, *rows = part.split("\n")
            if head.startswith("Usage: "):
                self.usage = head[len("Usage: "):]
            elif head in ("Commands:", "Arguments:", "Options:"):
                self.lists[head[:-1]] = joined(rows)
            elif not self.usage:
                self.about = part.replace("\n", " ")
            else:
                self.paragraphs.append(part)

    def options(self):
        """Each option's name, whether a value follows, and what it does."""
        for names, text in self.lists["Options"]:
            yield re.search(r"--[a-z]+", names).group(), "<" in names, text


def joined(rows):
    """The rows of a list, where a row may go on in the lines below it."""
    found = []
    for row in rows:
        if match := ROW.match(row):
            if found and len(row) - len(row.lstrip()) > 8 and not match.group(2):
                found[-1] = found[-1][0], f"{found[-1][1]} {match.group(1)}".strip()
            else:
                found.append((match.group(1), match.group(2) or ""))
    return found


def roff(text):
    """A text as a manual page has it."""
    text = text.replace("\\", "\\e").replace("-", "\\-")
    return re.sub(r"^([.'])", r"\\&\1", text, flags=re.M)


def listed(rows):
    """A list of a manual page."""
    return "".join(f".TP\n.B {roff(names)}\n{roff(text)}\n" for names, text in rows)


def paragraph(text):
    """A paragraph of a manual page. The lines of an example stay as they are."""
    head, *lines = text.split("\n")
    if lines and all(line.startswith("  ") for line in lines):
        return f".PP\n{roff(head)}\n.PP\n.nf\n{roff(chr(10).join(lines))}\n.fi\n"
    return f".PP\n{roff(text)}\n"


def manual(whole, commands):
    """The manual page."""
    out = '.TH REMUX 1\n.SH NAME\nremux \\- a remultiplexer of MPEG\\-2 transport streams whose promises are proved\n.SH SYNOPSIS\n'
    out += "".join(f".PP\n.B {roff(command.usage)}\n" for command in commands)
    out += f".SH DESCRIPTION\n{roff(whole.about)}\n"
    for command in commands:
        out += f".SH {command.name.upper()}\n.PP\n{roff(command.about)}.\n"
        for name in "Arguments", "Options":
            out += listed(command.lists.get(name, []))
        out += "".join(map(paragraph, command.paragraphs))
    return out + ".SH NOTES\n" + "".join(map(paragraph, whole.paragraphs))


def bash(whole, commands):
    """The completion of bash."""
    cases = "".join(f'        {c.name}) words="{" ".join(name for name, _, _ in c.options())}" ;;\n' for c in commands)
    taken = sorted({name for c in commands for name, has_value, _ in c.options() if has_value and name not in ("--plan", "--then", "--out")})
    return f'''_remux() {{
    local word=${{COMP_WORDS[COMP_CWORD]}} before=${{COMP_WORDS[COMP_CWORD - 1]}} words=
    COMPREPLY=()
    case $before in {"|".join(taken)}) return ;; esac
    if [ "$COMP_CWORD" = 1 ]; then
        words="{" ".join(c.name for c in commands)} {" ".join(name for name, _, _ in whole.options())}"
    else
        case ${{COMP_WORDS[1]}} in
{cases}        esac
    fi
    case $word in
        -*) mapfile -t COMPREPLY < <(compgen -W "$words" -- "$word") ;;
        *) [ "$COMP_CWORD" = 1 ] && mapfile -t COMPREPLY < <(compgen -W "$words" -- "$word") ;;
    esac
}}
complete -o default -F _remux remux
'''


def quoted(text):
    """A text between single quotes of a shell, in which nothing of zsh's own stands."""
    return text.replace("'", "").replace("[", "(").replace("]", ")").replace(":", ",")


def zsh(whole, commands):
    """The completion of zsh."""
    names = " ".join(f"'{c.name}:{quoted(c.about)}'" for c in commands)
    cases = ""
    for command in commands:
        specs = [f"'*{name}[{quoted(text)}]{':value:_files' if has_value else ''}'" for name, has_value, text in command.options()]
        cases += f"        {command.name}) _arguments {' '.join(specs)} '*:file:_files' ;;\n"
    return f'''#compdef remux
_remux() {{
    local -a commands=({names})
    if (( CURRENT == 2 )); then
        _describe command commands
        return
    fi
    local command=$words[2]
    shift words
    (( CURRENT-- ))
    case $command in
{cases}    esac
}}
_remux "$@"
'''


def fish(whole, commands):
    """The completion of fish."""
    out = ""
    for command in commands:
        out += f"complete -c remux -n __fish_use_subcommand -f -a {command.name} -d '{quoted(command.about)}'\n"
        for name, has_value, text in command.options():
            value = " -r" if has_value else ""
            out += f"complete -c remux -n '__fish_seen_subcommand_from {command.name}' -l {name[2:]}{value} -d '{quoted(text)}'\n"
    return out


def main():
    if len(sys.argv) != 3:
        sys.exit(__doc__)
    program, folder = sys.argv[1:]
    whole = Help(program)
    commands = [Help(program, name) for name, _ in whole.lists["Commands"] if name != "help"]
    for name, made in (("remux.1", manual), ("remux", bash), ("_remux", zsh), ("remux.fish", fish)):
        with open(os.path.join(folder, name), "w", encoding="utf-8") as file:
            file.write(made(whole, commands))


if __name__ == "__main__":
    main()
