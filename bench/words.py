#!/usr/bin/env python3
"""Writes what comes from docs/commands.txt: the program's tables of commands and lines, the synopsis of docs/bkd.1, and
docs/completion for bash, zsh and fish. The usage line is proved text, so it is only looked at.

usage: bench/words.py            writes what is stale
       bench/words.py --check    writes nothing, prints what is stale, and ends with 1 where something is
"""
import os
import re
import sys

# the checkout stays as it is
sys.dont_write_bytecode = True

from words_table import at, read_table

ANYWHERE = ("--wait", "--no-lock")

SOURCE = """\
//! The forms of the commands, of their options and of the lines that they read. (bench/words.py writes this from
//! docs/commands.txt.)

/// A command and the words that it has behind the folder.
#[derive(Clone, Copy)]
pub(crate) struct Form {
    pub(crate) command: &'static str,
    pub(crate) form: &'static str,
    pub(crate) example: &'static str,
}

/// An option that takes a value, and what it takes: the whole numbers from the first to the second, or a text.
#[derive(Clone, Copy)]
pub(crate) struct Taken {
    pub(crate) option: &'static str,
    pub(crate) value: &'static str,
    pub(crate) example: &'static str,
    pub(crate) range: Option<(u32, u32)>,
}

/// A line that some commands read.
#[derive(Clone, Copy)]
pub(crate) struct LineForm {
    pub(crate) commands: &'static str,
    pub(crate) form: &'static str,
}

pub(crate) const FORMS: [Form; %d] = [
%s];

pub(crate) const TAKEN: [Taken; %d] = [
%s];

pub(crate) const LINES: [LineForm; %d] = [
%s];
"""


def named(form):
    """The options that a form names."""
    return re.findall(r"--[a-z-]+", form)


def source(table):
    def text(value):
        return '"%s"' % value

    def ranged(name):
        return "Some((%s))" % ", ".join(map(grouped, table.ranges[name])) if name in table.ranges else "None"

    def row(kind, fields):
        return "    %s {\n%s    },\n" % (kind, "".join("        %s: %s,\n" % it for it in fields))

    def rows(kind, of):
        return "".join(row(kind, fields) for fields in of)

    forms = [(("command", text(name)), ("form", text(form)), ("example", text(example_of(table, name))))
             for name, (form, _, _) in table.commands.items()]
    taken = [(("option", text(name)), ("value", text(lowered(about))),
              ("example", text(table.examples.get(name, name + " " + value))), ("range", ranged(name)))
             for name, (value, _, about) in table.options.items() if value]
    lines = [(("commands", text(commands)), ("form", text(form))) for commands, form in table.lines]
    return SOURCE % (len(forms), rows("Form", forms), len(taken), rows("Taken", taken),
                     len(lines), rows("LineForm", lines))


def example_of(table, name):
    """Words of a command: the table's, else its form without what may be left out."""
    return table.examples.get(name) or re.sub(r" \[[^\]]*\]", "", table.commands[name][0])


def lowered(about):
    """What is said of an option up to a semicolon, as the rest of a sentence."""
    return about[:1].lower() + about[1:].partition(";")[0].removesuffix(".")


def grouped(digits):
    """A number as sources write it: in groups of three where it has more than four digits."""
    return "{:_}".format(int(digits)) if len(digits) > 4 else digits


def roff(text):
    return text.replace("\\", "\\\\").replace("-", "\\-")


def synopsis(commands):
    lines = []
    for name, (form, given, _) in commands.items():
        lines += [".SY bkd", ".I FOLDER", ".B " + name]
        for piece in re.findall(r"\[--[^\]]+\]|--[a-z-]+(?: [^ \[]+)?", form):
            option, _, value = piece.strip("[]").partition(" ")
            if piece.startswith("["):
                lines += [".RB [ " + roff(option), ".IR %s ]" % value] if value else [".RB [ %s ]" % roff(option)]
            else:
                lines += [".B " + roff(option), ".I " + value]
        lines += ["<", ".I " + given] if given else []
        lines.append(".YS")
    return "\n".join(lines) + "\n"


def manual(commands):
    text = open(at("docs/bkd.1")).read()
    before, rest = text.split(".SH SYNOPSIS\n", 1)
    return before + ".SH SYNOPSIS\n" + synopsis(commands) + rest[rest.index(".SH DESCRIPTION\n"):]


def groups(commands):
    """The commands that take the same options, together."""
    same = {}
    for name, (form, _, _) in commands.items():
        same.setdefault(" ".join([*named(form), *ANYWHERE]), []).append(name)
    return same


def bash(commands, options):
    cases = "".join("        %s) options='%s' ;;\n" % (" | ".join(names), taken)
                    for taken, names in groups(commands).items())
    valued = " | ".join(name for name, (value, _, _) in options.items() if value and name != "--forks")
    return r"""# Completion of bkd's words for bash: source this file, or copy it to
# /usr/share/bash-completion/completions/bkd (bench/words.py writes it from docs/commands.txt)

_bkd() {
    local word=${COMP_WORDS[COMP_CWORD]} before=${COMP_WORDS[COMP_CWORD-1]} options=
    COMPREPLY=()
    if [ "$COMP_CWORD" -eq 1 ]; then
        mapfile -t COMPREPLY < <(compgen -d -- "$word"; compgen -W 'help --help --version' -- "$word")
        compopt -o filenames 2>/dev/null
        return
    fi
    if [ "$COMP_CWORD" -eq 2 ]; then
        mapfile -t COMPREPLY < <(compgen -W '""" + " ".join(commands) + r"""' -- "$word")
        return
    fi
    case $before in
        --forks) mapfile -t COMPREPLY < <(compgen -W '0 1 2 3 4 5 6' -- "$word"); return ;;
        """ + valued + r""") return ;;
    esac
    case ${COMP_WORDS[2]} in
""" + cases + r"""    esac
    # each option stands at most once
    local used
    for used in "${COMP_WORDS[@]:3:COMP_CWORD-3}"; do
        options=" $options "
        options=${options/ $used / }
    done
    mapfile -t COMPREPLY < <(compgen -W "$options" -- "$word")
}

complete -F _bkd bkd ./bkd
"""


def quoted(text):
    return text.replace("'", "'\\''")


def zsh(commands, options):
    def argument(name):
        value, _, about = options[name]
        about = re.sub(r"([\[\]:\\])", r"\\\1", about)
        return "'%s[%s]%s'" % (name, quoted(about), ":%s:" % value if value else "")
    names = "".join("            '%s:%s'\n" % (name, quoted(about.replace(":", "\\:")))
                    for name, (_, _, about) in commands.items())
    cases = "".join("        (%s) _arguments %s ;;\n" % ("|".join(names), " ".join(map(argument, taken.split())))
                    for taken, names in groups(commands).items())
    return """#compdef bkd
# Completion of bkd's words for zsh: copy it as _bkd to a folder of $fpath (bench/words.py writes it from
# docs/commands.txt)

_bkd() {
    if (( CURRENT == 2 )); then
        _alternative 'folders:folder:_files -/' 'words:word:(help --help --version)'
        return
    fi
    if (( CURRENT == 3 )); then
        local -a commands
        commands=(
""" + names + """        )
        _describe command commands
        return
    fi
    local command=$words[3]
    shift 2 words
    (( CURRENT -= 2 ))
    case $command in
""" + cases + """    esac
}

_bkd "$@"
"""


def fish(commands, options):
    def one(text):
        return "'" + text.replace("\\", "\\\\").replace("'", "\\'") + "'"
    lines = ["# Completion of bkd's words for fish: copy it to ~/.config/fish/completions",
             "# (bench/words.py writes it from docs/commands.txt)",
             "function __bkd_words", "    count (commandline -opc)", "end",
             "complete -c bkd -f",
             "complete -c bkd -n 'test (__bkd_words) -eq 1' -a '(__fish_complete_directories)'",
             "complete -c bkd -n 'test (__bkd_words) -eq 1' -a 'help --help --version'"]
    for name, (_, _, about) in commands.items():
        lines.append("complete -c bkd -n 'test (__bkd_words) -eq 2' -a %s -d %s" % (name, one(about)))
    for name, (value, _, about) in options.items():
        takers = [it for it, (form, _, _) in commands.items() if name in [*named(form), *ANYWHERE]]
        lines.append("complete -c bkd -n '__fish_seen_subcommand_from %s' -l %s%s -d %s"
                     % (" ".join(takers), name[2:], " -x" if value else "", one(about)))
    return "\n".join(lines) + "\n"


def stale():
    """The files that differ from what the table makes of them, each with what it should be (None: look by hand)."""
    table = read_table()
    commands, options = table.commands, table.options
    made = {
        "crates/run_notes/src/forms.rt": source(table),
        "docs/bkd.1": manual(commands),
        "docs/completion/bkd.bash": bash(commands, options),
        "docs/completion/_bkd": zsh(commands, options),
        "docs/completion/bkd.fish": fish(commands, options),
    }
    for name, text in made.items():
        if not os.path.exists(at(name)) or open(at(name)).read() != text:
            yield name, text
    usage = "usage: bkd FOLDER %s [options]" % "|".join(commands)
    for name in ("crates/run_status/src/status.rt", "crates/run_status/specs/Texts.antt"):
        if usage not in open(at(name)).read():
            yield name, None
    unknown = {it for form, _, _ in commands.values() for it in named(form)} - set(options)
    if unknown:
        yield "docs/commands.txt (no line says what %s is)" % ", ".join(sorted(unknown)), None


def main():
    checks = sys.argv[1:] == ["--check"]
    if sys.argv[1:] and not checks:
        raise SystemExit(__doc__)
    left = False
    for name, text in stale():
        if text is None or checks:
            left = True
            print("%s doesn't agree with docs/commands.txt" % name)
        else:
            with open(at(name), "w") as file:
                file.write(text)
            print("wrote", name)
    return 1 if left else 0


if __name__ == "__main__":
    sys.exit(main())
