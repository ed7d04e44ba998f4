"""The help and the manual pages of the driver's commands, made from the table of options and from tool/texts, which has what follows the options."""
from __future__ import annotations

import re
import textwrap

from lockdep.cli.options import COMMANDS, RECORDINGS, Command, Option

WIDTH, FIRST_WIDTH, WIDEST = 120, 100, 26  # of a line of help, of its first screen, and of an option beside its text
GLUE = "\xa0"  # a space that isn't the end of a line
MAN_WIDTH = 80  # of a line in the source of a manual page
PUNCTUATION, PUNCTUATION_CLASS = ".,;:)]", r".,;:)\]"
HELP = Option("--help", None, "print help", "Print help: what most people need, or with `--help=all` all of it", others=("-h",),
              first="Print this; with `--help=all` all options, and more of each")
FLAGS = {name for command in COMMANDS.values() for name in command.shown if name[:2] == "--"}


# ---- Help.

def help_of(command: Command, rest: str, is_first: bool = False) -> str:
    """The help: what the command does, how it is called, its options, and the rest; or its first screen, which has some of the options, by a line each."""
    before = "Usage: lockdep %s " % command.name
    lines = (textwrap.wrap(command.text, FIRST_WIDTH) if is_first else [command.text]) + [""]
    for usage in command.usage:
        lines.append(before + usage)
        before = " " * len("Usage: ") + "lockdep %s " % command.name
    return "\n".join(lines) + "\n\n" + rest.replace("@OPTIONS@\n", "Options:\n" + option_list(command, is_first))


def option_list(command: Command, is_first: bool) -> str:
    heads = [(head_of(option), option.first if is_first else option.text) for option in all_options(command) if option.first or not is_first]
    column = max(len(head) for head, _ in heads if len(head) <= WIDEST) + 2
    return "".join(entry(head, text, column, FIRST_WIDTH if is_first else WIDTH) for head, text in heads)


def head_of(option: Option) -> str:
    value = " <%s>" % option.kind.argument if option.kind else ""
    return ("  " if option.shown[0][1] != "-" else "      ") + ", ".join(option.shown) + value


def entry(head: str, text: str, column: int, width: int) -> str:
    """An option with its text beside it, or below it if there is no room. No line of the text begins as an option does."""
    lines = [line.replace(GLUE, " ") for line in textwrap.wrap(text.replace(" --", GLUE + "--"), width - column, break_long_words=False,
                                                               break_on_hyphens=False)]
    first = head.ljust(column) if len(head) + 2 <= column else head + "\n" + " " * column
    return first + ("\n" + " " * column).join(lines) + "\n"


# ---- Manual pages.

def page_of(command: Command, template: str) -> str:
    """The manual page: the template with the synopsis and the options put in."""
    return template.replace("@SYNOPSIS@\n", synopsis(command)).replace("@OPTIONS@\n", "".join(item(option) for option in all_options(command)))


def all_options(command: Command) -> list[Option]:
    return list(command.options.values()) + [HELP]


def flag(name: str) -> str:
    """An option as mdoc has it: the macro itself writes the first hyphen."""
    return name[1:].replace("-", "\\-") if name[:2] != "--" else "-" + name[2:]


def argument(option: Option) -> str:
    if option.kind is None:
        return ""
    name = option.kind.argument
    return " Ar " + (name if name == "N" else name.lower())


def synopsis(command: Command) -> str:
    """The first way to call a command with all options that belong to it, and the others as they are in the help."""
    alone = {word for usage in command.usage[1:] for word in usage.split() if word.startswith("--")}
    lines = ['.Nm "lockdep %s"' % command.name]
    lines += [".Op Fl %s%s" % (flag(option.name), argument(option)) for option in command.options.values()
              if option.name not in alone or option.name == "--frames"]
    lines += [".Ar recording ..."] if command.words == RECORDINGS else [".Op Fl -" if len(command.usage) > 1 else ".Fl -", ".Ar command ..."]
    for usage in command.usage[1:]:
        lines.append('.Nm "lockdep %s"' % command.name)
        lines += [use(part) for part in re.findall(r"\[[^]]*\](?:\.\.\.)?|--\S+ \S+", usage)]
    return "\n".join(lines) + "\n"


def use(part: str) -> str:
    """An option with its argument, in brackets if it may be left out."""
    words = part.strip("[].").split()
    text = "Fl -%s Ar %s" % (words[0][2:], words[1] if words[1] == "N" else words[1].lower())
    return ".Op %s%s" % (text, " ..." if part.endswith("...") else "") if part.startswith("[") else "." + text


def item(option: Option) -> str:
    head = ".It " + " , ".join("Fl " + flag(name) for name in option.shown) + argument(option)
    return head + "\n" + "".join(line + "\n" for line in mdoc(option.text + ".") + (mdoc(option.more) if option.more else []))


def mdoc(text: str) -> list[str]:
    """A text as lines of mdoc: a sentence begins a line, what stands in backquotes is a literal, and an option is a flag."""
    lines: list[str] = []
    for sentence in re.split(r"(?<=\.)\s+(?=[A-Z`])", text):
        lines += sentence_lines(sentence)
    return lines


def sentence_lines(sentence: str) -> list[str]:
    """The lines of a sentence. A flag is a line only if it is one of the driver's."""
    flags = "|".join(sorted(FLAGS, key=len, reverse=True))
    lines: list[str] = []
    for piece in re.split(r"(`[^`]*`[%s]*|(?<![\w-])(?:%s)(?![\w-])[%s]*)" % (PUNCTUATION_CLASS, flags, PUNCTUATION_CLASS), sentence):
        if piece.startswith("`"):
            word, _, after = piece[1:].partition("`")
            lines.append(" ".join([".Ql", literal(word)] + list(after)))
        elif piece.rstrip(PUNCTUATION) in FLAGS:
            word = piece.rstrip(PUNCTUATION)
            lines.append(" ".join([".Fl", "-" + word[2:]] + list(piece[len(word):])))
        elif piece.strip():
            lines += [escaped(line) for line in textwrap.wrap(piece.strip(), MAN_WIDTH, break_long_words=False, break_on_hyphens=False)]
    return lines


def literal(word: str) -> str:
    """The words of a literal, with hyphens that aren't made longer."""
    return " ".join(each.replace("-", "\\-") if each[:1] == "-" else each for each in word.split())


def escaped(line: str) -> str:
    return ("\\&" if line[:1] in ".'" else "") + line
