"""The completions for bash, zsh and fish, made from the table of options."""
from __future__ import annotations

from lockdep.cli.options import PROVOKE, RECORD, RUN, Command, Kind, Option, is_long
from other_commands import ALL

RECORDED = (RUN, PROVOKE, RECORD)  # behind whose options a command follows


def kinds_of_values() -> dict[str, Kind]:
    """Each spelling of an option that takes a value, with the kind of that, in the table's order."""
    found: dict[str, Kind] = {}
    for command in ALL:
        for option in command.options.values():
            for spelling in option.shown if option.kind else ():
                found.setdefault(spelling, option.kind)
    return found


# ---- Bash.

def bash(template: str) -> str:
    """The template with the options of each command, those with values, and what completes these."""
    options = "".join("        %s) echo %s ;;\n" % (command.name, " ".join(command.shown + ["--help"])) for command in ALL)
    values = " | ".join(dict.fromkeys(spelling for command in RECORDED for option in command.options.values() if option.kind for spelling in option.shown))
    return template.replace("@OPTIONS@\n", options).replace("@VALUES@", values).replace(
        "@COMMANDS@", " ".join(command.name for command in ALL)).replace("@COMPLETED@\n", bash_values())


def bash_values() -> str:
    """The cases of options with values. What `-o` names is a folder, or a file for `view`."""
    by_words: dict[str, list[str]] = {}
    for name, kind in kinds_of_values().items():
        words = "-f" if kind.completed == "files" else "-d" if kind.completed == "folders" else kind.completed
        by_words.setdefault("$kind" if name in ("-o", "--output") else words, []).append(name)
    return "".join("        %s) %s ;;\n" % (" | ".join(names), bash_case(words)) for words, names in by_words.items()).replace(" ) ", ") ").replace(
        ")  ;;", ") ;;")


def bash_case(words: str) -> str:
    if words == "$kind":
        return "mapfile -t COMPREPLY < <(compgen \"$kind\" -- \"$word\")"
    if words[:1] == "-":
        return "mapfile -t COMPREPLY < <(compgen %s -- \"$word\")" % words
    return "mapfile -t COMPREPLY < <(compgen -W '%s' -- \"$word\")" % words if words else ""


# ---- Zsh.

def zsh(template: str) -> str:
    subcommands = "".join("        '%s:%s'\n" % (command.name, command.brief) for command in ALL)
    cases = "".join("        %s)\n            _arguments %s\n            ;;\n" % (command.name, zsh_arguments(command)) for command in ALL)
    return template.replace("@SUBCOMMANDS@\n", subcommands).replace("@CASES@\n", cases)


def zsh_arguments(command: Command) -> str:
    words = {"command": "'(-)*:::command:_lockdep_command'", "files": "'*:trace:_files'", "file": "'1:trace:_files'", "folder": "'1:folder:_files -/'",
             "recordings": "'*:recording:_files'"}
    parts = ["$help"] + [zsh_option(option) for option in command.options.values()] + [words[command.words]]
    return ("-S " if command in RECORDED else "") + " \\\n                ".join(parts)


def zsh_option(option: Option) -> str:
    many = "*" if option.name in ("--accept-left-out", "--finding", "--list") else ""
    heads = "'%s%s" % (many, option.name) if len(option.shown) == 1 else "'(%s)'{%s}'" % (" ".join(option.shown), ",".join(option.shown))
    if option.kind is None:
        return "%s[%s]'" % (heads, option.brief)
    return "%s[%s]:%s:%s'" % (heads, option.brief, option.kind.argument.lower() if option.kind.argument != "N" else option.kind.words[2:],
                              zsh_value(option.kind))


def zsh_value(kind: Kind) -> str:
    if kind.completed == "files":
        return "_files"
    if kind.completed == "folders":
        return "_files -/"
    return "(%s)" % kind.completed if kind.completed and not kind.most else " "


# ---- Fish.

def fish(template: str) -> str:
    commands = "".join("complete -c lockdep -n __lockdep_first -a %s -d '%s'\n" % (command.name, sentence(command.brief)) for command in ALL)
    options = "".join(fish_option(command, option) for command in ALL for option in command.options.values())
    return template.replace("@COMMANDS@\n", commands).replace("@NAMES@", " ".join(command.name for command in ALL)).replace("@OPTIONS@\n", options)


def fish_option(command: Command, option: Option) -> str:
    names = " ".join("-l " + name[2:] if is_long(name) else "-s " + name[1:] for name in option.shown)
    return "complete -c lockdep -n '__lockdep_in %s' %s%s -d '%s'\n" % (command.name, names, fish_value(option.kind), sentence(option.brief))


def fish_value(kind: Kind | None) -> str:
    if kind is None:
        return ""
    if kind.completed == "files":
        return " -r"
    if kind.completed == "folders":
        return " -x -a '(__fish_complete_directories)'"
    return " -x -a '%s'" % kind.completed if kind.completed and not kind.most else " -x"


def sentence(text: str) -> str:
    return text[:1].upper() + text[1:]
