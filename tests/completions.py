#!/usr/bin/env python3
"""Compares the completions for bash, zsh and fish, and the manual page, with the help of bin/ruvkhiska, both ways.

Each command and each option of the help must be offered, and no other. The completions run in their shells; a shell that isn't
installed is reported and not tried. It prints what is wrong, and its status is 1 if anything is.

    tests/completions.py FOLDER          FOLDER has what install/completions.py wrote; some seconds

PEOPLE names another program, MANUAL another page than the one that `ruvkhiska manual` writes.
"""
import os
import re
import shutil
import subprocess
import sys

HERE = os.path.dirname(os.path.dirname(os.path.abspath(__file__)))
PEOPLE = os.path.abspath(os.environ.get("PEOPLE", os.path.join(HERE, "bin/ruvkhiska")))
FLAG = r"(?<![\w-])--?[A-Za-z][\w-]*"
# `_arguments` and `_describe` of zsh: they print what they are given.
ZSH = """
_arguments() { print -rl -- "$@" }
_describe() { print -rl -- "${(@P)2}" }
_files() {}
source "$1"
"""


def run(*words):
    return subprocess.run(words, capture_output=True, text=True, timeout=60).stdout


def in_help(text):
    """Returns the commands and the options of a help."""
    commands = re.findall(r"(?m)^  ([a-z][a-z-]*) ", text.partition("\nCommands:\n")[2].partition("\n\n")[0])
    options = text.partition("\nOptions:\n")[2].partition("\n\n")[0]
    heads = re.findall(r"(?m)^ +(-.*?)(?:  |$)", options)
    return set(commands), {flag for head in heads for flag in re.findall(FLAG, head)}


def by_bash(path, words):
    script = 'source "$1"; shift; COMP_WORDS=("$@"); COMP_CWORD=$(($# - 1)); _ruvkhiska; printf "%s\\n" "${COMPREPLY[@]}"'
    return set(run("bash", "--norc", "-c", script, "bash", path, *words).split())


def by_zsh(path, words):
    script = f"words=({' '.join(it or chr(39) * 2 for it in words)}); CURRENT={len(words)}\n{ZSH}"
    lines = run("zsh", "-f", "-c", script, "zsh", path).split("\n")
    # A line of `_arguments` is `(FLAGS)FLAG[HELP]`; one of `_describe` is `COMMAND:HELP`.
    found = (re.match(r"(?:\([^)]*\))?([\w-]+)[\[:]", it) for it in lines)
    return {it[1] for it in found if it}


def by_fish(path, words):
    lines = run("fish", "--no-config", "-c", f"source {path}; complete -C '{' '.join(words)}'").split("\n")
    return {it.split("\t")[0] for it in lines if it}


SHELLS = {"bash": ("ruvkhiska", by_bash), "zsh": ("_ruvkhiska", by_zsh), "fish": ("ruvkhiska.fish", by_fish)}


class Check:
    def __init__(self):
        self.tried = self.wrong = 0

    def same(self, due, found, where):
        self.tried += 1
        if due != found:
            self.wrong += 1
            print(f"wrong: {where}: only in the help: {sorted(due - found)}, not in the help: {sorted(found - due)}")


def try_shells(check, folder, helps):
    commands, options = helps[""]
    for shell, (name, by) in SHELLS.items():
        if not shutil.which(shell):
            print(f"not tried: {shell} isn't installed")
            continue
        path = os.path.join(folder, name)
        # bash offers commands and options together, the others offer options after a `-`.
        offered = by(path, ["ruvkhiska", ""]) | by(path, ["ruvkhiska", "-"])
        # fish offers long options alone for `--`.
        offered |= by(path, ["ruvkhiska", "--"])
        check.same(commands | options, offered, f"{shell}: the program")
        for command in commands - {"help"}:
            offered = {it for last in ("-", "--") for it in by(path, ["ruvkhiska", command, last])}
            check.same(helps[command][1], {it for it in offered if it[0] == "-"}, f"{shell}: {command}")


def try_manual(check, helps):
    path = os.environ.get("MANUAL")
    if path:
        with open(path, encoding="utf-8") as file:
            page = file.read()
    else:
        page = run(PEOPLE, "manual")
    parts = re.split(r"(?m)^\.S[SH] (.*)$", page.replace("\\-", "-"))
    sections = dict(zip(parts[1::2], parts[2::2]))
    commands, options = helps[""]
    check.same(commands - {"help"}, {it for it in sections if it.islower()}, "the manual page: commands")
    check.same(options, in_help(sections["DESCRIPTION"])[1], "the manual page: the program")
    for command in commands - {"help"}:
        check.same(helps[command][1], in_help(sections.get(command, ""))[1], f"the manual page: {command}")


def main(folder):
    if not os.access(PEOPLE, os.X_OK):
        print(f"no program at {PEOPLE}: make run", file=sys.stderr)
        return 2
    helps = {"": in_help(run(PEOPLE, "--help"))}
    for command in helps[""][0] - {"help"}:
        helps[command] = in_help(run(PEOPLE, command, "--help"))
    check = Check()
    check.same(set(), {name or "the program" for name, (_, options) in helps.items() if "--help" not in options}, "help without options")
    try_shells(check, folder, helps)
    try_manual(check, helps)
    print(f"{check.tried} tried, {check.wrong} wrong")
    return 1 if check.wrong else 0


if __name__ == "__main__":
    sys.exit(main(sys.argv[1]))
