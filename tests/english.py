#!/usr/bin/env python3
"""Checks the language of README.md, docs/, the programs' help, and the documentation comments of the crates.

It reports each word of the table WORDS, with what to write instead, and each sentence of more than 35 words. Code blocks, code
spans (names in backquotes), paths and the targets of links don't count, as words or in a sentence's length. A heading, an item of
a list and a cell of a table end a sentence.

It prints the file, the line, and the word or the sentence's length for each finding, and the counts at the end. The status is 1
if there is a finding. Findings in crates, comments and help alike, are only counted: they don't change the status. `tests/docs.py`
calls it.

    tests/english.py              a few seconds; needs no program
    tests/english.py --crates     prints the findings in crates, too
    tests/english.py FILE...      checks these files alone: pages, or sources of crates, whose findings change the status
"""
import ast
import bisect
import glob
import os
import re
import sys

HERE = os.path.dirname(os.path.dirname(os.path.abspath(__file__)))
MOST = 35
# A file, and words as they are written in it: findings in a sentence with them don't count. At most 20 lines, each needed.
# They repeat the crates' own text, and go when that changes.
EXCEPTIONS = """
docs/internals/ARCHITECTURE.md: the simple type that a printed type stands for
docs/internals/ARCHITECTURE.md: takes no octet before it is needed
docs/reference/REASONS.md: the child element can't follow those before it
"""
# What a schema or a program would be said to take. An input takes time and memory.
TAKEN = "schema|model|document|text|octet|name|list|map|word|value|front"
# What we don't write, as a pattern, and what we write instead. The first that fits counts.
WORDS = [
    (r"(?:told|tell|tells) apart", "distinguished"),
    (r"tells?|told|telling", "states, gives, reports, is given by"),
    (r"behind", "after"),
    (r"(?<!in )fronts?", "a prefix"),
    (r"before (?:it|them)(?=\s*(?:[,.;:)]|$)|\s+(?:and|or|in)\b)", "precedes it"),
    (r"as deep as", "bounded by nesting depth"),
    (r"in one another", "nested"),
    (r"stands?|stood|standing", "is, appears, holds, remains"),
    (r"beside", "next to, in addition to, compared with"),
    (r"wants? of", "allocation failure, out of memory"),
    (r"(?<!you )(?<!who )wants?|wanted|wanting", "needs, requires"),
    (r"the outside|from outside", "the environment; source, sink, library"),
    (r"due(?! to\b)", "is expected, is the required result"),
    (r"(?<!its )(?<!their )(?<!the )(?<!two )answers|answered|answering", "returns"),
    (r"(?<!have )(?<!has )taken", "accepted, read"),
    (rf"takes? (?:(?:no|none|any|my|just|the same|an?|the) )?(?:{TAKEN})s?", "accepts, reads"),
    (r"left out|leav(?:e|es|ing)(?: \w+)? out", "is omitted, is dropped"),
    (r"(?:refused|rejected|reported) by name", "with a named error"),
    (r"(?<!the )(?<!a )whole(?=\s*(?:[,.;:)]|$)|\s+(?:and|or|by|in|at|before|once)\b)", "complete, entire, in full"),
    (r"just", "exactly, only; if and only if"),
    (r"anew", "again, from scratch"),
    (r"so many|(?<!half )(?<!times )(?<!twice )as many", "the number of, up to n"),
    (r"mend(?:s|ed|ing)?", "fix, fixes"),
    (r"sought|looke?d? through|looks through", "is searched for, is scanned"),
    (r"puts?|putting", "write, append, emit"),
    (r"go(?:es)? down|walk(?:s|ed|ing)?", "traverses"),
    (r"kids?", "children"),
    (r"sorts? of", "kinds of"),
    (r"(?-i:Hence|Thus)", "so, therefore"),
    (r"(?:and )?none else", "only"),
    (r"but (?:for|that)", "except, except that"),
    (r"in place of", "instead of"),
    (r"of which none|that ha(?:s|ve) none", "without"),
    (r"as (?:is )?asked", "as required"),
    (r"nobody", "no caller, the caller"),
    (r"nothing to say|in a way of (?:its|their) own|as (?:it|they) likes?", "say it plainly"),
]
FOUND = re.compile("|".join(rf"(?P<w{at}>(?<![\w-])(?:{word})(?![\w-]))" for at, (word, _) in enumerate(WORDS)), re.I)
# What has no words: code spans, the targets of links, paths and addresses. Each is blanked, so that places stay as they are.
SPAN = re.compile(r"(`+)(?!`).*?(?<!`)\1(?!`)")
TARGET = re.compile(r"\]\([^)\s]*\)")
TOPS = "bench|bin|crates|docs|examples|guide|include|internals|narrow|out|proofs|reference|specs|src|tests"
PATH = re.compile(rf"https?://\S+|(?<![\w/])/?(?:(?:{TOPS})/[\w./*-]*[\w*]|[\w./-]+/[\w-]+\.[a-z]\w*)")
CODE = "\x00"
# The end of a sentence. A small letter after it goes on with the sentence, as after an abbreviation.
END = re.compile(r"(?<!e\.g)(?<!i\.e)(?<!cf)(?<!vs)[.!?][\"')\]*]*\s+(?![a-z])")
ITEM = re.compile(r"\s*(?:[-*+]|\d+\.)\s+")


class Text:
    """Lines of prose that belong together, joined by spaces, with the number of the line where each begins."""

    def __init__(self):
        self.text, self.starts, self.numbers = "", [], []

    def add(self, number, line):
        self.starts.append(len(self.text))
        self.numbers.append(number)
        self.text += line.strip() + " "

    def number(self, at):
        return self.numbers[bisect.bisect_right(self.starts, at) - 1]


def blank(text):
    """Returns the text without code, targets, paths and marks of emphasis, each place where it was."""
    text = SPAN.sub(lambda it: CODE * len(it[0]), text)
    text = TARGET.sub(lambda it: " " * len(it[0]), text)
    text = PATH.sub(lambda it: CODE * len(it[0]), text)
    return re.sub(r"[*\[]|(?<!\w)_|_(?!\w)", " ", text)


def cells_of(line):
    """Returns the cells of a table's row. A bar in a code span, or after a backslash, is no border."""
    bars = re.sub(r"\\\|", "  ", SPAN.sub(lambda it: CODE * len(it[0]), line))
    cells, start = [], 0
    for at in [*(it.start() for it in re.finditer(r"\|", bars)), len(line)]:
        cells.append(line[start:at])
        start = at + 1
    return [it for it in cells if it.strip() and not re.fullmatch(r"\s*:?-+:?\s*", it)]


def texts_of(lines):
    """Yields the texts of Markdown, whose lines come with their numbers: paragraphs, headings, items and cells."""
    text, fenced, after_blank = Text(), False, True
    for number, line in lines:
        bare = line.strip()
        in_code = not fenced and after_blank and line.startswith("    ")
        after_blank = not bare or in_code
        is_fence = bare.startswith("```")
        fenced ^= is_fence
        begins = ITEM.match(line)
        if fenced or is_fence or in_code or not bare or begins or bare[0] in "|#":
            yield text
            text = Text()
        if fenced or is_fence or in_code or not bare:
            continue
        if bare[0] == "|":
            for cell in cells_of(bare):
                alone = Text()
                alone.add(number, cell)
                yield alone
        elif bare[0] == "#":
            text.add(number, bare.lstrip("#"))
            yield text
            text = Text()
        else:
            text.add(number, line[begins.end():] if begins else bare.removeprefix("> "))
    yield text


def sentences_of(text):
    """Yields each sentence of a blanked text, with the place where it begins."""
    start = 0
    for end in [*(it.end() for it in END.finditer(text)), len(text)]:
        if text[start:end].strip():
            yield start, text[start:end]
        start = end


def findings_of(text):
    """Yields the findings in a text: the line, what is wrong, and the sentence as it is written."""
    blanked = blank(text.text)
    for start, sentence in sentences_of(blanked):
        written = text.text[start : start + len(sentence)].strip()
        for word in FOUND.finditer(sentence):
            around = text.text[max(0, start + word.start() - 25) : start + word.end() + 25].strip()
            better = next(WORDS[int(name[1:])][1] for name, found in word.groupdict().items() if found)
            yield text.number(start + word.start()), f'"{word[0]}" in "...{around}...": {better}', written
        length = sum(any(it.isalnum() for it in word) and CODE not in word for word in sentence.split())
        if length > MOST:
            yield text.number(start), f'{length} words: "{" ".join(written.split()[:6])}..."', written


def lines_of(path):
    with open(os.path.join(HERE, path), encoding="utf-8") as file:
        return list(enumerate(file.read().split("\n"), 1))


def comments_of(path):
    """Yields the lines of documentation comments. A line of code between two comments is an empty one."""
    for number, line in lines_of(path):
        found = re.match(r"\s*//[/!] ?(.*)", line)
        yield number, found[1] if found else ""


def help_of(path):
    """Yields the lines of help in a source of a crate, each a text of its own: options, commands, and what a message means."""
    for number, line in lines_of(path):
        manual = r'^    "(?!\.)|' if path.endswith("/manual.rt") else ""
        found = re.search(rf'(?:{manual}\b(?:help|about|means|remedy): "|\.about\(")((?:[^"\\]|\\.)*)"', line)
        if found:
            yield from ((number, found[1]), (number, ""))


def narrow_help_of(path):
    """Yields the lines of help in the Python source of ruvkhiska-narrow. A line that is indented is a text of its own."""
    tree = ast.parse("\n".join(line for _, line in lines_of(path)))
    assigned = [it for it in tree.body if isinstance(it, ast.Assign)]
    named = [it.value for it in assigned if getattr(it.targets[0], "id", "") in ("DESCRIPTION", "EPILOG")]
    helps = [it.value for it in ast.walk(tree) if isinstance(it, ast.keyword) and it.arg == "help"]
    for node in [*named, *helps]:
        if isinstance(node, ast.Constant) and isinstance(node.value, str):
            # The text of a name begins in the line after its quotation marks.
            for number, line in enumerate(node.value.split("\n"), node.lineno + (node in named)):
                yield from [(number, ""), (number, line.strip()), (number, "")] if line.startswith("  ") else [(number, line)]
            yield node.end_lineno, ""


def readings_of(path):
    """Returns the lines to read of a file, as lists of lines of Markdown."""
    if path.endswith(".rt"):
        return [comments_of(path), help_of(path)]
    return [narrow_help_of(path) if path.endswith(".py") else lines_of(path)]


def pages():
    return ["README.md", *sorted(glob.glob("docs/**/*.md", root_dir=HERE, recursive=True)), "narrow/narrowing/cli.py"]


def sources():
    return sorted(glob.glob("crates/*/src/**/*.rt", root_dir=HERE, recursive=True))


class Check:
    """Counts findings, and knows which exceptions they used."""

    def __init__(self):
        lines = [it for it in EXCEPTIONS.split("\n") if it]
        self.exceptions, self.used = [it.split(": ", 1) for it in lines], set()

    def is_excepted(self, path, sentence):
        for number, (file, words) in enumerate(self.exceptions):
            if file == path and words in sentence:
                self.used.add(number)
                return True
        return False

    def count(self, paths, shown):
        """Returns the numbers of words to replace and of long sentences in the files, and prints the findings if `shown`."""
        words = long = 0
        for path in paths:
            findings = [it for lines in readings_of(path) for text in texts_of(lines) for it in findings_of(text)]
            for number, wrong, sentence in sorted(findings):
                if not self.is_excepted(path, sentence):
                    words, long = words + (wrong[0] == '"'), long + (wrong[0] != '"')
                    if shown:
                        print(f"{path}:{number}: {wrong}")
        return words, long

    def wrong_exceptions(self):
        """Returns the number of exceptions over 20 or without a finding, and prints them."""
        unused = [": ".join(it) for number, it in enumerate(self.exceptions) if number not in self.used]
        for it in unused:
            print("tests/english.py: the exception has no finding:", it)
        too_many = max(0, len(self.exceptions) - 20)
        if too_many:
            print(f"tests/english.py: {len(self.exceptions)} exceptions are more than 20")
        return len(unused) + too_many


def main(options):
    check, files = Check(), [os.path.relpath(it, HERE) for it in options if it != "--crates"]
    words, long = check.count(files or pages(), True)
    summary = f"{words} words to replace, {long} sentences of more than {MOST} words"
    if files:
        print(summary)
        return 1 if words or long else 0
    wrong = check.wrong_exceptions()
    in_crates = check.count(sources(), "--crates" in options)
    print(f"README.md, docs/ and the help of ruvkhiska-narrow: {summary}")
    print(f"crates, which are only counted: {in_crates[0]} words, {in_crates[1]} sentences")
    return 1 if words or long or wrong else 0


if __name__ == "__main__":
    sys.exit(main(sys.argv[1:]))
