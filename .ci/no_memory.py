#!/usr/bin/env python3
"""Where the code answers that memory ran out: each answer has to come from an allocation, or from a call that gave it.

    no_memory.py [--write]     with --write the known exceptions are written anew

No contract says that memory is there, so none refuses a body that gives up by itself. This reads the code of all crates
but those of tests. An answer is `NoMemory`, of whatever enum, or `OUT_OF_MEMORY`, where it is no pattern and no type. It
comes from an allocation or from a callee

- in an arm whose pattern names it, and in `impl From<AllocError>`;
- in an arm `Err(_)`, behind `let Ok(..) = call else`, behind `if call.is_err()` and in `map_err(|_| ..)`, where the call
  is one of std's that allocates, or a function here whose error is want of memory.

Every other answer is an exception: a count that would pass its type, or a case of which the proof says that it never
comes. They stand in `.ci/no_memory.known`, a line for each, of its file and its function. The number is printed. The
status is 0 where the exceptions found are those that are known.
"""
import os
import re
import sys
from collections import Counter

HERE = os.path.dirname(os.path.abspath(__file__))
KNOWN = os.path.join(HERE, "no_memory.known")
ANSWERS = ("NoMemory", "OUT_OF_MEMORY")
MEMORY = ANSWERS + ("AllocError", "AllocFailed", "OutOfMemory", "Memory")
# the calls of std and of the kit that fail for want of memory alone
ALLOCATING = set(
    "collect copy extend_from_slice from_array from_slice from_str insert of_words push push_str reserve reserve_exact"
    " resize to_vec vec with_capacity write Table::new".split()
)
TOKEN = re.compile(r'//[^\n]*|"(?:\\.|[^"\\])*"|\'(?:\\.|[^\'\\])\'|\w+!?|=>|->|::|&&|\|\||[^\s\w]')
OPEN = {"(": ")", "[": "]", "{": "}"}
CLOSE = {close: open for open, close in OPEN.items()}


def without_ghost(text):
    """The code without the clauses and the ghost items, which are no code."""
    text = re.sub(r"^\s*ghost use [^;]*;", "", text, flags=re.M)
    clause = re.compile(r"\b(?:ensures|requires|ghost)\b[^{};=]*(?:=\s*)?\{")
    kept, at = [], 0
    while found := clause.search(text, at):
        kept.append(text[at : found.start()])
        depth, at = 1, found.end()
        while depth:
            depth += {"{": 1, "}": -1}.get(text[at], 0)
            at += 1
    return "".join(kept) + text[at:]


def tokens_of(path):
    with open(path, encoding="utf-8") as file:
        text = file.read()
    return [token for token in TOKEN.findall(without_ghost(text)) if not token.startswith("//")]


def opening(tokens, at):
    """The place of the bracket that the one at this place closes."""
    depth = 0
    for place in range(at, -1, -1):
        if tokens[place] in CLOSE:
            depth += 1
        elif tokens[place] in OPEN:
            depth -= 1
            if depth == 0:
                return place
    raise ValueError("a bracket that nothing opens")


def enclosing(tokens, at):
    """The place of the brace round this place, or -1."""
    place = at - 1
    while place >= 0 and tokens[place] not in OPEN:
        place = opening(tokens, place) - 1 if tokens[place] in CLOSE else place - 1
    return place


def last_call(tokens, end):
    """The name of the call that ends before this place, `?` aside: `a.b(..)` is b, `A::b(..)` is A::b."""
    at = end - 1
    if tokens[at] not in (")", "]"):
        return tokens[at]
    at = opening(tokens, at) - 1
    name = tokens[at].rstrip("!")
    if tokens[at - 1] == "::" and name == "new":
        return tokens[at - 2] + "::" + name
    return name


class File:
    def __init__(self, path, errors):
        self.path = path
        self.tokens = tokens_of(path)
        self.errors = errors

    def function(self, at):
        """The place of the name of the function round this place, or none."""
        while (at := enclosing(self.tokens, at)) >= 0:
            before = at - 1
            while before >= 0 and self.tokens[before] not in ("{", "}", ";"):
                if self.tokens[before] == "fn":
                    return before + 1
                before = opening(self.tokens, before) - 1 if self.tokens[before] in (")", "]") else before - 1
        return None

    def lacks(self, name, at):
        """Whether a call of this name fails for want of memory alone."""
        if name in ALLOCATING:
            return True
        if name.isidentifier() and (begun := self.beginning(name, at)):
            return begun
        return self.errors.get(name.split("::")[-1], False)

    def beginning(self, name, at):
        """The same of a variable: that every call in what it is set to does, of which there is one."""
        start = self.function(at)
        for place in range(at, start or 0, -1):
            if self.tokens[place : place + 3] == ["let", name, "="]:
                end = place
                while self.tokens[end] != ";":
                    end = self.after(end)
                said = [token for token in self.tokens[place:end] if token in ALLOCATING]
                return bool(said)
        return False

    def after(self, at):
        """The place behind this token, and behind the bracket that it opens."""
        if self.tokens[at] not in OPEN:
            return at + 1
        depth = 0
        while True:
            depth += (self.tokens[at] in OPEN) - (self.tokens[at] in CLOSE)
            at += 1
            if depth == 0:
                return at

    def is_answer(self, at):
        """Whether the name at this place is an expression."""
        before, after = self.tokens[at - 1], self.tokens[at + 1]
        if before in ("struct", "const") or after in (">", ":"):
            return False
        end = at + 1
        while self.tokens[end] in (")", ",") and self.tokens[end + 1] in (")", "=>", "|", "="):
            end += 1
        if self.tokens[end] in ("=>", "=", "|") or (self.tokens[end] == ")" and self.tokens[end + 1] in ("=>", "=")):
            return False
        return self.function(at) is not None

    def is_given(self, at):
        """Whether an allocation or a callee gave the answer at this place."""
        tokens = self.tokens
        name = tokens[self.function(at)]
        if name == "from":
            return True
        if tokens[at - 5 : at] == ["map_err", "(", "|", "_", "|"]:
            return self.lacks(last_call(tokens, at - 6), at)
        start = self.start_of(at)
        if tokens[start - 1] in (",", "{") and tokens[enclosing(tokens, start) - 1][0].isupper():
            start = self.start_of(enclosing(tokens, start) - 1)
        if tokens[start - 1] == "=>":
            return self.is_given_by_arm(start - 1)
        if tokens[start - 1] == "{" and tokens[start - 2] == "else":
            return self.is_given_by_else(start - 2)
        if tokens[start - 1] == "{":
            return self.is_given_by_test(start - 1)
        return False

    def start_of(self, at):
        """Where the expression begins whose last name is the answer: `return Err(E::NoMemory)`, and the like."""
        tokens = self.tokens
        while tokens[at - 1] in ("::", "(", ":", "return") or (
            tokens[at] in ("::", "(", ":") and tokens[at - 1].isidentifier()
        ):
            at -= 1
        return at

    def is_given_by_arm(self, arrow):
        """Whether the pattern before this arrow says so, or the call that is matched."""
        tokens = self.tokens
        start = arrow
        while tokens[start - 1] not in ("{", "}", ","):
            start = opening(tokens, start - 1) if tokens[start - 1] in CLOSE else start - 1
        pattern = tokens[start:arrow]
        if any(token in MEMORY for token in pattern):
            return True
        if pattern[:2] != ["Err", "("]:
            return False
        brace = enclosing(tokens, start)
        return self.lacks(last_call(tokens, brace), brace)

    def is_given_by_else(self, at):
        """Whether the call before this `else` does so, behind `let Ok(..) =`."""
        tokens = self.tokens
        start = at
        while tokens[start] != "let":
            start = opening(tokens, start - 1) if tokens[start - 1] in CLOSE else start - 1
        return tokens[start + 1 : start + 3] == ["Ok", "("] and self.lacks(last_call(tokens, at), at)

    def is_given_by_test(self, brace):
        """Whether each part of the test before this brace is `call.is_err()`."""
        tokens = self.tokens
        start = brace
        while tokens[start] not in ("if", ";"):
            start = opening(tokens, start - 1) if tokens[start - 1] in CLOSE else start - 1
        ends = [place for place in range(start, brace) if tokens[place] == "||"] + [brace]
        return all(
            tokens[end - 4 : end] == [".", "is_err", "(", ")"] and self.lacks(last_call(tokens, end - 4), end)
            for end in ends
        )

    def exceptions(self):
        for at, token in enumerate(self.tokens):
            if token in ANSWERS and self.is_answer(at) and not self.is_given(at):
                yield "%s %s" % (os.path.relpath(self.path, os.path.dirname(HERE)), self.tokens[self.function(at)])


def errors_of(paths):
    """For each name of a function here whether want of memory is the error of all that are called so."""
    errors = {}
    for path in paths:
        text = re.sub(r"; \w+ \]", "]", " ".join(tokens_of(path)))
        for name, answer in re.findall(r"\bfn (\w+) [^{;]*?-> ([^{;]*)", text):
            result = re.match(r"Result <.* , (?:\w+ :: )*(\w+)(?: <.*>)? >", answer)
            errors[name] = errors.get(name, True) and bool(result) and result[1] in MEMORY
    return errors


def main():
    crates = os.path.join(os.path.dirname(HERE), "crates")
    paths = sorted(
        os.path.join(crates, name, "src", file)
        for name in os.listdir(crates)
        if not name.endswith("_tests") and os.path.isdir(os.path.join(crates, name, "src"))
        for file in os.listdir(os.path.join(crates, name, "src"))
        if file.endswith(".rt")
    )
    errors = errors_of(paths)
    found = sorted(line for path in paths for line in File(path, errors).exceptions())
    if sys.argv[1:] == ["--write"]:
        with open(KNOWN, "w", encoding="utf-8") as file:
            file.writelines(line + "\n" for line in found)
    with open(KNOWN, encoding="utf-8") as file:
        known = file.read().splitlines()
    for line in sorted((Counter(found) - Counter(known)).elements()):
        print("not known: " + line)
    for line in sorted((Counter(known) - Counter(found)).elements()):
        print("known, but gone: " + line)
    print("answers of want of memory that no allocation gives: %d" % len(found))
    return 0 if found == known else 1


sys.exit(main())
