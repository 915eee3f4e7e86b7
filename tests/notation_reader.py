"""The notation of plans, read once more: an independent reading by recursive descent that tests compare with. A text
gives a plan, as its JSON; or the place of the first token that is refused.

A place is a line and a column, from 1; a column is a character.
"""
import json
import re

BLANKS = " \t\r\n"
ENDS = BLANKS + "|(),\"[#"
NUMBERS, TEXTS, ROWS = "number", "text", "row"
# What each node takes in its brackets, by the keys of plan files; `*` takes all that is left.
NODES = {
    "input": None, "just_stopped": None, "just": ["*values constant"], "just_error": ["error text"],
    "schedule": ["on context"], "delay": ["turns number"], "read_env": ["query query"],
    "starts_on": ["on context", "child sender"], "when_all": ["*children sender"],
    "ahead": ["first sender", "second sender"],
}  # fmt: skip
ADAPTORS = {
    "then": ["job job"], "upon_error": ["job job"], "upon_stopped": ["job job"], "bulk": ["job element"],
    "let_value": ["pick job", "*bodies sender"], "let_error": ["pick job", "*bodies sender"],
    "let_stopped": ["pick job", "*bodies sender"], "continues_on": ["on context"],
    "stopped_as_optional": ["of kind"], "stopped_as_error": ["error text"], "unstoppable": None,
}  # fmt: skip
JOBS = {
    "add": ["n number"], "sub": ["n number"], "mul": ["n number"], "div": ["n number"], "neg": [],
    "within": ["lo number", "hi number"], "index": [], "fail": ["error text"], "iota": [], "sum": [],
    "append": ["text text"], "join": [], "length": [], "parse": [], "show": [], "give": ["*values constant"],
    "at": ["i number"], "value_or": ["else scalar"], "pass": [],
}  # fmt: skip
ELEMENT = ("add", "sub", "mul", "div", "neg", "within", "index")
WORDS = {"context": ("loop", "pool"), "query": ("stop", "record"), "kind": ("int", "text")}
SETTINGS = {
    "version": ("1", "2"), "input": ("int", "text", "row"), "scope": ("simple", "counting"), "on_error": ("go", "stop"),
    "stop_after": None,
}  # fmt: skip
CONSTANTS = {"number": (NUMBERS,), "text": (TEXTS,), "scalar": (NUMBERS, TEXTS), "constant": (NUMBERS, TEXTS, ROWS)}
DEEPEST = 56


class Refused(Exception):
    """The text is refused at this place."""

    def __init__(self, place):
        super().__init__(f"line {place[0]}, column {place[1]}")
        self.place = place


class Token:
    def __init__(self, text, place):
        self.text, self.place = text, place

    def is_word(self):
        return self.text[0] not in '|(),"[-0123456789'

    def constant(self):
        """What the token is as a constant, and its value."""
        try:
            found = json.loads(self.text, parse_float=lambda text: None, parse_constant=lambda text: None)
            self.text.encode()
            json.dumps(found).encode()
        except (ValueError, RecursionError):
            return None, None
        if isinstance(found, str):
            return (None, None) if re.search("[\ud800-\udfff]", found) else (TEXTS, found)
        if isinstance(found, list):
            return ROWS, found
        whole = isinstance(found, int) and not isinstance(found, bool) and -(2**63) <= found < 2**63
        return (NUMBERS, found) if whole and self.text.strip() != "-0" else (None, None)


def tokens_of(text):
    """The tokens of a text, and the place of its end."""
    found, at, line, start = [], 0, 1, 0

    def place():
        before = text.rfind("\n", 0, at) + 1
        return text.count("\n", 0, at) + 1, at - before + 1

    while at < len(text):
        here, first = place(), text[at]
        if first in BLANKS:
            at += 1
        elif first == "#":
            at = len(text) if "\n" not in text[at:] else text.index("\n", at)
        elif first in "|(),":
            found.append(Token(first, here))
            at += 1
        elif first == '"':
            part = re.compile(r'"((?:[^"\\]|\\.)*)("?)', re.S)
            whole = '"'
            while True:
                got = part.match(text, at)
                whole, at = whole + got[1], got.end()
                if not got[2]:
                    if text[at : at + 1] == "\\":
                        at += 1  # a text that ends behind a backslash
                    break
                more = re.compile(r'\\[ \t\r\n]*(?=")').match(text, at)
                if not more:
                    whole += '"'
                    stray = re.compile(r"\\[ \t\r\n]*").match(text, at)
                    if stray:
                        whole += "\\" if stray.end() < len(text) else ""
                        at = stray.end()
                    break
                at = more.end()
            found.append(Token(whole, here))
        elif first == "[":
            end = len(text) if "]" not in text[at:] else text.index("]", at) + 1
            found.append(Token(re.sub(r"([\[,])[ \t\r\n]+", r"\1", text[at:end]), here))
            at = end
        else:
            end = at
            while end < len(text) and text[end] not in ENDS:
                end += 1
            found.append(Token(text[at:end], here))
            at = end
    return found, place()


class Reader:
    """Reads the tokens of a text in order."""

    def __init__(self, text):
        self.tokens, self.end = tokens_of(text)
        self.at = 0

    def peek(self, ahead=0):
        at = self.at + ahead
        return self.tokens[at] if at < len(self.tokens) else None

    def refuse(self, ahead=0):
        token = self.peek(ahead)
        raise Refused(token.place if token else self.end)

    def is_at(self, text):
        return self.peek() is not None and self.peek().text == text

    def take(self, *texts):
        """The next token, which is one of these."""
        if self.peek() is None or (texts and self.peek().text not in texts):
            self.refuse()
        self.at += 1
        return self.tokens[self.at - 1]

    def plan(self):
        found = {"version": 1, "input": "int", "scope": "counting", "on_error": "go"}
        while self.peek() and self.peek().text in SETTINGS:
            name = self.peek().text
            if name == "input" and not (self.peek(1) and self.peek(1).is_word()):
                break
            self.at += 1
            if SETTINGS[name] is None:
                found[name] = self.constant("number")
            else:
                value = self.take(*SETTINGS[name]).text
                found[name] = int(value) if name == "version" else value
        found["root"], _ = self.sender()
        if self.peek():
            self.refuse()
        return found

    def sender(self):
        """A sender, and the number of nodes on its longest path."""
        node, deep = self.node(NODES, None, 0)
        while self.is_at("|"):
            self.at += 1
            node, deep = self.node(ADAPTORS, node, deep)
        return node, deep

    def node(self, table, child, deep):
        word = self.peek()
        if word is None or word.text not in table:
            self.refuse()
        self.at += 1
        node = {"do": word.text} | ({} if child is None else {"child": child})
        takes = table[word.text]
        if takes is not None:
            self.take("(")
            deep = max(deep, self.arguments(node, list(takes)))
        if deep + 1 > DEEPEST:
            raise Refused(word.place)
        return node, deep + 1

    def arguments(self, node, takes):
        """The arguments up to their bracket. The answer is the longest path below."""
        deep = 0
        for key in takes:
            if key[0] == "*":
                node[key[1:].split()[0]] = []
        first = True
        while True:
            if self.is_at(")") and first:
                break
            if not takes:
                self.refuse()
            key, what = takes[0].lstrip("*").split()
            value, below = self.argument(what)
            deep = max(deep, below)
            if takes[0][0] == "*":
                node[key].append(value)
            else:
                node[key] = value
                takes.pop(0)
            first = False
            if self.is_at(","):
                self.at += 1
                continue
            if not self.is_at(")"):
                self.refuse()
            break
        if takes and takes[0][0] != "*":
            self.refuse()
        self.at += 1
        return deep

    def argument(self, what):
        if what == "sender":
            return self.sender()
        if what in ("job", "element"):
            return self.job(what), 0
        if what in WORDS:
            return self.take(*WORDS[what]).text, 0
        return self.constant(what), 0

    def constant(self, what):
        token = self.peek()
        kind, value = token.constant() if token else (None, None)
        if kind not in CONSTANTS[what]:
            self.refuse()
        self.at += 1
        return value

    def job(self, what):
        name = self.peek()
        if name is None or name.text not in JOBS or (what == "element" and name.text not in ELEMENT):
            self.refuse()
        self.at += 1
        job, takes = {"job": name.text}, list(JOBS[name.text])
        if takes and takes[0][0] == "*":
            job["values"] = []
        while not (self.is_at(",") or self.is_at(")")):
            if self.peek() is None or not takes:
                self.refuse()
            key, kind = takes[0].lstrip("*").split()
            value = self.constant(kind)
            if takes[0][0] == "*":
                job[key].append(value)
            else:
                job[key] = value
                takes.pop(0)
        if takes and takes[0][0] != "*":
            self.refuse()
        return job


def read(text):
    """The plan of a text, or a refusal."""
    return Reader(text).plan()
