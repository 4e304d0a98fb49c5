"""Reads Rattle source text as tokens, without the clauses and ghost items that only proofs read.

A clause has text that is no Rust, so it is left out here, before there are tokens. What is left out, its comments and
its documentation leave a token GAP, so that `layout` knows where a line lost a part.
"""
import re
from typing import NamedTuple


class Refused(Exception):
    """A form that the extraction does not know: where it is, and what it is."""

    def __init__(self, line, text):
        super().__init__(text)
        self.line = line
        self.text = text


class Token(NamedTuple):
    """A token: its kind, its text, and its line."""
    kind: str
    text: str
    line: int


# The kinds of tokens. An inner doc comment (//!) and an outer one (///) are kept, and so are comments.
SPACE, COMMENT, DOC, STRING, CHAR, LIFETIME, NUMBER, WORD, MARK, GAP = (
    "space", "comment", "doc", "string", "char", "lifetime", "number", "word", "mark", "gap")
BLANK = (SPACE, COMMENT, DOC, GAP)

TOKEN = re.compile(
    r"""(?P<space>\s+)
    |(?P<doc>//[/!](?!/)[^\n]*)
    |(?P<comment>//[^\n]*)
    |(?P<string>b?r(?P<hashes>\#*)".*?"(?P=hashes)|[bc]?"(?:\\.|[^"\\])*")
    |(?P<char>b?'(?:\\(?:x[0-9a-fA-F]{2}|u\{[0-9a-fA-F_]+\}|.)|[^\\'])')
    |(?P<lifetime>'[A-Za-z_]\w*)
    |(?P<number>\d\w*(?:\.\d\w*)?(?:[eE][+-]?\d+)?)
    |(?P<word>[A-Za-z_]\w*)
    |(?P<mark>::|->|=>|\.\.=|\.\.|&&|\|\||<<=|>>=|[-+*/%^&|=!<>]=|<<|[-+*/%^!&|=<>@.,;:\#$?(){}\[\]])""",
    re.VERBOSE | re.DOTALL)

# What only proofs read, up to the brace of its text, or up to its end.
GHOST = [
    ("clause", re.compile(r"(?:requires|ensures)\*?(?:\s+\w+)?\s*(?=\{)")),
    ("ghost member", re.compile(r"ghost\*?\s+\w+\s*[:=]\s*(?=\{)")),
    ("ghost import", re.compile(r"ghost use [^;{]*(?:\{[^}]*\})?[^;]*;")),
]
GHOST_WORDS = ("ghost", "requires", "ensures")


def tokens_of(text):
    """The tokens of a source file."""
    found, at, line = [], 0, 1
    while at < len(text):
        end = ghost_end(text, at, found)
        if end is not None:
            line += text.count("\n", at, end)
            at = end
            continue
        match = TOKEN.match(text, at)
        if not match:
            raise Refused(line, f"characters {text[at:at + 20]!r}")
        kind = match.lastgroup if match.lastgroup != "hashes" else STRING
        if kind == WORD and match.group() in GHOST_WORDS:
            raise Refused(line, f"the ghost form {text[at:at + 40]!r}")
        found.append(Token(kind, match.group(), line))
        line += match.group().count("\n")
        at = match.end()
    return found


def ghost_end(text, at, found):
    """The end of what only proofs read, if that is here. Takes its comments back, and puts a gap in its place."""
    if not text[at].isalpha() or at and (text[at - 1].isalnum() or text[at - 1] in "_'\"/"):
        return None
    for name, form in GHOST:
        match = form.match(text, at)
        if not match:
            continue
        end = match.end()
        if name != "ghost import":
            end = brace_end(text, end)
            end += text[end:end + 1] in (",", ";") and name == "ghost member"
        take_back_comments(found, outer_docs=name == "ghost member")
        found.append(Token(GAP, "", 0))
        return end
    return None


def take_back_comments(found, outer_docs):
    """Takes comments back that stand right above what is left out: they are about it."""
    while found and (found[-1].kind in (SPACE, COMMENT, GAP) or outer_docs and is_outer_doc(found[-1])):
        found.pop()


def is_outer_doc(token):
    """Whether a token is a doc comment of the item that follows."""
    return token.kind == DOC and token.text.startswith("///")


def brace_end(text, at):
    """The end of the braces that begin here. Their text is of a proof; its strings may have braces."""
    depth = 0
    for match in re.compile(r'"(?:\\.|[^"\\])*"|[{}]').finditer(text, at):
        depth += {"{": 1, "}": -1}.get(match.group(), 0)
        if depth == 0:
            return match.end()
    raise Refused(text.count("\n", 0, at) + 1, "braces that do not end")


CLOSING = {"(": ")", "[": "]", "{": "}"}


def closing(tokens, at):
    """The index of the mark that closes the one at an index."""
    open_marks = []
    for index in range(at, len(tokens)):
        token = tokens[index]
        if token.kind != MARK:
            continue
        if token.text in CLOSING:
            open_marks.append(CLOSING[token.text])
        elif token.text in ")]}":
            if open_marks.pop() != token.text:
                break
            if not open_marks:
                return index
    raise Refused(tokens[at].line, f"a {tokens[at].text} that does not end")


def after(tokens, at):
    """The index of the next token that is no space or comment; the number of tokens if there is none."""
    at += 1
    while at < len(tokens) and tokens[at].kind in BLANK:
        at += 1
    return at


def before(tokens, at):
    """The index of the last token that is no space or comment; -1 if there is none."""
    at -= 1
    while at >= 0 and tokens[at].kind in BLANK:
        at -= 1
    return at


def text_at(tokens, at):
    """The text of the token at an index, or nothing."""
    return tokens[at].text if 0 <= at < len(tokens) else ""


def index_of(tokens, at, *texts):
    """The index of the first token from an index on that is one of these."""
    for index in range(at, len(tokens)):
        if tokens[index].kind not in (STRING, CHAR, COMMENT, DOC) and tokens[index].text in texts:
            return index
    raise Refused(tokens[at].line, f"no {' or '.join(texts)} behind {tokens[at].text}")


def words_in(tokens):
    """The names that tokens have."""
    return {token.text for token in tokens if token.kind == WORD}


def join(tokens):
    """The text of tokens."""
    return "".join(token.text for token in tokens)
