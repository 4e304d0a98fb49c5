"""Writes tokens as text, and closes the gaps that left out parts leave."""
from tokens import GAP, SPACE, text_at


def text_of(tokens):
    """The text of a file."""
    out, at = [], 0
    while at < len(tokens):
        if tokens[at].kind not in (SPACE, GAP):
            out.append(tokens[at].text)
            at += 1
            continue
        end = at
        while end < len(tokens) and tokens[end].kind in (SPACE, GAP):
            end += 1
        out.append(between(text_at(tokens, at - 1), tokens[at:end], text_at(tokens, end)))
        at = end
    return "".join(out).strip() + "\n"


def between(last, run, following):
    """The blanks between two tokens, where there are some or a part was left out."""
    has_gap = any(token.kind == GAP for token in run)
    texts = [token.text for token in run if token.text]
    lines = max((text.count("\n") for text in texts), default=0)
    indents = [text.rpartition("\n")[2] for text in texts if "\n" in text]
    if has_gap:
        closed = closed_gap(last, following)
        if closed is not None and not (following == "{" and last == ","):
            return closed
    if not lines:
        return " " if texts or has_gap and last[-1:].isalnum() and following[:1].isalnum() else ""
    if last.endswith("{") or following == "}" or not last:
        lines = 1
    return "\n" * min(lines, 2) + indents[-1]


def closed_gap(last, following):
    """What is left of a gap before or behind some marks; None if it is as it is between lines."""
    if following == "{":
        return " "
    if following in (";", ",", ")", "]", ">"):
        return ""
    if last == "{" and following == "}" or last in ("<", "("):
        return ""
    return None

