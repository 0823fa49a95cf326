"""The names of a model's parameters, as its header has them."""
import re

NAME = r"[A-Za-z_]\w*"
# What is no word of the model: a text, which may have escapes, or a comment.
ASIDE = re.compile(r'"(?:[^"\\\n]|\\.)*"|#[^\n]*')
# A type with brackets within which there are none.
BRACKETED = re.compile(r"\b(tuple|dict|list)\s*\([^()]*\)")
HEADER = re.compile(rf"\bmodel\b[^(:]*\b{NAME}\s*\(([^()]*)\)\s*:")
FORMALS = re.compile(rf"\s*{NAME}\b.*?\b({NAME}(?:\s*,\s*{NAME})*)\s*\Z", re.DOTALL)


def parameters_of(source):
    """The parameters of the first model of a source, in order; none where no header is found."""
    text, left = ASIDE.sub(" ", source), None
    while text != left:
        text, left = BRACKETED.sub(r"\1", text), text
    header = HEADER.search(text)
    names = []
    for formals in header[1].split(";") if header and header[1].strip() else []:
        found = FORMALS.match(formals)
        if not found:
            return []
        names += re.split(r"\s*,\s*", found[1])
    return names
