"""Makes manual pages of what the repository says already: the heads of recipes, and docs/FORMATS.md. Not proved.

`of_recipe` makes sigaudit-NAME.1 of the head of a recipe: the text of a Python file, the comment of a shell file
or makefile. `of_document` makes a page of a document in Markdown, as far as docs/FORMATS.md uses it.
"""
import ast
import re


def roff(text):
    """A line of text for troff: `code` and **strong** words bold, links as their text, nothing taken for a request."""
    text = re.sub(r"\[([^\]]+)\]\([^)]*\)", r"\1", text)
    text = text.replace("\\", "\\e").replace("-", "\\-")
    text = re.sub(r"`([^`]+)`", r"\\fB\1\\fP", text)
    text = re.sub(r"\*\*([^*]+)\*\*", r"\\fB\1\\fP", text)
    text = re.sub(r"(?<![\w*])\*([^*\s][^*]*)\*(?![\w*])", r"\\fI\1\\fP", text)
    return "\\&" + text if text[:1] in (".", "'") else text


def verbatim(lines):
    """Lines that are printed as they stand; nothing in them is marked."""
    shown = [line.replace("\\", "\\e").replace("-", "\\-") for line in lines]
    shown = ["\\&" + line if line[:1] in (".", "'") else line for line in shown]
    return [".PP", ".RS 4", ".nf"] + shown + [".fi", ".RE"]


def title(name, section, version, date):
    return ['.TH %s %d "%s" "sigaudit %s" "sigaudit"' % (name.upper().replace("-", "\\-"), section, date, version)]


# Recipes.

def head_of(path):
    """The head of a recipe, which says what it does."""
    with open(path, encoding="utf-8") as file:
        text = file.read()
    if text.startswith("#!/usr/bin/env python3"):
        return ast.get_docstring(ast.parse(text), clean=True)
    lines = text.splitlines()
    lines = lines[1:] if lines[0].startswith("#!") else lines
    end = next(at for at, line in enumerate(lines) if not line.startswith("#"))
    return "\n".join(line[2:] for line in lines[:end])


def parts_of(head):
    """The head's first paragraph, its usage lines, and the lines after these."""
    first, _, rest = head.partition("\n\n")
    usage, _, rest = rest.partition("\n\n") if rest.startswith("usage: ") else ("", "", rest)
    return first, usage, rest.splitlines()


def summary_of(head):
    """The first sentence of a head, as the name line of a page has it."""
    sentence = re.match(r"(.*?)\.(?= |$)", " ".join(parts_of(head)[0].split()))[1]
    return sentence[0].lower() + sentence[1:]


def gap_of(line):
    """A term and its text, where at least two spaces stand between them."""
    found = re.match(r"(\S+(?: \S+)*) {2,}(\S.*)", line.strip())
    return (found[1], found[2]) if found else (line.strip(), None)


def described(lines):
    """Paragraphs, lists of terms and verbatim lines of a head for troff."""
    made, kind, inset = [".PP"], "text", 0
    for at, line in enumerate(lines):
        indent = len(line) - len(line.lstrip())
        follows = lines[at + 1] if at + 1 < len(lines) else ""
        hangs = len(follows) - len(follows.lstrip()) >= indent + 8
        term, text = gap_of(line)
        if not line.strip():
            made, kind = made + [".PP"], "text"
        elif kind == "list" and indent >= inset + 8:
            made.append(roff(line.strip()))
        elif text is not None and (indent or kind == "list" or made[-1] == ".PP") or hangs:
            kind, inset = "list", indent
            made += [".TP", "\\fB%s\\fP" % roff(term)] + ([roff(text)] if text else [])
        elif indent:
            made += verbatim([line.strip()])
            kind = "text"
        else:
            made += ([".PP"] if kind == "list" else []) + [roff(line)]
            kind = "text"
    return made


def of_recipe(name, head, version, date):
    """The page of the recipe with this head by its installed name."""
    first, usage, rest = parts_of(head)
    lines = title(name, 1, version, date)
    lines += [".SH NAME", "%s \\- %s" % (name.replace("-", "\\-"), roff(summary_of(head)))]
    if usage:
        lines += [".SH SYNOPSIS", ".nf"]
        lines += [roff(re.sub(r"^(usage: |       )", "", line)) for line in usage.splitlines()] + [".fi"]
    lines += [".SH DESCRIPTION", roff(" ".join(first.split()))] + described(rest)
    lines += [".SH ENVIRONMENT", ".TP", "\\fBSIGAUDIT\\fP", "Names another program than the installed one.",
              ".SH SEE ALSO", ".BR sigaudit (1),", ".BR sigaudit (5)"]
    return clean(lines)


def clean(lines):
    """Without paragraphs that are empty."""
    kept = []
    for line in lines:
        while line.startswith((".PP", ".SH", ".SS", ".TP", ".IP")) and kept and kept[-1] == ".PP":
            kept.pop()
        if line != ".PP" or not kept[-1].startswith((".SH", ".SS", ".RE")):
            kept.append(line)
    return "\n".join(kept) + "\n"


# Documents.

def cells_of(line):
    return [cell.strip() for cell in line.strip().strip("|").split("|")]


def table(lines):
    """A table as a list: its first column the terms, the others their text, with their heads where they are several."""
    heads, rows = cells_of(lines[0]), [cells_of(line) for line in lines[2:]]
    half = len(heads) // 2
    if len(heads) % 2 == 0 and heads[:half] == heads[half:]:
        rows = [row[:half] for row in rows] + [row[half:] for row in rows]
        heads = heads[:half]
    made = []
    for row in rows:
        made += [".TP", "\\fB%s\\fP" % roff(row[0]).replace("\\fP", "").replace("\\fB", "")]
        if len(row) == 2:
            made.append(roff(row[1]) or "\\&")
        else:
            named = ["%s: %s." % (roff(head), roff(cell).rstrip(".")) for head, cell in zip(heads[1:], row[1:]) if cell]
            made.append(" ".join(named) or "\\&")
    return made + [".PP"]


def of_document(name, summary, text, version, date):
    """The page, in section 5, of a document whose first heading is its name."""
    lines, at = text.splitlines(), 0
    made = title(name, 5, version, date) + [".SH NAME", "%s \\- %s" % (name, summary), ".SH DESCRIPTION"]
    while at < len(lines):
        line = lines[at]
        if line.startswith("```"):
            end = next(k for k in range(at + 1, len(lines)) if lines[k].startswith("```"))
            made += verbatim(lines[at + 1:end]) + [".PP"]
            at = end
        elif line.startswith("    "):
            others = [k for k in range(at, len(lines)) if lines[k].strip() and not lines[k].startswith("    ")]
            end = (others + [len(lines)])[0]
            block = [each[4:] for each in lines[at:end]]
            made += verbatim("\n".join(block).rstrip("\n").split("\n")) + [".PP"]
            at = end - 1
        elif line.startswith("|"):
            end = next((k for k in range(at, len(lines)) if not lines[k].startswith("|")), len(lines))
            made += table(lines[at:end])
            at = end - 1
        elif line.startswith("## "):
            made.append(".SH " + roff(line[3:]).upper())
        elif line.startswith("### "):
            made.append(".SS " + roff(line[4:]))
        elif re.match(r"(- |\d+\. )", line):
            mark, text = re.match(r"(-|\d+\.) +(.*)", line).groups()
            made += [".IP %s 4" % ("\\(bu" if mark == "-" else mark), roff(text)]
        elif line.startswith("# "):
            pass
        else:
            made.append(roff(line) if line.strip() else ".PP")
        at += 1
    made += [".SH SEE ALSO", ".BR sigaudit (1)"]
    return clean(made)
