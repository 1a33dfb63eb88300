#!/usr/bin/env python3
"""sentences.py [FILE ..]: sentences of more than 50 words, table cells of more than 40, and pages whose sentences have more than 20 on an average.

Without files: README.md and all pages of docs/ of the repository above this file. A sentence ends at a full stop, a colon before a
list, or the end of its paragraph, item or cell; what stands in backticks counts as one word, and what stands between ``` or begins a
paragraph four places further in isn't read. The average is of the sentences outside tables. Prints each with its place; the status is
1 if there is one."""
import glob, os, re, sys

SENTENCE, CELL, MEAN = 50, 40, 20


def words(text):
    """The words of a text: code is one word, a link its text."""
    text = re.sub(r"``.*?``|`[^`]*`", "CODE", text)
    text = re.sub(r"!?\[([^\]]*)\]\([^)]*\)", r"\1", text)
    return [w for w in text.split() if re.search(r"\w", w)]


def sentences(text):
    """A text without the stops that end its sentences."""
    quiet = re.sub(r"``.*?``|`[^`]*`", lambda m: re.sub(r"[.!?:]", "_", m[0]), text)
    at = 0
    for m in re.finditer(r"[.!?][)*\"']*(?=\s+[A-Z`*(\[]|\s*$)", quiet):
        if not re.search(r"\b(?:e\.g|i\.e|cf)$", quiet[:m.start()]):
            yield text[at:m.end()]
            at = m.end()
    if text[at:].strip():
        yield text[at:]


def blocks(lines):
    """(line, text, whether it is a cell) of each paragraph, item and cell."""
    code, begin, found = False, 0, []
    for k, line in enumerate(lines + [""], 1):
        mark = line.strip().startswith("```") or not found and re.match(r" {4,}(?![-*+]|\d+\.)\S", line)
        code ^= line.strip().startswith("```")
        starts = re.match(r"\s*(?:[-*+]|\d+\.)\s|#", line)
        if found and (mark or code or not line.strip() or starts or line.startswith("|")):
            yield begin, " ".join(found), False
            found = []
        if mark or code or not line.strip() or line.startswith("#"):
            continue
        if line.startswith("|"):
            for cell in re.split(r"(?<!\\)\|", line.strip().strip("|")):
                yield k, cell.strip(), True
            continue
        if not found:
            begin = k
        found.append(re.sub(r"^\s*(?:[-*+]|\d+\.)\s", "", line).strip())


def faults(file):
    counts = []
    for line, text, is_cell in blocks(open(file, encoding="utf-8").read().split("\n")):
        if is_cell and len(words(text)) > CELL:
            yield f"{file}:{line}: a cell of {len(words(text))} words: {text[:100]}"
        for sentence in [] if is_cell else sentences(text):
            counts.append(len(words(sentence)))
            if counts[-1] > SENTENCE:
                yield f"{file}:{line}: a sentence of {counts[-1]} words: {sentence.strip()[:100]}"
    if sum(counts) > MEAN * len(counts):
        yield f"{file}: {sum(counts)} words in {len(counts)} sentences, more than {MEAN} on an average"


def pages(top):
    """The pages that everybody reads."""
    return [os.path.relpath(p) for p in (f"{top}/README.md", *sorted(glob.glob(f"{top}/docs/*.md")))]


def main(files):
    top = os.path.normpath(os.path.join(os.path.dirname(os.path.abspath(__file__)), ".."))
    found = [x for f in files or pages(top) for x in faults(f)]
    print(*found or [f"no sentence of more than {SENTENCE} words, no cell of more than {CELL}, no page of more than {MEAN} a sentence"], sep="\n")
    return bool(found)


if __name__ == "__main__":
    sys.exit(main(sys.argv[1:]))
