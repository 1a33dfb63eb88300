#!/usr/bin/env python3
"""called.py: whether each public function is there for somebody.

A `pub fn` of a crate's code is one, and so is one of `pub(crate)`. It is there for somebody where the code of some crate, other than
its own body, calls it or hands it on by its name, or where a page of PAGES names it in backticks or in a program: what promises are
told of, and what a program of one's own calls. A function without parameters and with an empty body is a law, which is there for its
contract. A call is told by the name and by how many arguments it has, and one behind a type's name by that type too. So a function is
missed where another of its name, with as many arguments, is called.
Prints each that is there for nobody, with its place; the status is 1 if there is one."""
import glob, os, re, sys

TOP = os.path.normpath(os.path.join(os.path.dirname(os.path.abspath(__file__)), ".."))
PAGES = ("README.md", "docs/PROMISES.md", "docs/EMBEDDING.md")
OPENING, CLOSING = "([{", ")]}"


def read(path):
    with open(path, encoding="utf-8") as file:
        return file.read()


def blank(found):
    """Spaces in place of what was found, so that each line stays where it is; of a text a number, which is an argument as well."""
    plain = re.sub(r"[^\n]", " ", found.group())
    return "0" + plain[1:] if found.group()[0] in "b\"'" else plain


def end_of(text, at):
    """Where the bracket that opens there is closed."""
    depth = 0
    for place in range(at, len(text)):
        depth += (text[place] in OPENING) - (text[place] in CLOSING)
        if depth == 0:
            return place
    return len(text)


def code_of(path):
    """A file's code without remarks, text, imports, attributes and clauses."""
    text = re.sub(r"//[^\n]*|b?\"(?:\\.|[^\"\\])*\"|b?'(?:\\.[^']*|[^'\\])'", blank, read(path))
    text = re.sub(r" ?(?:pub(?:\(crate\))? |ghost )?\buse [^;]*;|#!?\[[^\n]*\]\n", lambda found: " " + blank(found)[1:], text)
    while found := re.search(r"\b(?:ensures|requires|ghost)\b\*?[^{};]*\{", text):
        end = end_of(text, found.end() - 1)
        text = text[:found.start()] + re.sub(r"[^\n]", " ", text[found.start():end + 1]) + text[end + 1:]
    return re.sub(r"\bghost [^;{}]*;", blank, text)


def count(text):
    """How many parts of a list stand between commas: none where nothing stands."""
    parts, depth, word = 0, 0, False
    for at, letter in enumerate(text):
        arrow = letter == ">" and text[at - 1] in "-="
        depth += (letter in OPENING) - (letter in CLOSING)
        if letter == "," and depth == 0:
            parts, word = parts + word, False
        elif not letter.isspace() and not arrow:
            word = True
    return parts + word


def parameters(text):
    """How many parameters a function has, a type's commas not counted, and whether the first is `self`."""
    plain = text.replace("->", "  ")
    while found := re.search(r"<[^<>]*>", plain):
        plain = plain[:found.start()] + plain[found.end():]
    return count(plain), bool(re.match(r"\s*(?:&\s*(?:'\w+\s*)?)?(?:mut\s+)?self\b", plain))


def owners(code):
    """The ranges of impl blocks, with the type of each."""
    for found in re.finditer(r"^(?:unsafe )?impl\b(?:<[^{]*?>)?\s+(?:[^{]*?\bfor\s+)?(\w+)[^{]*\{", code, re.M):
        yield found.start(), end_of(code, found.end() - 1), found.group(1)


def functions(code):
    """name, parameters, whether it takes `self`, its type, and where it stands: its first letter and its end. No law is one."""
    blocks = list(owners(code))
    for found in re.finditer(r"\bpub(?:\(crate\))?\s+(?:const\s+)?fn\s+(\w+)(?:<[^(]*>)?\s*\(", code):
        end = end_of(code, found.end() - 1)
        number, method = parameters(code[found.end():end])
        body = code.find("{", end)
        last = end_of(code, body)
        if number or code[body + 1:last].strip():
            kind = next((kind for first, close, kind in blocks if first < found.start() < close), None)
            yield found.group(1), number, method, kind, (found.start(), last)


def uses(code):
    """Each use of a name: the name, how many arguments (None: it is handed on), the word in front of `::` or `.`, and where."""
    for found in re.finditer(r"(\.|\b\w+(?:::<[^;{}()]*?>)?::)?\b([a-z_]\w*)(?:::<[^;{}()]*?>)?\s*(\()?", code):
        front, name, call = found.groups()
        if re.search(r"\bfn\s+$", code[max(0, found.start(2) - 8):found.start(2)]) or (front == "." and not call):
            continue
        number = count(code[found.end():end_of(code, found.end() - 1)]) if call else None
        yield name, number, front, found.start(2)


def is_for(use, function):
    """Whether a use may be one of a function."""
    number, front = use
    _, wanted, method, kind = function
    word = re.match(r"\w*", front or "").group()
    if front == ".":
        return method and number == wanted - 1
    if kind and (not front or word not in (kind, "Self")):
        # an alias of a type, or a type parameter, may stand in front of it
        return bool(front) and word[:1].isupper() and number in (None, wanted)
    return number in (None, wanted)


def main():
    codes = {path: code_of(path) for path in sorted(glob.glob(f"{TOP}/crates/*/src/**/*.rt", recursive=True))}
    used = {}
    for path, code in codes.items():
        for name, number, front, at in uses(code):
            used.setdefault(name, []).append((number, front, path, at))
    named = set()
    for page in PAGES:
        if os.path.exists(f"{TOP}/{page}"):
            for words in re.findall(r"`([^`]*)`|```.*?```", read(f"{TOP}/{page}"), re.S):
                named.update(re.findall(r"\w+", words))
    found, wrong = 0, 0
    for path, code in codes.items():
        for name, number, method, kind, (first, last) in functions(code):
            found += 1
            if name in named or name == "main":
                continue
            others = [use for *use, where, at in used.get(name, ()) if (where, first <= at <= last) != (path, True)]
            if not any(is_for(use, (name, number, method, kind)) for use in others):
                wrong += 1
                line = code.count("\n", 0, first) + 1
                print(f"{os.path.relpath(path, TOP)}:{line}: nobody calls {f'{kind}::' if kind else ''}{name}, and no page names it")
    if not found:
        print("there are no public functions any more")
        return True
    print(f"{wrong} of {found} public functions are there for nobody" if wrong else f"each of {found} public functions is called, or named where the promises are told")
    return wrong > 0


if __name__ == "__main__":
    sys.exit(main())
