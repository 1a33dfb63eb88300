"""What is said of a boot file and of a schedule (docs/FORMATS.md, "Saying what is wrong")."""

import boot as boot_file
import schedule as schedule_file
from assembler import FORMS, LINES, MOST_BYTES, REGISTER, Wrong, bytes_of, count_fits, is_label, labels_of, number_of, parts_of, setting_of, size_of, text_of, value_given, words_of
from values import MANAGER, SWITCHBOARD

A_NAME = " is no name, which has 1 to 16 of a to z, 0 to 9 and _"
A_LABEL = " is no label, which has 1 to 16 of a to z, 0 to 9 and _, the first no digit"
NO_LABEL = " is no label, since a register is named so"
A_NUMBER = "    a number has digits alone, or 0x and hexadecimal digits, or is a character, as 'a'"
NEW_LABEL = "    a label has 1 to 16 of a to z, 0 to 9 and _, the first no digit, and is no register"
A_TEXT = "    a text has printed bytes alone, without quotation marks and semicolons, and nothing stands behind it"
A_CALL = A_NUMBER + "; a call is EXIT OUT MAKE COPY DROP SEND RECEIVE or MOVE"
SOME_DIGITS = "    a number has 1 to 10 digits alone"
SORTS = {(int, str): "an integer or a text", int: "an integer", str: "a text", bool: "true or false", list: "an array of tables"}
TOP = {"format": int, "numbers": int, "quantum": int, "machine": list, "image": list, "process": list}
MACHINE = {"slots": int, "blocks": int}
IMAGE = {"name": str, "blocks": int, "text": str}
PROCESS = {"name": str, "image": str, "machine": int, "links": list}
PLACE = (int, str)
LINK = {"to": str, "code": int, "channel": int, "base": PLACE, "len": PLACE, "reply": bool, "read": bool, "write": bool}
CONTROL = {"control": str}


def shown(text):
    """The bytes of a text of a file, each that isn't printed as a question mark."""
    data = text if isinstance(text, bytes) else text.encode("utf-8")
    return "".join(chr(byte) if 32 <= byte <= 126 else "?" for byte in data)


def quoted(text):
    return f'"{shown(text)}"'


# The keys and numbers of tables


def may_lack(keys, key):
    """Whether a table with these keys may be without one of them."""
    return keys is TOP or key == "links" or keys is LINK and key != "to"


def keys_told(table, keys, other=""):
    """What is wrong with the keys of a table, or something else."""
    others = sorted((key for key in table if key not in keys), key=lambda key: key.encode("utf-8"))
    if others:
        return "its keys may be " + " ".join(keys) + f", not {quoted(others[0])}"
    for key, sort in keys.items():
        if key not in table:
            if not may_lack(keys, key):
                return f"{key} must be {SORTS[sort]}, and it is missing"
        elif type(table[key]) not in (sort if isinstance(sort, tuple) else (sort,)):
            return f"{key} must be {SORTS[sort]}"
    return other


def limit_told(table, limits):
    """The first number outside its limits, if one is."""
    for key, low, high in limits:
        if key in table and not low <= table[key] <= high:
            return f"{key} = {table[key]}, which must be {low} to {high}"
    return None


def count_told(count, what, low, high):
    return f"{count} {what}, which must be {low} to {high}"


# The rules of the boot file


def rule_told(number, place, document, data):
    """The lines of a rule that the document of a file breaks at a place."""
    machines, images, processes = (document.get(key, []) for key in ("machine", "image", "process"))
    if number == 11:
        return [line for image in images[place:] for line in text_told(image, data)]
    if number in (2, 3, 4, 7):
        said = top_told(number, document)
    elif number in (5, 6):
        said = f"machine {place}: " + (keys_told(machines[place], MACHINE) if number == 5 else limit_told(machines[place], [("slots", 0, 64), ("blocks", 0, 4096)]))
    elif number <= 12:
        said = image_told(number, place, images[place])
    else:
        said = process_told(number, place, processes[place], document)
    return [f"rule {number}: {said}"]


def no_table_told(document):
    """The first machine, image or process that is no table."""
    for key in ("machine", "image", "process"):
        elements = document.get(key, [])
        for place, element in enumerate(elements if isinstance(elements, list) else []):
            if not isinstance(element, dict):
                return f"{key} {place}: it must be a table"
    return ""


def top_told(number, document):
    if number == 2:
        return keys_told(document, TOP, no_table_told(document))
    if number == 3:
        return limit_told(document, [("numbers", 1, 1_048_576), ("quantum", 1, 1_000), ("format", 1, 2)])
    if number == 4:
        return count_told(len(document.get("machine", [])), "machines", 1, 16)
    return count_told(len(document.get("image", [])), "images", 0, 256)


def image_told(number, place, image):
    if number == 8:
        return f"image {place}: " + keys_told(image, IMAGE)
    if number == 9:
        return f"image {place}: {quoted(image['name'])}" + (" is an earlier image's name" if boot_file.NAME.fullmatch(image["name"]) else A_NAME)
    title = f"image {quoted(image['name'])}: "
    if number == 10:
        return title + limit_told(image, [("blocks", 1, 256)])
    return title + f"{len(boot_file.code_of(image['text']))} bytes, and 256 times blocks = {image['blocks']} have room"


def process_told(number, place, process, document):
    links, machines = process.get("links", []), document.get("machine", [])
    if number == 13:
        bad = [k for k, link in enumerate(links if isinstance(links, list) else []) if not isinstance(link, dict) or not boot_file.is_link(link)]
        said = f"link {bad[0]}: " + link_keys_told(links[bad[0]]) if bad else keys_told(process, PROCESS)
        return f"process {place}: {said}"
    if number == 14:
        name = process["name"]
        if not boot_file.NAME.fullmatch(name):
            why = A_NAME
        else:
            why = " is a server's name" if name in boot_file.SERVERS else " is an earlier process's name"
        return f"process {place}: {quoted(name)}{why}"
    title = f"process {quoted(process['name'])}: "
    if number == 15:
        return title + f"machine = {process['machine']}, and the machines are {len(machines)}, from 0 on"
    if number == 16:
        return title + f"no image is named {quoted(process['image'])}"
    if number == 17:
        home = process["machine"]
        room = machines[home]
        return title + f"with those before it there is no room for it on machine {home}, which has slots = {room['slots']} and blocks = {room['blocks']}"
    if number == 18:
        return title + count_told(len(links), "links", 0, 32 if document.get("format", 1) == 1 else 128)
    images = {other["name"]: image for other in document["process"] for image in document["image"] if image["name"] == other["image"]}
    holds = (lambda link: boot_file.is_known(link, images)) if number == 19 else (lambda link: link_limit_told(link, images) is None)
    bad = next(k for k, link in enumerate(links) if not holds(link))
    said = target_told(links[bad]) if number == 19 else link_limit_told(links[bad], images)
    return title + f"link {bad}: {said}"


def link_keys_told(link):
    if not isinstance(link, dict):
        return "it must be a table"
    return keys_told(link, CONTROL if "control" in link else LINK)


def target_told(link):
    if "control" in link:
        return f"no process is named {quoted(link['control'])}"
    return f"no process or server is named {quoted(link['to'])}"


def link_limit_told(link, images):
    """Why a link's numbers aren't within their limits, if they aren't."""
    if "control" in link:
        return None
    limits = [("channel", 0, 31), ("code", 0, 2**32 - 1), ("base", 0, 65_536), ("len", 0, 65_536)]
    if link["to"] not in images:
        plain = not any(link.get(key, 0) for key in ("code", "base", "len", "read", "write"))
        return limit_told(link, limits[:1]) or (None if plain else "a link to a server has no code, base, len, read or write")
    image = images[link["to"]]
    size, labels = 256 * image["blocks"], labels_of(image["text"])
    base, length = boot_file.area_of(link, labels)
    said = limit_told(link, [limit for limit in limits if not isinstance(link.get(limit[0]), str)]) or label_told(link, labels, image["name"])
    if said is not None:
        return said
    fits = base + length <= size
    return (None if fits else f"base and len are more than {size} together, the bytes of the memory of {quoted(link['to'])}")


def label_told(link, labels, image):
    """Why a label of a link isn't where an area may begin or end, if one isn't."""
    for key in boot_file.LINK_PLACES:
        word = link.get(key, 0)
        if isinstance(word, str) and word not in labels:
            return f"{key} = {quoted(word)}, and no line of image {quoted(image)} has this label"
    return f"len = {quoted(link['len'])}, and this label stands before base" if boot_file.area_of(link, labels)[1] is None else None


# The lines of an image's text

DIRECTIVES = {".word": "v", ".byte": "b", ".zero": "z", ".align": "m", ".ascii": "t", ".equ": "le"}
RANGES = {"m": ", must be 1 to 65536", "c": ", must be 0 to 255", "n": ", must be 0 to 255", "b": ", must be 0 to 255", "z": ", must be 0 to 65536", "e": ", must be 0 to 4294967295", "d": ", must be -128 to 127 whole words from the next instruction"}
NOTES = {"c": A_CALL, "t": A_TEXT, "l": NEW_LABEL}
MISSING = {"l": "a label must stand where none stands", "a": "a number, label or register must stand where none stands", "t": "a text in quotation marks must stand where none stands", "c": "a number or call must stand where none stands", "d": "a label must stand where none stands", "v": "a number or label must stand where none stands"}


def kinds_of(word):
    return "a" if word in LINES else FORMS[word][0] if word in FORMS else DIRECTIVES[word]


def places_of(lines):
    """The labels of a text, its lines that have one of an earlier line, each with that line, and the address of each line. A line
    whose word is none, a bad label too, counts no bytes."""
    labels, firsts, again, places, at = {}, {}, {}, [], 0
    for number, line in enumerate(lines, 1):
        label, words, bad_label = parts_of(line)
        places.append(at)
        if label is not None:
            if label in labels:
                again[number] = firsts[label]
            else:
                labels[label], firsts[label] = value_given(words, at), number
        at += 0 if bad_label else size_of(words, at, text_of(line))
    return labels, again, places


def is_word(word):
    return word in FORMS or word in LINES or word in DIRECTIVES


def why_of(number, line, labels, again, at):
    """Why a line is refused, if it is: the number of the reason."""
    _, words, bad_label = parts_of(line)
    if bad_label or words and not is_word(words[0]):
        return 1
    if number in again:
        return 6
    if words and not count_fits(words[0], len(words) - 1):
        return 7
    try:
        if words:
            bytes_of(words, labels, at, text_of(line))
    except Wrong as wrong:
        return wrong.why
    return 8 if at <= MOST_BYTES < at + size_of(words, at, text_of(line)) else None


def line_before(data, text):
    """The line of a file behind which an image's text begins, where the file has it as it is between three quotation marks."""
    sought = [marks + b"\n" + text.encode("utf-8") + marks for marks in (b'"""', b"'''")]
    found = [place for place in map(data.find, sought) if place >= 0]
    return data.count(b"\n", 0, min(found)) + 1 if found else None


def text_told(image, data):
    """What is said of each line of an image's text that is refused."""
    lines, said = image["text"].split("\n"), []
    before = line_before(data, image["text"])
    labels, again, places = places_of(lines)
    for number, line in enumerate(lines, 1):
        why = why_of(number, line, labels, again, places[number - 1])
        if why is not None:
            said.append(f"rule 11: image {quoted(image['name'])}, line {number}: {line_told(why, line, labels)}")
            if why == 3 and kind_refused(line, labels) != "d":
                said.append(NOTES.get(kind_refused(line, labels), A_NUMBER))
            if why == 6:
                said.append(f"    the label stands on line {again[number]} already")
            if before is not None:
                said.append(f"    line {before + number} of the file")
    return said


def statement_of(line):
    """The word of a line that has one, and its operands."""
    words = words_of(line)
    for start in (0, 1):
        if len(words) > start and is_word(words[start]):
            return words[start], words[start + 1 :]
    return None, []


def kind_refused(line, labels):
    """What the operand must be that is refused in a line."""
    kinds = kinds_of(statement_of(line)[0])
    return kinds[-1] if kinds != "le" else kinds[refused_operand(line, labels)[0] - 1]


def is_fine(word, place, operand, labels):
    """Whether the operand at a place, from 1, isn't the one that is refused."""
    kinds = kinds_of(word)
    try:
        if word in LINES:
            setting_of(word, place, operand, labels)
            return True
        if kinds == "b":
            number_of(operand, 255)
            return True
    except Wrong:
        return False
    return kinds[place - 1] == "r" and REGISTER.fullmatch(operand) or kinds[place - 1] == "l" and is_label(operand)


def refused_operand(line, labels):
    """The operand that is refused, by its place from 1."""
    word, operands = statement_of(line)
    return next((place, operand) for place, operand in enumerate(operands, 1) if not is_fine(word, place, operand, labels))


def count_due(word):
    """How many operands a word has, in words."""
    if word == ".byte":
        return "1 or more"
    counts = [str(count) for count in LINES[word][2]] if word in LINES else [str(len(kinds_of(word)))]
    return " or ".join([", ".join(counts[:-1]), counts[-1]] if len(counts) > 1 else counts)


def no_word_told(line):
    """Which word of a line is none."""
    first, words = words_of(line)[0], parts_of(line)[1]
    if first.endswith(":") and not is_label(first[:-1]):
        return quoted(first) + (NO_LABEL if REGISTER.fullmatch(first[:-1]) else A_LABEL)
    if words[0] == ".equ":
        return 'no label stands before ".equ", which has one behind it'
    return f"{quoted(words[0])} is no instruction and no directive"


def line_told(why, line, labels):
    said = f": {quoted(line)}"
    if why == 1:
        return f"no such word{said}: {no_word_told(line)}"
    if why == 6:
        return "an earlier line has this label" + said
    if why == 8:
        return "the image has more than 65536 bytes with this line" + said
    word, operands = statement_of(line)
    if why == 7:
        return f"more or fewer operands than the word has{said}: the word has {count_due(word)}, not {len(operands)}"
    place, operand = refused_operand(line, labels)
    which = f": operand {place}, {quoted(operand)}"
    kind = kind_refused(line, labels)
    is_register = REGISTER.fullmatch(operand)
    if why == 2 and is_register:
        return f"operand {place} must not be {quoted(operand)}, which an operand before it sets{said}"
    if why == 2:
        return f"operand {place} must be a register, not {quoted(operand)}{said}: a register is r0 to r15"
    if why == 3:
        return MISSING.get(kind, "a number must stand where none stands") + said + which
    if why == 5:
        return "no line has this label" + said + which + (", is a register" if is_register else "")
    most = 2**32 - 1 if word == ".word" else 65_535
    return "a number is out of range" + said + which + RANGES.get(kind, f", must be 0 to {most}")


# What the files say where nothing is wrong


def system_told(boot, document):
    form = document.get("format", 1)
    said = [f"format {form}, numbers {boot.numbers}, quantum {boot.quantum}"]
    said += [f"machine {number}: {slots} slots, {blocks} blocks" for number, (slots, blocks) in enumerate(boot.machines)]
    said += [f"image {number}: {quoted(image.name)}, {image.blocks} blocks, {len(image.code)} bytes of text" for number, image in enumerate(boot.images)]
    for born, table in zip(boot.processes, document.get("process", [])):
        said.append(f"process {born.pid}: {quoted(table['name'])}, image {quoted(table['image'])}, links: {len(born.links)}")
        said += [f"    {link_told(number, link)}" for number, link in enumerate(born.links)]
    return said + parts_told(boot, [table["name"] for table in document.get("process", [])])


def link_told(number, link):
    rights = {(True, True): ", to read and write", (True, False): ", to read", (False, True): ", to write", (False, False): ""}
    kind = "reply" if link.reply else "general"
    area = f"area {link.base} {link.length}{rights[link.read, link.write]}"
    return f"link {number}: {kind} to {link.address.pid} at {link.address.at}, code {link.code}, channel {link.channel}, {area}"


def parts_told(boot, names):
    """The parts of a system, where there is more than one (docs/CONFINEMENT.md)."""
    last = len(boot.processes)
    numbers = {born.pid: number for number, born in enumerate(boot.processes)} | {SWITCHBOARD: last}
    part = list(range(last + 1))
    for number, born in enumerate(boot.processes):
        for link in born.links:
            other = link.code - 1 if link.address.pid == MANAGER and link.code else numbers.get(link.address.pid)
            if other is not None and other <= last and link.address.pid in (MANAGER, *numbers):
                low, high = sorted((part[number], part[other]))
                part = [low if one == high else one for one in part]
    firsts = sorted({part[number] for number in range(last)})
    if len(firsts) < 2:
        return []
    return ["part: " + ", ".join([*names, "switchboard"][number] for number in range(last + 1) if part[number] == first) for first in firsts]


# The schedule

PLACES = {
    "m": ("a machine's number must stand where none stands", ", must be 0 to {last}"),
    "p": ("a process's number, as 0.3, must stand where none stands", ", must be H.N with H 0 to {last} and N 0 to 4294967295"),
    "k": ("a number must stand where none stands", ", must be 0 to 4294967295"),
    "n": ("a number must stand where none stands", ", must be 1 to 65536"),
}


def names_of(document):
    """The names of a document's processes."""
    return [process["name"] for process in document.get("process", [])]


def first_told(data, boot, names):
    """What is said of a refused schedule before the line of a status: the first line of what is said, and whose name stands there."""
    told = schedule_told(data, boot, names)
    return [line for line in told if line != SOME_DIGITS]


def schedule_told(data, boot, names):
    """What is said of a schedule for a system with processes of these names."""
    machines = len(boot.machines)
    try:
        directives = schedule_file.read_schedule(data, machines)
    except schedule_file.Refused as refused:
        line = schedule_file.lines_of(data)[refused.line - 1]
        return bad_line_told(line, refused, machines) + name_told(line, refused, boot, names)
    counts = ", ".join(f"{word} {sum(one == word for one, _ in directives)}" for word in schedule_file.FORMS)
    return [f"schedule: {len(directives)} directives: {counts}"]


def bad_line_told(line, refused, machines):
    words = line.replace(b"\t", b" ").split()
    words = [word for word in line.replace(b"\t", b" ").split(b" ") if word]
    why, title, said = refused.why, f"schedule, line {refused.line}: why {refused.why}: ", f": {quoted(line)}"
    if why == 1:
        return [title + "no such word" + said]
    kinds = schedule_file.FORMS[words[0].decode("latin-1")]
    if why == 2:
        return [title + f"more or fewer operands than the word has{said}: the word has {len(kinds)}, not {len(words) - 1}"]
    if why == 5:
        return [title + "the two machines are one" + said]
    for place, (kind, word) in enumerate(zip(kinds, words[1:]), 1):
        try:
            operand_of(kind, word, machines)
        except schedule_file.Wrong:
            break
    which = f": operand {place}, {quoted(word)}"
    if why == 3:
        return [title + PLACES[kind][0] + said + which, SOME_DIGITS]
    return [title + "a number is out of range, or no machine's" + said + which + PLACES[kind][1].format(last=machines - 1)]


def name_told(line, refused, boot, names):
    """Whose name stands where a process's number must, and which number that is."""
    words = [word for word in line.replace(b"\t", b" ").split(b" ") if word]
    wants_process = refused.why == 3 and words[0] in (b"migrate", b"calloff")
    if not wants_process or is_number_of(words[1], len(boot.machines)):
        return []
    return [f"    {name} is {born.pid}" for name, born in zip(names, boot.processes) if name.encode() == words[1]]


def is_number_of(word, machines):
    """Whether a word is the number of a process."""
    try:
        operand_of("p", word, machines)
    except schedule_file.Wrong:
        return False
    return True


def operand_of(kind, word, machines):
    if kind == "p":
        return schedule_file.pid_of(word, machines)
    low, high = {"m": (0, machines - 1), "k": (0, schedule_file.MOST), "n": (1, 65_536)}[kind]
    return schedule_file.number_of(word, low, high)


def explain(data, schedule=None):
    """The lines that are said of a boot file, and of a schedule where there is one; and what ends it, if something is wrong. The
    schedule is read only where nothing is wrong with the boot file: `schedule` gives its bytes."""
    document = {}
    try:
        document = boot_file.document_of(data)
        boot = boot_file.read_boot(data)
    except boot_file.Refused as refused:
        return (rule_told(refused.number, refused.place, document, data) if refused.number != 1 else ["rule 1: no document"]), refused
    said = system_told(boot, document)
    if schedule is None:
        return said, None
    lines = schedule()
    try:
        schedule_file.read_schedule(lines, len(boot.machines))
    except schedule_file.Refused as refused:
        return said + schedule_told(lines, boot, names_of(document)), refused
    return said + schedule_told(lines, boot, names_of(document)), None
