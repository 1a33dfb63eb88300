"""What is said on standard error before a status's line: of words that ask for nothing, and of files (docs/FORMATS.md)."""

from exploring import is_text, looks_like_move, may_be_stuck, wrong_word

HELP = "help: ./demosmp help, docs/FORMATS.md"
FORMS = {
    "run": "run --boot FILE --schedule FILE",
    "check": "check --boot FILE (--trace FILE | --labels FILE)",
    "chart": "chart --boot FILE --schedule FILE [--from G] [--to G]",
    "explain": "explain --boot FILE [--schedule FILE | --trace FILE]",
    "count": "count --boot FILE --schedule FILE",
    "look": "look --boot FILE --schedule FILE --at G [--names]",
    "explore": "explore --boot FILE --depth N (--line TEXT | --stuck P..) [--move P=M].. [--calloff P=M].. [--ticks K] [--repeats K] [--acks] [--most S]",
    "drill": "drill --seed N --lines L (--machines M [--trace] | --boot FILE [--trace | --schedule])",
}
# the options of each command in the order in which they are looked at, those without a value, and those that have to be there
OPTIONS = {
    "run": ["--boot", "--schedule"],
    "check": ["--boot", "--trace", "--labels"],
    "chart": ["--boot", "--schedule", "--from", "--to"],
    "explain": ["--boot", "--schedule", "--trace"],
    "count": ["--boot", "--schedule"],
    "look": ["--boot", "--schedule", "--at", "--names"],
    "explore": ["--boot", "--depth", "--line", "--stuck", "--move", "--calloff", "--ticks", "--repeats", "--acks", "--most"],
    "drill": ["--seed", "--lines", "--machines", "--boot", "--trace", "--schedule"],
}
FLAGS = {"look": ["--names"], "explore": ["--acks"], "drill": ["--trace", "--schedule"]}
MANY = ["--stuck", "--move", "--calloff"]  # up to sixteen times
NEEDED = {name: options for name, options in OPTIONS.items()} | {"check": ["--boot"], "chart": ["--boot", "--schedule"], "explain": ["--boot"], "look": ["--boot", "--schedule", "--at"], "explore": ["--boot", "--depth"], "drill": ["--seed", "--lines"]}
VALUES = {"--at": "G", "--from": "G", "--to": "G", "--seed": "N", "--lines": "L", "--machines": "M", "--depth": "N"}
RANGES = {"--at": (0, 2**32 - 1), "--from": (1, 2**32 - 1), "--to": (1, 2**32 - 1), "--seed": (0, 2**32 - 1), "--lines": (1, 10_000), "--machines": (2, 16), "--depth": (1, 64), "--ticks": (0, 255), "--repeats": (0, 255), "--most": (1, 2**32 - 1)}
SHAPES = {
    "--line": (is_text, None),
    "--stuck": (may_be_stuck, "a process as in 0.3"),
    "--move": (looks_like_move, "a process and a machine as in 0.3=1"),
    "--calloff": (looks_like_move, "a process and a machine as in 0.3=1"),
}


def is_option(word):
    return len(word) > 1 and word[0] == "-"


def named(word):
    return word.partition("=")[0]


def word_by_word(command, words):
    """What is wrong at the first word that is, if one is; and the values of options."""
    waits, values = None, {}
    for place, word in enumerate(words):
        if not is_option(word):
            if waits is None:
                return f"a word too many: {word}", values
            values.setdefault(waits, []).append(word)
            waits = None
            continue
        if waits is not None:
            return f"{waits} without a value", values
        option, equals, value = word.partition("=")
        if option not in OPTIONS[command]:
            return f"no such option: {word}", values
        later = sum(named(other) == option for other in words[place + 1 :])
        if later >= (16 if option in MANY else 1):
            return f"{option} {'more than 16 times' if option in MANY else 'twice'}", values
        if option in FLAGS.get(command, []):
            if equals:
                return f"{option} takes no value", values
            values[option] = []
        elif equals:
            values.setdefault(option, []).append(value)
        else:
            waits = option
    return (None if waits is None else f"{waits} without a value"), values


def bad_value(command, values):
    for option in OPTIONS[command]:
        for word in values.get(option, []):
            if option == "--line" and not is_text(word):
                return f"--line {wrong_word(word)}: no line of a group has this word there"
            if option in SHAPES and not SHAPES[option][0](word):
                return f"{option} {word}: {SHAPES[option][1]}"
            if option not in RANGES:
                continue
            low, high = RANGES[option]
            if word.isascii() and word.isdigit() and (word == "0" or word[0] != "0") and low <= int(word) <= high:
                continue
            if len(word) > 1 and word[0] == "0":
                return f"{option} {word}: no 0 may stand in front"
            return f"{option} {word}: {low} to {high}"
    return None


def clash(command, values):
    has = values.__contains__
    if command == "check" and has("--trace") == has("--labels"):
        return "--trace and --labels: just one of them" if has("--trace") else "missing: --trace FILE or --labels FILE"
    if command == "explain" and has("--schedule") and has("--trace"):
        return "--schedule and --trace: one of them at most"
    if command == "explore":
        if has("--line") == has("--stuck"):
            return "--line and --stuck: just one of them" if has("--line") else "missing: --line TEXT or --stuck P"
        # so the words were right, and the boot file is at odds with a name
        of = "--move or --calloff" if has("--line") else "--stuck, --move or --calloff"
        return f"{of}: a process or machine that no schedule for this boot file can name"
    if command == "drill":
        if has("--machines") == has("--boot"):
            return "--machines and --boot: just one of them" if has("--boot") else "missing: --machines M or --boot FILE"
        if has("--machines") and has("--schedule"):
            return "--schedule: only with --boot"
        if has("--trace") and has("--schedule"):
            return "--trace and --schedule: one of them at most"
    return "these words ask for nothing"


def wrong(command, words):
    said, values = word_by_word(command, words)
    if said is not None:
        return said
    for option in NEEDED[command]:
        if option not in values:
            return f"missing: {option} {VALUES.get(option, 'FILE')}"
    return bad_value(command, values) or clash(command, values)


def of_words(words):
    """The lines before that of words which ask for nothing."""
    if not words or words[0] not in FORMS:
        said = f"no such command: {words[0]}" if words else "no command"
        return [said, "commands: " + ", ".join(FORMS), HELP]
    return [wrong(words[0], words[1:]), f"form: demosmp {FORMS[words[0]]}", HELP]


def of_file(name, most=None):
    """The line before that of a file which can't be read, or has more bytes than it may have."""
    return [f"can't be read: {name}" if most is None else f"{name} has more than {most} bytes"]
