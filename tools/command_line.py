"""What the program iwarp answers to a command line that asks for help or is wrong, told without the program.

tools/command_line.texts has the program's own answers to samples of such command lines; tools/texts makes that file, and the gate
compares it with the program. Which commands and options there are, which take a value, which numbers they take and which must be
given: all this is read off the help texts in it. A word that is wrong stands in a sample as WRONG, --WRONG or 9999999."""
import os
import re

TEXTS = f"{os.path.dirname(os.path.realpath(__file__))}/command_line.texts"
WORD, OPTION, NUMBER = "WRONG", "--WRONG", "9999999"
LISTED = re.compile(r"^ +(?:-\w, )?--([\w-]+)(?: <(\w+)>)? +(.*)", re.M)


def read():
    """The stored answers: a status and a text for each command line."""
    with open(TEXTS) as file:
        found = re.split(r"^\$ iwarp ?(.*)\n\[(\d+)\]\n", file.read(), flags=re.M)
    return {tuple(words.split()): (int(status), text) for words, status, text in zip(found[1::3], found[2::3], found[3::3])}


def commands(texts):
    """The commands that the help lists, but for `help` itself."""
    listed = texts[("--help",)][1].partition("Commands:\n")[2].partition("\n\n")[0]
    return [name for name in re.findall(r"^ +(\w+)", listed, re.M) if name != "help"]


def numbers(text):
    """The numbers that an option takes, as its help says: `1 to 64`."""
    found = re.search(r"(\d+) to (\d+)", text)
    return range(int(found[1]), int(found[2]) + 1) if found else None


def options(texts, command):
    """The options of a command, but for --help: each with whether it takes a value, and with the numbers that this may be, if it
    is one."""
    listed = [it for it in LISTED.findall(texts[(command, "--help")][1]) if it[0] != "help"]
    return {f"--{name}": (bool(value), numbers(text) if value else None) for name, value, text in listed}


def required(texts, command):
    """The options that the usage line of a command has outside of [OPTIONS]."""
    usage = re.search(r"^Usage: (.*)", texts[(command, "--help")][1], re.M)
    return set(re.findall(r"--[\w-]+", usage[1]))


def samples(texts):
    """The command lines whose answers are stored, beside those for help and the version."""
    yield from [(), (WORD,), (OPTION,), ("help", WORD)]
    for command in commands(texts):
        yield from [(command, WORD), (command, OPTION)]
        if required(texts, command):
            yield (command,)
        for name, (takes_value, right) in options(texts, command).items():
            if takes_value:
                yield from [(command, name), (command, name, "1", name, "1")]
            else:
                yield from [(command, f"{name}={WORD}"), (command, name, name)]
            if right:
                yield from [(command, name, WORD), (command, name, NUMBER), (command, f"{name}=")]


def helps(texts=None):
    """The command lines that ask for help or the version; without texts, those from which the others are told."""
    return [("--help",), ("--version",), *((name, "--help") for name in (commands(texts) if texts else ()))]


def wrong_value(command, name, right, value):
    """The sample that a value has the answer of, and the word in it that stands for the value; nothing if it is right."""
    if right is None:
        return None
    if value == "":
        return (command, f"{name}="), None
    if not re.fullmatch(r"\+?[0-9]+", value):
        return (command, name, WORD), WORD
    return None if int(value) in right else ((command, name, NUMBER), NUMBER)


def of_command(texts, command, words):
    """As `answered`, of the words behind a command."""
    known, given, words = options(texts, command), set(), list(words)
    while words:
        word = words.pop(0)
        name, equals, value = word.partition("=")
        if word in ("-h", "--help"):
            return (command, "--help"), None, None
        if word == "--" and not words:
            break
        if name not in known:
            is_option = word.startswith("-") and word not in ("-", "--")
            word = words[0] if word == "--" else word
            shown = name if word.startswith("--") else word[:2]
            return ((command, OPTION), OPTION, shown) if is_option else ((command, WORD), WORD, word)
        takes_value, right = known[name]
        if takes_value and not equals and not words:
            return (command, name), None, None
        if takes_value and not equals:
            value = words.pop(0)
            if value.startswith("-") and name != "--text":
                return (command, OPTION), OPTION, value[:2] if value[1:2] != "-" else value.partition("=")[0]
        if name in given:
            return ((command, name, "1", name, "1") if takes_value else (command, name, name)), None, None
        if equals and not takes_value:
            return (command, f"{name}={WORD}"), WORD, value
        found = wrong_value(command, name, right, value)
        if found:
            return *found, value
        given.add(name)
    return ((command,), None, None) if required(texts, command) - given else None


def answered(texts, words):
    """The sample that has the program's answer, the word in it that stands for one of these, and that one; nothing if the program
    has to run."""
    if not words:
        return (), None, None
    word = words[0]
    if word in ("-h", "--help", "-V", "--version"):
        return ("--help",) if word in ("-h", "--help") else ("--version",), None, None
    if word == "help":
        known = [name for name in words[1:2] if name in commands(texts)]
        if known or not words[1:]:
            return (*known, "--help"), None, None
        return ("help", WORD), WORD, words[1]
    if word in commands(texts):
        return of_command(texts, word, words[1:])
    return ((OPTION,), OPTION, word) if word.startswith("-") else ((WORD,), WORD, word)


def answer(texts, words):
    """The program's status and text for this command line, if it asks for help or is wrong."""
    found = answered(texts, words)
    if not found:
        return None
    sample, stands, word = found
    status, text = texts[sample]
    return status, text.replace(f"'{stands}'", f"'{word}'").replace(f" {stands} ", f" {word} ") if stands else text
