"""What include/iwarp.h declares: its constants, structs and functions, with the comments on them."""
import os
import re
from dataclasses import dataclass

TOP = os.path.dirname(os.path.dirname(os.path.realpath(__file__)))
HEADER = f"{TOP}/include/iwarp.h"

COMMENT = re.compile(r"/\*(.*?)\*/", re.S)
ITEM = re.compile(r"(?P<comment>(?:/\*(?:.|\n)*?\*/\n)?)(?P<code>(?:enum|struct|#define|[a-z]\w*) ?(?:.|\n)*?)(?=\n\n|\Z)")
FUNCTION = re.compile(r"^(?P<type>[a-z][\w ]*[ *])(?P<name>iwarp_\w+)\((?P<parameters>[^;{}()]*)\)(?: IWARP_[A-Z]+)?;", re.M)
INLINE = re.compile(r"^static inline .*?(iwarp_\w+)\(", re.M)
NUMBER = re.compile(r"\b(IWARP_\w+) = (\d+)")


@dataclass
class Item:
    """A comment, and what it stands before: an enum, a struct, a constant or a function."""

    comment: str
    code: str


@dataclass
class Section:
    name: str
    items: list


def text():
    with open(HEADER) as file:
        return file.read()


def words_of(comment):
    """The lines of a comment without its stars."""
    inside = comment.strip().removeprefix("/*").removesuffix("*/")
    return [re.sub(r"^ \* ?", "", line).strip() if line.startswith(" *") else line.strip() for line in inside.split("\n")]


def without_comments(code):
    return COMMENT.sub(" ", code)


def functions():
    """The name of each function, with its type and those of its parameters, each with the parameter's name."""
    found = {}
    for it in FUNCTION.finditer(without_comments(text())):
        parameters = [" ".join(one.split()) for one in it["parameters"].split(",")]
        found[it["name"]] = (it["type"].strip(), [] if parameters == ["void"] else parameters)
    return found


def names():
    """The names of all functions, those among them that the header has whole."""
    return [*functions(), *INLINE.findall(text())]


def numbers():
    """Each constant of the header's enums, and IWARP_VERSION."""
    code = without_comments(text())
    found = {name: int(number) for name, number in NUMBER.findall(code)}
    found["IWARP_VERSION"] = int(re.search(r"#define IWARP_VERSION (\d+)", code)[1])
    return found


def structs():
    """The fields of each struct, in order, as (type, name)."""
    found = {}
    for name, body in re.findall(r"struct (iwarp\w*) \{([^}]*)\};", without_comments(text())):
        fields = [" ".join(one.split()) for one in body.split(";")]
        found[name] = [re.fullmatch(r"(.*?[ *])(\w+(?:\[\d+\])?)", one).groups() for one in fields if one]
    return found


def version():
    number = numbers()["IWARP_VERSION"]
    return f"{number // 10000}.{number // 100 % 100}.{number % 100}"


def introduction():
    """The paragraphs of the comment at the head."""
    return words_of(COMMENT.match(text())[0])


def sections():
    """The items of the header in its order, by the headings in it."""
    body = text().partition('extern "C" {\n#endif\n')[2].partition("#ifdef __cplusplus")[0]
    parts = re.split(r"/\* ---- (.*?) \*/\n", body)
    found = [Section("the version and codes", items_of(parts[0]))]
    for name, part in zip(parts[1::2], parts[2::2]):
        found.append(Section(name, items_of(part)))
    return found


def items_of(part):
    return [Item(it["comment"].strip(), it["code"].strip()) for it in ITEM.finditer(part)]
