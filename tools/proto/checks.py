"""What Google's compiler refuses of a message or an enum of proto3, by itself."""
import re

from .lexer import Refused


def check_file(file):
    for message in file.messages:
        check_numbers(message)
        check_json_names(message)
    for enum in file.enums:
        check_aliases(enum)
        check_value_names(enum)


def check_kept(file, kept, name, number, line):
    """Refuses a name or a number that is reserved."""
    if name in kept.names:
        raise Refused(file.shown, line, f"{name} is reserved")
    if any(first <= number <= last for first, last in kept.ranges):
        raise Refused(file.shown, line, f"{name} has the number {number}, which is reserved")


def check_numbers(message):
    numbers = {}
    for member in message.members:
        other = numbers.setdefault(member.number, member.name)
        if other != member.name:
            raise Refused(message.file.shown, member.line, f"{member.name} has the number of {other}")
        check_kept(message.file, message.kept, member.name, member.number, member.line)


def json_name(name):
    """`foo_bar` as `fooBar`."""
    return re.sub(r"_+(.?)", lambda found: found.group(1).upper(), name)


def check_json_names(message):
    """Refuses two members of one name in JSON, their own or one that an option gives."""
    for names in ([json_name(member.name) for member in message.members], [member.json_name or json_name(member.name) for member in message.members]):
        found = {}
        for member, name in zip(message.members, names):
            other = found.setdefault(name, member.name)
            if other != member.name:
                raise Refused(message.file.shown, member.line, f"{member.name} has the name of {other} in JSON, {name}")


def check_aliases(enum):
    found = {}
    for value in enum.values:
        check_kept(enum.file, enum.kept, value.name, value.number, value.line)
        other = found.setdefault(value.number, value.name)
        if other != value.name and not enum.has_aliases:
            raise Refused(enum.file.shown, value.line, f"{value.name} has the number of {other}, and allow_alias is not set")
    if enum.has_aliases and len(found) == len(enum.values):
        raise Refused(enum.file.shown, enum.line, "allow_alias is set, where no two values have one number")


def without_prefix(name, value):
    """A value's name without its enum's, whatever case and underscores either has."""
    rest = value
    for letter in name.replace("_", "").lower():
        rest = rest.lstrip("_")
        if rest[:1].lower() != letter:
            return value
        rest = rest[1:]
    return rest.lstrip("_") or value


def check_value_names(enum):
    """Refuses two values that differ by case, underscores or the enum's name alone, unless they have one number."""
    found = {}
    name = enum.name.split(".")[-1]
    for value in enum.values:
        bare = "".join(part.capitalize() for part in without_prefix(name, value.name).split("_"))
        other = found.setdefault(bare, value)
        if other.number != value.number:
            raise Refused(enum.file.shown, value.line, f"{value.name} has the name of {other.name}, but for case and the name of the enum")
