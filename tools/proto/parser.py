"""Reads one `.proto` file: its messages, enums and services, and each name that it declares."""
import dataclasses

from .lexer import Lexer

HIGHEST_NUMBER = 2**29 - 1
# The numbers that Protocol Buffers keep for themselves.
KEPT_NUMBERS = range(19000, 20000)
DEEPEST = 32
KEY_TYPES = set("string bool int32 int64 uint32 uint64 sint32 sint64 fixed32 fixed64 sfixed32 sfixed64".split())
LABELS = ("optional", "repeated", "required")


@dataclasses.dataclass(eq=False)
class Member:
    name: str
    number: int
    type: str
    label: str
    line: int
    doc: list
    key: str = ""
    choice: str = ""
    json_name: str = ""
    # the whole name of the message or enum that its type names
    whole: str = ""


@dataclasses.dataclass
class Kept:
    """What a message or an enum reserves: numbers from one to another, and names."""

    ranges: list = dataclasses.field(default_factory=list)
    names: list = dataclasses.field(default_factory=list)


@dataclasses.dataclass(eq=False)
class Message:
    name: str
    file: object
    line: int
    doc: list
    members: list = dataclasses.field(default_factory=list)
    choices: dict = dataclasses.field(default_factory=dict)
    kept: Kept = dataclasses.field(default_factory=Kept)


@dataclasses.dataclass
class Value:
    name: str
    number: int
    line: int
    doc: list


@dataclasses.dataclass(eq=False)
class Enum:
    name: str
    file: object
    line: int
    doc: list
    values: list = dataclasses.field(default_factory=list)
    kept: Kept = dataclasses.field(default_factory=Kept)
    has_aliases: bool = False


@dataclasses.dataclass
class Call:
    name: str
    asked: str
    answered: str
    asks_many: bool
    answers_many: bool
    line: int
    doc: list

    def is_stream(self):
        return self.asks_many or self.answers_many


@dataclasses.dataclass(eq=False)
class Service:
    name: str
    file: object
    line: int
    doc: list
    calls: list = dataclasses.field(default_factory=list)


@dataclasses.dataclass
class Import:
    name: str
    is_public: bool
    line: int


@dataclasses.dataclass(eq=False)
class Symbol:
    """A name that a file declares: what it is, and where."""

    name: str
    kind: str
    file: object
    line: int


@dataclasses.dataclass(eq=False)
class ProtoFile:
    """A file. Its names are whole once it is read."""

    path: str
    shown: str
    is_proto3: bool = True
    package: str = ""
    imports: list = dataclasses.field(default_factory=list)
    messages: list = dataclasses.field(default_factory=list)
    enums: list = dataclasses.field(default_factory=list)
    services: list = dataclasses.field(default_factory=list)
    # each imported file, and whether it is public
    imported: list = dataclasses.field(default_factory=list)
    # the scope, the name and the line of each message that something is added to
    extended: list = dataclasses.field(default_factory=list)
    symbols: list = dataclasses.field(default_factory=list)

    def within_package(self, whole):
        """The name of one of its types without the package."""
        return whole.removeprefix(f"{self.package}.") if self.package else whole


def joined(scope, name):
    return f"{scope}.{name}" if scope else name


def told(first, *more):
    """The comment before an item, and what stands in it behind its first words."""
    lines = list(first)
    for token in more:
        lines += [text for text in token.comment if text not in lines]
    return lines


def camel(name):
    """`foo_bar` as `FooBar`, as Protocol Buffers name a map's entry."""
    return "".join(part[:1].upper() + part[1:] for part in name.split("_"))


class Parser:
    """Reads a file. Scopes are relative to the package, which may stand anywhere in the file."""

    def __init__(self, path, shown, source, is_imported):
        self.reader, self.is_imported = Lexer(shown, source), is_imported
        self.file = ProtoFile(path, shown)
        self.package_line = None

    def read(self):
        self.syntax()
        while self.reader.peek():
            self.item()
        self.name_wholly()
        return self.file

    def syntax(self):
        reader = self.reader
        if reader.peek() == "edition":
            reader.refuse("editions are not read")
        if reader.peek() != "syntax":
            # A file without a syntax is of proto2.
            self.file.is_proto3 = False
            if not self.is_imported:
                reader.refuse('the file doesn\'t begin with syntax = "proto3"')
            return
        reader.take()
        reader.take("=")
        syntax = reader.text("a syntax")
        if syntax.text not in ("proto2", "proto3"):
            reader.refuse(f"there is no syntax {syntax.text!r}", syntax.line)
        self.file.is_proto3 = syntax.text == "proto3"
        if not self.file.is_proto3 and not self.is_imported:
            reader.refuse("only proto3 is read", syntax.line)
        reader.take(";")

    def name_wholly(self):
        """Puts the package before each name."""
        file = self.file
        for one in file.messages + file.enums + file.services + file.symbols:
            one.name = joined(file.package, one.name)
        parts = file.package.split(".") if file.package else []
        for count in range(1, len(parts) + 1):
            file.symbols.append(Symbol(".".join(parts[:count]), "package", file, self.package_line))

    def declare(self, scope, name, kind):
        whole = joined(scope, name.text)
        self.file.symbols.append(Symbol(whole, kind, self.file, name.line))
        return whole

    def refuse_unless_proto2(self, reason, line):
        if self.file.is_proto3:
            self.reader.refuse(reason, line)

    # -- what stands in a file

    def item(self):
        reader = self.reader
        token = reader.take()
        if token.text == "package":
            if self.package_line is not None:
                reader.refuse("there are two packages", token.line)
            self.file.package, self.package_line = reader.name("a package", may_begin_with_dot=False).text, token.line
            reader.take(";")
        elif token.text == "import":
            is_public = reader.has("public")
            if not is_public:
                reader.has("weak")
            name = reader.text("a file")
            self.file.imports.append(Import(name.text, is_public, token.line))
            reader.take(";")
        elif token.text == "option":
            self.option_statement()
        elif token.text == "message":
            self.message("", token, 1)
        elif token.text == "enum":
            self.enum("", token)
        elif token.text == "service":
            self.service(token)
        elif token.text == "extend":
            self.extend("", token)
        elif token.text != ";":
            reader.refuse(f"{token.text!r} stands where a message, an enum or a service is wanted", token.line)

    # -- options, none of which is on the wire

    def option(self):
        """Reads `NAME = VALUE`, and gives both."""
        reader, name = self.reader, ""
        while True:
            if reader.has("("):
                name += f"({reader.name('the name of an option').text})"
                reader.take(")")
            else:
                name += reader.word("the name of an option").text
            if not reader.has("."):
                break
            name += "."
        reader.take("=")
        return name, self.option_value()

    def option_statement(self):
        found = self.option()
        self.reader.take(";")
        return found

    def option_value(self):
        reader = self.reader
        if reader.peek() == "{":
            self.skip_block()
            return ""
        if reader.peek()[:1] in ("'", '"'):
            return reader.text("a value").text
        sign = "-" if reader.has("-") else ""
        token = reader.take()
        if token.kind != "number" and (token.kind != "word" or sign and token.text not in ("inf", "nan")):
            reader.refuse(f"{token.text!r} stands where a value is wanted", token.line)
        return sign + token.text

    def skip_block(self):
        """Passes over what stands in braces."""
        self.reader.take("{")
        depth = 1
        while depth:
            depth += {"{": 1, "}": -1}.get(self.reader.take().text, 0)

    def listed_options(self):
        """Reads the options in brackets, if there are some."""
        reader, found = self.reader, {}
        if not reader.has("["):
            return found
        while True:
            line = reader.line()
            name, value = self.option()
            if name in found and not name.startswith("("):
                reader.refuse(f"there are two of the option {name}", line)
            found[name] = value
            if not reader.has(","):
                break
        reader.take("]")
        return found

    # -- messages

    def message(self, scope, token, depth):
        reader = self.reader
        name = reader.word("a name")
        self.message_body(scope, name, token, depth, reader.take("{"))

    def message_body(self, scope, name, token, depth, opening):
        reader = self.reader
        if depth > DEEPEST:
            reader.refuse(f"messages nest in more than {DEEPEST} levels", token.line)
        message = Message(self.declare(scope, name, "message"), self.file, token.line, told(token.comment, opening))
        self.file.messages.append(message)
        while not reader.has("}"):
            self.in_message(message, depth)

    def in_message(self, message, depth):
        reader = self.reader
        token = reader.take()
        if token.text == "message":
            self.message(message.name, token, depth + 1)
        elif token.text == "enum":
            self.enum(message.name, token)
        elif token.text == "option":
            self.option_statement()
        elif token.text == "reserved":
            self.reserved(message.kept, HIGHEST_NUMBER)
        elif token.text == "extensions":
            self.refuse_unless_proto2("extensions are not read", token.line)
            self.ranges(HIGHEST_NUMBER)
            self.listed_options()
            reader.take(";")
        elif token.text == "extend":
            self.extend(message.name, token)
        elif token.text == "oneof":
            self.oneof(message, token, depth)
        elif token.text != ";":
            self.labelled_member(message, token, depth)

    def labelled_member(self, message, token, depth):
        """A member, with its label or without one."""
        if token.text == "required":
            self.refuse_unless_proto2("proto3 has no required members", token.line)
        has_label = token.text in LABELS
        first = self.reader.take() if has_label else token
        self.member(message, first, token.text if has_label else "", token, depth)

    def oneof(self, message, token, depth):
        reader = self.reader
        name = reader.word("a name")
        self.declare(message.name, name, "oneof")
        doc = told(token.comment, reader.take("{"))
        message.choices.setdefault(name.text, (token.line, doc))
        while not reader.has("}"):
            first = reader.take()
            if first.text == "option":
                self.option_statement()
            elif first.text in LABELS:
                reader.refuse(f"a member of a oneof is not {first.text}", first.line)
            elif first.text != ";":
                self.member(message, first, "", first, depth, name.text)
        if self.file.is_proto3 and not any(member.choice == name.text for member in message.members):
            reader.refuse(f"{name.text} has no members", token.line)

    def type_name(self, first):
        """A type's name that begins with a token which is taken already."""
        reader = self.reader
        if first.text != "." and first.kind != "word":
            reader.refuse(f"{first.text!r} stands where a type is wanted", first.line)
        text = first.text if first.kind == "word" else "." + reader.word("a type").text
        while reader.has("."):
            text += "." + reader.word("a type").text
        return text

    def member(self, message, first, label, token, depth, choice=""):
        reader, key = self.reader, ""
        if first.text == "group" and reader.peek(1) == "=":
            self.group(message, first, depth)
            return
        if first.text == "map" and reader.has("<"):
            key, kind = self.map_types()
            if label or choice:
                reader.refuse("a map is not optional, repeated or one of several", token.line)
            label = "map"
        else:
            kind = self.type_name(first)
        name = reader.word("a name")
        reader.take("=")
        number = reader.number("a number")
        options = self.listed_options()
        doc = told(token.comment, reader.take(";"))
        self.check_member(name, number, options)
        self.declare(message.name, name, "member")
        if label == "map":
            entry = dataclasses.replace(name, text=f"{camel(name.text)}Entry")
            self.declare(message.name, entry, f"entry of the map {name.text}")
        message.members.append(Member(name.text, number, kind, label, name.line, doc, key, choice, options.get("json_name", "")))

    def map_types(self):
        reader = self.reader
        key = reader.name("a key's type")
        if key.text not in KEY_TYPES:
            reader.refuse(f"{key.text} is no type of a map's key", key.line)
        reader.take(",")
        kind = reader.name("a type").text
        reader.take(">")
        return key.text, kind

    def group(self, message, token, depth):
        """A group of proto2, which is a message and a member of it."""
        reader = self.reader
        self.refuse_unless_proto2("groups are not read", token.line)
        name = reader.word("a name")
        reader.take("=")
        reader.number("a number")
        self.listed_options()
        self.message_body(message.name, name, token, depth + 1, reader.take("{"))

    def check_member(self, name, number, options):
        reader = self.reader
        if not 1 <= number <= HIGHEST_NUMBER or number in KEPT_NUMBERS:
            reader.refuse(f"{number} is no number of a field", name.line)
        if "default" in options:
            self.refuse_unless_proto2("proto3 has no defaults of one's own", name.line)
        if options.get("packed") == "false":
            self.refuse_unless_proto2("lists of numbers are always packed", name.line)

    def extend(self, scope, token):
        """Passes over what is added to a message, which in proto3 is an option."""
        reader = self.reader
        extended = reader.name("a message")
        self.file.extended.append((scope, extended.text, extended.line))
        added = Message("", self.file, token.line, [])
        reader.take("{")
        while not reader.has("}"):
            first = reader.take()
            if first.text != ";":
                count = len(self.file.symbols)
                self.labelled_member(added, first, 1)
                for symbol in self.file.symbols[count:]:
                    symbol.name = joined(scope, symbol.name)
        if any(member.label == "map" for member in added.members):
            reader.refuse("what is added to a message is no map", token.line)

    # -- what is reserved

    def reserved(self, kept, most):
        reader = self.reader
        if reader.peek()[:1] in ("'", '"'):
            while True:
                name = reader.text("a name")
                if name.text in kept.names:
                    reader.refuse(f"{name.text} is reserved twice", name.line)
                kept.names.append(name.text)
                if not reader.has(","):
                    break
        else:
            for first, last, line in self.ranges(most):
                if any(first <= other_last and other_first <= last for other_first, other_last in kept.ranges):
                    reader.refuse(f"{first} to {last} has a number that is reserved already", line)
                kept.ranges.append((first, last))
        reader.take(";")

    def ranges(self, most):
        """Reads `2, 9 to 11, 40 to max`: each first and last number, and its line."""
        reader, found = self.reader, []
        while True:
            line = reader.line()
            first = reader.number("a number or a quoted name")
            last = first
            if reader.has("to"):
                last = most if reader.has("max") else reader.number("a number")
            lowest = 1 if most == HIGHEST_NUMBER else -(2**31)
            if not lowest <= first <= last <= most:
                reader.refuse(f"{first} to {last} is no range of numbers", line)
            found.append((first, last, line))
            if not reader.has(","):
                return found

    # -- enums

    def enum(self, scope, token):
        reader = self.reader
        name = reader.word("a name")
        enum = Enum(self.declare(scope, name, "enum"), self.file, token.line, told(token.comment, reader.take("{")))
        self.file.enums.append(enum)
        while not reader.has("}"):
            first = reader.take()
            if first.text == "option":
                enum.has_aliases |= self.option_statement() == ("allow_alias", "true")
            elif first.text == "reserved":
                self.reserved(enum.kept, 2**31 - 1)
            elif first.text != ";":
                self.value(scope, enum, first)
        if not enum.values:
            reader.refuse(f"{name.text} has no values", token.line)

    def value(self, scope, enum, name):
        reader = self.reader
        if name.kind != "word":
            reader.refuse(f"{name.text!r} stands where a value is wanted", name.line)
        reader.take("=")
        number = reader.number("a number")
        self.listed_options()
        end = reader.take(";")
        if self.file.is_proto3 and not enum.values and number != 0:
            reader.refuse("the first number of an enum is 0 in proto3", name.line)
        if not -(2**31) <= number < 2**31:
            reader.refuse(f"{number} is no number of an enum", name.line)
        # A value's name stands beside its enum, not in it.
        self.declare(scope, name, "value of an enum")
        enum.values.append(Value(name.text, number, name.line, told(name.comment, end)))

    # -- services

    def service(self, token):
        reader = self.reader
        name = reader.word("a name")
        service = Service(self.declare("", name, "service"), self.file, token.line, token.comment)
        reader.take("{")
        while not reader.has("}"):
            first = reader.take()
            if first.text == "option":
                self.option_statement()
            elif first.text == "rpc":
                self.call(service, first)
            elif first.text != ";":
                reader.refuse(f"{first.text!r} stands where an rpc is wanted", first.line)
        self.file.services.append(service)

    def call(self, service, first):
        reader = self.reader
        name = reader.word("a name")
        self.declare(service.name, name, "rpc")
        asked, asks_many = self.call_type()
        reader.take("returns")
        answered, answers_many = self.call_type()
        if reader.has("{"):
            while not reader.has("}"):
                token = reader.take()
                if token.text == "option":
                    self.option_statement()
                elif token.text != ";":
                    reader.refuse(f"{token.text!r} stands where an option is wanted", token.line)
        else:
            reader.take(";")
        service.calls.append(Call(name.text, asked, answered, asks_many, answers_many, first.line, first.comment))

    def call_type(self):
        reader = self.reader
        reader.take("(")
        many = reader.has("stream")
        name = reader.name("a message")
        reader.take(")")
        return name.text, many

