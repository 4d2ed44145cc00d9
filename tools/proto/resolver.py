"""Finds the files that a file imports, and what each name in them means."""
import os
import re

from .checks import check_file
from .lexer import Refused, source_of
from .members import SCALARS
from .parser import Parser

HERE = os.path.dirname(os.path.abspath(__file__))
TOP = os.path.dirname(os.path.dirname(HERE))
# Google's files, as far as the tool knows them, in this project's words.
INCLUDED = os.path.join(HERE, "include")
DESCRIPTOR = "google/protobuf/descriptor.proto"


def shown_path(path):
    """How a file is named in what the tool tells: from the folder in which it runs, if the file is in it."""
    short = os.path.relpath(path, INCLUDED if path.startswith(INCLUDED) else None)
    return os.path.abspath(path) if short.startswith("..") else short


class Schema:
    """All messages, enums and services of a file and of those that it imports."""

    def __init__(self, roots):
        self.roots = roots
        self.messages, self.enums, self.services = {}, {}, []
        # the files of which messages are written, or all
        self.written = None
        # each file by its path, in the order in which they were read
        self.files, self.symbols = {}, {}
        # the crate of each message that is not written but named by one that is, and what that crate calls its own
        self.homes = {}

    def add(self, path, shown, importers=()):
        """Reads a file, after those that it imports, once each."""
        key = os.path.realpath(path)
        if key in self.files:
            return self.files[key]
        file = Parser(path, shown, source_of(path, shown), bool(importers)).read()
        imported = {}
        for one in file.imports:
            found = self.located(one.name)
            if found is None:
                raise Refused(shown, one.line, f"no file {one.name} is there to be imported")
            whole = os.path.realpath(found)
            if whole in imported:
                raise Refused(shown, one.line, f"{one.name} is imported twice")
            if whole == key or whole in importers:
                raise Refused(shown, one.line, f"the imports of {one.name} lead back to it")
            imported[whole] = self.add(found, shown_path(found), importers + (key,)), one.is_public
        file.imported = list(imported.values())
        self.files[key] = file
        self.take_in(file)
        return file

    def located(self, name):
        """Where an imported file lies: Google's that are known, else the first below a root."""
        for root in [INCLUDED] + self.roots:
            path = os.path.join(root, name)
            if os.path.isfile(path):
                return path
        return None

    def take_in(self, file):
        for symbol in file.symbols:
            other = self.symbols.setdefault(symbol.name, symbol)
            if other is not symbol and (other.kind, symbol.kind) != ("package", "package"):
                self.refuse_two(symbol, other)
        if file.is_proto3:
            check_file(file)
            self.messages |= {message.name: message for message in file.messages}
            self.enums |= {enum.name: enum for enum in file.enums}

    def refuse_two(self, symbol, other):
        where = "" if other.file is symbol.file else f", and the other is in {other.file.shown}"
        beside = "; a value's name stands beside its enum, not in it" if "value of an enum" in (symbol.kind, other.kind) else ""
        raise Refused(symbol.file.shown, symbol.line, f"there are two of {symbol.name}{where}{beside}")

    # -- names

    def visible(self, file):
        """The files whose names a file may use: its own, those that it imports, and what these import publicly."""
        found, left = [file], [one for one, _ in file.imported]
        while left:
            one = left.pop()
            if one not in found:
                found.append(one)
                left += [below for below, is_public in one.imported if is_public]
        return found

    def resolve(self):
        """Finds what each member and each rpc names."""
        for message in self.messages.values():
            for member in message.members:
                if member.type not in SCALARS:
                    member.whole = self.find(message.file, message.name, member.type, member.line, ("message", "enum"), "type")
        for file in self.files.values():
            if not file.is_proto3:
                continue
            for scope, name, line in file.extended:
                whole = self.find(file, joined_scope(file, scope), name, line, ("message",), "message", may_be_proto2=True)
                if not re.fullmatch(r"google\.protobuf\.\w+Options", whole):
                    raise Refused(file.shown, line, f"{name} is extended, and proto3 extends options alone")
            for service in file.services:
                for call in service.calls:
                    call.asked = self.find(file, service.name, call.asked, call.line, ("message",), "message")
                    call.answered = self.find(file, service.name, call.answered, call.line, ("message",), "message")

    def find(self, file, scope, name, line, kinds, what, may_be_proto2=False):
        """The whole name of what is named in a scope: the innermost scope that has the name's first part has all of it."""
        # A member's type is never named by what is no type; the message of an rpc may be hidden so.
        passed_over = what == "type"
        symbol = self.looked_up(self.visible(file), scope, name, passed_over)
        if symbol is None or symbol.kind not in kinds:
            hidden = self.looked_up(self.files.values(), scope, name, passed_over)
            if hidden is not None and hidden.kind in kinds:
                raise Refused(file.shown, line, f"{name} is in {hidden.file.shown}, which is not imported here")
            raise Refused(file.shown, line, f"no {what} {name} is known here")
        if not symbol.file.is_proto3 and not may_be_proto2:
            raise Refused(file.shown, line, f"{name} is of proto2, in {symbol.file.shown}")
        return symbol.name

    def looked_up(self, files, scope, name, others_are_passed_over):
        if name.startswith("."):
            return self.known(files, name[1:])
        first, _, rest = name.partition(".")
        parts = scope.split(".") if scope else []
        for count in range(len(parts), -1, -1):
            found = self.known(files, ".".join(parts[:count] + [first]))
            if found is not None and rest and found.kind in ("package", "message", "enum", "service"):
                return self.known(files, ".".join(parts[:count] + [name]))
            if found is not None and not rest and (found.kind in ("message", "enum") or not others_are_passed_over):
                return found
        return None

    def known(self, files, whole):
        """The symbol of a whole name, if one of the files has it."""
        symbol = self.symbols.get(whole)
        if symbol is None:
            return None
        if symbol.kind == "package":
            return symbol if any(f"{file.package}.".startswith(f"{whole}.") for file in files) else None
        return symbol if symbol.file in files else None

    # -- what contains what

    def parts(self, whole):
        """The messages that members of a message have, each once."""
        found = {member.whole: None for member in self.messages[whole].members if member.whole}
        return [name for name in found if name in self.messages]

    def reached(self, whole):
        """The messages that may be in a message, those in them, and so on."""
        found, left = [], [whole]
        while left:
            new = [name for name in self.parts(left.pop(0)) if name not in found]
            found, left = found + new, left + new
        return found

    def leads_back(self, whole, part):
        """Whether a message that another has may contain the other."""
        return whole == part or whole in self.reached(part)

    def recursive(self):
        """The messages that are written and may contain themselves."""
        return [whole for whole in self.own(self.messages) if whole in self.reached(whole)]

    # -- what is written, and what other crates have

    def own(self, items):
        """The names of those messages or enums that are written."""
        return [whole for whole, item in items.items() if self.written is None or item.file in self.written]

    def narrow(self, home_of):
        """Writes the main file alone: `home_of` gives each other file's crate."""
        self.written = [self.main]
        called = [name for service in self.services for call in service.calls for name in (call.asked, call.answered)]
        own = set(self.own(self.messages))
        named = [part for whole in own for part in self.parts(whole)] + called
        named += [part for whole in self.recursive() for part in self.reached(whole)]
        self.homes = {whole: home_of(self.messages[whole].file) for whole in self.messages if whole in named and whole not in own}


def joined_scope(file, scope):
    return ".".join(part for part in (file.package, scope) if part)


def schema_of(path, roots):
    """The schema of a main file, whose services are those that are written."""
    schema = Schema(roots + [os.path.dirname(os.path.abspath(path))])
    main = schema.add(path, shown_path(path))
    schema.main = main
    schema.services = main.services
    schema.resolve()
    return schema
