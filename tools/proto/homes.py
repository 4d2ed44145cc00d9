"""A crate for each `.proto`: which crate has the messages of a file, and what it calls them."""
import dataclasses
import os
import re

from .names import Names, snake
from .resolver import INCLUDED, schema_of
from .writer import Crate

HEAD = re.compile(r"^//! Written by tools/messages((?: --each| -I \S+)*) from (\S+): ", re.M)
# Google's files are one crate, which comes with this project.
WELL_KNOWN, WELL_KNOWN_CRATE = os.path.join(INCLUDED, "well_known.proto"), "ttrpc_well_known"


@dataclasses.dataclass
class Home:
    crate: str
    names: Names


def text_of(path):
    if not os.path.exists(path):
        return ""
    with open(path, encoding="utf-8") as file:
        return file.read()


def written_from(crates, name, sources):
    """What the heads of some sources of a crate say: the file, where imports are looked for, and whether each file is a crate."""
    for source in sources:
        for options, path in HEAD.findall(text_of(os.path.join(crates, name, "src", f"{source}.rt"))):
            # The messages may stand in a crate of their own, beside the one whose folder the paths begin at.
            for folder in (os.path.join(crates, name), os.path.join(crates, name.removesuffix("_messages"))):
                whole = os.path.join(folder, path)
                if os.path.isfile(whole):
                    roots = [os.path.join(folder, root) for root in options.replace("--each", "").split()[1::2]]
                    yield whole, folder, roots, "--each" in options
                    break


class Homes:
    """The crate of each file: that which was written from it before, or one that is named by its package and its name."""

    def __init__(self, crates, roots):
        self.crates, self.roots, self.found, self.known = crates, roots, {}, {}
        for name in sorted(os.listdir(crates)) if os.path.isdir(crates) else []:
            for path, _, _, each in written_from(crates, name, ["messages"]):
                if each:
                    self.known[os.path.realpath(path)] = name

    def crate_of(self, file):
        key = os.path.realpath(file.path)
        if key not in self.known:
            parts = file.package.split(".") if file.package else []
            stem = os.path.basename(file.path).removesuffix(".proto")
            name = re.sub(r"\W", "_", "_".join(snake(part) for part in parts + ([] if parts[-1:] == [stem] else [stem])))
            while name in self.known.values() or not self.is_free(name, file):
                name += "_2"
            self.known[key] = name
        return self.known[key]

    def is_free(self, name, file):
        """Whether no crate has the name, or one that was written from a file of this name."""
        heads = HEAD.findall(text_of(os.path.join(self.crates, name, "src", "messages.rt")))
        there = os.path.isdir(os.path.join(self.crates, name))
        return not there or any(os.path.basename(path) == os.path.basename(file.path) for _, path in heads)

    def home_of(self, file):
        """The crate of a file, and its names."""
        included = file.path.startswith(INCLUDED)
        key = WELL_KNOWN if included else os.path.realpath(file.path)
        if key not in self.found:
            schema = schema_of(WELL_KNOWN, []) if included else self.narrowed(file.path)
            self.found[key] = Home(WELL_KNOWN_CRATE if included else self.crate_of(file), Names(schema))
        return self.found[key]

    def narrowed(self, path):
        schema = schema_of(path, self.roots)
        schema.narrow(self.home_of)
        return schema

    def missing(self, schema):
        """The files of other crates that are not there, each behind those that it needs."""
        found = {}
        for file in [schema.messages[whole].file for whole in schema.homes]:
            folder = os.path.join(self.crates, self.crate_of(file))
            if not file.path.startswith(INCLUDED) and not os.path.exists(os.path.join(folder, "src", "messages.rt")):
                below = self.narrowed(file.path)
                below.services = []
                found |= self.missing(below) | {file.path: (folder, below)}
        return found


def crates_of(path, folder, roots=(), apart=False, each=False):
    """The crate of a file, with its folder, after those of imported files that are not there where each file is a crate."""
    folder, roots = os.path.abspath(folder), list(roots)
    apart = apart or os.path.isdir(folder + "_messages")
    if not each:
        return [(Crate(schema_of(path, roots), path, roots, folder, apart), folder)]
    homes = Homes(os.path.dirname(folder), roots)
    schema = homes.narrowed(path)
    found = [(Crate(below, file, roots, home, False), home) for file, (home, below) in homes.missing(schema).items()]
    return found + [(Crate(schema, path, roots, folder, apart), folder)]
