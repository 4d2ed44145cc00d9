"""The files of a crate: the messages of a schema with their definitions, and the services."""
import os
import re

from .layout import SEVERAL, WIDTH, call, comments, listed, pair, sorted_uses, together, typed_call, use_lines
from .members import Choice, Kinds, Places
from .names import Names, escaped, snake
from .services import Services, foreign_uses, renamed

HEAD = "Written by tools/messages{options} from {path}: change that, and run the tool."

# What messages may name of each module.
LIBRARIES = {
    "std::alloc": "AllocError Global",
    "ttrpc_members::choice": "Choice",
    "ttrpc_members::enclosed": "Enclosable Enclosed Enclosing",
    "ttrpc_members::entries": "MapOf",
    "ttrpc_members::item": "Bits32 Bits64 Boolean Bytes Int32 Int64 ItemKind Nested Signed32 Signed64 Sint32 Sint64 Uint32 Uint64 Utf8",
    "ttrpc_members::kind": "MemberKind Optional Packed Repeated Single item_len put_item",
    "ttrpc_members::map": "Map",
    "ttrpc_members::named": "Named",
    "ttrpc_members::nesting": "Content Recursive Rule",
    "ttrpc_members::several": "clone_eight clone_four clone_two write_eight write_four write_two",
    "ttrpc_wire::codec::message": "WireMessage",
    "ttrpc_wire": "Blob CodecError Field FieldNumber Sequence Text TryClone Value WireType",
}


class Crate:
    """The files of a crate."""

    def __init__(self, schema, path, roots, folder, apart):
        self.schema, self.source, self.apart = schema, os.path.basename(path), apart
        self.services_name = os.path.basename(folder)
        # the crate of the messages
        self.name = f"{self.services_name}_messages" if apart else self.services_name
        options = (" --each" if schema.written else "") + "".join(f" -I {os.path.relpath(root, folder)}" for root in roots)
        self.head = HEAD.format(options=options, path=os.path.relpath(path, folder))
        self.names = Names(schema)
        self.order = self.sorted()
        self.own = [whole for whole in self.order if whole not in schema.homes]
        self.services = Services(schema, self.names, self.source, self.head, self.name if apart else None)

    def kinds(self, whole):
        """The members of a message by their numbers, those of a oneof together."""
        message, parts, choices = self.schema.messages[whole], [], {}
        for member in sorted(message.members, key=lambda member: member.number):
            kind = Kinds(self.schema, self.names, whole, member)
            if not member.choice:
                parts.append(kind)
            elif member.choice in choices:
                choices[member.choice].append(kind)
            else:
                parts.append(member.choice)
                choices[member.choice] = [kind]
        return [self.choice(message, part, choices[part]) if isinstance(part, str) else part for part in parts]

    def choice(self, message, name, kinds):
        key = (message.name, name)
        return Choice(self.names.members[key], self.names.choices[key], message.choices[name][1], kinds)

    def sorted(self):
        """The messages, each behind those that it has, with those of other crates that it names."""
        order, state = [], set()

        def visit(whole):
            if whole in state:
                return
            state.add(whole)
            for member in self.schema.messages[whole].members:
                part = member.whole if member.whole in named else None
                if part and not self.schema.leads_back(whole, part):
                    visit(part)
            order.append(whole)

        named = set(self.schema.own(self.schema.messages)) | set(self.schema.homes)
        for whole in self.schema.messages:
            if whole in named:
                visit(whole)
        return order

    # -- the messages

    def messages(self):
        body = [line for whole in self.schema.own(self.schema.enums) for line in self.enum(whole, self.schema.enums[whole])]
        for whole in self.own:
            body += self.message(whole)
        places = Places(self.schema)
        body += places.code(self.name, self.names) if places.messages else []
        lines = [f"//! The messages of {self.source}.", f"//! {self.head}", ""]
        if self.own:
            code = "\n".join(line for line in body if not line.strip().startswith("///"))
            # The traits whose calls are made by a path of a type.
            code += "\nMemberKind" * any(not kind.is_choice for whole in self.own for kind in self.kinds(whole)) + "\nItemKind" * ("impl Choice for" in code)
            lines += self.foreign_uses(code)
            for path, names in LIBRARIES.items():
                lines += use_lines(path, {name for name in names.split() if re.search(rf"(?<![:\w]){name}\b(?!\()", code)})
        return "\n".join(sorted_uses(lines) + body) + "\n"

    def foreign_uses(self, body):
        """The lines that name messages of other crates, which stand in a text."""
        return foreign_uses(self.schema, self.names, [whole for whole in self.schema.homes if re.search(rf"\b{self.names.types[whole]}\b", body)])

    def enum(self, whole, enum):
        lines = []
        for value in enum.values:
            lines += [""] + comments("", "///", value.doc, f"The number of `{value.name}` of the enum `{whole}`.")
            lines += [f"pub const {self.names.values[whole, value.name]}: i32 = {value.number};"]
        return lines

    def message(self, whole):
        message, name, kinds = self.schema.messages[whole], self.names.types[whole], self.kinds(whole)
        lines = []
        for kind in kinds:
            lines += kind.declared() if kind.is_choice else []
        lines += [""] + comments("", "///", message.doc, f"The message `{whole}`.") + ["#[derive(Drop)]"]
        if not kinds:
            lines += [f"pub struct {name} {{}}"]
        else:
            lines += [f"pub struct {name} {{"]
            for kind in kinds:
                lines += comments("    ", "///", kind.doc, "Field " + ", ".join(str(number) for number in kind.numbers) + ".")
                lines += [f"    pub {kind.name}: {kind.type},"]
            lines += ["}"]
        for constant, number in (pair for kind in kinds for pair in kind.constants()):
            constant = f"const {constant}: FieldNumber ="
            value = f"FieldNumber {{ value: {number} }};"
            lines += [""] + ([f"{constant} {value}"] if len(constant) + len(value) < WIDTH else [constant, f"    {value}"])
        for kind in kinds:
            lines += kind.code(self.name) if kind.is_choice else []
        return lines + self.cloned(name, kinds) + self.wire(whole, name, kinds)

    def literal(self, indent, head, tail, rows):
        if not rows:
            return [f"{indent}{head} {{}}{tail}"]
        short = ", ".join(row.strip().rstrip(",") for row in rows)
        if len(short) <= 18:
            return [f"{indent}{head} {{ {short} }}{tail}"]
        return [f"{indent}{head} {{"] + rows + [f"{indent}}}{tail}"]

    def cloned(self, name, kinds):
        lines = ["", f"impl TryClone for {name} {{", f"    fn try_clone(&self) -> Result<{name}, AllocError> {{"]
        # Few at first: where a later call fails, those before it are dropped.
        for group in together([kind for kind in kinds if not kind.copies], ascending=True):
            members = [f"&self.{kind.name}" for kind in group]
            if len(group) == 1:
                lines += call("        ", f"let {group[0].name} = {group[0].path}::try_clone", members, "?;")
            else:
                head = f"let ({', '.join(kind.name for kind in group)}) = clone_{SEVERAL[len(group)]}"
                lines += typed_call("        ", head, [kind.of_type for kind in group], members, "?;")
        rows = [f"            {kind.name}: self.{kind.name}," if kind.copies else f"            {kind.name}," for kind in kinds]
        short = ", ".join(row.strip().rstrip(",") for row in rows)
        if len(short) <= 18:
            lines += [f"        Ok({name} {{{' ' + short + ' ' if short else ''}}})"]
        else:
            lines += [f"        Ok({name} {{"] + rows + ["        })"]
        return lines + ["    }", "}"]

    def wire(self, whole, name, kinds):
        low = snake(name)
        lines = [
            "",
            f"impl WireMessage for {name} {{",
            f"    ghost use Rattle.{self.name}.specs.Messages.{{{low}}};",
            "",
            f"    ghost is_value = {{ {low}.part.is_value }};",
            "",
            f"    ghost empty = {{ {low}.part.empty }};",
            "",
            f"    ghost step = {{ {low}.part.step }};",
            "",
            f"    ghost fields = {{ {low}.part.fields }};",
            "",
        ]
        some = "" if kinds else "_"
        rows = []
        for kind in kinds:
            rows += kind.empty()
        lines += [f"    fn new({some}alloc: Global) -> {name} {{"] + self.literal("        ", name, "", rows) + ["    }", ""]
        put = f"    fn put(&mut self, {some}alloc: Global, {some}field: Field<'_>) -> Result<(), CodecError> {{"
        lines += [put]
        if kinds:
            lines += ["        match field.number.value {"]
            for kind in kinds:
                lines += kind.arm()
            lines += ["            _ => Ok(()),", "        }"]
        else:
            lines += ["        Ok(())"]
        lines += ["    }", ""]
        lines += ["    #[tactic(auto, using(ttrpc_members::proofs::Groups::flat_measured))]", "    fn length(&self) -> u64 {"]
        if kinds:
            lines += ["        let len: u64 = 0;"]
            for place, kind in enumerate(kinds):
                part = f"{kind.path}::length({', '.join(kind.numbered())})"
                last = place + 1 == len(kinds)
                head, tail = ("len.saturating_add", "") if last else ("let len = len.saturating_add", ";")
                line = f"        {head}({part}){tail}"
                if len(line) <= WIDTH:
                    lines += [line]
                else:
                    lines += [f"        {head}({kind.path}::length("]
                    lines += listed("            ", kind.numbered()) + [f"        )){tail}"]
        else:
            lines += ["        0"]
        lines += ["    }", ""]
        lines += [
            "    #[tactic(auto, using(ttrpc_members::proofs::Groups::flat_written, ttrpc_members::proofs::Groups::flat_len))]",
            f"    fn write(&self, {some}out: &mut Vec<u8>) -> Result<(), CodecError> {{",
        ]
        groups = together(kinds)
        for place, group in enumerate(groups):
            tail = "" if place + 1 == len(groups) else "?;"
            if len(group) == 1:
                lines += call("        ", f"{group[0].path}::write", group[0].numbered() + ["out"], tail)
            else:
                members = [pair(*kind.numbered()) for kind in group]
                lines += typed_call("        ", f"write_{SEVERAL[len(group)]}", [kind.of_type for kind in group], members + ["out"], tail)
        lines += [] if kinds else ["        Ok(())"]
        lines += ["    }", "", "    fn lemma_is_value(&self) {" + ("" if kinds else "}")]
        for kind in kinds:
            lines += call("        ", f"{kind.path}::lemma_is_value", [f"&self.{kind.name}"], ";")
        lines += ["    }"] if kinds else []
        lines += ["", f"    ghost again = {{ {low}.laws.again {low}.valid }};", "", f"    ghost fits = {{ {low}.laws.fits {low}.valid }};", "}"]
        lines += ["", f"impl Named for {name} {{", "    ghost use Rattle.std.specs.Prelude.{codes};", "", f'    ghost full_name = {{ codes "{whole}" }};']
        return lines + ["", "    fn full_name() -> &'static str {", f'        "{whole}"', "    }", "}"]

    # -- the definitions

    def definitions(self):
        words, body, chosen, denoted = {"Message", "message", "none"}, [], set(), set()
        places = Places(self.schema)
        if places.messages:
            body += places.definitions()
            denoted |= {"List", "[]"} | ({"◌∷◌"} if places.rules() else set())
        for whole in self.order:
            if whole in self.schema.homes:
                body += self.wants(places, whole)
                continue
            name, kinds = self.names.types[whole], self.kinds(whole)
            for kind in kinds:
                words |= kind.words
                body += kind.definitions() if kind.is_choice else []
                chosen |= {kind.path} if kind.is_choice else set()
                denoted |= set(re.findall("[ℕℤ]|List|Bool", kind.definitions()[2])) if kind.is_choice else set()
            low = snake(name)
            listed = ", ".join(kind.told() for kind in kinds)
            body += ["", f"-- the message `{name}`: {listed or 'no member'}", f"abbrev pub {low} : Message {name}", f"{low} = message"]
            body += ["    (none" + "".join(kind.defined() for kind in kinds) + ")"]
            parts, count = "tt", len(kinds)
            for kind in kinds:
                parts = f"({parts}, m.{kind.name})"
            fields = "; ".join(f"{escaped(kind.name)} = x{'.0' * (count - 1 - place)}.1" for place, kind in enumerate(kinds))
            record = f"record {{ {fields} }}" if kinds else "record {}"
            body += [f"    (λ m. {parts})", f"    (λ x. {record})", "    (λ x. refl) (λ m. refl) refl"]
            body += self.wants(places, whole)
        lines = [
            f"-- The messages of {self.source}: the number, the kind and the place of each member. {self.head}",
            f"-- Source: {self.source}.",
            f"use Rattle.std.specs.Prelude.{{{', '.join(['refl'] + (['◌≡◌', '◌⊎◌'] if chosen else []) + sorted(denoted))}}}",
        ] + (["use Rattle.std.proofs.Common.{inl, inr}"] if chosen else []) + [
            f"use Rattle.ttrpc_members.proofs.Proved.{{{', '.join(sorted(words))}}}",
        ]
        lines += places.imports() if places.messages else []
        lines += [f"use Rattle.{self.name}.specs.declared.messages.{self.names.types[whole]}.{{{self.names.types[whole]}}}" for whole in self.own]
        lines += self.foreign_definitions("\n".join(body))
        for name in sorted(chosen):
            lines += [f"use Rattle.{self.name}.specs.declared.messages.{name}.{{{name}}}"]
            lines += [f"use Rattle.{self.name}.specs.declared.messages.{name}.TheVariants as {snake(name)}_variants"]
        return "\n".join(lines + body) + "\n"

    def wants(self, places, whole):
        """The proof that the rules want of a message what they have to, where they are of it."""
        if whole not in places.messages:
            return []
        name, wanted = self.names.types[whole], "tt"
        for kind in self.kinds(whole):
            wanted = f"({wanted}, {kind.wanted(places, self.names, whole)})"
        lines = ["", f"-- the rules want of `{name}` what makes them take the bytes that read as it, and no others"]
        return lines + [f"pub {snake(name)}_wants : {snake(name)}.wants all_rules {places.of(whole)}", f"{snake(name)}_wants = ({wanted}, refl)"]

    def foreign_definitions(self, body):
        """The lines that name types and definitions of other crates, which stand in a text."""
        lines, found = [], {}
        for whole, home in self.schema.homes.items():
            name, theirs = self.names.types[whole], home.names.types[whole]
            if re.search(rf"⊎ {name}\b", body):
                lines += [f"use Rattle.{home.crate}.specs.declared.messages.{theirs}.{{{renamed(theirs, name)}}}"]
            if re.search(rf"\b(?:nested {snake(name)}|{snake(name)}_wants)\b", body):
                found.setdefault(home.crate, []).append(renamed(snake(theirs), snake(name)))
        return lines + [f"use Rattle.{crate}.specs.Messages.{{{', '.join(sorted(names))}}}" for crate, names in sorted(found.items())]

    def files(self, folder):
        """Each file of the crate, by its path."""
        home = f"../{self.name}/" if self.apart else ""
        files = {f"{home}src/messages.rt": self.messages(), f"{home}specs/Messages.antt": self.definitions()}
        if self.schema.services:
            files |= self.ends(folder)
        if self.apart:
            files |= self.root(folder, home, ["messages"], "messages")
        services = [name for name in ("polled", "service") if f"src/{name}.rt" in files]
        files |= self.root(folder, "", services if self.apart else ["messages"] + services, "services" if self.apart else "messages and services")
        files[f"{home}specs/Lib.antt"] = self.listed(os.path.join(folder, f"{home}specs/Lib.antt"))
        return files

    def write(self, folder):
        """Writes each file of the crate, and gives them."""
        files = self.files(folder)
        for name, text in files.items():
            target = os.path.normpath(os.path.join(folder, name))
            os.makedirs(os.path.dirname(target), exist_ok=True)
            with open(target, "w", encoding="utf-8") as file:
                file.write(text)
        return files

    def root(self, folder, home, modules, what):
        """The root file of a crate that has none."""
        if any(os.path.exists(os.path.join(folder, f"{home}src/{name}.rt")) for name in ("lib", "main")):
            return {}
        head = [f"//! The {what} of {self.source}.", "#![tactic(auto)]", ""]
        return {f"{home}src/lib.rt": "\n".join(head + [f"pub mod {name};" for name in modules]) + "\n"}

    def ends(self, folder):
        """The services for threads and for polled ends: those that are there, or all."""
        calls = self.services.calls()
        kinds = {"src/service.rt": self.services.services} if any(not one.is_stream() for one in calls) else {}
        kinds["src/polled.rt"] = self.services.polled
        there = [name for name in kinds if os.path.exists(os.path.join(folder, name))]
        return {name: kinds[name]() for name in there or kinds}

    def listed(self, path):
        """The list of the crate's definitions, with that of the messages."""
        there = ""
        if os.path.exists(path):
            with open(path, encoding="utf-8") as file:
                there = file.read()
        return there if "pub mod Messages" in there.splitlines() else there + "pub mod Messages\n"

    def libraries(self, files):
        """The lines of crates.txt."""
        own, foreign = set(self.own), self.schema.homes
        homes = sorted({foreign[part].crate for whole in own for part in self.schema.parts(whole) if part in foreign})
        messages = " ".join([f"{self.name}: ttrpc_wire ttrpc_members"] + homes)
        if not self.schema.services:
            return [messages]
        others = ["ttrpc"]
        if "src/polled.rt" in files:
            # A macro wants the crate that defines it, under whatever path it is named.
            streams = any(one.is_stream() for one in self.services.calls())
            others = (["ttrpc_polled"] if streams else []) + ["ttrpc_polled_client", "ttrpc_polled_server", "ttrpc", "futures"]
        called = self.services.called()
        named = sorted({foreign[whole].crate for whole in called if whole in foreign})
        if self.apart:
            return [messages, " ".join([f"{self.services_name}:"] + ([self.name] if called & own else []) + named + others)]
        return [" ".join([messages] + [name for name in named if name not in homes] + others)]
