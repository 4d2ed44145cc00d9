"""What a member of a message, a oneof, or a message that may contain itself is in code and definitions."""
import dataclasses

from .layout import WIDTH, arm, call, comments, signature
from .lexer import Refused
from .names import snake


@dataclasses.dataclass(frozen=True)
class Scalar:
    """A type of one value: its item in the code and in the definitions, and the type of the value in each."""

    item: str
    word: str
    value: str
    denoted: str
    is_number: bool


SCALARS = {
    "string": Scalar("Utf8", "text", "Text", "List ℕ", False),
    "bytes": Scalar("Bytes", "bytes", "Blob", "List ℕ", False),
    "bool": Scalar("Boolean", "boolean", "bool", "Bool", True),
    "int32": Scalar("Int32", "int32", "i32", "ℤ", True),
    "int64": Scalar("Int64", "int64", "i64", "ℤ", True),
    "uint32": Scalar("Uint32", "uint32", "u32", "ℕ", True),
    "uint64": Scalar("Uint64", "uint64", "u64", "ℕ", True),
    "sint32": Scalar("Sint32", "sint32", "i32", "ℤ", True),
    "sint64": Scalar("Sint64", "sint64", "i64", "ℤ", True),
    "fixed32": Scalar("Bits32", "bits32", "u32", "ℕ", True),
    "fixed64": Scalar("Bits64", "bits64", "u64", "ℕ", True),
    "sfixed32": Scalar("Signed32", "signed32", "i32", "ℤ", True),
    "sfixed64": Scalar("Signed64", "signed64", "i64", "ℤ", True),
    "float": Scalar("Bits32", "bits32", "u32", "ℕ", True),
    "double": Scalar("Bits64", "bits64", "u64", "ℕ", True),
}


class Kinds:
    """How a member is written: its kind and the types of its values, in code and definitions."""

    is_choice = False

    def __init__(self, schema, names, scope, member):
        self.member = member
        self.name, self.constant = names.members[scope, member.name], names.constants[scope, member.name]
        self.variant = names.variants.get((scope, member.name))
        is_message, self.is_enclosed, whole = False, False, member.whole
        if not whole:
            scalar = SCALARS[member.type]
            item, word, value, number = scalar.item, scalar.word, scalar.value, scalar.is_number
            self.part, self.items, self.denoted = None, {scalar.item}, scalar.denoted
        elif whole in schema.enums:
            item, word, value, number = "Int32", "int32", "i32", True
            self.part, self.items, self.denoted = None, {"Int32"}, "ℤ"
        elif schema.leads_back(scope, whole):
            rules = f"{names.types[whole]}Rules"
            value, item, number = f"Enclosed<{rules}>", f"Enclosing<{rules}>", False
            word = f"(enclosed all_rules {Places(schema).of(whole)})"
            self.part, self.items, self.denoted, is_message, self.is_enclosed = None, {"Enclosing"}, "List ℕ", True, True
        else:
            value = names.types[whole]
            item, word, number = f"Nested<{value}>", f"(nested {snake(value)})", False
            self.part, self.items, self.denoted, is_message = whole, {"Nested"}, value, True
        self.words = {word.strip("()").split()[0]}
        self.value, self.item, self.word = value, item, word
        self.numbers, self.doc, self.parts = [member.number], member.doc, {self.part} - {None}
        if member.label == "repeated":
            kind, self.type = "Packed" if number else "Repeated", f"Sequence<{value}>"
        elif member.label == "optional" or (is_message and member.label == ""):
            kind, self.type = "Optional", f"Option<{value}>"
        else:
            kind, self.type = "Single", value
        self.kind, self.copies = kind, number and kind in ("Single", "Optional")
        self.of_type = f"{kind}<{item}>"
        self.path = f"{kind}::<{item}>"
        self.definition = f"{kind.lower()} {word}"
        if member.label == "map":
            self.as_map(item, word)
        self.words |= {kind.lower() if member.label != "map" else "map", "◌&◌∶◌"}
        self.of = {self.kind}

    def constants(self):
        return [(self.constant, self.member.number)]

    def empty(self):
        return call("            ", f"{self.name}: {self.path}::empty", ["alloc"], ",")

    def arm(self):
        return arm(self.member.number, f"{self.path}::take", [f"&mut self.{self.name}", "alloc", "field.value"])

    def numbered(self):
        return [f"&self.{self.name}", self.constant]

    def defined(self):
        return f" & {self.member.number} ∶ {self.definition}"

    def told(self):
        return f"{self.member.number} {self.member.name}"

    def wanted(self, places, names, whole):
        """The proof that the rules want what they have to want of it."""
        if self.member.label == "map":
            entry = places.of(f"{whole}.{self.member.name}")
            return f"({entry}, refl, refl, {self.wanted_item(places, names)}, refl)"
        return "(refl, refl)" if self.kind == "Packed" else self.wanted_item(places, names)

    def wanted_item(self, places, names):
        if self.part:
            return f"({places.of(self.part)}, refl, {snake(names.types[self.part])}_wants)"
        return "(refl, refl)" if self.is_enclosed else "refl"

    def as_map(self, item, word):
        """A map: its keys' item, and the names of the keys' order."""
        scalar = SCALARS[self.member.key]
        if scalar.item == "Utf8":
            key_word, words = "text_key", {"text_key"}
        elif scalar.item == "Boolean":
            key_word, words = "boolean_key", {"boolean_key"}
        else:
            order = "signed_key" if scalar.denoted == "ℤ" else "natural_key"
            key_word, words = f"({order} {scalar.word})", {order, scalar.word}
        self.kind, self.copies = "MapOf", False
        self.type = f"Map<{scalar.value}, {self.value}>"
        self.path = f"MapOf::<{scalar.item}, {item}>"
        self.of_type = f"MapOf<{scalar.item}, {item}>"
        self.definition = f"map {key_word} {word}"
        self.items = self.items | {scalar.item}
        self.words |= words


class Places:
    """The messages that the rules are of: those that may contain themselves and all that may be in them, and the entries of each map.
    The rules of each stand together, and the place of the first is its own; what has no rules has the place behind all."""

    def __init__(self, schema):
        self.schema, self.messages = schema, []
        for whole in schema.recursive():
            for name in [whole] + schema.reached(whole):
                self.messages += [name] if name not in self.messages else []
        for whole in self.messages:
            if whole in schema.homes and whole in schema.reached(whole):
                message = schema.messages[whole]
                raise Refused(message.file.shown, message.line, f"{whole} may contain itself, and is in such a message of another crate")
        wanted = {whole: self.of_message(whole) for whole in self.messages}
        wanted |= {f"{whole}.{member.name}": self.of_entry(member) for whole in self.messages for member in schema.messages[whole].members if member.label == "map"}
        self.wanted, self.places, place = wanted, {}, 0
        for name, rows in wanted.items():
            self.places[name] = place if rows else sum(len(rows) for rows in wanted.values())
            place += len(rows)

    def of(self, whole):
        return self.places[whole]

    def content(self, member):
        """What the values of a member's type have to be: a variant, and what it holds."""
        if not member.whole:
            return ("Text", None) if member.type == "string" else None
        return ("Message", member.whole) if member.whole in self.schema.messages else None

    def numbers(self, member):
        """The wire type of a list's numbers."""
        if member.whole:
            return None if member.whole in self.schema.messages else ("Numbers", "Varint")
        scalar = SCALARS[member.type]
        wire_type = {"Bits32": "Fixed32", "Signed32": "Fixed32", "Bits64": "Fixed64", "Signed64": "Fixed64"}.get(scalar.item, "Varint")
        return ("Numbers", wire_type) if scalar.is_number else None

    def of_message(self, whole):
        """What the members of a message have to be, by their numbers."""
        found = []
        for member in sorted(self.schema.messages[whole].members, key=lambda member: member.number):
            content = ("Message", f"{whole}.{member.name}") if member.label == "map" else self.content(member)
            content = content or (self.numbers(member) if member.label == "repeated" else None)
            found += [(member.number, content)] if content else []
        return found

    def of_entry(self, member):
        """What the key and the value of a map's entries have to be."""
        content = self.content(member)
        return ([(1, ("Text", None))] if member.key == "string" else []) + ([(2, content)] if content else [])

    def rules(self):
        """Each rule: the place of a message, the number of a member, and what its values have to be."""
        named = lambda kind, of: (kind, self.places[of] if kind == "Message" else of)
        return [(self.places[name], number, named(*content)) for name, rows in self.wanted.items() for number, content in rows]

    # -- the code

    def code(self, crate, names):
        lines = ["", "/// What has to hold of the bytes of messages that may contain themselves, and of all that may be in them, by the place of a message's first rule."]
        lines += ["const RULES: &[Rule] = &["]
        for place, number, (kind, of) in self.rules():
            content = f"Content::{kind}" + ("" if of is None else f"(WireType::{of})" if kind == "Numbers" else f"({of})")
            lines += ["    Rule {", f"        message: {place},", f"        number: {number},", f"        content: {content},", "    },"]
        lines += ["];"]
        for whole in self.schema.recursive():
            name = names.types[whole]
            lines += ["", f"/// Stands for `{name}` where it is in another message, and kept as its bytes.", f"pub struct {name}Rules {{}}"]
            lines += ["", f"impl Recursive for {name}Rules {{", f"    ghost use Rattle.{crate}.specs.Messages.{{all_rules}};", ""]
            lines += ["    ghost rules = { all_rules };", "", f"    ghost message = {{ {self.of(whole)} }};", ""]
            lines += ["    fn rules() -> &'static [Rule] {", "        RULES", "    }", "", "    fn message() -> u32 {", f"        {self.of(whole)}", "    }", "}"]
            low = snake(name)
            lines += ["", f"impl Enclosable for {name} {{", f"    ghost use Rattle.{crate}.specs.Messages.{{all_rules, {low}, {low}_wants}};"]
            lines += ["    ghost use Rattle.ttrpc_members.proofs.Proved.{reads_deep, reads_within};", "", f"    type Rules = {name}Rules;", ""]
            lines += [f"    ghost reads = {{ reads_within {low} all_rules {self.of(whole)} {low}_wants }};", ""]
            lines += [f"    ghost deep = {{ reads_deep {low} all_rules {self.of(whole)} {low}_wants }};", "}"]
        return lines

    # -- the definitions

    def definitions(self):
        lines = ["", "-- what has to hold of the bytes of messages that may contain themselves, and of all that may be in them, by the place of a message's first rule:"]
        lines += ["-- " + ", ".join(f"{place} `{name}`" for name, place in self.places.items()), "abbrev pub all_rules : List Rule", "all_rules ="]
        for place, number, (kind, of) in self.rules():
            content = f"content.{kind}" + ("" if of is None else f" wire.{of}" if kind == "Numbers" else f" {of}")
            lines += [f"    record {{ message = {place}; number = {number}; content = {content} }} ∷"]
        return lines + ["    []"]

    def imports(self):
        rules = self.rules()
        lines = ["use Rattle.ttrpc_wire.specs.declared.field.WireType.TheVariants as wire"] if any(kind == "Numbers" for _, _, (kind, _) in rules) else []
        lines += ["use Rattle.ttrpc_members.specs.declared.nesting.Content.TheVariants as content"] if rules else []
        return lines + ["use Rattle.ttrpc_members.specs.declared.nesting.Rule.{Rule}"]


class Choice:
    """Members of which at most one is set: an enum, with a variant for each."""

    is_choice = True

    def __init__(self, name, path, doc, members):
        self.name, self.path, self.doc, self.members = name, path, doc, members
        self.type, self.copies, self.of = f"Option<{self.path}>", False, set()
        self.low = snake(self.path)
        self.numbers = sorted(kind.member.number for kind in members)
        self.items = set().union(*(kind.items for kind in members))
        self.parts = {kind.part for kind in members} - {None}
        self.words = set().union(*({kind.word.strip("()").split()[0]} for kind in members)) | {"OneOf", "no_choice", "one_of", "◌or◌is◌", "◌&one◌"}

    def constants(self):
        return [(kind.constant, kind.member.number) for kind in self.members]

    def empty(self):
        return [f"            {self.name}: None,"]

    def arm(self):
        return arm(" | ".join(str(number) for number in self.numbers), f"{self.path}::put", [f"&mut self.{self.name}", "alloc", "field"])

    def numbered(self):
        return [f"&self.{self.name}"]

    def defined(self):
        return f" &one {self.low}"

    def told(self):
        return "one of " + ", ".join(kind.told() for kind in self.members)

    def wanted(self, places, names, whole):
        found = "tt"
        for kind in self.members:
            found = f"({found}, {kind.wanted_item(places, names)})"
        return found

    # -- the code

    def declared(self):
        lines = [""] + comments("", "///", self.doc, f"One of {', '.join(kind.member.name for kind in self.members)}.")
        lines += ["#[derive(Drop)]", f"pub enum {self.path} {{"]
        for kind in self.members:
            lines += comments("    ", "///", kind.doc, f"Field {kind.member.number}.")
            lines += [f"    {kind.variant}({kind.value}),"]
        return lines + ["}"]

    def code(self, crate):
        lines = ["", f"impl {self.path} {{", "    ghost use Rattle.ttrpc_wire.specs.Fold.{Gives};", "    ghost use Rattle.ttrpc_wire.specs.Seen.{seen_value};"]
        lines += [f"    ghost use Rattle.{crate}.specs.Messages.{{{self.low}}};"]
        for kind in self.members:
            lines += self.taken(kind)
        lines += ["}", "", f"impl Choice for {self.path} {{", f"    ghost use Rattle.{crate}.specs.Messages.{{{self.low}}};", ""]
        lines += [f"    ghost part = {{ {self.low}.part }};", ""]
        lines += signature("    ", "fn put", [f"choice: &mut Option<{self.path}>", "alloc: Global", "field: Field<'_>"], "Result<(), CodecError> {")
        lines += ["        match field.number.value {"]
        for kind in self.members:
            lines += arm(kind.member.number, f"{self.path}::take_{snake(kind.variant)}", ["choice", "alloc", "field.value"])
        lines += ["            _ => Ok(()),", "        }", "    }", ""]
        lines += [f"    fn length(choice: &Option<{self.path}>) -> u64 {{"]
        lines += self.matched("0", "", lambda kind: [f"item_len::<{kind.item}>", ["item", kind.constant], ""])
        lines += signature("    ", "fn write", [f"choice: &Option<{self.path}>", "out: &mut Vec<u8>"], "Result<(), CodecError> {")
        lines += self.matched("Ok(())", "", lambda kind: [f"put_item::<{kind.item}>", ["item", kind.constant, "out"], ""])
        lines += signature("    ", "fn try_clone", [f"choice: &Option<{self.path}>"], f"Result<Option<{self.path}>, AllocError> {{")
        lines += ["        Ok(match choice {", "            None => None,"]
        for kind in self.members:
            head = f"            Some({self.path}::{kind.variant}(item)) =>"
            value = f"Some({self.path}::{kind.variant}({kind.item.replace('<', '::<', 1)}::try_clone(item)?))"
            if len(f"{head} {value},") <= WIDTH:
                lines += [f"{head} {value},"]
            elif len(f"                {value}") <= WIDTH:
                lines += [f"{head} {{", f"                {value}", "            }"]
            else:
                lines += [f"{head} Some({self.path}::{kind.variant}(", f"                {kind.item.replace('<', '::<', 1)}::try_clone(item)?,", "            )),"]
        lines += ["        })", "    }", ""]
        lines += [f"    fn lemma_is_value(choice: &Option<{self.path}>) {{"]
        lines += self.matched("{}", "", lambda kind: [f"{kind.item.replace('<', '::<', 1)}::lemma_is_value", ["item"], ""])
        return lines[:-1] + ["}"]

    def matched(self, absent, tail, one):
        lines = ["        match choice {", f"            None => {absent},".replace("{},", "{}")]
        for kind in self.members:
            head, arguments, _ = one(kind)
            lines += arm(f"Some({self.path}::{kind.variant}(item))", head, arguments)
        return lines + ["        }", "    }", ""]

    def taken(self, kind):
        variant, item = kind.variant, kind.item.replace("<", "::<", 1)
        lines = ["", f"    /// Takes the value of a field of number {kind.member.number} in.", "    #[tactic(auto, unfolding(ttrpc_members::specs::Choices::choice_take))]"]
        lines += [f"    fn take_{snake(variant)}(", f"        choice: &mut Option<{self.path}>,", "        alloc: Global,", "        value: Value<'_>,"]
        lines += ["    ) -> Result<(), CodecError>"]
        lines += [f"        ensures {{ Gives (λ _. choice.new) result ({self.low}.part.step choice.old (record {{ number = {kind.member.number}; value = seen_value value.entry }})) }}"]
        lines += ["    {", f"        if let Some({self.path}::{variant}(item)) = choice {{", f"            {item}::read(item, alloc, value)?;", "            return Ok(());", "        }"]
        lines += [f"        let mut item = {item}::first(alloc);", f"        if {item}::read(&mut item, alloc, value)? {{"]
        return lines + [f"            *choice = Some({self.path}::{variant}(item));", "        }", "        Ok(())", "    }"]

    # -- the definitions

    def definitions(self):
        count = len(self.members)
        sum_type = "⊥"
        for place, kind in enumerate(self.members):
            sum_type = f"({sum_type}) ⊎ {kind.denoted}" if place > 1 else f"({sum_type} ⊎ {kind.denoted})" if count > 1 and place == 0 else f"{sum_type} ⊎ {kind.denoted}"
        variants = f"{self.low}_variants"

        def place_of(place):
            inner = "inr x"
            for _ in range(count - 1 - place):
                inner = f"inl ({inner})"
            return inner

        lines = ["", f"-- what is set of `{self.path}`, as one of several", f"abbrev pub {self.low}_split : {self.path} → {sum_type}"]
        lines += [f"{self.low}_split ({variants}.{kind.variant} x) = {place_of(place)}" for place, kind in enumerate(self.members)]
        impossible = "x"
        for _ in range(count):
            impossible = f"inl ({impossible})" if impossible != "x" else "inl x"
        lines += ["", "-- the other way round", f"abbrev pub {self.low}_join : {sum_type} → {self.path}", f"{self.low}_join ({impossible}) = absurd x"]
        lines += [f"{self.low}_join ({place_of(place)}) = {variants}.{kind.variant} x" for place, kind in enumerate(self.members)]
        lines += ["", "-- both ways give it back", f"pub {self.low}_joined : (x : {self.path}) → {self.low}_join ({self.low}_split x) ≡ x"]
        lines += [f"{self.low}_joined ({variants}.{kind.variant} x) = refl" for kind in self.members]
        listed = "".join(f" or {kind.member.number} is {kind.word}" for kind in self.members)
        lines += ["", f"-- `{self.path}`: {self.told()}", f"abbrev pub {self.low} : OneOf {self.path}"]
        return lines + [f"{self.low} = one_of (no_choice{listed}) {self.low}_split {self.low}_join {self.low}_joined"]
