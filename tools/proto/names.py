"""Gives each thing that is written its name, from one table for the whole output.

A name is taken where a word of the language or of the kit has it, or what was named before: messages and enums, imported ones
first, then oneofs, services, numbers of enums and of members, and within a message or a service its members and rpcs. Then what is
named gets behind its name what it is (`Message`, `Enum`, `Choice`, `Service`; else `_`), and where that is taken, too, a number."""
import itertools
import re

# Words of definitions, which a member may have all the same.
DEFINITION_WORDS = set(
    "data record deriving module where use mod pub package open as unfoldable abbrev axiom unfold unfolding ruleset mutual infix infixl "
    "infixr elim let in do Type coe fcoe tcoe hcom com".split()
)
# Words that no definition may have: one that no member can be named by, and the tactics that choose a term.
TACTICS = set("search grind assumption ground simp omega cc rw grw hlevel".split())
NEVER = {"deriving", "search", "grind", "assumption", "ground"}
RUST_WORDS = set(
    "as break const continue crate dyn else enum extern false fn for if impl in let loop match mod move mut pub ref return self static "
    "struct super trait true type unsafe use where while async await abstract become box do final macro override priv typeof unsized "
    "virtual yield try gen ghost requires ensures result".split()
)
# What methods of a shared value, or of a client, are called.
METHODS = set(
    "try_clone clone drop client alloc deref as_ref as_mut borrow into try_into from eq ne cmp partial_cmp lt le gt ge max min clamp fmt "
    "hash to_string to_owned".split()
)
# Names of the libraries that the written files use, and of those files' own, with the type parameters.
KIT_TYPES = set(
    "k p r s text blob sequence numbers field field_number codec_error try_clone wire_message alloc_error global value option some none result ok "
    "err vec string box arc b_tree_map client method_handler request ttrpc_context context plain host member_kind single optional repeated "
    "packed map nested utf8 bytes boolean message bits32 bits64 signed32 signed64 drop copy clone unit type set maps future either service "
    "named handling responds ends_by closes timed calling opening filled line server_line client_call client_line client_opening client_stream "
    "client_stream_receiver client_stream_sender server_shared server_stream server_stream_opening server_stream_receiver stream_handler "
    "stream_inner no_methods no_streams choice item_kind map_of self list bool refl tt absurd inl inr one_of no_choice text_key boolean_key "
    "natural_key signed_key int32 int64 uint32 uint64 sint32 sint64 fixed32 fixed64 sfixed32 sfixed64 float double".split()
)
# Likewise, where a message may contain itself.
KIT_TYPES_OF_RULES = set("all_rules content enclosable enclosed enclosing recursive rule wire wire_type".split())
SERVICE_TYPES = ("Call", "Method", "Client", "Opened", "Stream", "Answer", "Talk")


def snake(name):
    """`GetState` as `get_state`."""
    name = re.sub(r"([A-Z]+)([A-Z][a-z])", r"\1_\2", name)
    return re.sub(r"([a-z0-9])([A-Z])", r"\1_\2", name).lower()


def named(text, word):
    """A name, with a word before it where it begins with no letter."""
    return text if text[:1].isalpha() else f"{word}{text}"


def type_name(parts, word):
    """The name of a type by the names of what it stands in and its own."""
    return named("".join(piece[:1].upper() + piece[1:] for part in parts for piece in part.split("_")), word)


def member_name(name, word="member"):
    text = snake(name).strip("_")
    return text if text[:1].isalpha() else f"{word}_{text}".rstrip("_")


def escaped(name):
    """A member's name in a definition."""
    return f"«{name}»" if name in DEFINITION_WORDS else name


def keys(name):
    """What a name may share with no other of its scope: its form in small letters, and its letters, whatever their case."""
    return {snake(name), name.lower()}


class Names:
    """The names of all that is written for a schema, and which of them had to change."""

    def __init__(self, schema):
        self.schema, self.taken, self.changed = schema, {}, []
        self.types, self.members, self.choices, self.variants = {}, {}, {}, {}
        self.constants, self.values, self.services, self.calls = {}, {}, {}, {}
        self.recursive = set(schema.recursive())
        for word in KIT_TYPES | DEFINITION_WORDS | TACTICS | (KIT_TYPES_OF_RULES if self.recursive else set()):
            self.take("types", [word, word.replace("_", "")], "a word of the kit")
        for whole, home in schema.homes.items():
            self.name_foreign(schema.messages[whole], home.names)
        messages = [schema.messages[whole] for whole in schema.own(schema.messages)]
        enums = [schema.enums[whole] for whole in schema.own(schema.enums)]
        for message in messages:
            self.name_type(message, "message")
        for enum in enums:
            self.name_type(enum, "enum")
        for message in messages:
            for choice in message.choices:
                self.name_choice(message, choice)
        for service in schema.services:
            self.name_service(service)
        for enum in enums:
            self.name_values(enum)
        for message in messages:
            self.name_members(message)

    # -- the table

    def take(self, scope, names, owner):
        for name in names:
            for key in keys(name):
                self.taken.setdefault((scope, key), owner)

    def owner_of(self, scope, name):
        """What has a name already, or None."""
        return next((self.taken[scope, key] for key in sorted(keys(name)) if (scope, key) in self.taken), None)

    def claim(self, scope, wanted, suffix, owner, at, beside=lambda name: []):
        """The first of a name, that with a suffix, and that with a number, that is free, with all that is named after it."""
        file, line = at
        for name in itertools.chain([wanted, wanted + suffix], (f"{wanted}{suffix}{count}" for count in itertools.count(2))):
            clash = next((one for one in [name] + beside(name) if self.owner_of(scope, one)), None)
            if clash is None:
                break
            first = clash if name == wanted else first
        if name != wanted:
            self.changed.append((file.shown, line, f"{owner} is named {name}, since {first} is {self.owner_of(scope, first)}"))
        self.take(scope, [name] + beside(name), owner)
        return name

    # -- what stands in a file of Rust

    def name_type(self, item, kind):
        def rules(name):
            return [f"{name}Rules", f"{snake(name)}_wants"] if item.name in self.recursive else []

        word = kind.capitalize()
        wanted = type_name(item.file.within_package(item.name).split("."), word)
        self.types[item.name] = self.claim("types", wanted, word, f"the {kind} {item.name}", (item.file, item.line), rules)

    def name_foreign(self, message, names):
        """Names a message of another crate, as that names it if this name is free, and takes over what is in it."""
        owner, at = f"the message {message.name}", (message.file, message.line)
        self.types[message.name] = self.claim("types", names.types[message.name], "Message", owner, at)
        for mine, other in ((self.members, names.members), (self.constants, names.constants), (self.choices, names.choices), (self.variants, names.variants)):
            mine |= {key: name for key, name in other.items() if key[0] == message.name}

    def name_choice(self, message, choice):
        def definitions(name):
            return [f"{snake(name)}_{part}" for part in ("split", "join", "joined", "variants")]

        wanted = self.types[message.name] + type_name([snake(choice)], "Choice")
        owner, at = f"the oneof {message.name}.{choice}", (message.file, message.choices[choice][0])
        self.choices[message.name, choice] = self.claim("types", wanted, "Choice", owner, at, definitions)

    def name_service(self, service):
        wanted = type_name([service.name.rpartition(".")[2]], "Service")
        owner, at = f"the service {service.name}", (service.file, service.line)
        name = self.claim("types", wanted, "Service", owner, at, lambda name: [name + part for part in SERVICE_TYPES])
        self.services[service.name] = name
        scope = f"service {service.name}"
        self.take(scope, RUST_WORDS, "a word of the language")
        self.take(scope, METHODS, "a method that clients or shared values have")
        self.take(f"{scope} variants", ["Self"], "a word of the language")
        for call in service.calls:
            owner, at, bare = f"the rpc {service.name}.{call.name}", (service.file, call.line), call.name.strip("_")
            method = self.claim(scope, member_name(call.name, "call"), "_", owner, at)
            variant = self.claim(f"{scope} variants", named(bare[:1].upper() + bare[1:], "Call"), "_", owner, at)
            self.calls[service.name, call.name] = method, variant

    def name_values(self, enum):
        base, own = snake(self.types[enum.name]).upper(), snake(enum.name.split(".")[-1]).upper()
        for value in enum.values:
            wanted = f"{base}_{snake(value.name).upper().removeprefix(own + '_')}"
            owner = f"the number of {enum.name}.{value.name}"
            self.values[enum.name, value.name] = self.claim("constants", wanted, "_", owner, (enum.file, value.line))

    # -- what stands in a message

    def name_members(self, message):
        scope, base = f"message {message.name}", snake(self.types[message.name]).upper()
        self.take(scope, RUST_WORDS | NEVER, "a word of the language")
        for member in message.members:
            owner, at, key = f"the member {message.name}.{member.name}", (message.file, member.line), (message.name, member.name)
            name = member_name(member.name)
            if member.choice:
                self.name_variant(message, member, name, owner)
            else:
                name = self.claim(scope, name, "_", owner, at)
            self.members[key] = name
            wanted = f"{base}_{name.upper().strip('_')}"
            self.constants[key] = self.claim("constants", wanted, "_", f"the number of {message.name}.{member.name}", at)
        for choice, (line, _) in message.choices.items():
            owner = f"the oneof {message.name}.{choice}"
            self.members[message.name, choice] = self.claim(scope, member_name(choice), "_", owner, (message.file, line))

    def name_variant(self, message, member, name, owner):
        """Names a member of a oneof, which is a variant of an enum."""
        scope = f"oneof {message.name}.{member.choice}"
        self.take(scope, ["self"], "a word of the language")
        variant = self.claim(scope, type_name([name], "Member"), "_", owner, (message.file, member.line))
        self.variants[message.name, member.name] = variant
