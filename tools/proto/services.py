"""The services of a file: for ends with threads, and for polled ends."""
from .layout import WIDTH, array, arm, call, choice_of, clause_of, comments, paths_of, signature, sorted_uses, type_lines, use_lines
from .names import snake


class Polled:
    """An rpc of a service whose ends are polled."""

    def __init__(self, one, method, variant, asked, answered):
        self.one, self.method, self.variant, self.asked, self.answered = one, method, variant, asked, answered
        self.name, self.doc = one.name, one.doc
        self.kind = {(False, False): "call", (False, True): "server", (True, False): "client", (True, True): "duplex"}[one.asks_many, one.answers_many]
        # what the method gives, and how that is told
        self.given = "()" if one.answers_many else answered
        self.telling = "Closes" if one.answers_many else f"{'EndsBy' if one.asks_many else 'Responds'}<{answered}>"

    def is_stream(self):
        return self.kind != "call"

    def names(self):
        """The names of the library that it needs."""
        return {"Handling", self.telling.partition("<")[0]} | {
            "call": {"ClientCall", "async_client_request", "async_request_handler"},
            "server": {"ClientOpening", "ClientStreamReceiver", "ServerStreamOpening", "async_client_stream_receive", "async_server_streamimg_handler"},
            "client": {"ClientLine", "ClientOpening", "ClientStreamSender", "ServerStreamReceiver", "async_client_stream_send", "async_client_streamimg_handler"},
            "duplex": {"ClientLine", "ClientOpening", "ClientStream", "ServerStream", "async_client_stream", "async_duplex_streamimg_handler"},
        }[self.kind]

    def parameter(self):
        """What the service's method is handed beside the context."""
        return {
            "call": f"request: {self.asked}",
            "server": f"stream: ServerStreamOpening<{self.asked}, {self.answered}, ServerLine>",
            "client": f"stream: ServerStreamReceiver<{self.asked}, ServerLine>",
            "duplex": f"stream: ServerStream<{self.answered}, {self.asked}, ServerLine>",
        }[self.kind]

    def handling(self, service):
        return ("Handling", [f"<S as {service}>::{self.variant}", self.telling])

    def handler(self):
        """The macro of its handler, and what that takes."""
        return {
            "call": ("async_request_handler!", ["self", "ctx", "req", self.asked, self.method]),
            "server": ("async_server_streamimg_handler!", ["self", "ctx", "inner", self.asked, self.method]),
            "client": ("async_client_streamimg_handler!", ["self", "ctx", "inner", self.method]),
            "duplex": ("async_duplex_streamimg_handler!", ["self", "ctx", "inner", self.method]),
        }[self.kind]

    def clause(self):
        """Where the method's future may be polled."""
        return f"AtCanPoll S.{self.variant}.can_poll"

    def client(self, service):
        """The call of the client."""
        has_request, path = not self.one.asks_many, [f'"{service}"', f'"{self.name}"']
        answer = {
            "call": f"Calling<{self.answered}>",
            "server": f"Opening<Filled<{self.answered}, R>, R>",
            "client": f"Opening<ClientStreamSender<{self.asked}, {self.answered}, Line>, R>",
            "duplex": f"Opening<ClientStream<{self.asked}, {self.answered}, Line>, R>",
        }[self.kind]
        macro = {"call": "request", "server": "stream_receive", "client": "stream_send", "duplex": "stream"}[self.kind]
        lines = [f"    /// {'Opens' if self.is_stream() else 'Calls'} `{self.name}`."]
        parameters = ["&self", "ctx: Context"] + ([f"request: &{self.asked}"] if has_request else [])
        lines += signature("    ", f"pub fn {self.method}", parameters, f"{answer} {{")
        lines += [] if self.is_stream() else [f"        let reply = {self.answered}::new(self.client.alloc());"]
        arguments = ["self", "ctx"] + (["request"] if has_request else []) + path + ([] if self.is_stream() else ["reply"])
        return lines + call("        ", f"async_client_{macro}!", arguments, "") + ["    }"]


class Services:
    """The files of the services of a schema, over messages in the same crate or in one of their own."""

    def __init__(self, schema, names, source, head, messages_crate):
        # no crate of the messages where they are in the same one
        self.schema, self.names, self.source, self.head, self.messages_crate = schema, names, source, head, messages_crate

    def message_uses(self, used):
        """The lines that name the messages of the calls."""
        own = [self.names.types[whole] for whole in used if whole not in self.schema.homes]
        return use_lines(f"{self.messages_crate or 'crate'}::messages", own) + foreign_uses(self.schema, self.names, used)

    def services(self):
        body, used = [], set()
        for service in self.schema.services:
            if any(not one.is_stream() for one in service.calls):
                body += self.service(service, used)
        lines = [f"//! The services of {self.source}: for each a trait, the handlers of its methods, and a client.", f"//! {self.head}", ""]
        lines += self.message_uses(used)
        lines += ["use std::alloc::Global;", "use std::collections::BTreeMap;", "use std::sync::Arc;", "use ttrpc::context::Context;", "use ttrpc::proto::WireMessage;"]
        lines += ["use ttrpc::security_extension::Plain;", "use ttrpc::sync::Host;"]
        lines += use_lines("ttrpc", {"Client", "MethodHandler", "Request", "Result", "TtrpcContext", "client_request", "request_handler"})
        lines = sorted_uses(lines)
        return "\n".join(lines + body) + "\n"

    def call_types(self, one, used):
        used |= {one.asked, one.answered}
        return self.names.types[one.asked], self.names.types[one.answered]

    def paths(self, service, name, head):
        """The table of paths, in rt fmt's layout."""
        rows = [(f'"/{service.name}/{one.name}"', f"{name}Call::{self.names.calls[service.name, one.name][1]}") for one in service.calls if not one.is_stream()]
        if len(rows) == 1:
            line = f"{head}({', '.join(rows[0])})];"
            return [line] if len(line) <= WIDTH else [f"{head}("] + [f"    {part}," for part in rows[0]] + [")];"]
        lines = [head]
        for row in rows:
            line = f"    ({', '.join(row)}),"
            lines += [line] if len(", ".join(row)) <= 60 else ["    ("] + [f"        {part}," for part in row] + ["    ),"]
        return lines + ["];"]

    def service(self, service, used):
        name = self.names.services[service.name]
        low = snake(name)
        calls = [(one, *self.names.calls[service.name, one.name], *self.call_types(one, used)) for one in service.calls if not one.is_stream()]
        lines = [""] + comments("", "///", service.doc, f"The service `{service.name}`.") + [f"pub trait {name}<R: Host>: Drop {{"]
        for place, (one, method, _, asked, answered) in enumerate(calls):
            lines += [""] if place else []
            lines += comments("    ", "///", one.doc, f"Answers `{one.name}`.")
            lines += signature("    ", f"fn {method}", ["&self", "ctx: &TtrpcContext<R, Plain, Plain>", f"request: {asked}"], f"Result<{answered}>;")
        lines += ["}", "", f"/// Which method of `{service.name}` is called.", "#[derive(Clone, Copy)]", f"enum {name}Call {{"]
        lines += [f"    {variant}," for _, _, variant, *_ in calls] + ["}"]
        lines += ["", f"/// The handler of a method of `{service.name}`.", "#[derive(Drop)]", f"pub struct {name}Method<S: Drop> {{"]
        lines += ["    service: Arc<S, Global>,", f"    call: {name}Call,", "}", ""]
        lines += [f"impl<R: Host, S: {name}<R>> MethodHandler<R, Plain, Plain> for {name}Method<S> {{"]
        lines += ["    fn handler(&self, ctx: TtrpcContext<R, Plain, Plain>, req: Request) -> Result<()> {", "        match self.call {"]
        for _, method, variant, asked, _ in calls:
            lines += [f"            {name}Call::{variant} => {{"]
            lines += call("                ", "request_handler!", ["self", "ctx", "req", asked, method], ";")
            lines += ["            }"]
        lines += ["        }", "        Ok(())", "    }", "}"]
        lines += ["", f"/// The path of each method of `{service.name}`."] + self.paths(service, name, f"const {low.upper()}_PATHS: &[(&str, {name}Call)] = &[")
        lines += ["", f"/// The methods of `{service.name}`, each under its path, for `Server::register_service`."]
        answer = f"Result<BTreeMap<String, {name}Method<S>>> {{"
        lines += signature("", f"pub fn {low}_methods<S: Drop>", ["alloc: Global", "service: S"], answer)
        lines += ["    let whole = Arc::new(alloc, service)?;", "    let mut methods = BTreeMap::new(alloc);"]
        lines += [f"    for (path, call) in {low.upper()}_PATHS {{", "        let (service, call) = (Arc::try_clone(&whole)?, *call);"]
        lines += ["        let path = String::from_str(alloc, path)?;", f"        methods.insert(path, {name}Method {{ service, call }})?;"]
        lines += ["    }", "    Ok(methods)", "}"]
        lines += ["", f"/// A client of `{service.name}`.", "#[derive(Drop)]", f"pub struct {name}Client<R: Host> {{"]
        lines += ["    pub client: Client<R, Plain, Plain>,", "}", "", f"impl<R: Host> {name}Client<R> {{"]
        for place, (one, method, _, asked, answered) in enumerate(calls):
            lines += [""] if place else []
            lines += [f"    /// Calls `{one.name}`, and waits for its response."]
            lines += signature("    ", f"pub fn {method}", ["&self", "ctx: Context", f"request: &{asked}"], f"Result<{answered}> {{")
            lines += [f"        let mut reply = {answered}::new(self.client.alloc());"]
            lines += call("        ", "client_request!", ["self", "ctx", "request", f'"{service.name}"', f'"{one.name}"', "reply"], ";")
            lines += ["        Ok(reply)", "    }"]
        lines += ["", "    /// Another client of the same connection, for another thread."]
        lines += [f"    pub fn try_clone(&self) -> Result<{name}Client<R>> {{", "        let client = self.client.try_clone()?;"]
        return lines + [f"        Ok({name}Client {{ client }})", "    }", "}"]

    # -- the services whose ends are polled

    def polled(self):
        body, used, needed = [], set(), {"Client", "Service", "Timed", "TtrpcContext"}
        for service in self.schema.services:
            body += self.polled_service(service, used, needed)
        streams = any(one.is_stream() for one in self.calls())
        several = any(self.several(service) for service in self.schema.services)
        lines = [f"//! The services of {self.source} for polled ends: for each a trait, the handlers of its methods and streams, and a client."]
        lines += [f"//! {self.head}", ""]
        words = ["AtCanPoll"] + (["EitherCanPoll"] if several else [])
        lines += [f"ghost use Rattle.ttrpc_polled.specs.Streams.Handling.{{{', '.join(words)}}};", ""] if streams else []
        lines += self.message_uses(used) + ["use futures::Future;"] + (["use futures::future::Either;"] if several else [])
        lines += ["use std::alloc::Global;", "use std::collections::BTreeMap;", "use std::sync::Arc;"]
        lines += use_lines("ttrpc::asynchronous", needed) + ["use ttrpc::context::Context;"]
        lines += ["use ttrpc::proto::WireMessage;"] if "ClientCall" in needed else []
        lines += ["use ttrpc::security_extension::Plain;"]
        lines += use_lines("ttrpc", {"Result"} | ({"Request"} if "MethodHandler" in needed else set()))
        lines = sorted_uses(lines)
        if streams:
            lines += ["", "/// The connection of a server's streams.", "type ServerLine = ServerShared<Plain, Plain>;"]
        if "ClientCall" in needed:
            lines += ["", "/// A call of a client.", "type Calling<P> = ClientCall<Plain, Plain, P>;"]
        if streams:
            lines += ["", "/// A stream that a client opens.", "type Opening<K, R> = ClientOpening<K, R, Plain, Plain>;"]
        if "ClientLine" in needed:
            lines += ["", "/// The connection of a client's streams.", "type Line = ClientLine<Plain, Plain>;"]
        if "ClientStreamReceiver" in needed:
            lines += ["", "/// A stream that a server fills.", "type Filled<P, R> = ClientStreamReceiver<P, R, Plain, Plain>;"]
        return "\n".join(lines + body) + "\n"

    def several(self, service):
        """Whether a service has several methods, or several streams."""
        streams = sum(one.is_stream() for one in service.calls)
        return max(streams, len(service.calls) - streams) > 1

    def polled_service(self, service, used, needed):
        name = self.names.services[service.name]
        low = snake(name)
        calls = [Polled(one, *self.names.calls[service.name, one.name], *self.call_types(one, used)) for one in service.calls]
        methods, streams = [one for one in calls if not one.is_stream()], [one for one in calls if one.is_stream()]
        for one in calls:
            needed |= one.names()
        lines = [""] + comments("", "///", service.doc, f"The service `{service.name}`.") + [f"pub trait {name}: Drop {{"]
        for place, one in enumerate(calls):
            lines += ([""] if place else []) + [f"    /// A call of `{one.name}`.", f"    type {one.variant}: Future<Output = Result<{one.given}>>;"]
        for one in calls:
            lines += [""] + comments("    ", "///", one.doc, f"Answers `{one.name}`.")
            lines += signature("    ", f"fn {one.method}", ["&self", "ctx: &TtrpcContext", one.parameter()], f"Self::{one.variant}")
            lines += [f"        ensures {{ Self.{one.variant}.can_poll result }};"]
        lines += ["}"]
        if methods:
            needed.add("MethodHandler")
            lines += self.polled_handler(service, name, methods, ("method", "Method", "Call", "Answer"), "MethodHandler", "req: Request", "Which method of `{}` is called.", "A request of `{}` that is handled.")
        else:
            needed.add("NoMethods")
        if streams:
            needed |= {"StreamHandler", "StreamInner", "ServerShared"}
            lines += self.polled_handler(service, name, streams, ("stream", "Stream", "Opened", "Talk"), "StreamHandler<ServerLine>", "inner: StreamInner<ServerLine>", "Which stream of `{}` is opened.", "A stream of `{}` that is handled.")
        else:
            needed.add("NoStreams")
        return lines + self.registered(service, name, low, methods, streams) + self.polled_client(service, name, calls)

    def polled_handler(self, service, name, calls, words, trait, given, which, handled):
        """The handler of the methods, or of the streams."""
        word, kind, choice, made = words
        lines = ["", f"/// {which.format(service.name)}", "#[derive(Clone, Copy)]", f"enum {name}{choice} {{"]
        lines += [f"    {one.variant}," for one in calls] + ["}", "", f"/// The handler of a {word} of `{service.name}`.", "#[derive(Drop)]"]
        lines += [f"pub struct {name}{kind}<S: Drop> {{", "    service: Arc<S, Global>,", f"    call: {name}{choice},", "}"]
        lines += ["", f"/// {handled.format(service.name)}"]
        lines += type_lines("", f"pub type {name}{made}<S> = ", choice_of([one.handling(name) for one in calls]), ";")
        lines += ["", f"impl<S: {name}> {trait} for {name}{kind}<S> {{", f"    type Call = {name}{made}<S>;", ""]
        tail = "" if calls[0].is_stream() else " {"
        lines += signature("    ", "fn handler", ["&self", "ctx: TtrpcContext", given], f"{name}{made}<S>{tail}")
        lines += [f"        ensures {{ {clause_of(calls)} }}", "    {"] if calls[0].is_stream() else []
        lines += ["        match self.call {"]
        for one, path in zip(calls, paths_of(len(calls))):
            if not path:
                lines += arm(f"{name}{choice}::{one.variant}", *one.handler())
                continue
            head, arguments = one.handler()
            lines += [f"            {name}{choice}::{one.variant} => {{"] + call("                ", f"let call = {head}", arguments, ";")
            lines += ["                " + "".join(f"Either::{side}(" for side in path) + "call" + ")" * len(path), "            }"]
        return lines + ["        }", "    }", "}"]

    def registered(self, service, name, low, methods, streams):
        """The names of the methods and streams, and the function that gives the service."""
        lines, kinds = [], []
        for calls, word, kind, choice, none in ((methods, "method", "Method", "Call", "NoMethods"), (streams, "stream", "Stream", "Opened", "NoStreams")):
            kinds.append(f"{name}{kind}<S>" if calls else none)
            if calls:
                rows = [f'("{one.name}", {name}{choice}::{one.variant})' for one in calls]
                lines += ["", f"/// The name of each {word} of `{service.name}`."]
                lines += array(f"const {low.upper()}_{word.upper()}S: &[(&str, {name}{choice})] = &", rows)
        lines += ["", f"/// The methods and streams of `{service.name}`, for `Server::register_service`."]
        answer = f"Result<BTreeMap<String, Service<{', '.join(kinds)}>>> {{"
        lines += signature("", f"pub fn {low}_service<S: Drop>", ["alloc: Global", "service: S"], answer)
        lines += ["    let whole = Arc::new(alloc, service)?;", "    let mut named = Service::new(alloc);"]
        for calls, word, kind in ((methods, "method", "Method"), (streams, "stream", "Stream")):
            if calls:
                lines += [f"    for (name, call) in {low.upper()}_{word.upper()}S {{", "        let (service, call) = (Arc::try_clone(&whole)?, *call);"]
                lines += ["        let name = String::from_str(alloc, name)?;", f"        let {word} = {name}{kind} {{ service, call }};"]
                lines += [f"        named.{word}s.insert(name, {word})?;", "    }"]
        lines += ["    let mut services = BTreeMap::new(alloc);"]
        lines += call("    ", "services.insert", [f'String::from_str(alloc, "{service.name}")?', "named"], "?;")
        return lines + ["    Ok(services)", "}"]

    def polled_client(self, service, name, calls):
        lines = ["", f"/// A client of `{service.name}`.", "#[derive(Drop)]", f"pub struct {name}Client<R: Timed> {{"]
        lines += ["    pub client: Client<R, Plain, Plain>,", "}", "", f"impl<R: Timed> {name}Client<R> {{"]
        for one in calls:
            lines += one.client(service.name) + [""]
        lines += ["    /// Another client of the same connection.", f"    pub fn try_clone(&self) -> Result<{name}Client<R>> {{"]
        return lines + ["        let client = self.client.try_clone()?;", f"        Ok({name}Client {{ client }})", "    }", "}"]

    def calls(self):
        return [one for service in self.schema.services for one in service.calls]

    def called(self):
        """The messages that calls have."""
        return {whole for one in self.calls() for whole in (one.asked, one.answered)}


def foreign_uses(schema, names, used):
    """The lines that name messages of other crates, where one's name is taken under another."""
    found = {}
    for whole in used:
        if whole in schema.homes:
            home = schema.homes[whole]
            found.setdefault(home.crate, []).append(renamed(home.names.types[whole], names.types[whole]))
    return [line for crate, items in sorted(found.items()) for line in use_lines(f"{crate}::messages", items)]


def renamed(theirs, mine):
    return theirs if theirs == mine else f"{theirs} as {mine}"
