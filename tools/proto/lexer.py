"""The tokens of a `.proto` file, each with the comment that belongs to it."""
import dataclasses
import re


class Refused(Exception):
    """What the tool can't do, and where that stands."""

    def __init__(self, file, line, reason):
        super().__init__(f"{file}:{line}: {reason}")
        self.file, self.line, self.reason = file, line, reason


TOKEN = re.compile(
    r"(?P<space>[ \t\r\v\f]+)|(?P<newline>\n)|//(?P<line>[^\n]*)|/\*(?P<block>.*?)\*/"
    r"|(?P<text>\"(?:\\[^\n]|[^\"\\\n])*\"|'(?:\\[^\n]|[^'\\\n])*')"
    r"|(?P<number>(?:\d+\.?\d*|\.\d+)(?:[eE][-+]?\d+)?\w*)|(?P<word>[A-Za-z_]\w*)|(?P<sign>[!#-&(-/:-@\[-^`{-~])",
    re.S | re.A,
)
INTEGER = re.compile(r"0[xX][0-9a-fA-F]+|0[0-7]*|[1-9][0-9]*")
NUMBER = re.compile(r"(\d+\.?\d*|\.\d+)([eE][-+]?\d+)?[fF]?")
ESCAPES = {"a": "\a", "b": "\b", "f": "\f", "n": "\n", "r": "\r", "t": "\t", "v": "\v"}
ESCAPE = re.compile(r"\\(?:[xX]([0-9a-fA-F]{1,2})|([0-7]{1,3})|u([0-9a-fA-F]{4})|U([0-9a-fA-F]{8})|(.))", re.S)


def integer_of(text):
    """The value of a whole number without a sign, or None."""
    if not INTEGER.fullmatch(text):
        return None
    return int(text, 16 if text[1:2] in ("x", "X") else 8 if text.startswith("0") else 10)


def text_of(quoted):
    """The text between the quotation marks, with its escapes resolved."""

    def one(found):
        for part, base in zip(found.groups(), (16, 8, 16, 16)):
            if part is not None:
                return chr(int(part, base))
        return ESCAPES.get(found.group(5), found.group(5))

    return ESCAPE.sub(one, quoted[1:-1])


@dataclasses.dataclass
class Token:
    kind: str
    text: str
    line: int
    comment: list


def source_of(path, shown):
    """The text of a file, without a byte order mark."""
    with open(path, "rb") as file:
        raw = file.read()
    try:
        return raw.decode("utf-8").removeprefix("\ufeff")
    except UnicodeDecodeError as error:
        raise Refused(shown, raw.count(b"\n", 0, error.start) + 1, "the file is not UTF-8") from error


class Lexer:
    """Reads the tokens of a file in order."""

    def __init__(self, file, source):
        self.file, self.at, self.tokens = file, 0, []
        line, at, comment, blank = 1, 0, [], 0
        while at < len(source):
            found = TOKEN.match(source, at)
            if not found:
                what = "a text that doesn't end on its line" if source[at] in "'\"" else f"a character that no word begins with: {source[at]!r}"
                raise Refused(file, line, what)
            at = found.end()
            kind, text = found.lastgroup, found.group()
            if kind == "newline":
                blank += 1
                if blank > 1:
                    comment = []
            elif kind in ("line", "block"):
                body = found.group(kind)
                lines = [re.sub(r"^\s*\* ?", "", part) if kind == "block" else part for part in body.split("\n")]
                lines = [" ".join(re.split(r"[\r\v\f]", part)).strip() for part in lines]
                if self.tokens and blank == 0 and kind == "line" and self.tokens[-1].line == line:
                    self.tokens[-1].comment.append(lines[0])
                else:
                    comment = comment + lines
                blank = 0
            elif kind != "space":
                if source.startswith("/*", at - 1) and text == "/":
                    raise Refused(file, line, "a comment that is not closed")
                if kind == "number" and not (INTEGER.fullmatch(text) or NUMBER.fullmatch(text)):
                    raise Refused(file, line, f"{text!r} is no number")
                self.tokens.append(Token(kind, text, line, comment))
                comment, blank = [], 0
            line += text.count("\n")
        self.end = line

    def refuse(self, reason, line=None):
        raise Refused(self.file, self.line() if line is None else line, reason)

    def line(self):
        return self.tokens[self.at].line if self.at < len(self.tokens) else self.end

    def peek(self, ahead=0):
        """The text of the next token, or of one behind it; nothing at the end."""
        return self.tokens[self.at + ahead].text if self.at + ahead < len(self.tokens) else ""

    def take(self, wanted=None):
        if self.at == len(self.tokens):
            self.refuse(f"the file ends, where {wanted or 'more'} is wanted")
        token = self.tokens[self.at]
        if wanted is not None and token.text != wanted:
            self.refuse(f"{token.text!r} stands where {wanted!r} is wanted")
        self.at += 1
        return token

    def has(self, text):
        """Takes the next token if it is this one."""
        if self.peek() != text:
            return False
        self.at += 1
        return True

    def word(self, what):
        """Takes a name without dots."""
        token = self.take()
        if token.kind != "word":
            self.refuse(f"{token.text!r} stands where {what} is wanted", token.line)
        return token

    def name(self, what, may_begin_with_dot=True):
        """Takes a name that may have dots."""
        first = self.tokens[self.at] if self.at < len(self.tokens) else None
        text = "." if may_begin_with_dot and self.has(".") else ""
        text += self.word(what).text
        while self.has("."):
            text += "." + self.word(what).text
        return Token("word", text, first.line, first.comment)

    def text(self, what):
        """Takes a text, which may stand in several pieces."""
        token = self.take()
        if token.kind != "text":
            self.refuse(f"{token.text!r} stands where {what} is wanted", token.line)
        whole = text_of(token.text)
        while self.at < len(self.tokens) and self.tokens[self.at].kind == "text":
            whole += text_of(self.take().text)
        return Token("text", whole, token.line, token.comment)

    def number(self, what):
        """Takes a whole number."""
        sign = -1 if self.has("-") else 1
        token = self.take()
        value = integer_of(token.text)
        if value is None:
            self.refuse(f"{token.text!r} stands where {what} is wanted", token.line)
        return sign * value
