"""Images of code: the words by which cases tell them, and the bytes that they stand for. tests/cases/README.md says what each
word puts, under "Images", and how the code of a program is told, under "Code of programs".
"""
import re


class NoImage(ValueError):
    """Why words put no bytes, or bytes are no image's."""


INSTRUCTIONS = (
    b"unit int bool text copy load store op jump unless test endtest change new call self share disown ret retv revert".split()
)
OPERATORS = b"+ - * / % == != < <= > >= && || ! neg".split()
MODES = (b"Owned", b"Shared", b"Unowned")
TYPES = (b"Int", b"Bool", b"Text", b"Reference")
# The words that put one byte: its place among those of its kind.
BYTES = {word: at for words in (INSTRUCTIONS, OPERATORS, MODES, TYPES, (b"none", b"returns"), (b"false", b"true")) for at, word in enumerate(words)}
# What stands before a number, and in how many bytes it is put; one of eight has a sign.
MARKS = {
    b"s": 1, b"f": 1, b"state": 1, b"flags": 1, b"slots": 1,
    b"c": 4, b"t": 4, b"@": 4, b"line": 4, b"implements": 4, b"count": 4,
    b"i": 8, b"bits": 8,
}
# What stands behind the word of each instruction.
OPERANDS = {
    b"int": "slot value", b"bool": "slot truth", b"text": "slot text", b"copy": "slot slot", b"load": "slot field",
    b"store": "field slot", b"op": "slot operator slot slot line", b"jump": "target", b"unless": "slot target",
    b"test": "slot contract state target", b"change": "state given", b"new": "slot contract arguments",
    b"call": "slot slot contract transaction arguments", b"self": "slot transaction arguments",
    b"share": "slot", b"disown": "slot", b"retv": "slot", b"revert": "slot",
}


# ---- from words to bytes

def number_of(word):
    """The bytes of a mark and a number."""
    found = re.fullmatch(rb"([a-z]+|@)(-?\d+)", word)
    size = MARKS.get(found[1]) if found else None
    if size is None:
        raise NoImage(f"no word of an image: {word.decode(errors='replace')}")
    try:
        return int(found[2]).to_bytes(size, "big", signed=size == 8)
    except OverflowError as error:
        raise NoImage(f"too great a number: {word.decode()}") from error


def bytes_of_word(word):
    if word in BYTES:
        return bytes([BYTES[word]])
    if word == b"OBI1":
        return word
    if word.startswith(b"0x"):
        return bytes.fromhex(word[2:].decode())
    if len(word) > 1 and word.startswith(b'"') and word.endswith(b'"'):
        return (len(word) - 2).to_bytes(4, "big") + word[1:-1]
    return number_of(word)


class Words:
    """Reads the words of an image. Of each open list it knows the bytes, how many items have ended, and whether one is begun."""

    def __init__(self):
        self.open = [[b"", 0, False, ""]]

    def put(self, data):
        self.open[-1][0] += data
        self.open[-1][2] = True

    def end_item(self):
        self.open[-1][1] += self.open[-1][2]
        self.open[-1][2] = False

    def close(self, mark):
        self.end_item()
        data, items, _, opened = self.open.pop()
        if opened + mark not in ("[]", "()") or not self.open:
            raise NoImage("a bracket without another")
        self.put(items.to_bytes(4 if mark == "]" else 1, "big") + data)

    def take(self, word):
        if word in (b";", b","):
            self.end_item()
        elif word in (b"[", b"("):
            self.open.append([b"", 0, False, word.decode()])
        elif word in (b"]", b")"):
            self.close(word.decode())
        else:
            self.put(bytes_of_word(word))

    def bytes(self):
        if len(self.open) > 1:
            raise NoImage("a bracket without another")
        return self.open[0][0]


def bytes_of_words(text):
    """The bytes that the words of an image put."""
    words = Words()
    for word in re.findall(rb"[][();,]|[^][();,# \n]+", re.sub(rb"#[^\n]*", b" ", text)):
        words.take(word)
    return words.bytes()


# ---- from bytes to the code of bodies

class Fields:
    """Reads the parts of an image from its bytes."""

    def __init__(self, data):
        self.data, self.at = data, 0

    def take(self, count):
        self.at += count
        if self.at > len(self.data):
            raise NoImage("the image is cut")
        return self.data[self.at - count:self.at]

    def number(self, size=4):
        return int.from_bytes(self.take(size), "big", signed=size == 8)

    def among(self, words):
        number = self.number(1)
        if number >= len(words):
            raise NoImage(f"no choice: {number}")
        return words[number]

    def text(self):
        return self.take(self.number())

    def perm(self):
        return self.among(MODES), self.number(8)

    def list(self, part, size=4):
        return [part() for _ in range(self.number(size))]

    def type(self, perms=1):
        """A type; a reference is followed by its permissions, of a parameter two."""
        of = self.among(TYPES)
        return (of, self.number(), *[self.perm() for _ in range(perms)]) if of == b"Reference" else (of,)


def put_text(text):
    """A text in quotes, or its length and its bytes where it can't stand there."""
    is_plain = all(0x21 <= byte <= 0x7E and byte not in b"#;,[]()" for byte in text)
    return b'"%s"' % text if is_plain else b"count%d 0x%s" % (len(text), text.hex().encode())


def bracketed(items):
    return b"(" + b",".join(b" " + item for item in items) + b" )"


class Code(Fields):
    """Reads the bodies of an image, and tells them in words."""

    # How each operand is told. One of one byte that isn't listed is a slot.
    HOW = {
        "slot": lambda self: b"s%d" % self.number(1),
        "field": lambda self: b"f%d" % self.number(1),
        "state": lambda self: b"state%d" % self.number(1),
        "truth": lambda self: self.among((b"false", b"true")),
        "value": lambda self: b"i%d" % self.number(8),
        "text": lambda self: put_text(self.text()),
        "operator": lambda self: self.among(OPERATORS),
        "line": lambda self: b"line%d" % self.number(),
        "target": lambda self: b"@%d" % self.number(),
        "contract": lambda self: b"c%d" % self.number(),
        "transaction": lambda self: b"t%d" % self.number(),
        "arguments": lambda self: bracketed(self.list(lambda: self.told("slot"), 1)),
        "given": lambda self: bracketed(self.list(lambda: self.told("field") + b" " + self.told("slot"), 1)),
    }

    def told(self, operand):
        return self.HOW[operand](self)

    def instruction(self):
        word = self.among(INSTRUCTIONS)
        return b" ".join([word, *[self.told(operand) for operand in OPERANDS.get(word, "").split()]])

    def body(self):
        """How many slots a body has, and its instructions; what stands before them is read."""
        self.text(), self.number(1), self.perm(), self.perm()
        self.list(lambda: self.type(2))
        if self.among((b"none", b"returns")) == b"returns":
            self.type()
        return self.number(1), self.list(self.instruction)

    def contract(self):
        """The bodies of a contract."""
        self.text(), self.number(1), self.number()
        self.list(self.text)
        self.list(lambda: (self.text(), self.type(), self.number(8)))
        return self.list(self.body)

    def image(self):
        """The bodies of each contract."""
        if self.take(4) != b"OBI1":
            raise NoImage("another word at the front")
        contracts = self.list(self.contract)
        if self.at != len(self.data):
            raise NoImage("bytes behind the image")
        return contracts


def code_of(image):
    """A line for each body of an image that has instructions."""
    return b"".join(
        b"c%d t%d slots%d [ %s ]\n" % (contract, number, slots, b"; ".join(instructions))
        for contract, bodies in enumerate(Code(image).image())
        for number, (slots, instructions) in enumerate(bodies)
        if instructions
    )
