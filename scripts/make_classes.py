"""Makes class files part by part. A number of a constant is given as its two bytes."""


def u2(number):
    return number.to_bytes(2, "big")


def u4(number):
    return number.to_bytes(4, "big", signed=number < 0)


def listed(parts, size=2):
    return len(parts).to_bytes(size, "big") + b"".join(parts)


class Pool:
    """Constants; each is given as its number in two bytes. The first one is named by nothing."""

    def __init__(self, dead=True):
        self.bytes, self.count, self.known = b"", 1, {}
        if dead:
            self.text("dead")

    def put(self, tag, *parts):
        constant = bytes([tag]) + b"".join(parts)
        if constant not in self.known:
            self.known[constant] = u2(self.count)
            self.bytes += constant
            self.count += 2 if tag in (5, 6) else 1
        return self.known[constant]

    def text(self, text):
        return self.put(1, u2(len(text)), text.encode())

    def klass(self, text):
        return self.put(7, self.text(text))

    def member(self, tag=10):
        return self.put(tag, self.klass("Only"), self.put(12, self.text("name"), self.text("()V")))


def class_file(p, attributes=(), fields=(), methods=(), interfaces=(), this=None, above=u2(0)):
    this = this or p.klass("T")
    lists = listed(interfaces) + listed(fields) + listed(methods) + listed(attributes)
    return b"\xca\xfe\xba\xbe" + u2(0) + u2(61) + u2(p.count) + p.bytes + u2(0x21) + this + above + lists


def attribute(p, name, body):
    return p.text(name) + u4(len(body)) + body


def member(p, attributes=(), name=None, descriptor=None):
    return u2(9) + (name or p.text("m")) + (descriptor or p.text("()V")) + listed(attributes)


def code(p, instructions=b"\xb1", handlers=(), attributes=()):
    lists = listed(handlers) + listed(attributes)
    return attribute(p, "Code", u2(2) * 2 + u4(len(instructions)) + instructions + lists)


def method(p, *attributes):
    return class_file(p, methods=[member(p, attributes)])
