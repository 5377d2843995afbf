"""Names and numbers as people read them."""


def shown(name):
    """A name from outside, such as a file's: what can't be printed becomes an escape, so it harms no terminal and no
    picture."""
    return "".join(letter if letter.isprintable() else escaped(letter) for letter in name)


def escaped(letter):
    """The escape of a letter; a byte that wasn't text is written as that byte."""
    code = ord(letter)
    if 0xDC80 <= code <= 0xDCFF:
        return "\\x%02x" % (code - 0xDC00)
    return letter.encode("unicode_escape").decode("ascii") if code < 0xD800 or code > 0xDFFF else "\\u%04x" % code


def plural(number, word):
    """A number with its word."""
    return "%s %s%s" % (format(number, ","), word, "" if number == 1 else "s")


def listed(words):
    """Words with commas between them."""
    return ", ".join(words)
