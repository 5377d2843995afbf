"""Parts of the cases of suites for the program for people: make_links and make_conditions write them."""


def lines(*parts):
    return "".join(line + "\n" for part in parts for line in ([part] if isinstance(part, str) else part))


def held(content):
    return {"hex": content.hex()} if isinstance(content, bytes) else {"text": content}


def case(suite, name, words, files, told, status=0):
    """The answer to words and files, whose names are single letters."""
    return {"name": name, "suite": suite, "words": words.split(), "files": {name: held(content) for name, content in files.items()},
            "stdout": held(told if isinstance(told, bytes) else lines(told)), "status": status}


def end(version, count):
    """The last line of a run in which this many packets arrive and none departs."""
    return "end pushed %d popped 0 empty 0 held %d unsent 0" % (count, count) + (" dropped 0" if version > 1 else "")


def leaf_each(names):
    """A leaf for each class, below one root."""
    return [*("leaf %s using fifo classes %s" % (name, name) for name in names), "node root using fifo children " + " ".join(names)]
