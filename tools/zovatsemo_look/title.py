"""What a page is of: policies, capture and commands, as far as they are known."""
from zovatsemo_look.study import LETTERS
from zovatsemo_look.texts import shown

PLACES = {"direct": {"policy": 1, "capture": 2}, "replay": {"policy": 1, "capture": 3},
          "link": {"policy": 1, "capture": 3}}  # words after the name of the command


def file_in(command, kind):
    """The file that a command names as its policy or its capture; None if it names none."""
    words = (command or "").split()
    for at, word in enumerate(words):
        if word in PLACES:
            rest = words[at + PLACES[word][kind]:]
            return rest[0] if rest else None
    return None


def lines_of(commands, names, capture):
    """The lines of the title, each with whether it is a head. `names` has the name of each report or policy."""
    lines = []
    for which, (command, name) in enumerate(zip(commands, names)):
        policy = file_in(command, "policy")
        mark = LETTERS[which] + ": " if len(names) > 1 else ""
        lines.append((mark + ("policy %s" % shown(policy) if policy else "report %s" % name), True))
        if command:
            lines.append((shown(command), False))
    capture = capture or file_in(commands[0], "capture")
    return lines + ([("capture %s" % shown(capture), True)] if capture else [])
