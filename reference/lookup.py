"""An independent reference for the program `lookup`, written from docs/lookup.md.

Reads a sheet from standard input as bytes and prints the answers. It follows the
rules in words: whatever can be listed is listed, and looked for in the list.
"""

import sys
from collections import Counter

NOTHING = 4294967295  # the code in a record that says that nothing arrives
TREE_LEVELS = 4
ROOM = 16
REFUSALS = {
    1: "n outside 4 to 21",
    2: "gear 1, or above 3",
    3: "t outside what n and the gear allow",
    4: "source not below n",
    13: "no such unit, level or place",
    16: "sender above 20",
    18: "script full",
}

# Kinds: for each code the value that has it, as it is printed.
RIGHTS = {0: "withdrawn", 1: "watch"}
for m in range(1, 61):
    RIGHTS[m + 1] = f"operate {m} min"
TRIGGERS = {}
for channel in range(1, 5):
    for s, slope in enumerate(("rising", "falling")):
        for level in range(-2048, 2048):
            code = ((channel - 1) * 2 + s) * 4096 + level + 2048
            TRIGGERS[code] = f"channel {channel}, {slope}, level {level}"
KINDS = {"right": RIGHTS, "trigger": TRIGGERS}
GROUND = {"right": "withdrawn", "trigger": "channel 1, rising, level 0"}
# And the other way round: for each value its code.
CODES = {kind: {value: code for code, value in values.items()} for kind, values in KINDS.items()}


class Refused(Exception):
    """Carries the number of the refusal."""


class NotUnderstood(Exception):
    """Carries what is printed after `not understood: `."""


# Words: they are bytes, and numbered from 1.

def words_of_line(line):
    text = line.split(b"#")[0]
    text = text.replace(b"\t", b" ").replace(b"\r", b" ")
    return [word for word in text.split(b" ") if word]


def check_count(words, least, most=None):
    if len(words) < least:
        raise NotUnderstood("words are missing")
    if most is not None and len(words) > most:
        raise NotUnderstood("too many words")


def name(words, i, *names):
    for one in names:
        if words[i - 1] == one.encode():
            return one
    raise NotUnderstood(f"word {i} is not one of the names that may stand there")


def number(words, i, least=0, most=4294967295):
    """Word i as a number from `least` to `most`; with `least` 0 it has no `-`."""
    word = words[i - 1]
    negative = word.startswith(b"-")
    digits = word[1:] if negative else word
    if not digits.isdigit():  # of bytes: one or more, all from 0 to 9
        raise NotUnderstood(f"word {i} is not a number")
    if negative and least == 0:
        raise NotUnderstood(f"word {i} is negative")
    digits = digits.lstrip(b"0")
    size = int(b"0" + digits[:11])  # 11 digits that begin above 0 are out of range already
    value = -size if negative else size
    if not least <= value <= most:
        raise NotUnderstood(f"word {i} is out of range")
    return value


def numbers(words, first):
    """The numbers from word `first` to the last word."""
    return [number(words, i) for i in range(first, len(words) + 1)]


# Questions: each takes the words of its line and the script, and gives the answer.

def ask_code(words, script):
    check_count(words, 3, 3)
    kind = name(words, 2, "right", "trigger")
    code = number(words, 3)
    if code not in KINDS[kind]:
        return f"no {kind} has code {code}"
    return f"{kind} {KINDS[kind][code]}"


def ask_value(words, script):
    check_count(words, 2)
    kind = name(words, 2, "right", "trigger")
    if kind == "right":
        check_count(words, 3)
        value = name(words, 3, "withdrawn", "watch", "operate")
        if value == "operate":
            check_count(words, 4, 4)
            value = f"operate {number(words, 4)} min"
        else:
            check_count(words, 3, 3)
    else:
        check_count(words, 5, 5)
        channel = number(words, 3)
        slope = name(words, 4, "rising", "falling")
        level = number(words, 5, -2147483648, 2147483647)
        value = f"channel {channel}, {slope}, level {level}"
    if value not in CODES[kind]:
        return f"no such {kind}"
    return f"code {CODES[kind][value]}"


def sequences_of_level(n, source, level):
    """All sequences of the level, in the order of their places."""
    if n < 4 or n > 21:
        raise Refused(1)
    if source >= n:
        raise Refused(4)
    if level < 1 or level > TREE_LEVELS:
        raise Refused(13)
    sequences = [[source]]
    for _ in range(level - 1):
        sequences = [parent + [unit] for parent in sequences for unit in range(n) if unit not in parent]
    return sequences


def ask_place(words, script):
    check_count(words, 4)
    n, source, *units = numbers(words, 2)
    sequences = sequences_of_level(n, source, len(units))
    if units not in sequences:
        raise Refused(13)
    return f"level {len(units)}, place {sequences.index(units)}"


def ask_sequence(words, script):
    check_count(words, 5, 5)
    n, source, level, place = numbers(words, 2)
    sequences = sequences_of_level(n, source, level)
    if place >= len(sequences):
        raise Refused(13)
    units = sequences[place]
    if level == 1:
        return f"units {source}, no way back"
    parent = sequences_of_level(n, source, level - 1).index(units[:-1])
    listed = " ".join(str(unit) for unit in units)
    return f"units {listed}, last unit {units[-1]}, parent at place {parent}"


def check_plan(n, t, gear, source):
    if n < 4 or n > 21:
        raise Refused(1)
    if gear == 1 or gear > 3:
        raise Refused(2)
    if t < 1:
        raise Refused(3)
    if gear == 0 and (t > 3 or n < 3 * t + 1):
        raise Refused(3)
    if gear != 0 and (t < gear or t > 5 or n < 4 * t + 1):
        raise Refused(3)
    if source >= n:
        raise Refused(4)


def blocks_of_plan(t, gear):
    if gear == 0:
        return [t]
    x = (t - 1) // (gear - 1)
    blocks = [gear] * x
    if (t - 1) % (gear - 1) != 0:
        blocks.append(t - x * (gear - 1))
    return blocks


def ask_plan(words, script):
    check_count(words, 5, 5)
    n, t, gear, source = numbers(words, 2)
    check_plan(n, t, gear, source)
    blocks = blocks_of_plan(t, gear)
    rounds = 1 + sum(blocks)
    levels = t + 1 if gear == 0 else gear + 1
    size = sum(len(sequences_of_level(n, source, level)) for level in range(1, levels + 1))
    listed = " ".join(str(block) for block in blocks)
    return f"rounds {rounds}, blocks {listed}, {size} values a unit, {n * size} values in all"


def ask_vote(words, script):
    check_count(words, 4)
    kind = name(words, 2, "right", "trigger")
    vote = name(words, 3, "majority", "threshold")
    t = number(words, 4)
    # The codes of the entries, None for an open one.
    entries = [None if words[i - 1] == b"-" else number(words, i) for i in range(5, len(words) + 1)]
    for code in entries:
        if code is not None and code not in KINDS[kind]:
            return f"no {kind} has code {code}"
    support = Counter(KINDS[kind][code] for code in entries if code is not None)
    if vote == "majority":
        supported = [value for value in support if 2 * support[value] > len(entries)]
        answer = supported[0] if supported else GROUND[kind]
    else:
        supported = [value for value in support if support[value] >= t + 1]
        answer = supported[0] if len(supported) == 1 else None
    return "open" if answer is None else f"{answer}, code {CODES[kind][answer]}"


def ask_letter(words, script):
    check_count(words, 6, 6)
    round_, sender, receiver, place, code = numbers(words, 2)
    if sender > 20:
        raise Refused(16)
    if len(script) == ROOM:
        raise Refused(18)
    script.append((round_, sender, receiver, place, code))
    mask = sum(2 ** unit for unit in {record[1] for record in script})
    return f"record {len(script)} of {ROOM}, loose mask {mask}"


def ask_arrives(words, script):
    check_count(words, 6, 6)
    *letter, given = numbers(words, 2)
    # A sender outside the mask has no record, so that its code arrives as given.
    for *recorded, code in script:
        if recorded == letter:
            return "nothing arrives" if code == NOTHING else f"code {code} arrives"
    return f"code {given} arrives"


QUESTIONS = {
    b"code": ask_code, b"value": ask_value, b"place": ask_place, b"sequence": ask_sequence,
    b"plan": ask_plan, b"vote": ask_vote, b"letter": ask_letter, b"arrives": ask_arrives,
}


def main():
    out = sys.stdout.buffer
    script = []  # records: round, sender, receiver, place, code
    answered = refused = not_understood = 0
    for line_number, line in enumerate(sys.stdin.buffer.read().split(b"\n"), start=1):
        words = words_of_line(line)
        if not words:
            continue
        try:
            if words[0] not in QUESTIONS:
                raise NotUnderstood("no such question")
            answer = QUESTIONS[words[0]](words, script)
            answered += 1
        except Refused as refusal:
            answer = f"refused {refusal.args[0]}: {REFUSALS[refusal.args[0]]}"
            refused += 1
        except NotUnderstood as what:
            answer = f"not understood: {what}"
            not_understood += 1
        out.write(b"line %d: %s\n" % (line_number, b" ".join(words)))
        out.write(b"  %s\n" % answer.encode())
    out.write(b"answered %d, refused %d, not understood %d\n" % (answered, refused, not_understood))


if __name__ == "__main__":
    main()
