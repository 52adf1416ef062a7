"""A plain recogniser of a written grammar, and edited texts for it. It shares nothing with the program.

A rule stands on a line: a part in angle brackets, and what it is spelled by. `^` stands before what is nested one deeper, and
PLAIN before a token that is none of `(`, `+` and `-`. Words in capitals are kinds of tokens."""
import re

ENDLESS = 1 << 30
# names that are also words of rules
NAMES = ("handler", "print")
HEADS = ("deferred", "expanded", "frozen", "class")


class Set:
    """What may stand behind the same tokens: items, of a part, its room for what is nested deeper, a rule, a place in that and
    where the part begins."""

    def __init__(self, items):
        self.items, self.known = list(items), set(items)
        self.waiting, self.begun, self.empty = {}, set(), set()

    def add(self, item):
        if item not in self.known:
            self.known.add(item)
            self.items.append(item)


class Grammar:
    def __init__(self, lines):
        self.rules, self.start = {}, lines[0].split()[0]
        for line in lines:
            part, *symbols = line.split()
            opens = any(symbol.startswith("^") for symbol in symbols)
            self.rules.setdefault(part, []).append((tuple(symbols), opens))
        self.words = {word for rules in self.rules.values() for symbols, _ in rules for word in symbols}

    def fits(self, token, word):
        if word == "NAME":
            return re.fullmatch(r"[a-z]\w*", token) and (token not in self.words or token in NAMES)
        if word == "INTEGER":
            return token.isdigit()
        if word == "STRING":
            return token.startswith('"')
        if word == "NOT-HEAD":
            return token not in HEADS
        return token != "end" if word == "NOT-END" else token == word

    def begin(self, into, part, room, origin):
        if (part, room) not in into.begun:
            into.begun.add((part, room))
            for number, (_, opens) in enumerate(self.rules[part]):
                if room or not opens:
                    into.add((part, room, number, 0, origin))

    def first(self, room):
        into = Set([])
        self.begin(into, self.start, room, 0)
        return into.items

    def complete(self, sets, items, token):
        """All that follows from these items, before a token or at the end."""
        at, into = len(sets), Set(items)
        for item in into.items:
            part, room, number, dot, origin = item
            symbols = self.rules[part][number][0]
            if dot == len(symbols):
                self.finish(sets, into, item, at)
            elif symbols[dot] == "PLAIN":
                if token not in ("(", "+", "-"):
                    into.add((part, room, number, dot + 1, origin))
            elif is_part(symbols[dot]):
                name = symbols[dot].lstrip("^")
                inner = room - (symbols[dot] != name) if room < ENDLESS else room
                into.waiting.setdefault((name, inner), []).append(item)
                self.begin(into, name, inner, at)
                if (name, inner) in into.empty:
                    into.add((part, room, number, dot + 1, origin))
        return into

    def finish(self, sets, into, item, at):
        part, room, _, _, origin = item
        if origin == at:
            into.empty.add((part, room))
        earlier = sets[origin] if origin < at else into
        for waiting in list(earlier.waiting.get((part, room), ())):
            into.add((*waiting[:3], waiting[3] + 1, waiting[4]))

    def after(self, into, token):
        """The items that go on with a token."""
        return [(part, room, number, dot + 1, origin) for part, room, number, dot, origin in into.items
                if dot < len(self.rules[part][number][0]) and not is_part(word := self.rules[part][number][0][dot])
                and word != "PLAIN" and self.fits(token, word)]

    def is_whole(self, into):
        return any(part == self.start and origin == 0 and dot == len(self.rules[part][number][0])
                   for part, _, number, dot, origin in into.items)


def is_part(symbol):
    return len(symbol) > 2 and symbol.lstrip("^").startswith("<") and symbol.endswith(">")


class Chart:
    """A text, and what may stand before each of its tokens in systems of this nesting."""

    def __init__(self, grammar, tokens, room):
        self.grammar, self.items, self.sets = grammar, [grammar.first(room)], []
        for token in tokens:
            self.sets.append(grammar.complete(self.sets, self.items[-1], token))
            self.items.append(grammar.after(self.sets[-1], token))

    def fault(self, start, tokens):
        """The index of the first token that no system has there, None where the tokens are a system. The tokens before the
        start are those of the chart."""
        for index, items in enumerate(self.items[:start + 1]):
            if not items:
                return index - 1
        sets, items = self.sets[:start], self.items[start]
        for index in range(start, len(tokens)):
            sets.append(self.grammar.complete(sets, items, tokens[index]))
            items = self.grammar.after(sets[-1], tokens[index])
            if not items:
                return index
        return None if self.grammar.is_whole(self.grammar.complete(sets, items, None)) else len(tokens)


class Edits:
    """A fixed sequence of edits at each place of a text: each beginning of it, and three more."""

    def __init__(self, others):
        self.others, self.seed = others, 1

    def drawn(self, bound):
        self.seed = (self.seed * 6364136223846793005 + 1442695040888963407) % (1 << 64)
        return (self.seed >> 33) % bound

    def edited(self, words, place, edit):
        """A word deleted, doubled, swapped with the next, replaced, or with another before or behind it, or all from there on
        left out, or another in their place."""
        other, here = self.others[self.drawn(len(self.others))], words[place]
        following = words[place + 1:place + 2]
        instead, skipped = {
            0: ([], 1),
            1: ([here, here], 1),
            2: ([*following, here], 2),
            3: ([], len(words)),
            4: ([other], len(words)),
            5: ([other], 1),
            6: ([other], 0),
        }.get(edit, ([here, other], 1))
        return words[:place] + instead + words[place + skipped:]

    def of(self, words, first):
        """The edits at each place from the first on, with their place."""
        return [(place, self.edited(words, place, 3 if time == 0 else self.drawn(9)))
                for place in reversed(range(first, len(words))) for time in range(4)]


def answer(tokens, any_fault, deep_fault):
    """What `refused` is followed by, with the column, or None."""
    if deep_fault is None:
        return None
    is_deep = any_fault is None or deep_fault < any_fault
    index = deep_fault if is_deep else any_fault
    column = len(" ".join(tokens[:index])) + (index > 0 and index < len(tokens)) + 1
    return f"{'P2 TooDeep' if is_deep else 'P1 NotInGrammar'} app.e:1:{column}"
