"""The grammar that docs/PROTOCOL.md gives its readers, and a recogniser of it.

The tokens, kinds, messages and levels are read from the page itself, not from any source. The recogniser uses another
method than the gateway: it is Earley's, which follows all derivations of a prefix in parallel. `second-grammar`,
`second-machine` and `second-explanation` use this module.
"""

import pathlib
import random
import re
import sys

TOP = pathlib.Path(__file__).resolve().parent.parent
PAGE = (TOP / "docs/PROTOCOL.md").read_text(encoding="utf-8")
LEVELS = (0, 10, 20, 30, 40, 50, 60)
BRA, KET = 0x4000, 0x4001
GREATEST_DEPTH = 254
SPAN = re.compile(r"`([^`]*)`")

# The kinds that the page describes in prose: one token or a list of tokens, each with its text in the page.
PROSE = {
    "power, province, coast, season, number, note": "one token of that class",
    "text": "text tokens, none or more",
    "any": "any list of tokens whose brackets balance",
    "word": "any one token but the two brackets",
    "param": "any one token of category 49",
}
CATEGORIES = {
    "power": [0x41], "note": [0x44], "outcome": [0x44, 0x45], "coast": [0x46], "season": [0x47], "character": [0x4B],
    "param": [0x49], "province": list(range(0x50, 0x58)),
}


def part(after, before):
    """Returns the text of the page between two strings, in one line."""
    text = " ".join(PAGE.split())
    start = text.index(after) + len(after)
    return text[start : text.index(before, start)]


def tokens_of_page():
    """Returns each name's code, and the known categories."""
    codes, known = {}, set()
    for category, names in re.findall(r"^\| ([0-9A-F]{2}) [a-z ]+\| (.*) \|$", PAGE, re.M):
        known.add(int(category, 16))
        for run in re.split(r"[;,]", names):
            start = re.match(r" ?from ([0-9A-F]{4})(?: to [0-9A-F]{4})?: (.*)", run)
            if start:
                for place, name in enumerate(re.findall(r"\b[A-Z]{3}\b", start.group(2))):
                    codes[name] = int(start.group(1), 16) + place
            for name, code in re.findall(r"^ ?([A-Z]{3}) ([0-9A-F]{4})$", run):
                codes[name] = int(code, 16)
    return codes, known


class Grammar:
    """Rules by the names of their nonterminals. A rule is a list of symbols: nonterminals as `<name`, tokens and kinds
    as such."""

    def __init__(self):
        self.rules, self.count = {}, 0

    def fresh(self, *rules):
        """Returns a new name for these rules."""
        self.count += 1
        name = f"{self.count}"
        self.rules[name] = [tuple(rule) for rule in rules]
        return f"<{name}"

    def many(self, body, least):
        """Returns the body repeated at least `least` times, which is 0 or 1."""
        name = self.fresh()
        self.rules[name[1:]] = [(), (*body, name)]
        return [name] if least == 0 else [*body, name]

    def read(self, text, own):
        """Returns the symbols of a form in the page's notation; `own` maps kinds to their symbols."""
        words = re.findall(r"[A-Z]{3}|[a-z]+|[][()*+]", text)
        symbols, rest = self.read_row(words, own, None)
        if rest:
            sys.exit(f"docs/PROTOCOL.md: what does this say: {text}")
        return symbols

    def read_row(self, words, own, end):
        """Returns the symbols up to a closing bracket, and the words after it."""
        row = []
        while words and words[0] != end:
            word, words = words[0], words[1:]
            if word == "(":
                inner, words = self.read_row(words, own, ")")
                item = ["(", *inner, ")"]
            elif word == "[":
                inner, words = self.read_row(words, own, "]")
                item = [self.fresh((), inner)]
            else:
                item = [own.get(word, word)]
            if words and words[0] in "*+":
                item, words = self.many(item, int(words[0] == "+")), words[1:]
            row += item
        return row, words[1:] if end else words

    def reached(self, symbols):
        """Returns all rules that can be reached from these symbols, each with its symbol."""
        found, todo = set(), list(symbols)
        while todo:
            symbol = todo.pop()
            for rule in self.rules[symbol[1:]]:
                if (symbol, rule) not in found:
                    found.add((symbol, rule))
                    todo += [inner for inner in rule if inner[0] == "<"]
        return found

    def forms(self, text, own):
        """Returns the rules of all forms between back quotes in a text."""
        return [self.read(form, own) for form in SPAN.findall(text)]


def kinds_of(grammar):
    """Returns the symbol of each kind of the page."""
    own = {"text": grammar.many(["character"], 0)[0]}
    balanced = grammar.fresh()
    grammar.rules[balanced[1:]] = [(), ("word", balanced), ("(", balanced, ")", balanced)]
    own["any"] = balanced
    table = PAGE[PAGE.index("| kind | is |") : PAGE.index("### The client says")].splitlines()[2:]
    for kind, text in re.findall(r"^\| ([^|]*) \| ([^|]*) \|$", "\n".join(table), re.M):
        if kind in PROSE:
            if text != PROSE[kind]:
                sys.exit(f"docs/PROTOCOL.md now says of {kind}: {text}")
            continue
        prose = [words for words in re.split(r", or |, | or |;", SPAN.sub("", text)) if words.strip()]
        rules = [grammar.read(words, own) for words in prose] + grammar.forms(text, own)
        own[kind] = grammar.fresh(*rules)
    return own


def forms_of_words(words, slot, level):
    """Returns the form of each operator's word of a slot up to a level."""
    many = {"powers": "power+", "provinces": "province+"}
    return [
        f"{word.name} ( {many.get(word.operand, word.operand)} )"
        for word in words if word.slot == slot and word.level <= level
    ]


def press_of(grammar, kinds, words):
    """Adds the press, arrangements, flat arrangements and facts of each level to the kinds."""
    names = ("press", "arrangement", "flat", "fact")
    by_level = {level: {name: grammar.fresh() for name in names} for level in LEVELS[1:]}
    section = PAGE[PAGE.index("### Press, by level") :]
    rows = re.findall(r"^\| (\d+) \| [^|]* \| ([^|]*)\| ([^|]*)\|$", section, re.M)
    facts = part("- A **fact** is an arrangement of its level; at level 60 also", "- A press or")
    for level, named in by_level.items():
        operand = named["arrangement"] if level >= 50 else named["flat"]
        own = {**kinds, **named, "operand": operand}
        reached = [row for row in rows if int(row[0]) <= level]
        press = [rule for row in reached for rule in grammar.forms(row[1], own)]
        press += [grammar.read(form, own) for form in forms_of_words(words, "press", level)]
        spans = [form for row in reached for form in SPAN.findall(row[2])]
        spans += forms_of_words(words, "arrangement", level)
        within = {**own, "arrangement": named["flat"]}
        flat = [grammar.read(form, within) for form in spans if "operand" not in form]
        rules = {
            "press": press, "arrangement": [grammar.read(form, own) for form in spans], "flat": flat,
            "fact": [[named["arrangement"]]] + (grammar.forms(facts, own) if level == 60 else []),
        }
        for name in names:
            grammar.rules[named[name][1:]] = [tuple(rule) for rule in rules[name]]
    return by_level


def messages_of(grammar, words=()):
    """Returns the symbol of the messages of each side at each level, without those that begin with PRN."""
    kinds = kinds_of(grammar)
    press = press_of(grammar, kinds, words)
    requests, later = part("A **request**:", "Or a").split("and from level 10")
    replies = SPAN.findall(part("Or a **reply**:", "Or a report"))
    says, also = part("### The server says", "### Reports").split("From level 10 also")
    wings = re.search(r"where kind is a type or `([^`]*)`", says)
    send = re.search(r"where send is `([^`]*)`", also)
    says, also = says.replace(wings.group(0), ""), also.replace(send.group(0), "")
    report = next(form for form in SPAN.findall(part("### Reports", "### Press")) if "PRN" not in form)
    found = {}
    for level in LEVELS:
        own = {**kinds, **press.get(level, {})}
        rules = grammar.forms(requests, own) + (grammar.forms(later, own) if level else [])
        own["request"] = grammar.fresh(*rules)
        own["kind"] = grammar.fresh([own["type"]], grammar.read(wings.group(1), own))
        client = [[own["request"]], grammar.read(report, own)]
        client += [[word, *grammar.read(form, own)] for word in replies[:2] for form in replies[2:]]
        server = grammar.forms(says, own) + [grammar.read(report, own)]
        if level:
            own["send"] = grammar.fresh(grammar.read(send.group(1), own))
            server += grammar.forms(also, own)
        found["bot", level], found["server", level] = grammar.fresh(*client), grammar.fresh(*server)
    return found


def heights_of(tokens):
    """Returns the excess of BRA over KET after each prefix of the tokens."""
    heights = [0]
    for token in tokens:
        heights.append(heights[-1] + (token == BRA) - (token == KET))
    return heights


class Recogniser:
    """Recognises the token lists of a symbol, and finds the first token that continues none of them."""

    def __init__(self, grammar, codes):
        self.rules, self.codes = grammar.rules, codes
        self.empty, self.first_states = set(), {}
        while True:
            more = {name for name, rules in self.rules.items() if any(self.may_be_empty(rule) for rule in rules)}
            if more == self.empty:
                break
            self.empty = more

    def may_be_empty(self, rule):
        """Returns whether all symbols of a rule are nullable, as far as it is known."""
        return all(symbol[0] == "<" and symbol[1:] in self.empty for symbol in rule)

    def is_token(self, symbol, token):
        """Returns whether a token matches a symbol."""
        if symbol in "()":
            return token == (BRA if symbol == "(" else KET)
        if symbol == "word":
            return token not in (BRA, KET)
        if symbol == "number":
            return token < 0x4000
        if symbol in CATEGORIES:
            return token >> 8 in CATEGORIES[symbol]
        return token == self.codes[symbol]

    def grow(self, states, place):
        """Completes the set of states at an index by prediction and completion."""
        here = states[place]
        todo = list(here)

        def add(state):
            if state not in here:
                here.add(state)
                todo.append(state)

        while todo:
            name, rule, dot, start = todo.pop()
            if dot == len(rule):
                for outer, outer_rule, at, outer_start in list(states[start]):
                    if at < len(outer_rule) and outer_rule[at] == f"<{name}":
                        add((outer, outer_rule, at + 1, outer_start))
            elif rule[dot][0] == "<":
                inner = rule[dot][1:]
                for inner_rule in self.rules[inner]:
                    add((inner, inner_rule, 0, place))
                if inner in self.empty:
                    add((name, rule, dot + 1, start))

    def chart(self, symbol, tokens):
        """Returns the states after each prefix of the tokens, up to the first prefix that begins none of the symbol's
        lists."""
        name = symbol[1:]
        if name not in self.first_states:
            self.first_states[name] = {(name, rule, 0, 0) for rule in self.rules[name]}
            self.grow([self.first_states[name]], 0)
        states = [self.first_states[name]]
        for place, token in enumerate(tokens):
            on = {
                (of, rule, dot + 1, start) for of, rule, dot, start in states[place]
                if dot < len(rule) and rule[dot][0] != "<" and self.is_token(rule[dot], token)
            }
            if not on:
                break
            states.append(on)
            self.grow(states, place + 1)
        return states

    def may_end(self, symbol, states):
        """Returns whether the prefix with these states is one of the symbol's lists."""
        return any(of == symbol[1:] and dot == len(rule) and start == 0 for of, rule, dot, start in states)

    def next_symbols(self, states):
        """Returns the tokens and kinds that continue the prefix with these states."""
        return {rule[dot] for _, rule, dot, _ in states if dot < len(rule) and rule[dot][0] != "<"}

    def error_place(self, symbol, tokens):
        """Returns none for one of the symbol's lists, else the index of the first token that continues none of them, or
        the number of tokens."""
        states = self.chart(symbol, tokens)
        if len(states) <= len(tokens):
            return len(states) - 1
        return None if self.may_end(symbol, states[-1]) else len(tokens)

    def verdict(self, symbol, tokens, max_depth=GREATEST_DEPTH):
        """Returns the verdict on a message as in a report, by the rules of the page's section "Verdicts"."""
        if tokens[:1] == [self.codes["PRN"]]:
            is_paired = len(tokens) >= 3 and tokens[1] == BRA and tokens[-1] == KET
            return "relay" if is_paired else "prn"
        heights = heights_of(tokens)
        if min(heights) < 0 or heights[-1] != 0:
            return "prn"
        places = [place for place, height in enumerate(heights[1:]) if height > max_depth][:1]
        place = self.error_place(symbol, tokens)
        places += [] if place is None else [place]
        return f"huh {min(places)}" if places else "relay"


class Drawer:
    """Draws random messages, from a seed."""

    def __init__(self, recogniser, known, seed):
        self.recogniser, self.random = recogniser, random.Random(seed)
        own = set(recogniser.codes.values())
        others = [category << 8 | code for category in known for code in (0x08, 0x11, 0x12, 0xEE)]
        self.all = sorted(own | set(others)) + [0, 1, 1901, 8191, 0x2000, 0x3FFF]
        self.drawn, self.tokens_of = set(), {}

    def token(self, symbol):
        """Returns a random token of a symbol."""
        if symbol not in self.tokens_of:
            self.tokens_of[symbol] = [token for token in self.all if self.recogniser.is_token(symbol, token)]
        return self.random.choice(self.tokens_of[symbol])

    def grown(self, symbol, depth=0):
        """Returns a random list of a symbol, of limited length."""
        if symbol[0] != "<":
            return [self.token(symbol)]
        rules = self.recogniser.rules[symbol[1:]]
        if depth > 12:
            rules = sorted(rules, key=lambda rule: sum(part[0] == "<" for part in rule))[:2]
        rule, found = self.random.choice(rules), []
        self.drawn.add((symbol, rule))
        for inner in rule:
            found += self.grown(inner, depth + 1)
            if len(found) > 120:
                break
        return found

    def changed(self, tokens):
        """Returns the message with up to two tokens added, removed, exchanged or replaced."""
        for _ in range(self.random.choice((0, 1, 1, 1, 2))):
            place, way = self.random.randrange(len(tokens) + 1), self.random.randrange(5)
            if way == 0 or not tokens:
                tokens.insert(place, self.random.choice(self.all))
                continue
            place = min(place, len(tokens) - 1)
            if way == 1:
                del tokens[place]
            elif way == 2:
                other = self.random.randrange(len(tokens))
                tokens[place], tokens[other] = tokens[other], tokens[place]
            elif way == 3:
                like = [token for token in self.all if token >> 8 == tokens[place] >> 8]
                tokens[place] = self.random.choice(like or self.all)
            else:
                tokens[place] = self.random.choice(self.all)
        return tokens

    def cut(self, tokens):
        """Returns a prefix of the tokens, mostly followed by another token, and then by the missing KETs."""
        tokens = tokens[: self.random.randrange(len(tokens) + 1)]
        if self.random.random() < 0.8:
            tokens.append(self.random.choice(self.all))
        return tokens + [KET] * max(heights_of(tokens)[-1], 0)


def lines_of(side, tokens):
    """Returns the lines of a log with a message of these tokens from a side."""
    body = b"".join(token.to_bytes(2, "big") for token in tokens)
    digits = (b"\x02\x00" + len(body).to_bytes(2, "big") + body).hex()
    return [f"{side} {digits[at : at + 2048]}" for at in range(0, len(digits), 2048)]


def heading_of(max_depth, words):
    """Returns the lines of a log before its events, and the beginning of each event line: version 2 if there are
    words."""
    if not words:
        return ["daide-log 1", f"config 60 65526 {max_depth}"], ""
    lines = ["daide-log 2", f"config 60 65526 {max_depth} 1 {len(words)}"]
    return lines + [f"word {word.name} {word.code:04X} {word.slot} {word.level} {word.operand}" for word in words], "1 "


def drawn_log(drawer, count, draw, max_depth=GREATEST_DEPTH, words=()):
    """Returns a log of `count` messages, each drawn for a side and a level, and each message by the number of its last
    line."""
    codes = drawer.recogniser.codes
    lines, start = heading_of(max_depth, words)
    lines += [f"{start}bot 000000040001DA10", f"{start}server 01000000"]
    drawn = {}
    for level in LEVELS:
        hlo = [codes["HLO"], BRA, codes["ENG"], KET, BRA, 1, KET, BRA, BRA, codes["LVL"], level, KET, KET]
        greeting = [start + line for line in lines_of("server", hlo)]
        lines += greeting
        for _ in range(count // len(LEVELS)):
            side = drawer.random.choice(("bot", "server"))
            tokens = draw(side, level)
            lines += [start + line for line in lines_of(side, tokens)]
            drawn[len(lines)] = (side, level, tokens)
            if side == "server" and tokens[:1] == [codes["HLO"]]:
                lines += greeting
    return lines, drawn
