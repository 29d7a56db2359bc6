"""Explanations of verdicts, worked out from the page docs/PROTOCOL.md by another method than the program's.

The items expected after a prefix are read from the chart of an Earley recogniser: the tokens and kinds that its states
continue with, and whether the message may end. The program, by contrast, reads the prefix once more for each class.
`second-explanation` and `second-machine` compare the program with these lines.
"""

import collections

from page_grammar import BRA, GREATEST_DEPTH, KET, LEVELS, Grammar, Recogniser, heights_of, messages_of, tokens_of_page

# A word of press that an operator adds, as docs/FORMATS.md defines it.
Word = collections.namedtuple("Word", "name code slot level operand")

# The classes of many tokens and the brackets, each with one of its tokens, in printing order.
KINDS = (
    ("<number>", 0), ("(", BRA), (")", KET), ("<power>", 0x4100), ("<note>", 0x4400), ("<result>", 0x4500),
    ("<coast>", 0x4600), ("<season>", 0x4700), ("<text>", 0x4B61), ("<province>", 0x5000), ("<parameter>", 0x4900),
)
UNLISTED, ALIEN = 0x4002, 0x5800
# The parameters that are alone in their class, and the categories whose listed tokens are alone in their class.
PARAMETERS = ("LVL", "MRT", "UNO")
ALONE = (0x42, 0x43, 0x48, 0x4A)


class Explainer:
    """Verdicts and explanations, with an operator's words and a depth limit."""

    def __init__(self, words=(), max_depth=GREATEST_DEPTH):
        self.codes, self.known = tokens_of_page()
        singles = sorted(
            (code, name) for name, code in self.codes.items() if code >> 8 in ALONE or name in PARAMETERS
        )
        self.codes.update((word.name, word.code) for word in words)
        self.names_of_codes = {code: name for name, code in self.codes.items()}
        self.classes = [*KINDS, *((name, code) for code, name in singles), *((word.name, word.code) for word in words)]
        self.grammar, self.max_depth = Grammar(), max_depth
        self.names = messages_of(self.grammar, words)
        self.recogniser = Recogniser(self.grammar, self.codes)

    def item(self, token):
        """Returns the printed text of a token that is not text."""
        if token in (BRA, KET):
            return "(" if token == BRA else ")"
        if token < 0x4000:
            return str(token if token < 0x2000 else token - 0x4000)
        return self.names_of_codes.get(token, f"#{token:04x}")

    def text(self, tokens):
        """Returns the text form of docs/FORMATS.md."""
        items, is_open = [], False
        for token in tokens:
            is_quotable = token >> 8 == 0x4B and 0x20 <= token & 0xFF <= 0x7E and token & 0xFF != 0x27
            if is_quotable and is_open:
                items[-1] += chr(token & 0xFF)
            else:
                items.append("'" + chr(token & 0xFF) if is_quotable else self.item(token))
            is_open = is_quotable
        return " ".join(item + "'" if item.startswith("'") else item for item in items)

    def tokens(self, text):
        """Returns the tokens of a text whose quoted parts have no blank and no quote."""
        found = []
        for item in text.split():
            if item in ("(", ")"):
                found.append(BRA if item == "(" else KET)
            elif item[0] == "'":
                found += [0x4B00 | ord(character) for character in item[1:-1]]
            elif item[0] == "#":
                found.append(int(item[1:], 16))
            else:
                found.append(self.codes[item] if item in self.codes else int(item) & 0x3FFF)
        return found

    def verdict(self, side, level, tokens):
        """Returns the verdict as in a report: relay, prn, or huh with its place."""
        return self.recogniser.verdict(self.names[side, level], tokens, self.max_depth)

    def expected(self, side, level, before):
        """Returns the printed items that are expected after a prefix of a message, in order."""
        symbol, recogniser = self.names[side, level], self.recogniser
        states = recogniser.chart(symbol, before)
        if len(states) <= len(before):
            return []
        symbols = recogniser.next_symbols(states[-1]) | (set() if before else {"PRN"})
        is_full = heights_of(before)[-1] == self.max_depth

        def is_expected(token):
            if token == BRA and is_full:
                return False
            return any(recogniser.is_token(symbol, token) for symbol in symbols)

        classes = KINDS[1:3] if is_expected(ALIEN) else self.classes
        items = [name for name, token in classes if is_expected(token)]
        if is_expected(ALIEN):
            items.append("<any>")
        elif is_expected(UNLISTED):
            items.append("<other>")
        return items + ["<end>"] * recogniser.may_end(symbol, states[-1])

    def cause(self, side, level, tokens, place):
        """Returns the line for an error place."""
        height = heights_of(tokens[:place])[-1]
        if tokens[place : place + 1] == [BRA] and height == self.max_depth:
            return f"too deep: ( at {place}"
        items = self.expected(side, level, tokens[:place])
        return f"expected: {' '.join(items)}" if items else f"too deep: {height} brackets are open"

    def explained(self, side, level, tokens):
        """Returns the further lines for a message, by its verdict."""
        verdict = self.verdict(side, level, tokens)
        if verdict == "relay":
            return []
        if verdict == "prn":
            return [self.unpaired(tokens)]
        lines = [self.cause(side, level, tokens, int(verdict[4:]))]
        above = [other for other in LEVELS if other > level and self.verdict(side, other, tokens) == "relay"]
        lines += [f"relayed from level {above[0]}"] if above else []
        other = "server" if side == "bot" else "bot"
        return lines + [f"relayed with --side {other}"] * (self.verdict(other, level, tokens) == "relay")

    def unpaired(self, tokens):
        """Returns the line for a message that is not paired."""
        if tokens[:1] == [self.codes["PRN"]]:
            return "unpaired: PRN"
        opened = []
        for place, token in enumerate(tokens):
            if token == BRA:
                opened.append(place)
            elif token == KET:
                if not opened:
                    return f"unpaired: ) at {place}"
                opened.pop()
        return f"unpaired: ( at {opened[0]}"

    def answer(self, verdict, tokens):
        """Returns the text of the answer to a refused message."""
        if verdict == "prn":
            return self.text([self.codes["PRN"], BRA, *tokens, KET])
        place = int(verdict[4:])
        return self.text([self.codes["HUH"], BRA, *tokens[:place], self.codes["ERR"], *tokens[place:], KET])

    def shown(self, side, level, tokens):
        """Returns the lines of `show --explain`."""
        verdict = self.verdict(side, level, tokens)
        lines = [f"DM {2 * len(tokens)}", self.text(tokens)]
        if verdict == "relay":
            return [*lines, verdict]
        said = "PRN" if verdict == "prn" else f"HUH at {verdict[4:]}"
        return [*lines, said, self.answer(verdict, tokens), *self.explained(side, level, tokens)]

    def reported(self, side, level, tokens, announced=None):
        """Returns the lines of `check --explain` after the report's line on a message, without their four spaces. The level
        that the server announced is given if the highest level capped it."""
        verdict = self.verdict(side, level, tokens)
        if verdict == "relay":
            return [self.text(tokens)]
        answer = self.answer(verdict, tokens)
        judged = f"judged at level {level}" + ("" if announced is None else f", capped from {announced}")
        return [self.text(tokens), judged, answer, *self.explained(side, level, tokens)]
