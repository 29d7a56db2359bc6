#!/usr/bin/env python3
"""Writes the bodies of varied DAIDE messages at level 60, for the measurements of README.md.

    traffic.py TOKENS SEED > FILE

Each message is a byte for its side (0 the client, 1 the server), two bytes for the length of its body, high byte first,
and the body. On average one message in thirty is wrong: one of its tokens is changed, left out, or written twice. The
names of tokens are read from the repository's own table. The numbers of messages and of tokens are written to standard
error.
"""
import pathlib
import random
import re
import sys

TABLE = pathlib.Path(__file__).resolve().parent / "../crates/daide_token/specs/Names.antt"
# A row of the table has a first code, and in one text the names of the codes from there upwards.
ROWS = re.findall(r'from 0x([0-9A-F]{4}) \(codes "([A-Z ]+)"\)', TABLE.read_text())
NAMED = {name: int(first, 16) + place for first, names in ROWS for place, name in enumerate(names.split())}
NAMES = {"(": 0x4000, ")": 0x4001} | NAMED


def of_category(low, high):
    return [name for name, code in NAMES.items() if low <= code >> 8 <= high]


POWERS, PROVINCES, COASTS = of_category(0x41, 0x41), of_category(0x50, 0x57), of_category(0x46, 0x46)
NOTES, OUTCOMES, SEASONS = of_category(0x44, 0x44), of_category(0x45, 0x45), of_category(0x47, 0x47)
COASTAL, WORDS = ["BUL", "SPA", "STP"], of_category(0x48, 0x4A)


class Traffic:
    """The messages of one seed, built from the names of their tokens."""

    def __init__(self, seed):
        self.random = random.Random(seed)

    def one(self, *choices):
        return self.random.choice(choices)

    def some(self, most, what):
        return " ".join(what() for _ in range(self.random.randint(1, most)))

    def power(self):
        return self.random.choice(POWERS)

    def province(self):
        return self.random.choice(PROVINCES)

    def powers(self, most=4):
        return self.some(most, self.power)

    def place(self):
        if self.random.random() < 0.1:
            return f"( {self.random.choice(COASTAL)} {self.random.choice(COASTS)} )"
        return self.province()

    def unit(self):
        return f"{self.power()} {self.one('AMY', 'FLT')} {self.place()}"

    def turn(self):
        return f"{self.random.choice(SEASONS)} {self.random.randint(1901, 1920)}"

    def text(self, most=12):
        return " ".join(f"'{self.random.choice('abcdefghijklmnop.')}'" for _ in range(self.random.randint(0, most)))

    def order(self):
        unit = f"( {self.unit()} )"
        return self.one(
            f"{unit} HLD",
            f"{unit} MTO {self.place()}",
            f"{unit} MTO {self.place()}",
            f"{unit} SUP ( {self.unit()} )",
            f"{unit} SUP ( {self.unit()} ) MTO {self.province()}",
            f"{unit} CVY ( {self.unit()} ) CTO {self.province()}",
            f"{unit} CTO {self.province()} VIA ( {self.some(3, self.province)} )",
            f"{unit} RTO {self.place()}",
            f"{unit} DSB",
            f"{self.power()} WVE",
        )

    def arrangement(self, depth):
        deeper = []
        if depth > 0:
            joined = " ".join(f"( {self.arrangement(depth - 1)} )" for _ in range(self.random.randint(2, 3)))
            deeper = [f"AND {joined}", f"ORR {joined}", f"NOT ( {self.arrangement(depth - 1)} )"]
        return self.one(
            f"PCE ( {self.powers()} )",
            f"ALY ( {self.powers()} ) VSS ( {self.powers()} )",
            f"DRW ( {self.powers()} )",
            f"SLO ( {self.power()} )",
            f"XDO ( {self.order()} )",
            f"XDO ( {self.order()} )",
            f"DMZ ( {self.powers()} ) ( {self.some(4, self.province)} )",
            f"SCD ( {self.power()} {self.some(4, self.province)} )",
            f"OCC ( {self.unit()} ) ( {self.unit()} )",
            *deeper,
        )

    def press(self, depth=2):
        return self.one(
            f"PRP ( {self.arrangement(depth)} )",
            f"PRP ( {self.arrangement(depth)} )",
            f"FCT ( {self.arrangement(depth)} )",
            f"FCT ( QRY ( {self.arrangement(depth)} ) )",
            f"YES ( PRP ( {self.arrangement(depth)} ) )",
            f"REJ ( PRP ( {self.arrangement(depth)} ) )",
            f"BWX ( PRP ( {self.arrangement(1)} ) )",
            f"INS ( {self.arrangement(depth)} )",
            f"SUG ( {self.arrangement(depth)} )",
            f"THK ( {self.arrangement(depth)} )",
            f"IDK ( QRY ( {self.arrangement(1)} ) )",
            f"TRY ( {self.some(6, lambda: self.random.choice(WORDS))} )",
            f"HUH ( ERR PRP ( {self.arrangement(1)} ) )",
        )

    def stands(self):
        return " ".join(f"( {self.stand()} )" for _ in range(self.random.randint(5, 34)))

    def stand(self):
        retreats = f" MRT ( {self.some(3, self.place)} )" if self.random.random() < 0.05 else ""
        return self.unit() + retreats

    def map_definition(self):
        centres = " ".join(f"( {power} {self.some(4, self.province)} )" for power in POWERS)
        borders = " ".join(
            f"( {self.province()} ( AMY {self.some(6, self.province)} ) ( FLT {self.some(5, self.place)} ) )"
            for _ in range(self.random.randint(10, 40))
        )
        owned = f"( {centres} ( UNO {self.some(9, self.province)} ) ) ( {self.some(30, self.province)} )"
        return f"MDF ( {' '.join(POWERS)} ) ( {owned} ) ( {borders} )"

    def client(self):
        kind = self.random.random()
        if kind < 0.30:
            return f"SUB {self.some(8, lambda: '( ' + self.order() + ' )')}"
        if kind < 0.75:
            turn = f"( {self.turn()} ) " if self.random.random() < 0.3 else ""
            return f"SND {turn}( {self.powers()} ) ( {self.press()} )"
        return self.one(
            f"NME ( {self.text()} ) ( {self.text()} )", "OBS", "HLO", "MAP", "MDF", "SCO", "NOW", "ORD", "MIS", "GOF",
            f"HST ( {self.turn()} )", f"TME ( {self.random.randint(1, 600)} )", "DRW", "NOT ( GOF )",
            f"YES ( MAP ( {self.text()} ) )", f"HUH ( ERR {self.one('WIN', 'GOF', 'SUB ( )')} )",
            f"ADM ( {self.text()} ) ( {self.text(30)} )", f"IAM ( {self.power()} ) ( {self.random.randint(0, 8000)} )",
        )

    def server(self):
        kind = self.random.random()
        if kind < 0.14:
            return f"NOW ( {self.turn()} ) {self.stands()}"
        if kind < 0.22:
            owned = " ".join(f"( {power} {self.some(8, self.province)} )" for power in POWERS)
            return f"SCO {owned} ( UNO {self.some(5, self.province)} )"
        if kind < 0.24:
            return self.map_definition()
        if kind < 0.45:
            outcome = self.random.choice(OUTCOMES)
            return f"ORD ( {self.turn()} ) ( {self.order()} ) ( {outcome} )"
        if kind < 0.60:
            return f"THX ( {self.order()} ) ( {self.random.choice(NOTES)} )"
        if kind < 0.85:
            return f"FRM ( {self.power()} ) ( {self.powers()} ) ( {self.press()} )"
        return self.one(
            f"MAP ( {self.text()} )", f"TME ( {self.random.randint(1, 600)} )", f"CCD ( {self.power()} )", "OFF",
            f"HLO ( {self.power()} ) ( {self.random.randint(0, 8000)} ) ( ( LVL 60 ) ( MTL 180 ) ( DSD ) )",
            f"MIS {self.stands()}", f"YES ( NME ( {self.text()} ) ( {self.text()} ) )", f"OUT ( {self.power()} )",
            f"YES ( SND ( {self.powers()} ) ( {self.press()} ) )", f"SLO ( {self.power()} )",
        )

    def tokens(self, side):
        words = (self.client() if side == 0 else self.server()).split()
        tokens = [self.code(word) for word in words]
        if self.random.randrange(30) == 0:
            place = self.random.randrange(len(tokens))
            tokens[place : place + 1] = self.one([], [tokens[place]] * 2, [self.random.choice(list(NAMES.values()))])
        return tokens

    @staticmethod
    def code(word):
        if word.startswith("'"):
            return 0x4B00 | ord(word[1])
        return int(word) if word.isdigit() else NAMES[word]


def main():
    wanted, seed = int(sys.argv[1]), int(sys.argv[2])
    traffic, written, messages = Traffic(seed), 0, 0
    while written < wanted:
        side = messages % 2
        tokens = traffic.tokens(side)
        body = b"".join(token.to_bytes(2, "big") for token in tokens)
        sys.stdout.buffer.write(bytes([side]) + len(body).to_bytes(2, "big") + body)
        written, messages = written + len(tokens), messages + 1
    print(f"{messages} messages, {written} tokens", file=sys.stderr)


if __name__ == "__main__":
    main()
