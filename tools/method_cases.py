#!/usr/bin/env python3
"""Works out, from the rules of the two counting methods, what the program method_cases must print.

    python3 tools/method_cases.py > crates/method_cases/stdout

It shares no code with the library: the rules are written here a second time, over plain lists.
"""


class Refused(Exception):
    """A refusal, by its number."""


class Method:
    """What both methods ask before anything else."""

    def __init__(self):
        self.n = 0

    def begin(self, n, w):
        if not (1 <= n <= 64 and 0 <= w <= 8192):
            raise Refused(23)
        if self.outstanding() != 0:
            raise Refused(24)
        return self.start(n, w)

    def arrived(self, station):
        if not station < self.n:
            raise Refused(25)
        if self.outstanding() == 0:
            raise Refused(26)
        return self.hear(station)


class Box(Method):
    left = 0

    def outstanding(self):
        return self.left

    def start(self, n, w):
        self.n, self.left = n, w
        return 0

    def hear(self, station):
        self.left -= 1
        return 1 if station > 0 else 0


class Tree(Method):
    limit = 0
    tokens = ()

    def outstanding(self):
        return sum(self.tokens)

    def start(self, n, w):
        self.n = n
        self.deal(w)
        return n - 1 if w > 0 else 0

    def deal(self, total):
        each, more = divmod(total, self.n)
        self.tokens = [each + 1] * more + [each] * (self.n - more)
        self.limit = -(-total // self.n)

    def green(self, station):
        return 2 * self.tokens[station] > self.limit

    def hear(self, station):
        if self.tokens[station] > 0:
            was_green = self.green(station)
            self.tokens[station] -= 1
            if was_green and not self.green(station):
                return self.went_yellow(station)
            return 0
        edges, giver = 0, station
        while edges == 0 or not self.green(giver):
            giver = (giver - 1) // 2
            edges += 1
        both = self.tokens[giver]
        self.tokens[station] = both - both // 2
        self.tokens[giver] = both // 2
        self.tokens[station] -= 1
        return edges + 1 + self.went_yellow(giver)

    def went_yellow(self, station):
        """Offers go down until a station finds no green child; only the root then resets."""
        sent, at = 0, station
        while True:
            taker = None
            for child in (2 * at + 1, 2 * at + 2):
                if child < self.n:
                    sent += 2
                    if self.green(child):
                        taker = child
                        break
            if taker is None:
                break
            self.tokens[at], self.tokens[taker] = self.tokens[taker], self.tokens[at]
            at = taker
        if at == 0:
            rest = sum(self.tokens)
            self.deal(rest)
            sent += (3 if rest > 0 else 2) * (self.n - 1)
        return sent


PATTERNS = {
    "root": lambda n, k: 0,
    "last": lambda n, k: n - 1,
    "middle": lambda n, k: n // 2,
    "leaves": lambda n, k: n // 2 + k % (n - n // 2),
    "rotation": lambda n, k: k % n,
    "scattered": lambda n, k: (37 * k + 11) % n,
}

TRACES = [
    (3, 5, [2, 2, 1, 1, 0]),
    (4, 1, [3]),
    (4, 2, [0, 3]),
    (3, 7, [1, 1, 1, 0, 2, 2, 2]),
    (5, 0, [0]),
    (1, 3, [0, 0, 0]),
    (2, 4, [1, 1, 1, 1]),
    (7, 10, [6] * 10),
    (7, 28, [0, 0, 0, 4, 4, 4, 4, 4, 1, 0, 0, 5]),
    (12, 30, [11, 10, 9, 8, 7, 11, 11, 0, 0, 0, 3, 3, 3, 5, 5, 5, 1, 1, 1, 1]),
    (64, 2, [63, 63]),
]


def attempt(call, *args):
    try:
        return "ok %d" % call(*args)
    except Refused as refused:
        return "no %d 0 0" % refused.args[0]


def trace(n, w, stations):
    def tokens():
        each = ["%d %s" % (r, "green" if tree.green(i) else "yellow") for i, r in enumerate(tree.tokens)]
        return "left %d, tokens %s" % (tree.outstanding(), " ".join(each))

    tree = Tree()
    print("trace begin %d %d: %d, %s" % (n, w, tree.begin(n, w), tokens()))
    for station in stations:
        try:
            answer = str(tree.arrived(station))
        except Refused:
            answer = "refused"
        print("  at %d: %s, %s" % (station, answer, tokens()))


def refusals(word, method):
    def begin(n, w):
        answer = attempt(method.begin, n, w)
        print("%s begin %d %d: %s, left %d" % (word, n, w, answer, method.outstanding()))

    def arrived(station):
        answer = attempt(method.arrived, station)
        print("%s arrived %d: %s, left %d" % (word, station, answer, method.outstanding()))

    arrived(0)
    for n, w in [(0, 5), (65, 5), (3, -1), (3, 8193), (0, -1), (3, 2)]:
        begin(n, w)
    for n, w in [(3, 5), (3, 0), (0, 5), (65, 0)]:
        begin(n, w)
    for station in [3, 64, 2, 3, 1, 0, 3, 0]:
        arrived(station)
    for n, w in [(64, 0), (64, 8192), (1, 1)]:
        begin(n, w)
    arrived(64)


def run(word, method, n, w, pattern):
    begun = method.begin(n, w)
    total = most = check = 0
    for k in range(w):
        sent = method.arrived(PATTERNS[pattern](n, k))
        total += sent
        most = max(most, sent)
        check = (check * 31 + sent) % 1000003
    print("%s n %d w %d %s: begin %d arrivals %d most %d check %d left %d"
          % (word, n, w, pattern, begun, total, most, check, method.outstanding()))


def main():
    for case in TRACES:
        trace(*case)
    refusals("box", Box())
    refusals("tree", Tree())
    for n in [1, 2, 3, 4, 5, 7, 8, 15, 31, 63, 64]:
        for word, kind in (("box", Box), ("tree", Tree)):
            for w in [0, 1, n - 1, n, n + 1, 5 * n + 3, 8192]:
                for pattern in PATTERNS:
                    run(word, kind(), n, w, pattern)


if __name__ == "__main__":
    main()
