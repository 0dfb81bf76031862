"""Mates of two men, and of a lone pawn: Stockfish's word beside the oracle's depth.

usage: stockfish.py ENGINE ORACLE SECONDS

A position is drawn from each ending's table by a fixed sequence. Stockfish is asked for a mate in
as many moves as the table says. It agrees if it finds one of that length; a shorter one is a
difference; a longer one, or none in time, proves nothing and is only counted.
"""

import subprocess
import sys

MEN = "QRBN"
PAIRS = [(first, second) for first in MEN for second in MEN if MEN.index(first) <= MEN.index(second)]
ENDINGS = [f"K{a}{b}K" for a, b in PAIRS] + [f"K{a}K{b}" for a, b in PAIRS]

# Depths in plies that a search reaches: wins and losses of the side to move.
WINS = range(3, 12, 2)
LOSSES = range(2, 9, 2)
EACH = 2
# The pawn's ending is one table, so that more is drawn from it.
EACH_PAWN = 12


def sequence(seed):
    """A linear congruential sequence: the same numbers on every machine."""
    while True:
        seed = (seed * 6364136223846793005 + 1442695040888963407) % 2**64
        yield seed >> 33


def drawn(table, seed, each=EACH):
    """So many numbers with a win and as many with a loss, as pairs of number and depth."""
    found = []
    for depths in (WINS, LOSSES):
        numbers = [n for n, byte in enumerate(table) if byte - 2 in depths]
        draws = sequence(seed)
        for _ in range(each if numbers else 0):
            number = numbers[next(draws) % len(numbers)]
            found.append((number, table[number] - 2))
    return found


def squares_of(oracle, ending, numbers):
    """Side, kings, first and second man's square of each number."""
    one_each = int(ending[2] == "K")
    first, second = ending[1], ending[3] if one_each else ending[2]
    codes = f"{MEN.index(first)} {MEN.index(second)} {one_each}"
    lines = "".join(f"{codes} {number}\n" for number in numbers)
    answer = subprocess.run([oracle, "four-back"], input=lines, capture_output=True, text=True, check=True)
    men = [first, second.lower() if one_each else second]
    return [(men, [int(word) for word in line.split()]) for line in answer.stdout.splitlines()]


def pawn_squares_of(oracle, numbers):
    """The same of the pawn's numbers; every other position has Black's pawn."""
    lines = "".join(f"{number}\n" for number in numbers)
    answer = subprocess.run([oracle, "pawn-back"], input=lines, capture_output=True, text=True, check=True)
    found = []
    for place, line in enumerate(answer.stdout.splitlines()):
        side, white, pawn, black = [int(word) for word in line.split()]
        if place % 2:
            # Colours exchanged, ranks turned.
            found.append((["p"], [1 - side, black ^ 56, white ^ 56, pawn ^ 56]))
        else:
            found.append((["P"], [side, white, black, pawn]))
    return found


def fen(men, squares):
    """A position in Forsyth-Edwards notation."""
    side, white, black, *places = squares
    board = {white: "K", black: "k", **dict(zip(places, men))}
    ranks = []
    for rank in range(7, -1, -1):
        text = "".join(board.get(8 * rank + file, ".") for file in range(8))
        for run in range(8, 0, -1):
            text = text.replace("." * run, str(run))
        ranks.append(text)
    return "/".join(ranks) + f" {'wb'[side]} - - 0 1"


class Engine:
    """Stockfish on a pipe, one thread, no tables."""

    def __init__(self, path):
        self.process = subprocess.Popen([path], stdin=subprocess.PIPE, stdout=subprocess.PIPE, text=True)
        self.say("uci")
        self.until("uciok")

    def say(self, line):
        self.process.stdin.write(line + "\n")
        self.process.stdin.flush()

    def until(self, word):
        lines = []
        while not lines or not lines[-1].startswith(word):
            lines.append(self.process.stdout.readline())
            if not lines[-1]:
                raise SystemExit("stockfish.py: the engine has ended")
        return lines

    def mate(self, position, moves, seconds):
        """The moves to mate that it finds, negative where the side to move is mated; or none."""
        self.say("ucinewgame")
        self.say(f"position fen {position}")
        self.say(f"go mate {moves} movetime {seconds * 1000}")
        scores = [line.split() for line in self.until("bestmove") if " score " in line]
        exact = [words for words in scores if "lowerbound" not in words and "upperbound" not in words]
        last = exact[-1] if exact else []
        return int(last[last.index("mate") + 1]) if "mate" in last else None


def judged(due, found):
    """Agreed, unproved or different."""
    if found == due:
        return "agreed"
    if found is None or (found > 0) == (due > 0) and abs(found) > abs(due):
        return "unproved"
    return "different"


def samples(oracle):
    """Each ending's name with the depths and positions drawn from its table."""
    for seed, ending in enumerate(ENDINGS):
        table = subprocess.run([oracle, "four-table", ending], capture_output=True, check=True).stdout
        chosen = drawn(table, seed)
        yield ending, chosen, squares_of(oracle, ending, [number for number, _ in chosen])
    table = subprocess.run([oracle, "pawn-table"], capture_output=True, check=True).stdout
    chosen = drawn(table, len(ENDINGS), EACH_PAWN)
    yield "KPK", chosen, pawn_squares_of(oracle, [number for number, _ in chosen])


def main():
    path, oracle, seconds = sys.argv[1], sys.argv[2], int(sys.argv[3])
    engine = Engine(path)
    counts = {"agreed": 0, "unproved": 0, "different": 0}
    for ending, chosen, positions in samples(oracle):
        for (_, depth), (men, squares) in zip(chosen, positions):
            # Odd depths are wins; in the winner's moves that is (n + 1) / 2, rounded down.
            due = (depth + 1) // 2 * (1 if depth % 2 else -1)
            position = fen(men, squares)
            found = engine.mate(position, abs(due), seconds)
            verdict = judged(due, found)
            counts[verdict] += 1
            print(f"{ending} {position}: oracle {due}, Stockfish {found}: {verdict}", flush=True)
    engine.say("quit")
    print(", ".join(f"{count} {verdict}" for verdict, count in counts.items()))
    sys.exit(counts["different"] > 0)


if __name__ == "__main__":
    main()
