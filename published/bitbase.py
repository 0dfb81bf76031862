"""King and pawn: Stockfish's own bitbase of wins beside the oracle's table.

usage: bitbase.py ENGINE ORACLE

Its classical evaluation of king and pawn against king is 0 where its bitbase has no win, and else a
known win. Every legal position of the ending is asked for; those with the side to move in check,
which it does not evaluate, are counted apart.
"""

import subprocess
import sys
import threading

def fen(side, white, black, pawn):
    """The position with these squares, a1 being 0."""
    men = {white: "K", black: "k", pawn: "P"}
    ranks = []
    for rank in range(7, -1, -1):
        text, blank = "", 0
        for file in range(8):
            man = men.get(8 * rank + file)
            if man is None:
                blank += 1
                continue
            text += (str(blank) if blank else "") + man
            blank = 0
        ranks.append(text + (str(blank) if blank else ""))
    return "/".join(ranks) + " " + "wb"[side] + " - - 0 1"


def squares(number):
    """What stands at a number (02, P12)."""
    slot = number // 4096 % 24
    return number // 4096 // 24, number // 64 % 64, number % 64, (slot // 4 + 1) * 8 + slot % 4


def main():
    engine, oracle = sys.argv[1:3]
    table = subprocess.run([oracle, "pawn-table"], capture_output=True, check=True).stdout
    asked = [n for n, byte in enumerate(table) if byte != 0]
    process = subprocess.Popen([engine], stdin=subprocess.PIPE, stdout=subprocess.PIPE, text=True)

    def ask():
        process.stdin.write("uci\nsetoption name Use NNUE value false\n")
        for number in asked:
            process.stdin.write(f"position fen {fen(*squares(number))}\neval\n")
        process.stdin.write("quit\n")
        process.stdin.close()

    threading.Thread(target=ask, daemon=True).start()
    told = (line for line in process.stdout if line.startswith("Final evaluation"))
    compared = checks = differ = wins = 0
    for number, line in zip(asked, told):
        if "none" in line:
            checks += 1
            continue
        byte, side = table[number], squares(number)[0]
        won = byte >= 3 and byte % 2 == 1 if side == 0 else byte >= 2 and byte % 2 == 0
        says = float(line.split()[2]) != 0.0
        compared += 1
        wins += won
        if says != won:
            differ += 1
            if differ <= 10:
                print(fen(*squares(number)), "table", byte, line.strip())
    left = len(asked) - compared - checks
    print(f"{compared} compared, {wins} of them won by the pawn's side, {checks} in check, {left} not answered, {differ} differ")
    sys.exit(differ != 0 or left != 0)


main()
