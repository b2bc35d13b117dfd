"""The time of 4,096 vectors of a function, by 50 and by 200 tokens."""
import sys
from fastest import fastest, printed

ROUNDS, VECTORS = 200, 4096
program, room = sys.argv[1:]


def run(tokens, rounds):
    return fastest([program, f"{room}/{tokens}.lib", "FUNCTION", str(rounds)], 3)


def vectors(tokens):
    """Seconds for the 4,096 vectors, without what the program does once."""
    return (run(tokens, ROUNDS) - run(tokens, 0)) / ROUNDS


with open(f"{room}/bytes", "wb") as file:
    file.write(bytes(200 * VECTORS * ROUNDS))
print(printed([program, f"{room}/200.lib", "FUNCTION", "1"]))
few, many = vectors(50), vectors(200)
sha = fastest(["sha256sum", f"{room}/bytes"], 3) / ROUNDS
print(f"4,096 vectors of 200 tokens {many * 1000:.2f} ms, of 50 tokens {few * 1000:.2f} ms, ratio {many / few:.1f}")
print(f"sha256sum of as many bytes as tokens {sha * 1000:.2f} ms, ratio {many / sha:.2f}")
