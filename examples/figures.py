"""The facetings of a square, from Python.

    ./library register && make
    PYTHONPATH=python python3 examples/figures.py
"""

from faceting_register import Refused, Register, job

SQUARE = [(0.0, 0.0), (1.0, 0.0), (1.0, 1.0), (0.0, 1.0)]
ROWS = [
    (0, 1, 2, 3), (0, 3, 2, 1), (1, 0, 3, 2), (1, 2, 3, 0),
    (3, 0, 1, 2), (3, 2, 1, 0), (2, 1, 0, 3), (2, 3, 0, 1),
]


def main():
    try:
        answer = Register().answer(job(SQUARE, ROWS))
    except Refused as refused:
        raise SystemExit(str(refused))
    print(f"figures: {len(answer.entries)}")
    for number, entry in enumerate(answer.entries):
        print(f"{number}: " + " ".join(f"{orbit}.{facet}" for orbit, facet in entry.parts))


main()
