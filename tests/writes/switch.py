"""Prints what the program `run_switch` must write, by a fresh run of the model for each class.

usage: python3 -m tests.writes.switch > crates/run_switch/stdout
"""

from tests.model.job import job

SITE, FRAME, WEIGHT, HEIGHT = (70, 40, 90, 50, 112, 123), (2, 700, 480, 125, 150), 15_000, 300


def figures(number):
    """The figures of one class, separated by tabs."""
    result = job((*SITE, number), FRAME, [WEIGHT], [HEIGHT])
    return '\t'.join(map(str, (result.V, result.V_M, result.V_star, result.V_D, result.T)))


if __name__ == '__main__':
    for each in (2, 3, 2):
        print(f'class {each}\t{figures(each)}')
    print('first and third: the same')
