"""Runs ./district on files of sheets and compares what it prints with the model: the stored file, files with many sheets, and files of every stratum
in turn; then says how many of the files show each wrong idea of tests/compares/wrong_sheets.py.

usage: python3 -m tests.compares.run_district [FILES [SEED]]
"""

import random
import subprocess
import sys

from tests.compares import wrong_sheets
from tests.compares.core import ROOT
from tests.compares.wrong_models import unseen
from tests.model import sheets
from tests.writes.district_sheets import file_of_sheets

FILES, SEED, SECONDS = 120, 1, 600


def run(data):
    """What the program prints for a file; what is to be built is built first."""
    return subprocess.run([ROOT / 'district'], input=data, stdout=subprocess.PIPE, stderr=subprocess.DEVNULL, timeout=SECONDS, check=False).stdout


def modelled(data):
    """What the model prints."""
    return sheets.listing(data)


def main(count=FILES, seed=SEED):
    """Run and compare all; 1 where one differs, or where a wrong idea is shown by none."""
    files = [file_of_sheets(), *wrong_sheets.drawn(random.Random(seed), count)]
    printed = [run(data) for data in files]
    wrong = [(data, got) for data, got in zip(files, printed) if got != modelled(data)]
    for data, got in wrong:
        print(f'DIFFERS on {len(data)} bytes that begin with {data[:200]}: {got[:300]}, wanted {modelled(data)[:300]}')
    print(f'{len(files)} files, {len(wrong)} differences')
    return 1 if wrong or unseen([(data,) for data in files], printed, modelled, 'files', wrong_sheets.ERRORS) else 0


if __name__ == '__main__':
    sys.exit(main(*(int(word) for word in sys.argv[1:])))
