"""Builds and runs the examples as their heads say, and tries what the Python module refuses.

usage: python3 -m tests.examples

It needs `rt`, `cc`, `c++` and x86-64. RUKESHOMAJI_LIBRARY names a shared library of the core to use in place of the one that examples/build.sh
makes: one for another machine, with which `rt` is not needed.
"""

import platform
import subprocess
import sys

from tests.examples.module import module, run_module
from tests.examples.places import EXAMPLES, GIVEN, ROOT
from tests.examples.programs import run_programs


def main():
    """Try all, say how each went; 1 where one is wrong."""
    if not GIVEN and platform.machine() not in ('x86_64', 'AMD64'):
        sys.exit(f'This needs an x86-64 machine, for which the core is compiled, or RUKESHOMAJI_LIBRARY; this one is {platform.machine()}.')
    (ROOT / 'target' / 'lib').mkdir(parents=True, exist_ok=True)
    if not GIVEN:
        subprocess.run([EXAMPLES / 'build.sh'], check=True, stdout=subprocess.DEVNULL)
    tried = wrong = 0
    for results in (run_programs(), run_module(module())):
        for name, right in results:
            tried += 1
            if not right:
                wrong += 1
                print('WRONG', name)
    print(f'{tried} tried, {wrong} wrong')
    return 1 if wrong else 0


if __name__ == '__main__':
    sys.exit(main())
