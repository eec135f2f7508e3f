"""Where the examples are, and the library that they use."""

import os
import pathlib

ROOT = pathlib.Path(__file__).resolve().parents[2]
EXAMPLES = ROOT / 'examples'
GIVEN = os.environ.get('RUKESHOMAJI_LIBRARY')
