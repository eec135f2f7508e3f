"""Where the examples are that the pictures show."""

import pathlib

ROOT = pathlib.Path(__file__).resolve().parents[3]
SHEET, LISTING = ROOT / 'examples' / 'office.sheet', ROOT / 'examples' / 'office.listing'
NEAR_FAULT = ROOT / 'examples' / 'near_fault.sheet'
LIGHT_FRAME = ROOT / 'examples' / 'light_frame.sheet'
