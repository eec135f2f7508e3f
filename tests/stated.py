"""Numerals of a text, and the sentences that hold them. A sentence is made from the model, the core or the header, or from a constant that says where it
comes from; a numeral that stands in none of the sentences of its text is held by nothing.
"""

import re

WORDS = 'two three four five six seven eight nine ten eleven twelve fourteen fifteen twenty thirty fifty hundred quarter half third tenth'
RAISED = '⁰¹²³⁴⁵⁶⁷⁸⁹⁻'
# a number in digits with what is raised behind it, a power of a name, or a number in words; not the digits of a name, as T0, S_1 or u64
NUMERAL = re.compile(rf'(?<![\w.])\d(?:[\d,.]*\d)?[{RAISED}]*|(?<=[A-Za-z])[{RAISED}]+|\b(?:{WORDS.replace(" ", "|")})(?:s|ths?)?\b', re.I)


def plain(text):
    """A text in one line, without what its links lead to and without the stars of a comment in C."""
    text = re.sub(r'\n \*(?!/)', '\n', re.sub(r'\]\([^)]*\)', ']', text))
    return ' '.join(text.split())


def numerals(text):
    """(place, numeral) of each numeral; 000, the code's text, is none."""
    return [(found.start(), found[0]) for found in NUMERAL.finditer(text) if found[0] != '000']


def held(name, text, sentences):
    """(holds, words) of each sentence that the text must have, and of each of its numerals, which must stand in one of them."""
    covered = set()
    for sentence in sentences:
        places = [found.start() for found in re.finditer(re.escape(sentence), text)]
        yield bool(places), f'{name}: does not say: {sentence}'
        for place in places:
            covered.update(range(place, place + len(sentence)))
    for place, numeral in numerals(text):
        near = text[max(0, place - 30):place + 30]
        yield covered.issuperset(range(place, place + len(numeral))), f'{name}: {numeral} is in no sentence that is held: .. {near} ..'


def runs(numbers, form='{}'):
    """Numbers in their order as text: three or more that follow each other as 'a to c'."""
    found = []
    for number in numbers:
        if found and number == found[-1][-1] + 1:
            found[-1].append(number)
        else:
            found.append([number])
    words = [f'{form.format(run[0])} to {form.format(run[-1])}' if len(run) > 2 else ', '.join(map(form.format, run)) for run in found]
    return ', '.join(words)


def releases(changelog):
    """What each version of CHANGELOG.md brought, newest first: {title: version}."""
    return {title: version for version, title in re.findall(r'^## (\d+\.\d+\.\d+): (.*)$', changelog, re.M)}
