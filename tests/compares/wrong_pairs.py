"""Wrong ideas of two pairs of near-fault factors, as changes of the model, and the jobs that are to show them."""

from tests.compares.drawn_calls import mixed_calls
from tests.compares.tally import NEAR_FAULT
from tests.draws import pair_faults
from tests.draws.plain_jobs import draw_pairs
from tests.model import limits, site as sites


def mce_by_the_design_pair(site):
    """The first pair for V_M too."""
    return sites.A_and_B(site.SSM, site.S1M, site.NA, site.NV, site.cls)


def design_by_the_mce_pair(site):
    """The second pair for V too."""
    return sites.A_and_B(site.SSD, site.S1D, site.NAM, site.NVM, site.cls)


def with_exchanged(one, other, read=limits.ground_of):
    """What reads nine numbers, with two of them in each other's place."""
    def exchanged(numbers):
        """A site's two factors exchanged, the Basin as it is."""
        ground = read(numbers)
        return ground if isinstance(ground, limits.Basin) else ground._replace(**{one: getattr(ground, other), other: getattr(ground, one)})

    return exchanged


def places_3_and_4_exchanged(site, judged=limits.site_refusals):
    """N_A M refused at 4, N_V M at 3."""
    for number, place in judged(site):
        yield number, {3: 4, 4: 3}.get(place, place) if number == NEAR_FAULT else place


ERRORS = {
    'the design pair in V_M': [(sites, 'mce', mce_by_the_design_pair)],
    'the MCE pair in V': [(sites, 'design', design_by_the_mce_pair)],
    'the design pair left in V*': [(sites, 'star', sites.design)],
    'the MCE pair left in V*': [(sites, 'star', design_by_the_mce_pair)],
    'N_V M read before N_A M': [(limits, 'ground_of', with_exchanged('NAM', 'NVM'))],
    'N_A M read before N_V': [(limits, 'ground_of', with_exchanged('NAM', 'NV'))],
    'places 3 and 4 of 6 exchanged': [(limits, 'site_refusals', places_3_and_4_exchanged)],
}


def drawn(rng, count):
    """Jobs with two pairs."""
    return mixed_calls(rng, count, draw_pairs, pair_faults.random_call)
