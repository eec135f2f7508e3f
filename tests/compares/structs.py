"""The structs of include/rukeshomaji.h, all of u64, and the types of its numbers."""

import ctypes

from tests.model import district

U64, I64 = ctypes.c_uint64, ctypes.c_int64


def fields(names):
    """The fields of a struct of u64."""
    return [(name, U64) for name in names.split()]


class Site(ctypes.Structure):
    """RukeshomajiSite"""

    _fields_ = fields('ssd s1d ssm s1m na nv nam nvm cls')


class Frame(ctypes.Structure):
    """RukeshomajiFrame"""

    _fields_ = fields('kind calculated r i alpha')


class Figures(ctypes.Structure):
    """RukeshomajiFigures"""

    _fields_ = fields('place v vm star vd t')


class SiteClass(ctypes.Structure):
    """RukeshomajiClass"""

    _fields_ = fields('place cls')


class Listing(ctypes.Structure):
    """RukeshomajiListing"""

    _fields_ = fields('place length')


class Torsion(ctypes.Structure):
    """RukeshomajiTorsion"""

    _fields_ = fields('place factor')


class DistrictJob(ctypes.Structure):
    """RukeshomajiDistrictJob"""

    _fields_ = [*fields('basin zone'), *Site._fields_, *Frame._fields_, *fields('start count')]


class Row(ctypes.Structure):
    """RukeshomajiRow"""

    _fields_ = [*fields('number'), *Figures._fields_]


class Report(ctypes.Structure):
    """RukeshomajiReport"""

    _fields_ = [*fields('accepted refused sum by_v by_vm by_star'), ('cells', U64 * district.CELLS)]
