"""Wrong ideas of the report of a district (Wish 9), as changes of the model."""

from tests.model import district


def reported(changed):
    """The report changed, given the answers."""
    return [(district, 'report', lambda answers, right=district.report: changed(answers, right(answers)))]


def with_cell(cell, more):
    """Some cells more in one."""
    return lambda answers, report: report._replace(cells=(*report.cells[:cell], report.cells[cell] + more(answers), *report.cells[cell + 1:]))


def refused_in(answers):
    """How many are refused."""
    return sum(each.row.number > 0 for each in answers)


def in_order(*names):
    """The shear that governs, ties going to the names in their order."""
    return [(district, 'governing', lambda row: next(name for name in names if getattr(row, name) == row.V_D))]


ERRORS = {
    'ties going to V*, then V_M': in_order('V_star', 'V_M', 'V'), 'a tie of V and V_M going to V_M': in_order('V_M', 'V', 'V_star'),
    'a tie of V and V* going to V*': in_order('V_star', 'V', 'V_M'), 'a tie of V_M and V* going to V*': in_order('V', 'V_star', 'V_M'),
    'the lower edge of a cell in the cell below': [(district, 'cell_of', lambda V_D, W: (district.thousandths(V_D, W) - 1) // district.CELL)],
    'V_D over W rounded up': [(district, 'thousandths', lambda V_D, W: -(-V_D // W))],
    'V_D over W to the nearest thousandth': [(district, 'thousandths', lambda V_D, W: (2 * V_D + W) // (2 * W))],
    'the last cell the 112th': [(district, 'cell_of', lambda V_D, W: min(district.thousandths(V_D, W) // district.CELL, district.CELLS - 2))],
    'refused jobs in cell 0': reported(with_cell(0, refused_in)),
    'refused jobs counted for V': reported(lambda answers, report: report._replace(by_V=report.by_V + refused_in(answers))),
    'refused jobs counted as accepted too': reported(lambda answers, report: report._replace(accepted=len(answers))),
    'the sum of V': reported(lambda answers, report: report._replace(total=sum(row.V for row, _ in answers))),
    'the largest V_D in place of the sum': reported(lambda answers, report: report._replace(total=max((row.V_D for row, _ in answers), default=0))),
    'the sum in 32 bits': reported(lambda answers, report: report._replace(total=report.total % 2**32)),
    'a sum of all three shears': reported(lambda answers, report: report._replace(total=sum(row.V + row.V_M + row.V_star for row, _ in answers))),
}
