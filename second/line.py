"""Above the line or not (request W8): yes or no, and how many herds were added up."""

from arithmetic import CUTS
from farmfile import COMMA, RECORD_END
from model import figures
from totals import totals

# The line is any number of 64 bits.
HIGHEST_LINE = 2**64 - 1


def livestock(worked):
    return totals(worked)["nh3_nlivestock"]


def above(worked, line):
    """Whether the total passes the line, and the number of herds in the shortest beginning of which it does, or all."""
    for count in range(len(worked) + 1):
        if livestock(worked[:count]) > line:
            return True, count
    return False, len(worked)


def line_of(herds, line):
    """What is printed for a farm."""
    passed, count = above([figures(herd, CUTS) for herd in herds], line)
    return COMMA.join(("yes" if passed else "no", str(count))) + RECORD_END


def in_words(printed, line):
    """The same in words, from what is printed."""
    verdict, count = printed.decode("ascii").removesuffix(RECORD_END).split(COMMA)
    herds = "1 herd" if count == "1" else f"{count} herds"
    return f"{'above' if verdict == 'yes' else 'not above'} {line} g of NH3-N a year: {herds} added up"
