"""The text of a leaf's answer."""

from model import ground
from model.refusals import method_refusal, standard_site_refusal
from model.tank_rules import hoop_head, standard_site_pressure
from vectors.leaf_points import HALF, PARTS

# --- Writing ------------------------------------------------------------------


def signed(neg, size):
    return -size if neg else size


def sign_and_size(number):
    return (1, -number) if number < 0 else (0, number)


def decimal(number):
    return str(number)


def yes_or_no(truth):
    return "yes" if truth else "no"


def in_parts(pounds):
    """A weight of a whole number of parts of a pound."""
    parts = PARTS * pounds
    assert parts.denominator == 1
    return parts.numerator


def halves(number):
    """Of 32 bits, but that the first one may be longer."""
    return " ".join(map(decimal, divmod(number, HALF)))


def hexadecimal(bits):
    return f"{bits:016x}"


def verdict_text(verdict):
    return ("holds " if verdict.holds else "short ") + hexadecimal(verdict.use)


def refusal_text(number, field):
    return f"refused {number} {field}"


def standard_site_text(speed):
    refusal = standard_site_refusal(speed)
    if refusal is not None:
        return refusal_text(*refusal)
    return decimal(standard_site_pressure(speed))


def hoop_head_text(method, h):
    refusal = method_refusal(method)
    return decimal(hoop_head(method, h)) if refusal is None else refusal_text(*refusal)


def ground_text(site_class, Ss, S1):
    refusal = ground.refusal_of(site_class, Ss, S1)
    if refusal is not None:
        return refusal_text(*refusal)
    return " ".join(map(decimal, ground.ground_motion(site_class, Ss, S1)))
