"""Units of time and of rates. Every number is exact: an integer or a fraction, never a float."""
import fractions
import re

from zovatsemo_look.guard import LookError

NANOSECONDS = {"ns": 1, "us": 10 ** 3, "ms": 10 ** 6, "s": 10 ** 9}
TIMES = {**NANOSECONDS, "µs": 10 ** 3, "μs": 10 ** 3}  # the two letters that look alike
EVENTS = "events"
AUTO = "auto"
BITS = {"bit": 1, "kbit": 10 ** 3, "mbit": 10 ** 6, "gbit": 10 ** 9, "tbit": 10 ** 12,
        "b": 8, "kb": 8 * 10 ** 3, "mb": 8 * 10 ** 6, "gb": 8 * 10 ** 9, "tb": 8 * 10 ** 12}
BIT_NAMES = ((10 ** 12, "Tbit/s"), (10 ** 9, "Gbit/s"), (10 ** 6, "Mbit/s"), (10 ** 3, "kbit/s"), (1, "bit/s"))
MOST_RATE = 10 ** 12  # bytes a second, as `link` takes it
AMOUNT = re.compile(r"([0-9]{1,30}(?:\.[0-9]{1,30})?) ?([A-Za-zµμ%/]*)")


def amount(text):
    """The number and the unit of a text such as `2ms` or `30 %`; None if it is malformed."""
    found = AMOUNT.fullmatch(text.strip())
    return (fractions.Fraction(found.group(1)), found.group(2)) if found else None


def bits_of(unit):
    """How many bits a second a unit of a rate is; None if there is no such unit. `B` is a byte and `bit` a bit."""
    word = unit[:-2] if unit.endswith("/s") else unit
    if word.lower().endswith("bit"):
        return BITS[word.lower()] if word.lower() in BITS else None
    return BITS.get(word.lower()) if word.endswith("B") else None


def rate_of(text):
    """The bytes a second of a rate such as `10Mbit`, `1.25MB/s` or `1250000`, which is in bytes a second."""
    found = amount(text)
    per_unit = found and (bits_of(found[1]) if found[1] else 8)
    if not per_unit:
        raise LookError("%s is no rate; a rate is a number of bytes a second, or a number with kbit, Mbit, Gbit, Tbit, "
                        "kB, MB or GB" % ascii(text))
    rate = found[0] * per_unit / 8
    if rate.denominator != 1 or not 1 <= rate <= MOST_RATE:
        raise LookError("%s: a rate is a whole number of bytes a second, from 1 to %s" % (
            ascii(text), format(MOST_RATE, ",")))
    return int(rate)


def rate_name(rate):
    """A rate in bytes a second, as a network engineer writes it."""
    size, name = next((size, name) for size, name in BIT_NAMES if 8 * rate >= size)
    value = fractions.Fraction(8 * rate, size)
    if (1000 * value).denominator != 1:
        return "%s bytes/s" % format(rate, ",")
    return "%s %s" % (decimal(value, 3).rstrip("0").rstrip("."), name)


def decimal(value, digits):
    """A fraction with so many digits after the point, rounded half up, with thousands separated."""
    scaled = (2 * value * 10 ** digits + 1) // 2
    whole, rest = divmod(int(scaled), 10 ** digits)
    return format(whole, ",") + (".%0*d" % (digits, rest) if digits else "")


def digits_of(value, divisor):
    """How many digits after the point a multiple of 1/divisor needs."""
    digits, rest = 0, value % divisor
    while rest:
        digits, rest = digits + 1, rest * 10 % divisor
    return digits


class DelayUnit:
    """A unit of delays: its name, and how many nanoseconds or events it has."""

    def __init__(self, name, divisor=1):
        self.name, self.divisor = name, divisor

    def texts(self, values, most=None):
        """Texts of one column, all with the same number of digits after the point: as many as they need, or at most so
        many. None stays."""
        digits = max((digits_of(value, self.divisor) for value in values if value is not None), default=0)
        digits = digits if most is None else min(digits, most)
        return [None if value is None else decimal(fractions.Fraction(value, self.divisor), digits) for value in values]

    def text(self, value):
        """One value with its unit, exactly."""
        return "%s %s" % (self.texts([value])[0], self.name if value != 1 or self.name != EVENTS else "event")


def delay_unit(asked, is_time, value):
    """The unit to show delays in: the one that is asked for, or the largest in which a value is 1 or more."""
    if not is_time:
        if asked not in (None, AUTO):
            raise LookError("--unit %s: the delays are in events, because the departures have no start times or no "
                            "capture is given" % asked)
        return DelayUnit(EVENTS)
    if asked in NANOSECONDS:
        return DelayUnit(asked, NANOSECONDS[asked])
    name = next((name for name in ("s", "ms", "us") if value >= NANOSECONDS[name]), "ns")
    return DelayUnit(name, NANOSECONDS[name])
