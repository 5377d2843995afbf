"""The table for other programs: comma-separated values, and JSON. Counts and nanoseconds are exact integers."""
import csv
import io
import json

from zovatsemo_look import measures, table, units
from zovatsemo_look.study import LETTERS, common_unit

HEADS = ("run", "input", "rate_bytes_per_second", "leaf", *table.COUNTS, "bytes", "share_percent",
         "throughput_bits_per_second", "delay_unit", *(head for head, _ in table.DELAYS), *table.LAST)


def exact_unit(studies, asked):
    """The unit of delays: nanoseconds or events, unless one is asked for."""
    return common_unit(studies, asked) if asked else units.DelayUnit("ns" if studies[0].is_time else units.EVENTS)


def rounded(value, digits):
    """A fraction as a decimal without separators; None stays."""
    return None if value is None else units.decimal(value, digits).replace(",", "")


def plain(text):
    """The number in an exact text."""
    return None if text is None else text.replace(",", "")


def values_of(numbers, unit):
    """The values of a leaf, by the heads of their columns."""
    found = {head: getattr(numbers, head) for head in (*table.COUNTS, "bytes", *table.LAST)}
    found["share_percent"] = rounded(None if numbers.share is None else numbers.share * 100, 6)
    found["throughput_bits_per_second"] = rounded(numbers.throughput, 3)
    found["delay_unit"] = unit.name
    for head, percent in table.DELAYS:
        found[head] = plain(unit.texts([numbers.percentile(percent)])[0])
    return found


def records(studies, chosen, unit):
    """A record for each run, rate and leaf that the run has, and for all leaves."""
    for study in studies:
        for which, name in enumerate(study.names):
            for leaf, row in study.rows(chosen):
                if row[which] is not None:
                    yield {"run": LETTERS[which], "input": name, "rate_bytes_per_second": study.rate, "leaf": leaf,
                           **values_of(row[which], unit)}


def csv_of(studies, chosen, unit):
    """The table as comma-separated values, with a line of heads."""
    out = io.StringIO()
    writer = csv.DictWriter(out, HEADS, lineterminator="\n")
    writer.writeheader()
    writer.writerows(records(studies, chosen, unit))
    return out.getvalue()


def as_number(text):
    """A decimal text as a number of JSON: an integer if it is one."""
    if text is None or isinstance(text, int):
        return text
    return float(text) if "." in text else int(text)


def run_of(study, which, chosen, unit):
    """One run as an object: what the report says of it, and its leaves."""
    run = study.runs[which]
    leaves = [{"leaf": leaf, **{key: value if key == "delay_unit" else as_number(value)
                                for key, value in values_of(row[which], unit).items()}}
              for leaf, row in study.rows(chosen) if row[which] is not None]
    return {"run": LETTERS[which], "input": study.names[which], "rate_bytes_per_second": study.rate,
            "events": run.events, "empty_departures": run.empty, "unsent": run.unsent, "spills": run.spills,
            "taps": list(run.taps.values()), "error": measures.fault_of(run, study.names[which]),
            "leaves": leaves[:-1], "all": leaves[-1]}


def json_of(studies, chosen, unit, verdict):
    """The table as JSON, with the verdict on the assertions."""
    found = {"runs": [run_of(study, which, chosen, unit) for study in studies for which in range(len(study.runs))],
             "assertions": [result.as_object() for result in verdict or ()]}
    return json.dumps(found, indent=1, ensure_ascii=True) + "\n"
