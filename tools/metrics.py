"""Reads a node's answer to GET /metrics strictly, and knows what it must contain.

The format is Prometheus's text format 0.0.4. The reader takes counters, gauges and untyped metrics, only in the
spelling that a node writes: one space between words, no comma behind the last label, no timestamp."""
import dataclasses
import math
import re

NAME = re.compile(r"[a-zA-Z_:][a-zA-Z0-9_:]*")
LABEL = re.compile(r'([a-zA-Z_][a-zA-Z0-9_]*)="((?:[^"\\\n]|\\["\\n])*)"')
VALUE = re.compile(r"[+-]?(?:\d+(?:\.\d*)?|\.\d+)(?:[eE][+-]?\d+)?|[+-]Inf|NaN")
ESCAPES = {"\\\\": "\\", "\\n": "\n", '\\"': '"'}
KINDS = ("counter", "gauge", "untyped")

Labels = dict[str, str]
Samples = list[tuple[Labels, float]]


@dataclasses.dataclass
class Family:
    """A metric: its type, its description, and its values."""

    kind: str | None = None
    help: str | None = None
    samples: Samples = dataclasses.field(default_factory=list)


class Wrong(ValueError):
    """A line that breaks the format."""

    def __init__(self, number: int, what: str):
        super().__init__(f"line {number}: {what}")


def families(text: str) -> dict[str, Family]:
    """Returns all metrics of a text, in its order. Raises Wrong."""
    if text and not text.endswith("\n"):
        raise Wrong(text.count("\n") + 1, "the text doesn't end with a newline")
    found: dict[str, Family] = {}
    last = None
    for number, line in enumerate(text.split("\n")[:-1], 1):
        if not line or line.startswith("#") and not re.match(r"#\s*(HELP|TYPE)\b", line):
            continue
        name = read_note(number, line, found) if line.startswith("#") else read_sample(number, line, found)
        if name != last and last is not None and name in list(found)[:-1]:
            raise Wrong(number, f"{name} goes on outside its block")
        last = name
    for name, family in found.items():
        missing = "TYPE" if family.kind is None else "HELP" if family.help is None else "sample"
        if family.kind is None or family.help is None or not family.samples:
            raise Wrong(text.count("\n"), f"{name} has no {missing}")
    return found


def read_note(number: int, line: str, found: dict[str, Family]) -> str:
    """Reads a HELP or TYPE line, and returns the metric that it names."""
    words = re.fullmatch(r"# (HELP|TYPE) (\S+) (.+)", line)
    if not words or not NAME.fullmatch(words[2]):
        raise Wrong(number, f"not a HELP or TYPE line: {line}")
    what, name, text = words.groups()
    family = found.setdefault(name, Family())
    if family.samples:
        raise Wrong(number, f"{what} of {name} behind its samples")
    if (family.help if what == "HELP" else family.kind) is not None:
        raise Wrong(number, f"a second {what} of {name}")
    if what == "TYPE":
        if text not in KINDS:
            raise Wrong(number, f"{name} is {text}, and not one of {', '.join(KINDS)}")
        family.kind = text
    else:
        if re.sub(r"\\[\\n]", "", text).count("\\"):
            raise Wrong(number, f"an escape in the HELP of {name}")
        family.help = text
    return name


def read_sample(number: int, line: str, found: dict[str, Family]) -> str:
    """Reads a line with a value, and returns its metric."""
    name = NAME.match(line)
    if not name:
        raise Wrong(number, f"no name: {line}")
    family = found.get(name[0])
    if not family or family.kind is None or family.help is None:
        raise Wrong(number, f"a sample of {name[0]} before its TYPE and HELP")
    at, labels = name.end(), dict[str, str]()
    if line[at:at + 1] == "{":
        at, labels = read_labels(number, line, at + 1)
    if line[at:at + 1] != " " or not VALUE.fullmatch(line, at + 1):
        raise Wrong(number, f"no value behind one space: {line}")
    value = float(line[at + 1:])
    if family.kind == "counter" and not (value >= 0 and math.isfinite(value)):
        raise Wrong(number, f"a counter of {value}")
    if any(labels == other for other, _ in family.samples):
        raise Wrong(number, f"the same labels twice: {line}")
    family.samples.append((labels, value))
    return name[0]


def read_labels(number: int, line: str, at: int) -> tuple[int, Labels]:
    """Reads the labels that begin at a column. Returns the column behind the brace, and the labels."""
    labels: Labels = {}
    while True:
        label = LABEL.match(line, at)
        if not label:
            raise Wrong(number, f"no label at {at}: {line}")
        if label[1] in labels or label[1].startswith("__"):
            raise Wrong(number, f"label {label[1]} twice, or of Prometheus's own")
        labels[label[1]] = re.sub(r"\\.", lambda escape: ESCAPES[escape[0]], label[2])
        at = label.end() + 1
        if line[label.end():at] == "}":
            return at, labels
        if line[label.end():at] != ",":
            raise Wrong(number, f"neither , nor }} behind a label: {line}")


def samples(text: str) -> dict[str, Samples]:
    """Returns the values of each metric with their labels. Raises Wrong."""
    return {name: family.samples for name, family in families(text).items()}


CALL = "begin|join|leave|close|cancel|report|forgot|told|purge|status|member|page|pull|take|duties|expire|record|survey"
KIND = "complete|compensate|status|forget|after"
STATUS = "Active|Closing|Closed|FailedToClose|Cancelling|Cancelled|FailedToCancel"
VERSION = r"\d+\.\d+\.\d+(-dev)?"
# Each metric with its type, and its labels besides `node`, each with the values that it may have.
METRICS: dict[str, tuple[str, dict[str, str]]] = {
    "lra_up": ("gauge", {}),
    "lra_build_info": ("gauge", {"version": VERSION, "commit": "unknown|[0-9a-f]{40}", "kit": "[a-z0-9-]+"}),
    "lra_start_seconds": ("gauge", {}),
    "lra_calls_total": ("counter", {"call": CALL}),
    "lra_refused_total": ("counter", {"refusal": "E([1-9]|1[0-9]|2[0-4])"}),
    "lra_runs_total": ("counter", {"why": "full|E18|E19|E20|E21|starved"}),
    "lra_callbacks_total": ("counter", {"kind": KIND, "heard": "done|failed|busy|told|again"}),
    "lra_callbacks_due": ("gauge", {}),
    "lra_callbacks_vain": ("gauge", {}),
    "lra_callbacks_oldest_seconds": ("gauge", {}),
    "lra_pulls_total": ("counter", {"from": "[1-8]", "came": "new|nothing|failed|refused"}),
    "lra_pulled_seconds": ("gauge", {"from": "[1-8]"}),
    "lra_pulls_held": ("gauge", {}),
    "lra_told": ("gauge", {"by": "[1-8]"}),
    "lra_answers_waiting": ("gauge", {}),
    "lra_answers_waited_total": ("counter", {"came": "copied|late"}),
    "lra_copies_short": ("gauge", {}),
    "lra_front": ("gauge", {"of": "[1-8]"}),
    "lra_held": ("gauge", {"status": STATUS}),
    "lra_held_limit": ("gauge", {}),
    "lra_queue": ("gauge", {}),
    "lra_connections_total": ("counter", {}),
    "lra_closed_total": ("counter", {}),
    "lra_swept_total": ("counter", {"came": "gone|nested|waits|later|changed|missing"}),
    "lra_journal_failures_total": ("counter", {}),
    "lra_ready": ("gauge", {}),
}


def problems(text: str) -> list[str]:
    """Returns a line for each place where a node's text doesn't match the list above."""
    try:
        found = families(text)
    except Wrong as error:
        return [str(error)]
    wrong = []
    for name, family in found.items():
        if name not in METRICS:
            wrong.append(f"{name} isn't in the list")
            continue
        kind, wanted = METRICS[name]
        if family.kind != kind:
            wrong.append(f"{name} is a {family.kind}, and not a {kind}")
        for labels, value in family.samples:
            patterns = {"node": "[1-8]", **wanted}
            fits = labels.keys() == patterns.keys() and all(re.fullmatch(patterns[key], labels[key]) for key in labels)
            if not fits or value < 0:
                wrong.append(f"{name} {labels} {value}")
    always = [name for name, (_, labels) in METRICS.items() if not labels or name in ("lra_held", "lra_front")]
    wrong += [f"{name} is missing" for name in always if name not in found]
    held = {labels.get("status") for labels, _ in found["lra_held"].samples} if "lra_held" in found else None
    if held not in (None, set(STATUS.split("|"))):
        wrong.append("lra_held doesn't have all seven statuses")
    return wrong


def example(known: dict[str, Samples] | None = None) -> str:
    """Returns a text as a node may answer it, with at least one sample of each metric. `known` gives samples of some
    metrics."""
    lines, first = [], {"refusal": "E13", "from": "2", "of": "2", "by": "2", "version": "1.2.3", "kit": "kit"}
    for name, (kind, labels) in METRICS.items():
        row = {"node": "1", **{key: first.get(key, pattern.split("|")[0]) for key, pattern in labels.items()}}
        rows = [{**row, "status": status} for status in STATUS.split("|")] if name == "lra_held" else [row]
        told = [(one, 1.0) for one in rows]
        if known and name in known:
            told = [({"node": "1", **one}, value) for one, value in known[name]]
        lines += [f"# HELP {name} An example.", f"# TYPE {name} {kind}"]
        for one, value in told:
            texts = ",".join(f'{key}="{label}"' for key, label in one.items())
            lines.append(f"{name}{{{texts}}} {value:g}")
    return "\n".join(lines) + "\n"
