#!/usr/bin/env python3
"""Turns a diff over the crates' old names, which all began with lra_, into one over the new names:

    python3 tools/renamed.py OLD.diff >NEW.diff

Notes, issues and older entries of CHANGELOG.md use old names too: `python3 tools/renamed.py --table` prints each old
name of a crate, a file or a type with its new one. OLD.diff is read as a diff over the last commit with the old names,
which BEFORE names. Uses only the standard library."""
import argparse
import pathlib
import re
import subprocess
import sys

TOP = pathlib.Path(__file__).resolve().parent.parent

# The last commit with the old names.
BEFORE = "02ed7e94"

# Each crate's new name.
CRATES = {
    "lra_history": "theory_history",
    "lra_progress": "theory_progress",
    "lra_trail": "theory_trail",
    "lra_id": "state_ids",
    "lra_index": "state_stamps",
    "lra_facts": "state_facts",
    "lra_forest": "state_forest",
    "lra_replica": "state_replica",
    "lra_journal": "state_journal",
    "lra_book": "state_book",
    "lra_http": "wire_http",
    "lra_delta": "wire_frames",
    "lra_peer": "wire_pulls",
    "lra_callback": "wire_callbacks",
    "lra_api": "wire_api",
    "lra_operate": "wire_operators",
    "lra_narayana": "wire_narayana",
    "lra_turns": "node_schedule",
    "lra_copies": "node_replication",
    "lra_heard": "node_inbox",
    "lra_mailbox": "node_agenda",
    "lra_noting": "node_effects",
    "lra_work": "node_worker",
    "lra_sockets": "node_sockets",
    "lra_threads": "node_threads",
    "lra_metrics": "node_metrics",
    "lra_server": "node_server",
    "lra_words": "program_args",
    "lra_world": "script_world",
    "lra_script": "script_lines",
    "lra_luck": "sim_env",
    "lra_run": "sim_runs",
    "lra_life": "sim_node",
}

# Each file of a crate (by its old name) that has been renamed, without its extension.
FILES = {
    "lra_replica": {"copies": "clones"},
    "lra_book": {"copies": "clones"},
    "lra_delta": {"copies": "clones"},
    "lra_luck": {"copies": "old_disks", "noted": "file_calls", "record": "file_log", "known": "known_facts"},
    "lra_copies": {"copies": "replication", "others": "acknowledgements"},
    "lra_index": {"entry": "stamp_entry"},
    "lra_turns": {"calls": "schedule"},
    "lra_mailbox": {"noted": "effects", "known": "known_fronts", "opening": "start_state"},
    "lra_work": {"group": "group_name", "working": "worker"},
    "lra_threads": {"lines": "stderr_lines"},
    "lra_server": {
        "run/counting_clerk": "run/clerk",
        "run/holding": "run/pull_holder",
        "operators/known": "operators/report",
        "operators/errands": "operators/calls",
        "node/begun": "node/fresh_run",
    },
    "lra_words": {"asked": "member_args", "texts": "member_texts"},
    "lra_life": {"seeing": "checks", "glue": "call_summary"},
    "lra_narayana": {"given": "given_link", "told": "answers", "kind": "link_kind"},
    "lra_gateway": {"words": "args", "texts": "arg_texts"},
    "lra_sim": {"words": "texts"},
}

# Each type of a crate (by its old name) that has been renamed.
TYPES = {
    "lra_gateway": {
        "Act": "ServiceCall",
        "Answer": "NodeAnswer",
        "Asked": "GatewayArgs",
        "Begun": "BeginOutcome",
        "Errand": "Handover",
        "Given": "GatewayTexts",
        "Host": "Platform",
        "Listeners": "GatewayListeners",
        "Lra": "NamedLra",
        "Reply": "ServiceAnswer",
        "Role": "PortRole",
        "Waiting": "Backlog",
        "Wanted": "ListFilter",
    },
    "lra_life": {"Asked": "CallSummary", "Errand": "PlannedCall", "Node": "SimNode"},
    "lra_narayana": {
        "Answer": "ParticipantAnswer",
        "Asked": "HeadParts",
        "Came": "NodeResult",
        "Fields": "ServiceFields",
        "Given": "GivenLink",
        "Kind": "LinkKind",
        "Request": "ServiceRequest",
        "Response": "ParticipantResponse",
        "Told": "AnswerToNode",
    },
    "lra_sim": {"Asked": "SimArgs"},
    "lra_sockets": {"Asked": "PullQuery", "Others": "PeerSites", "Stand": "Disposition", "Room": "AnswerRoom"},
    "lra_threads": {"Asked": "CallKind", "Pull": "PullResult"},
    "lra_words": {"Asked": "MemberArgs", "Given": "MemberTexts", "Unasked": "ArgsError"},
    "lra_server": {
        "Begun": "FreshRun",
        "Errand": "OperatorCall",
        "Errands": "OperatorCalls",
        "Holding": "PullHolder",
        "Known": "NodeReport",
        "Members": "LocalMembers",
        "Role": "NodeThread",
    },
    "lra_copies": {
        "Copies": "Replication",
        "Fate": "CallbackFate",
        "Verdict": "PullDecision",
        "Marks": "MarkList",
        "Others": "Acknowledgements",
    },
    "lra_luck": {
        "Copies": "DiskCopies",
        "Fate": "DiskFaults",
        "Known": "KnownFacts",
        "Lra": "ModelLra",
        "Noted": "FileCall",
        "Record": "FileLog",
        "Stage": "PullStage",
        "Store": "SimStore",
    },
    "lra_mailbox": {
        "Known": "KnownFronts",
        "News": "NewlyDue",
        "Noted": "Effects",
        "Opening": "StartState",
        "Wanted": "OperatorWant",
    },
    "lra_run": {"Opening": "JournalOpening", "Run": "SimRun"},
    "lra_turns": {"Calls": "Schedule", "Came": "CallFailure", "Due": "StartedCall", "Stand": "SlipState"},
    "lra_callback": {"Errand": "Purpose"},
    "lra_forest": {"Errand": "DutyKind", "Page": "RecordPage"},
    "lra_api": {"Answer": "ApiResponse", "Body": "ResponseBody", "LinkName": "JoinLink"},
    "lra_index": {"Entry": "StampEntry"},
    "lra_world": {"Reply": "EventReply"},
    "lra_script": {"Room": "ReservedText"},
}

# Crates of the kit that the repository uses, and the beginnings of other crates' names.
KIT = {"std", "core", "arrayvec", "base64", "http", "httparse", "itoa", "log", "matchit", "percent_encoding",
       "serde_json", "sha2", "url", "uuid"}
BEGINNINGS = ("lra_", "sqlite", "test_")

WORD = r"(?<![\w]){}(?![\w])"


def crate_of(path: str) -> str:
    """Returns the crate, by its old name, to which a file or a wrong body belongs, or an empty string."""
    parts = path.split("/")
    for room in ("crates", "wrong"):
        if room in parts[:-1] and parts.index(room) + 1 < len(parts):
            return parts[parts.index(room) + 1]
    return ""


def is_foreign(head: str, crate: str) -> bool:
    """Whether a path with this beginning leads out of the crate."""
    return head.split(".")[0] != crate and (head in KIT or head.startswith(BEGINNINGS))


def brought(text: str) -> dict[str, set[str]]:
    """Returns the names that a file imports from each crate (by its old name), except those that it renames."""
    found: dict[str, set[str]] = {}
    for head, rest in re.findall(r"^\s*(?:pub(?:\(\w+\))? )?use (\w+)::([^;]*);", text, re.M):
        names = re.sub(r"\b\w+ as \w+", "", rest)
        found.setdefault(head, set()).update(re.findall(r"\b[A-Z]\w*", names))
    for path, names in re.findall(r"^\s*(?:ghost |pub )?use Rattle\.([\w.]+)\.\{([^}]*)\}", text, re.M):
        crate, kind = path.split(".")[0], "declared" if ".declared." in path else "other"
        if path.endswith("TheVariants"):
            kind = "other"
        alone = re.findall(r"(?<![\w-])[A-Z]\w*(?![\w-])", re.sub(r"[^\s,]+ as [^\s,]+", "", names))
        found.setdefault(crate if kind == "declared" else f"{crate}.{kind}", set()).update(alone)
    return found


def meant(path: str, text: str) -> dict[str, tuple[str, str]]:
    """Returns the old names of types that stand alone in a file, each with its crate and its new name."""
    own, names = crate_of(path), brought(text)
    found: dict[str, tuple[str, str]] = {}
    for crate, types in TYPES.items():
        for old, new in types.items():
            others = [other for other, those in names.items() if old in those and is_foreign(other, crate)]
            is_own = crate == own and not path.endswith(".antt") and not others
            if not is_own and old not in names.get(crate, ()):
                continue
            if others or old in found:
                print(f"{path}: {old} of {crate}, and of {others or found[old][0]}", file=sys.stderr)
            found[old] = (crate, new)
    return found


def stands_alone(text: str, at: int, name: str) -> bool:
    """Whether the name at this place is a type's name, and not a variant, an English word of a comment, a name of
    another crate, or a file of definitions."""
    before = text[max(0, at - 600) : at]
    line = text[text.rfind("\n", 0, at) + 1 : text.find("\n", at) if "\n" in text[at:] else len(text)]
    if re.match(rf"    {name}(\(|,$| \{{$)", line):
        tops = re.findall(r"^[a-z#/}].*$", text[:at], re.M)
        if tops and re.match(r"(pub(\(\w+\))? )?enum ", tops[-1]):
            return False
    comment = re.match(r"\s*(//|--)", line)
    if comment and text.count("`", text.rfind("\n", 0, at) + 1, at) % 2 == 0:
        return False
    path = re.search(r"([\w:]+)::$", before)
    if path:
        head = path[1].split("::")
        return not is_foreign(head[0], "") and not re.match(r"[A-Z]", head[-1])
    within = re.search(r"([\w.:]+)(?:::|\.)\{[^{}]*$", before)
    if within and re.search(rf"\buse {re.escape(within[1])}(?:::|\.)\{{[^{{}}]*$", before):
        return "." not in within[1] and not is_foreign(within[1].split("::")[0], "")
    return not re.search(r"[\w.]\.$", before)


def renamed_paths(text: str) -> str:
    """Returns the text with the new names of types that are written with their crate or file."""
    for crate, types in TYPES.items():
        for old, new in types.items() if crate in text else ():
            proof = rf"(Rattle\.{crate}\.proofs\.(?:[a-z_]+\.)+){old}(?=\.[a-z])"
            text = re.sub(proof, lambda m: m[1] + new, text)
            spoken = rf"(Rattle\.{crate}\.specs\.declared\.(?:[a-z_]+\.)*){old}(?![\w])(\.\{{)?([^}}]*\}})?"

            def of_path(m: re.Match[str]) -> str:
                rest = m[3] or ""
                if m[2]:
                    rest = re.sub(WORD.format(old), new, rest)
                return m[1] + new + (m[2] or "") + rest

            text = re.sub(spoken, of_path, text)
            text = re.sub(rf"\b({crate}(?:::[a-z_]+)*::){old}(?![\w])", lambda m: m[1] + new, text)

            def of_list(m: re.Match[str]) -> str:
                return m[1] + re.sub(WORD.format(old), new, m[2])

            text = re.sub(rf"(\buse {crate}::)(\{{[^;]*\}};)", of_list, text)
    return text


def renamed(path: str, text: str, scope: str | None = None) -> str:
    """Returns the text with new names; `scope` is the whole file that it belongs to."""
    own = crate_of(path)
    for old, (crate, new) in meant(path, text if scope is None else scope).items():
        text = re.sub(WORD.format(old), lambda m: new if stands_alone(text, m.start(), old) else m[0], text)
    text = renamed_paths(text)
    for crate, files in FILES.items():
        for old, new in files.items():
            dotted, dotted_new = old.replace("/", "."), new.replace("/", ".")
            place = rf"(Rattle\.{crate}\.(?:specs\.declared|proofs)\.){re.escape(dotted)}(?=\.)"
            text = re.sub(place, lambda m: m[1] + dotted_new, text)
            text = text.replace(f"crates/{crate}/src/{old}.rt", f"crates/{crate}/src/{new}.rt")
            if crate == own:
                last, last_new = old.split("/")[-1], new.split("/")[-1]
                declared = re.compile(rf"^(\s*(?:pub |pub\(crate\) )?mod ){last};", re.M)
                text = declared.sub(lambda m: m[1] + last_new + ";", text)
                text = re.sub(rf"(?<![\w.]){last}(?=::)", last_new, text)
                text = re.sub(rf"((?:crate|super|self)::(?:\w+::)*){last}(?![\w(])", lambda m: m[1] + last_new, text)
                text = re.sub(rf"^(file: src/){re.escape(old)}\.rt", lambda m: m[1] + new + ".rt", text, flags=re.M)
    for old, new in CRATES.items():
        text = re.sub(WORD.format(old), new, text)
    return text


def renamed_path(path: str) -> str:
    """Returns the present path of a file."""
    own = crate_of(path)
    for old, new in FILES.get(own, {}).items():
        path = re.sub(rf"(crates/{own}/src/){re.escape(old)}(?=\.rt$|/)", lambda m: m[1] + new, path)
        path = re.sub(rf"(crates/{own}/proofs/){re.escape(old)}(?=/)", lambda m: m[1] + new, path)
    for old, new in TYPES.get(own, {}).items():
        path = re.sub(rf"(crates/{own}/proofs/(?:[a-z_]+/)+){old}(?=/)", lambda m: m[1] + new, path)
    return "/".join(CRATES.get(part, part) for part in path.split("/"))


def old_text(path: str) -> str:
    """Returns the file as it was with the old names, or an empty string if it didn't exist."""
    shown = subprocess.run(["git", "show", f"{BEFORE}:{path}"], cwd=TOP, capture_output=True, text=True)
    return shown.stdout if shown.returncode == 0 else ""


def new_diff(diff: str) -> str:
    """Returns the diff over new names."""
    out, path, scope = [], "", ""
    for line in diff.split("\n"):
        head = re.match(r"(--- a/|\+\+\+ b/|rename from |rename to )(.*)$", line)
        both = re.match(r"diff --git a/(.*) b/(.*)$", line)
        if both:
            path = both[2]
            scope = old_text(both[1])
            out.append(f"diff --git a/{renamed_path(both[1])} b/{renamed_path(both[2])}")
        elif head:
            if head[2] != "/dev/null":
                path = head[2]
                scope = old_text(path) or scope
            out.append(head[1] + renamed_path(head[2]))
        else:
            out.append(renamed(path, line, scope + "\n" + diff_of(diff, path)))
    return "\n".join(out)


def diff_of(diff: str, path: str) -> str:
    """Returns the lines that a diff adds to a file."""
    part = re.search(rf"^\+\+\+ b/{re.escape(path)}$(.*?)(?=^diff --git |^--- a/|\Z)", diff, re.M | re.S)
    return "\n".join(line[1:] for line in part[1].split("\n") if line.startswith("+")) if part else ""


def print_table() -> None:
    """Prints each old name with the new one."""
    for old, new in CRATES.items():
        print(f"{old}  {new}")
    for crate, files in FILES.items():
        for old, new in files.items():
            print(f"{crate}/{old}.rt  {CRATES.get(crate, crate)}/{new}.rt")
    for crate, names in TYPES.items():
        for old, new in names.items():
            print(f"{crate}::{old}  {CRATES.get(crate, crate)}::{new}")


def main() -> int:
    words = argparse.ArgumentParser(description="Turns a diff over the crates' old names into one over the new ones.")
    words.add_argument("--table", action="store_true", help="print each old name with its new one")
    words.add_argument("diff", nargs="?", help="the diff; standard input if it isn't given")
    given = words.parse_args()
    if given.table:
        print_table()
        return 0
    text = pathlib.Path(given.diff).read_text() if given.diff else sys.stdin.read()
    print(new_diff(text), end="")
    return 0


if __name__ == "__main__":
    sys.exit(main())
