"""The operators' page, demo/watch.html, and its minifier.

Only indentation, comment lines, and spaces beside punctuation go, and only in the style and the script. This works for
pages written like watch.html: strings stand in double quotes, and there are no backslashes, no templates and no
patterns between slashes."""
import re
from collections.abc import Callable

PAGE = "demo/watch.html"


def outside(text: str, change: Callable[[str], str]) -> str:
    """Returns a text in which the parts outside its strings are changed."""
    parts = text.split('"')
    return '"'.join(change(part) if at % 2 == 0 else part for at, part in enumerate(parts))


def script(text: str) -> str:
    lines = "\n".join(line.strip() for line in text.split("\n") if not line.strip().startswith("//"))

    def change(part: str) -> str:
        if set(part) & set("`'\\"):
            raise SystemExit(f"squeeze: the script may not contain this: {part}")
        return re.sub(r" *([=+*/<>?:,;(){}\[\]&|!]) *", r"\1", part)

    return outside(lines, change)


def style(text: str) -> str:
    return outside(text, lambda part: re.sub(r" *([{};]) *", r"\1", re.sub(r"([:,]) ", r"\1", part)).replace("\n", ""))


def squeeze(page: str) -> str:
    """Returns a page with the same meaning in fewer bytes."""
    page = re.sub(r"(?s)(?<=<style>).*?(?=</style>)", lambda found: style(found[0]), page)
    return re.sub(r"(?s)(?<=<script>).*?(?=</script>)", lambda found: script(found[0]), page)
