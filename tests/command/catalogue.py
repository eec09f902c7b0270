"""The messages of the command's source, and those of its French files: what test_messages.py compares."""

import ast
import re
from pathlib import Path

TOP = Path(__file__).resolve().parents[2]
COMMAND = TOP / "bindings" / "python" / "tsav" / "command"
FRENCH = COMMAND / "locale" / "fr"


def of_source(file: Path) -> set:
    """The texts that are given to `_`, `N_` and `ngettext`, the last with both its forms."""
    found = set()
    for node in ast.walk(ast.parse(file.read_text(encoding="utf-8"))):
        if isinstance(node, ast.Call) and isinstance(node.func, ast.Name):
            given = [part.value for part in node.args if isinstance(part, ast.Constant) and isinstance(part.value, str)]
            if node.func.id in ("_", "N_") and given:
                found.add((given[0],))
            if node.func.id == "ngettext":
                found.add(tuple(given[:2]))
    return found


def of_french(file: Path) -> list:
    """The entries of a file but for its header: the English forms, and the French ones."""
    entries = []
    for part in file.read_text(encoding="utf-8").split("\n\n"):
        lines = [line for line in part.splitlines() if line and not line.startswith("#")]
        texts: dict = {}
        for line in lines:
            match = re.fullmatch(r'(?:(msg\S+) )?(".*")', line)
            if not match:
                raise ValueError(f"{file.name}: {line}")
            name = match.group(1) or name
            texts[name] = texts.get(name, "") + ast.literal_eval(match.group(2))
        english = tuple(text for name, text in texts.items() if name.startswith("msgid"))
        french = tuple(text for name, text in texts.items() if name.startswith("msgstr"))
        if english and english != ("",):
            entries.append((english, french))
    return entries
