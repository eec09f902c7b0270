"""Reads the definitions and contracts of the crates, and what each of them cites: for tools/believe and tests/references.

What a name stands for is looked up in the file's own `use` lines; a name that nothing explains is an Unclear.
"""
import re
from dataclasses import dataclass
from functools import cache
from pathlib import Path

TOP = Path(__file__).resolve().parent.parent
# words of the language itself, which no file has to import; and its marks, which stand for nothing
LANGUAGE = set("Type record elim rw omega tt yes no absurd → × ↔ ¬ ⊥ Unit Dec ∷ [] Set ∥ ∥₁".split())
MARKS = set("λ let in = : ↦ | _ where search of".split())
TOKEN = re.compile(r"[(){}\[\];,]|\.|[^\s(){}\[\];,.]+")
CLOSER = {"(": ")", "{": "}", "[": "]"}


class Unclear(Exception):
    """Something that this tool can't read, or isn't there."""


@dataclass(frozen=True, eq=False)
class Definition:
    """A declaration of a file: its name, sort ('abbrev', 'unfoldable', 'record', 'data', 'law', 'rust'), first line, lines, and the comment above it."""
    file: str
    name: str
    sort: str
    first: int
    lines: list
    comment: list
    params: str = ""

    def __str__(self):
        return "\n".join([f"{self.file}:{self.first}", *self.comment, *self.lines, ""])


# ---- text to groups of tokens

class Token(str):
    """A word; `field` where it stands behind a dot."""
    field = False


def groups(text):
    """The words of a text, what stands in brackets as a list that begins with the bracket."""
    text = re.sub(r"(?m)(^|\s)--.*$", "", text)
    stack = [[]]
    behind_dot = False
    for found in TOKEN.finditer(text):
        word = Token(found[0])
        if word == "." and text[found.end():found.end() + 1].strip() and text[found.start() - 1].strip():
            behind_dot = True
            continue
        word.field, behind_dot = behind_dot, False
        if word in CLOSER:
            stack.append([word])
        elif word in CLOSER.values():
            group = stack.pop()
            if not stack or CLOSER.get(group[0]) != word:
                raise Unclear(f"brackets that don't close: {text[:60]}")
            stack[-1].append(group)
        else:
            stack[-1].append(word)
    if len(stack) != 1:
        raise Unclear(f"brackets that don't close: {text[:60]}")
    return stack[0]


def words(item):
    """All words of a group."""
    return [item] if isinstance(item, str) else [word for part in item for word in words(part)]


def free(items, bound, constructor):
    """The names that items cite and don't bind; `constructor` tells a case from a variable in a pattern."""
    items, bound, opened, at = list(items), set(bound), [], 0
    while at < len(items):
        item = items[at]
        at += 1
        if isinstance(item, list):
            yield from free_in_group(item, bound, constructor, items[at - 2] if at > 1 else "")
            if item[0] in "({" and ":" in item:
                bound |= set(words(item[1:item.index(":")]))
        elif item == "λ":
            while items[at] != ".":
                if isinstance(items[at], list):
                    yield from free_in_group(items[at], bound, constructor, "")
                    bound |= set(words(items[at][1:items[at].index(":")] if ":" in items[at] else items[at]))
                else:
                    bound.add(items[at])
                at += 1
        elif item == "let":
            opened.append([])
            while items[at] not in (":", "="):
                opened[-1] += words(items[at])
                at += 1
        elif item == "in" and opened:
            bound |= set(opened.pop())
        elif not item.field and item not in bound and item not in "[({.;,":
            yield item + (f".{items[at]}" if at < len(items) and isinstance(items[at], Token) and items[at].field else "")


def free_in_group(group, bound, constructor, before):
    """Of what stands in brackets: a record's or an argument's fields, the cases of an elimination, a binder, or else a part of an expression."""
    inside = group[1:]
    if group[0] == "{" and before == "record" or group[0] == "{" and "=" in inside:
        while inside:
            end = inside.index(";") if ";" in inside else len(inside)
            if end:
                yield from free(inside[inside.index("=") + 1:end], bound, constructor)
            inside = inside[end + 1:]
    elif group[0] == "[" and "↦" in inside:
        while inside:
            end = inside.index("|") if "|" in inside else len(inside)
            arrow = inside.index("↦")
            cases = [name for name in words(inside[:arrow]) if constructor(name)]
            yield from cases
            yield from free(inside[arrow + 1:end], bound | set(words(inside[:arrow])) - set(cases), constructor)
            inside = inside[end + 1:]
    elif group[0] in "({" and ":" in inside:
        yield from free(inside[inside.index(":") + 1:], bound, constructor)
    else:
        yield from free(inside, bound, constructor)


# ---- files

@cache
def parsed(file):
    """A file of definitions: name -> Definition, its imports, and what the cases of its types are."""
    declared, imports, cases, aliases = {}, {}, {}, {}
    lines = (TOP / file).read_text().split("\n")
    dedented = any(line.startswith("module _") for line in lines)
    params, comment, current = "", [], None
    for number, line in enumerate(lines, 1):
        if line.startswith("module _"):
            params, current, comment = line[len("module _"):line.rindex("where")], None, []
            continue
        if dedented and params and line.startswith("  "):
            line = line[2:]
        elif params and line.strip() and not line.startswith("--"):
            params = ""
        if line.startswith("use ") or line.startswith("pub use "):
            read_use(line, imports, aliases)
            comment, current = [], None
        elif line.startswith("--"):
            comment.append(line)
            if current and current.sort == "law":
                current = None
        elif not line.strip():
            comment = []
        elif line[0] == " ":
            if current:
                current.lines.append(line)
        elif re.match(r"infix", line):
            comment.append(line)
        elif current and (line.split(" ")[0] == current.name or line.startswith("unfolding")):
            current.lines.append(line)
        elif line.startswith(("pub mod", "mod ")):
            comment = []
        else:
            found = re.match(r"(abbrev |unfoldable )?(?:pub )?(record |data )?(\S+)", line)
            sort = (found[2] or found[1] or "law").strip()
            current = Definition(file, found[3], sort, number, [line], comment, params)
            comment = []
            declared[plain(found[3])] = current
    for each in declared.values():
        while each.lines and not each.lines[-1].strip():
            each.lines.pop()
        if each.sort == "data":
            cases[each.name] = re.findall(r"(?m)^  (?:pub )?(\S+) :", "\n".join(each.lines[1:]))
    return declared, imports, cases, aliases


def plain(name):
    return name.replace("◌", "")


@cache
def head(file):
    """The lines of the comment that a file begins with."""
    lines = (TOP / file).read_text().split("\n")
    return lines[:next(number for number, line in enumerate(lines) if not line.startswith(("--", "//")))]


def read_use(line, imports, aliases):
    """use Rattle.a.b.{x, y} or use Rattle.a.b as z"""
    found = re.match(r"(?:ghost |pub )*use ([\w.]+)\.\{(.*)\}", line)
    if found:
        for name in re.findall(r"[^\s,]+", found[2]):
            imports[plain(name)] = (found[1], plain(name))
    found = re.match(r"(?:ghost |pub )*use ([\w.]+) as (\w+)", line)
    if found:
        aliases[found[2]] = found[1]


@cache
def rust(crate):
    """The types and constants that a crate declares: name -> Definition, its cases, the crates that its names come from."""
    declared, cases, imports = {}, {}, {}
    for path in sorted((TOP / "crates" / crate / "src").glob("**/*.rt")):
        lines, comment, at = path.read_text().split("\n"), [], 0
        text = "\n".join(lines)
        for found in re.finditer(r"(?m)^(?:pub )?use ([a-z_]+)(?:::[a-z_]+)*::(?:\{([^}]*)\}|(\w+))", text):
            for name in re.findall(r"\w+", found[2] or found[3]):
                imports[name] = crate if found[1] in ("super", "crate") else found[1]
        while at < len(lines):
            found = re.match(r"(?:pub(?:\(crate\))? )?(struct|enum|const|static|type|trait) (\w+)", lines[at])
            if found:
                end = at
                while not (lines[end].startswith("}") or lines[end].endswith(";") and (end == at or found[1] in ("const", "static", "type"))):
                    end += 1
                declared[found[2]] = Definition(str(path.relative_to(TOP)), found[2], "rust", at + 1, lines[at:end + 1], comment)
                if found[1] == "enum":
                    cases[found[2]] = re.findall(r"(?m)^    (\w+)", "\n".join(lines[at + 1:end]))
                comment, at = [], end
            elif re.match(r"//|#\[", lines[at]):
                comment.append(lines[at])
            else:
                comment = []
            at += 1
    return declared, cases, imports


# ---- what a name stands for

def target(module, name):
    """Of an import: the Definition, or the library's word as text."""
    parts = module.split(".")
    if parts[0] != "Rattle" or parts[1] == "std" or not (TOP / "crates" / parts[1]).is_dir():
        return f"{module}.{name}"
    crate, rest = parts[1], parts[2:]
    if rest[:2] == ["specs", "declared"] or rest[:1] == ["TheConstants"] or rest[-1:] == ["TheConstants"]:
        declared, cases, _ = rust(crate)
        owner = rest[-2] if rest[-1] == "TheVariants" else name
        if owner in declared and (owner == name or name in cases.get(owner, ())):
            return declared[owner]
        if name in declared:
            return declared[name]
    for used in range(len(rest), 0, -1):
        file = f"crates/{crate}/{'/'.join(rest[:used])}.antt"
        if (TOP / file).is_file():
            declared, _, cases, _ = parsed(file)
            owner = rest[-1] if used < len(rest) else name
            if owner in declared and (owner == name or name in cases.get(owner, ())):
                return declared[owner]
    raise Unclear(f"{module} has no {name}")


def is_case(module, name):
    """Whether an import is a case of a type."""
    found = target(module, name)
    return isinstance(found, str) or found.name != name


def cited(definition):
    """What a definition cites: Definitions, the library's words with their module and the language's without one."""
    if definition.sort == "rust":
        yield from cited_by_rust(definition)
        return
    declared, imports, cases, aliases = parsed(definition.file)
    own = {case: owner for owner, names in cases.items() for case in names}

    def constructor(name):
        return name in own or name in imports and is_case(*imports[name]) or name.split(".")[0] in aliases or name in ("[]", "∷", "yes", "no")

    def found(name):
        first, _, rest = name.partition(".")
        if first in aliases:
            return target(aliases[first], rest)
        if first in declared or first in own:
            return declared[own.get(first, first)]
        if first in imports:
            return target(*imports[first])
        if first in LANGUAGE:
            return first
        if first in MARKS or re.fullmatch(r"[\d₀-₉]+", first):
            return None
        raise Unclear(f"{definition.file}:{definition.first}: {definition.name}: nothing explains {first}")

    for name in names_of(definition, constructor):
        what = found(plain(name))
        if what is not None and what is not definition:
            yield what


def names_of(definition, constructor):
    """The names that the text of a definition cites."""
    params = groups(definition.params)
    yield from free(params, set(), constructor)
    outer = {word for group in params for word in words(group[1:group.index(":")])}
    if definition.sort in ("record", "data"):
        head, *fields = re.split(r"(?m)^  (?=\S)", re.sub(r"(?m)^  --.*\n?", "", "\n".join(definition.lines) + "\n"))
        head = groups(re.sub(r"^(pub )?(record|data) \S+|where\s*$", "", head))
        yield from free(head, outer, constructor)
        for group in head:
            if isinstance(group, list) and ":" in group:
                outer |= set(words(group[1:group.index(":")]))
        for field in fields:
            name, _, sort = re.sub(r"^pub ", "", field).partition(" :")
            yield from free(groups(sort), outer, constructor)
            outer.add(name.strip())
        return
    if any(line.strip() == "where" for line in definition.lines):
        raise Unclear(f"{definition.file}:{definition.first}: {definition.name}: a definition with 'where'")
    clauses = re.split(rf"(?m)^(?={re.escape(definition.name)}(?: |$))", "\n".join(definition.lines))
    head, _, sort = clauses[0].partition(" :")
    outer |= set(re.findall(r"\w+", head.partition("{")[2]))
    yield from free(groups(sort), outer, constructor)
    for clause in clauses[1:]:
        items = groups(clause[len(definition.name):])
        left, right = items[:items.index("=")], items[items.index("=") + 1:]
        pattern = [word + (f".{after}" if after.field else "") for word, after in zip(words(left), words(left)[1:] + [Token("")]) if not word.field]
        yield from (word for word in pattern if constructor(word) and word not in "[({")
        yield from free(right, outer | {word for word in pattern if not constructor(word)}, constructor)


def cited_by_rust(definition):
    """The types and constants that a declaration in Rust names, and what its ghost fields say."""
    crate = definition.file.split("/")[1]
    declared, _, imports = rust(crate)
    text = re.sub(r"//.*", "", "\n".join(definition.lines))
    clauses = re.findall(r"\bghost \w+: \{(.*)\}", text)
    for name in re.findall(r"\b[A-Z]\w*", re.sub(r"\bghost \w+: \{.*\}", "", text)):
        if name in declared and name != definition.name:
            yield declared[name]
        elif imports.get(name, "std") not in ("std", "core"):
            yield rust(imports[name])[0][name]
    fields = set(re.findall(r"(\w+):", text))
    for clause in clauses:
        yield from cited_by_clause(definition.file, definition.name, clause, fields)


def cited_by_clause(file, owner, clause, bound):
    """What a clause in a Rust file cites, by the file's ghost imports, its crate's types and constants, and those that it uses."""
    ghosts, aliases = {}, {}
    for line in re.findall(r"(?m)^ *(ghost use .*)$", (TOP / file).read_text()):
        read_use(line, ghosts, aliases)
    declared, _, imports = rust(file.split("/")[1])
    for word in free(groups(clause), bound, lambda _: False):
        first, _, rest = plain(word).partition(".")
        if first in ghosts:
            yield target(*ghosts[first])
        elif first in aliases:
            yield target(aliases[first], rest)
        elif first in declared:
            yield declared[first]
        elif imports.get(first, "std") not in ("std", "core"):
            yield rust(imports[first])[0][first]
        elif first in LANGUAGE:
            yield first
        elif first not in MARKS and not first.isdigit():
            raise Unclear(f"{file}: {owner}: nothing explains {first}")


# ---- a function's contract

def contract(call, clauses):
    """A function's signature with its clauses, or those of these names, and what they cite; CRATE::TYPE::FUNCTION, too, and CRATE::MODULE::FUNCTION."""
    crate, *owner, name = call.split("::")
    kind = owner[-1] if owner and owner[-1][0].isupper() else None
    head = re.compile(rf"(?m)^((?: *(?://|#\[).*\n)*)({' +' if kind else ''})(?:pub(?:\(crate\))? )?(?:unsafe )?(?:extern \"C\" )?fn {re.escape(name)}\b((?:.*\n)+?)\2\{{\n")
    for path in sorted((TOP / "crates" / crate / "src").glob("**/*.rt")):
        text = path.read_text()
        own = re.search(rf"(?m)^impl\b[^\n]*\b{kind}\b", text) if kind else None
        found = (own or not owner or path.stem == owner[-1]) and head.search(text, own.start() if own else 0)
        if found:
            break
    else:
        raise Unclear(f"no function {call}")
    file, comment = str(path.relative_to(TOP)), found[1].rstrip("\n").split("\n") if found[1] else []
    wanted = re.compile(rf"\s+ensures ({'|'.join(clauses)})\b")
    lines = found[0][len(found[1]):].rstrip("{\n ").split("\n")
    ours = [line for line in lines if not clauses or not re.match(r"\s+ensures\b", line) or wanted.match(line)]
    if clauses and not any(wanted.match(line) for line in ours):
        raise Unclear(f"{call} has no clause {' or '.join(clauses)}")
    signature = [line for line in ours if not re.match(r"\s+(ensures|requires)\b", line)]
    promise = Definition(file, call, "contract", text[:found.start() + len(found[1])].count("\n") + 1, ours, comment)
    bound = set(re.findall(r"(\w+):", " ".join(signature))) | {"result", "self"}
    reached = list(cited_by_rust(Definition(file, name, "rust", 0, signature, [])))
    for line in ours:
        clause = re.match(r"\s+(?:ensures|requires)(?: \w+)? \{(.*)\}$", line)
        if clause:
            reached += cited_by_clause(file, call, clause[1], bound)
        elif line not in signature:
            raise Unclear(f"{file}: {call}: a clause of several lines")
    return promise, reached


def reach(start):
    """The definitions that these reach, the library's and the language's words, and the laws that stand in a definition as evidence."""
    todo, seen, foreign, laws = list(start), {}, set(), set()
    while todo:
        one = todo.pop()
        if isinstance(one, str):
            foreign.add(one)
        elif one.sort == "law":
            laws.add(one)
        elif (one.file, one.name) not in seen:
            seen[one.file, one.name] = one
            todo.extend(cited(one))
    return list(seen.values()), foreign, laws
