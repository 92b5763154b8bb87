"""What the contract of a function rests on: the definitions that it cites, those that they cite, and so on, name by name.

In crates/:
    python3 ../examples/reached.py script_run/src/run.rt run_words             files, with the lines that are reached
    python3 ../examples/reached.py script_run/src/run.rt run_words legal       the same of some clauses alone
    python3 ../examples/reached.py script_run/src/run.rt run_words Promises ~IsByRules
A word after the function is a clause, a field of a record that a clause cites, or a definition that is reached; what stands after
~ isn't followed.
Lines are those of definitions, with no comment, import or empty line among them. Types of the code (`declared`), which stand
in src/, are found and not followed; words of the toolchain's own libraries aren't found. A text that binds a name doesn't cite
the definition of that name."""
import os
import re
import sys
from functools import cache

USE = re.compile(r"^\s*(?:ghost |pub )?use Rattle\.(\w+)\.specs\.([\w.]+?)\.?(?:\{([^}]*)\})?(?:\s+as\s+(\w+))?\s*;?\s*$", re.M)
HANDED_ON = re.compile(r"^pub use Rattle\.(\w+)\.specs\.([\w.]+?)(?:\s+as\s+(\w+))?\s*$", re.M)
STARTS = re.compile(r"\s*(?:(?:abbrev|unfoldable|opaque|record|data|pub) )+([^\s:(){}]+)")
SIGNATURE = re.compile(r"\s*([^\s:(){}]+) :\s")
MODULE = re.compile(r"\s*module _")
MEMBER = re.compile(r"\s+(?:pub )?([^\s:(){}]+) : ")
BINDERS = re.compile(r"(?:[({]|^\s*(?:pub )?)((?:[^\s(){}:]+ )+):\s", re.M)
LAMBDA = re.compile(r"λ ([^.]*)\.")
WORD = re.compile(r"([^\s(){}\[\],;]+)(?! = )(?=[\s(){}\[\],;]|$)")
CLAUSE = re.compile(r"^\s*(?:ensures|requires) +(\w*) *\{", re.M)


class Text:
    """A definition, or a module with its parameters: where it stands, its lines, and the modules around it."""

    def __init__(self, path, name, indent, around):
        self.path, self.name, self.indent, self.around, self.lines = path, name, indent, around, []

    def clauses(self):
        """The signature and the equations, or a type with all its members; each as one text."""
        found = []
        for line in self.lines:
            if found and len(line) - len(line.lstrip()) > self.indent:
                found[-1] += "\n" + line
            else:
                found.append(line)
        return found

    def members(self):
        """The fields or constructors of a type, each name with its text."""
        found, name = {}, None
        if re.match(r"\s*(?:pub )?(?:record|data) ", self.lines[0]):
            for line in self.lines[1:]:
                head = MEMBER.match(line)
                name = head[1] if head else name
                if name:
                    found[name] = found.get(name, "") + line + "\n"
        return found


@cache
def read(path):
    with open(path, encoding="utf-8") as file:
        return file.read()


@cache
def texts(path):
    """The definitions and the modules of a file by their names; a module's is the number of its line."""
    found, now, around = {}, None, ()
    for number, line in enumerate(read(path).split("\n"), 1):
        if not line.strip() or re.match(r"\s*(?:--|infix)|(?:pub )?use ", line):
            continue
        indent = len(line) - len(line.lstrip())
        around = tuple(module for module in around if module.indent < indent)
        if now is None or now in around or indent <= now.indent:
            head = MODULE.match(line) or STARTS.match(line) or SIGNATURE.match(line)
            if head and not (now and head.re is SIGNATURE and head[1] == now.name):
                name = str(number) if head.re is MODULE else head[1]
                now = found.setdefault(name, Text(path, name, indent, around))
                if head.re is MODULE:
                    around = (*around, now)
            elif not head and (now is None or now in around or indent < now.indent):
                raise SystemExit(f"{path}:{number}: this stands in no definition: {line}")
        now.lines.append(line)
    return found


@cache
def types(path):
    """The types and traits that a file of the code declares, by their names, with no comment among their lines."""
    found, now = {}, None
    for line in read(path).split("\n"):
        head = re.match(r"pub(?:\(crate\))? (?:struct|enum|trait) (\w+)", line)
        if head:
            now = found[head[1]] = Text(path, head[1], 0, ())
        if now and line.strip() and not line.strip().startswith("//"):
            now.lines.append(line)
        if re.match(r"\}|.*;$", line) and not line.startswith(" "):
            now = None
    return found


@cache
def handed_on(crate):
    """The modules of other crates that a crate hands on, by their names."""
    lib = f"{crate}/specs/Lib.antt"
    lines = HANDED_ON.findall(read(lib)) if os.path.exists(lib) else ()
    return {name or module.split(".")[-1]: (other, module) for other, module, name in lines}


def place(crate, module):
    """The file of a module, or of the module that begins it, and what is left of its name. That of a type of the code is in
    src/, and what is left then begins with the type."""
    parts = module.split(".")
    for count in range(len(parts), 0, -1):
        path = f"{crate}/specs/{'/'.join(parts[:count])}.antt"
        if os.path.exists(path):
            return path, parts[count:]
    if parts[0] in handed_on(crate):
        other, whole = handed_on(crate)[parts[0]]
        return place(other, ".".join([whole, *parts[1:]]))
    folders = [part for part in parts[1:] if part.islower()]
    for count in range(len(folders), 0, -1):
        path = f"{crate}/src/{'/'.join(folders[:count])}.rt"
        if parts[0] == "declared" and os.path.exists(path):
            return path, parts[1 + len(folders):]
    if os.path.isdir(crate):
        raise SystemExit(f"there is no module Rattle.{crate}.specs.{module}")
    return None


@cache
def imports(path):
    """The names that a file imports, each with the file and the name that it stands for there; of a module that is imported
    under its own name or another, the file alone."""
    found = {}
    for crate, module, names, alias in USE.findall(read(path)):
        at = place(crate, module)
        if at and at[0].endswith(".rt"):
            for name in (names or alias or module.split(".")[-1]).split(","):
                found[name.strip().split(" ")[-1]] = (at[0], (at[1] or [name.strip().split(" ")[0]])[0])
        elif at and names:
            for name in names.split(","):
                old, _, new = name.strip().partition(" as ")
                found[new or old] = (at[0], old)
        elif at and at[1]:
            found[alias or at[1][-1]] = (at[0], at[1][-1])
        elif at:
            found[alias or module.split(".")[-1]] = (at[0], None)
    return found


@cache
def words_of(path):
    """The words that cite a definition in a file, each with its name: an operator is cited without its holes."""
    names = [*imports(path), *(texts(path) if path.endswith(".antt") else ())]
    return {max(name.split("◌"), key=len) or name: name for name in names}


def defined(path, name):
    """The definition that a name stands for in a file, be it a member of a type or imported there; or none."""
    if path.endswith(".rt"):
        return types(path).get(name)
    if name in texts(path):
        return texts(path)[name]
    for text in texts(path).values():
        if name in text.members():
            return text
    at = imports(path).get(name)
    return defined(*at) if at and at[1] else None


def bound(clause):
    """The names that a clause binds: those with a type, those of λ, and those left of an equation's sign."""
    names = " ".join(BINDERS.findall(clause) + LAMBDA.findall(clause)).split()
    left = re.match(r"(.*?) =(?:\s|$)", clause, re.S)
    return {*names, *(WORD.findall(left[1]) if left and " : " not in left[1] else ())}


def cited(path, clause, hidden):
    """The definitions that a clause in a file cites; names that are hidden there stand for parameters."""
    clause = re.sub(r'"[^"\n]*"', '""', clause)
    hidden = hidden | bound(clause)
    for word in set(WORD.findall(clause)):
        first, _, rest = word.rstrip(".").partition(".")
        name = words_of(path).get(first or word)
        if name is None or first in hidden:
            continue
        at = imports(path).get(name)
        if at and at[1] is None:
            found = defined(at[0], rest)
        else:
            found = defined(*at) if at else texts(path).get(name)
        if found:
            yield found


def cites(text):
    """The definitions that a definition cites, and the modules around it. A type of the code isn't followed."""
    if text.path.endswith(".rt"):
        return
    yield from text.around
    hidden = {name for module in text.around for name in bound(module.lines[0])}
    for clause in text.clauses():
        yield from cited(text.path, clause, hidden - {text.name})


def closure(roots, without=()):
    """These definitions and all that they rest on, but those of some names."""
    found, rest = set(), [text for text in roots if text.name not in without]
    while rest:
        text = rest.pop()
        if text not in found:
            found.add(text)
            rest += (other for other in cites(text) if other.name not in without)
    return found


def contract(path, function):
    """The contract of a function, by its clauses; what stands before them has the name ''."""
    code = read(path)
    start = re.search(rf"fn {function}\b", code).start()
    whole = re.sub(r"^\s*//.*$", "", code[start:code.index("\n{", start)], flags=re.M)
    heads = list(CLAUSE.finditer(whole))
    ends = [head.start() for head in heads[1:]] + [len(whole)]
    found = {"": whole[:heads[0].start()]}
    for head, end in zip(heads, ends):
        found[head[1]] = found.get(head[1], "") + whole[head.end():end]
    return found


def named(name, clauses):
    """What a name stands for in a contract: what its clause cites, what a field cites of a record that a clause cites, or the
    definitions with that name that are reached."""
    if name in clauses:
        return clauses[name]
    roots = [text for found in clauses.values() for text in found]
    for text in roots:
        if name in text.members():
            hidden = {bare for clause in (*text.clauses(), *(module.lines[0] for module in text.around)) for bare in bound(clause)}
            return list(cited(text.path, text.members()[name], hidden))
    return [text for text in closure(roots) if text.name == name]


def reached(path, function, words=()):
    """The definitions on which a contract rests, or those clauses, fields and definitions of it that are named, if any are. What
    stands after ~ isn't followed, and of names with | between them the first one is taken that there is."""
    without = {word[1:] for word in words if word.startswith("~")}
    names = [word for word in words if not word.startswith("~")]
    clauses = {name: list(cited(path, clause, set())) for name, clause in contract(path, function).items()}
    roots = [] if names else [text for found in clauses.values() for text in found]
    for name in names:
        found = next((found for found in (named(one, clauses) for one in name.split("|")) if found), None)
        if found is None:
            raise SystemExit(f"the contract of {function} in {path} has no clause {name}, and reaches no such definition")
        roots += found
    return closure(roots, without)


def lines_by_file(found):
    """How many lines are reached of each file."""
    sizes = {}
    for text in found:
        sizes[text.path] = sizes.get(text.path, 0) + len(text.lines)
    return sizes


def is_type(text):
    """Whether it is a type of the code."""
    return text.path.endswith(".rt")


def summary(found):
    """How much is reached."""
    specs = [text for text in found if not is_type(text)]
    lines, files = sum(len(text.lines) for text in specs), len({text.path for text in specs})
    count = len(found) - len(specs)
    types_too = f", and {count} type{'s' * (count > 1)} of the code" if count else ""
    return f"{len(specs):,} definitions with {lines:,} lines, in {files} files{types_too}"


if __name__ == "__main__":
    found = reached(sys.argv[1], sys.argv[2], sys.argv[3:])
    for file, size in sorted(lines_by_file(found).items()):
        print(f"{size:5} of {read(file).count(chr(10)):4}  {file}")
    print(summary(found))
