"""What a source file of Rattle says of its functions, for tools that look for contracts."""
import re

HEAD = re.compile(r"^(?:pub(?:\(crate\))? )?(trait|impl)\b(.*?)\{?$")
CALL = re.compile(r"^( *)(pub(?:\(crate\))? )?fn (\w+)")
CLAUSE = re.compile(r"^\s*ensures\*? (?:(\w+) )?\{")


def owner_of(head):
    """Returns of the line that begins an item with methods the name of its type or trait; none where it gives a trait to a
    type."""
    kind, rest = HEAD.match(head).groups()
    while kind == "impl" and rest.startswith("<"):
        depth, end = 0, 0
        for end, sign in enumerate(rest):
            depth += (sign == "<") - (sign == ">" and rest[end - 1] != "-")
            if not depth:
                break
        rest = rest[end + 1:]
    return None if kind == "impl" and " for " in rest else re.search(r"\w+", rest)[0]


def signature(lines, at, indent):
    """Returns the lines of a function from its name to its body, or to its end where it has none."""
    for end in range(at, len(lines)):
        if lines[end].startswith(indent + "{") or lines[end].endswith((" {", ";", "{}")):
            return lines[at:end + 1]
    return lines[at:]


def functions_of(path):
    """Yields each function of a file: the name of its type or trait, if it has one; whether that is a trait; its name, and
    whether it is public; and the lines of its signature."""
    lines, owner, trait = path.read_text(encoding="utf-8").splitlines(), None, False
    for at, line in enumerate(lines):
        if HEAD.match(line):
            owner, trait = owner_of(line), " trait " in f" {line} "
        found = CALL.match(line)
        if found:
            inside = bool(found[1])
            yield owner if inside else None, inside and trait, found[3], found[2] or "", signature(lines, at, found[1])


def clauses_of(told):
    """Returns the names of a function's clauses on what it ensures, of which one may be empty."""
    return {found[1] or "" for found in map(CLAUSE.match, told) if found}
