"""The public surface that is kept: the crates, and the calls and types by which programs reach them. A line of examples/checks/surface.txt is
CRATE | ENTRY | SIGNATURE | BY: an entry is a function, `Type::method`, a struct, an enum or a trait; its signature is the one of the sources, on one line
and without contracts, of a type with public fields or of an enum with those; BY is `test NAME`, a test of crates/ln_trial_surface that names it with its
types, or one of any crate of tests that tries it on a worked value, or `decision WORDS`, the first words of an entry of docs/DECISIONS.md, or several of
these, parted by `; `; or `signature`, where that alone is compared.
Usage, at the top of the repository:
surface.py compare          prints what differs, and at the end how much it looked at
surface.py of CRATE ENTRY   the signature that the sources have"""
import re
import sys
from pathlib import Path

LIST = Path("examples/checks/surface.txt")
TESTS = "ln_trial*"
# crates that the surface has, beside those that DECISIONS explains
CRATES = """ln_base ln_tree ln_lex ln_parse ln_bound ln_poly ln_order ln_stage ln_nest ln_code ln_filter ln_lower ln_compile ln_cert ln_verify ln_csyn
ln_cemit ln_cmean ln_rows ln_watch ln_top lnc ln_interval ln_factor ln_graded ln_trace ln_edges""".split()
# of these only the top crate, tests and programs make use
LAST = ["ln_factor", "ln_graded", "ln_trace", "ln_edges"]
LONGEST = 8


def depends():
    """What each crate of crates.txt lists."""
    lines = [line.split("#")[0].strip() for line in Path("crates.txt").read_text().splitlines()]
    return {name.split()[0]: rest.split() for name, rest in (line.split(":") for line in lines if line)}


def chain(graph, name):
    """A longest chain of crates that ends with this one."""
    return max((chain(graph, below) for below in graph[name] if below in graph), key=len, default=[]) + [name]


def bare(text):
    """The text without comments and attributes."""
    text = re.sub(r'b?"(?:\\.|[^"\\])*"', '""', re.sub(r"//[^\n]*", "", text))
    return re.sub(r"#!?\[[^\]\n]*\]", "", text)


def closes(text, start, opening, closing):
    """The place after the bracket that closes the one at `start`."""
    depth = 0
    for at in range(start, len(text)):
        depth += (text[at] == opening) - (text[at] == closing)
        if depth == 0:
            return at + 1
    return len(text)


def plain(text):
    """On one line, without commas before a closing bracket."""
    text = " ".join(text.split())
    return re.sub(r",? ([)\]}])", r" \1", text).replace("( ", "(").replace(" )", ")")


def function(text, start):
    """The signature of the function that begins here: up to its contract, its body or its end."""
    at = closes(text, text.index("(", start), "(", ")")
    end = re.compile(r"(?:\[[^\]]*\]|[^\[{;])*?(?=\{|;|\b(?:requires|ensures|ghost|decreases|measure)\b)").match(text, at)
    return plain(text[start : end.end()])


def fields(text, start):
    """The public fields of the struct, or the variants of the enum, that begins here; of any other its name alone."""
    head = re.compile(r"[^{;(]*").match(text, start).group()
    opening = text[start + len(head)]
    if opening == "(":
        return plain(text[start : closes(text, start + len(head), "(", ")")])
    if opening == ";":
        return plain(head)
    body = text[start + len(head) + 1 : closes(text, start + len(head), "{", "}") - 1]
    if head.startswith("enum"):
        return plain(head) + " { " + plain(body).strip().rstrip(",") + " }"
    public = re.findall(r"\bpub (\w+: (?:[^,<(]|<[^{]*?>(?=,|\s*$)|\([^)]*\))*)", body)
    return plain(head) + (" { " + ", ".join(plain(field) for field in public) + " }" if public else "")


def entries(crate):
    """The signature of each public call and type of a crate, by its name."""
    found = {}
    for path in sorted(Path("crates", crate, "src").rglob("*.rt")):
        text = bare(path.read_text())
        for type_ in re.finditer(r"^pub ((?:struct|enum) (\w+))", text, flags=re.M):
            found.setdefault(type_[2], fields(text, type_.start(1)))
        owners = [(m.start(), closes(text, text.index("{", m.start()), "{", "}"), m[1]) for m in re.finditer(r"^impl(?:<[^{]*?>)? (\w+)(?:<[^{]*?>)? \{", text, flags=re.M)]
        for trait in re.finditer(r"^pub (trait (\w+)[^{]*)\{", text, flags=re.M):
            end = closes(text, text.index("{", trait.start()), "{", "}")
            found.setdefault(trait[2], plain(trait[1]))
            for call in re.finditer(r"\bfn (\w+)", text[trait.start() : end]):
                found.setdefault(f"{trait[2]}::{call[1]}", function(text, trait.start() + call.start()))
        for call in re.finditer(r"\bpub (?:const )?(fn (\w+))", text):
            owner = next((name for start, end, name in owners if start < call.start() < end), "")
            found.setdefault(f"{owner}::{call[2]}" if owner else call[2], function(text, call.start(1)))
        # what another crate has, handed on under this one's name
        for used in re.finditer(r"^pub use (ln_\w+(?:::\w+)*)::(?:(\w+)(?: as (\w+))?|\{([^}]*)\});", text, flags=re.M):
            for one in ([used[2]] if used[2] else re.findall(r"\w+", used[4])):
                found.setdefault(used[3] or one, f"{used[1]}::{one}, {entries(used[1].split('::')[0]).get(one)}")
    return found


def compare():
    faults = []
    graph = depends()
    faults += [f"the crate {name} is gone" for name in CRATES if name not in graph]
    for name in graph:
        links = chain(graph, name)
        if len(links) > LONGEST:
            faults.append(f"a chain of {len(links)} crates, where {LONGEST} are the most: {' '.join(links)}")
            break
    for name in LAST:
        users = [user for user, below in graph.items() if name in below and user != "ln_top" and not user.startswith("ln_trial")]
        faults += [f"{user} depends on {name}, which is for ln_top alone" for user in users]
    decisions = " ".join(Path("docs/DECISIONS.md").read_text().split())
    tests = set()
    for path in Path("crates").glob(f"{TESTS}/src/**/*.rt"):
        tests.update(re.findall(r"#\[test\]\s*(?:#\[[^\]]*\]\s*)*fn (\w+)", path.read_text()))
    there = {}
    lines = [line for line in LIST.read_text().splitlines() if line and not line.startswith("#")]
    for line in lines:
        parts = [part.strip() for part in line.split(" | ")]
        if len(parts) != 4:
            faults.append(f"not four parts: {line}")
            continue
        crate, entry, signature, by = parts
        if crate not in there:
            there[crate] = entries(crate)
        has = there[crate].get(entry)
        if has is None:
            faults.append(f"{crate}: {entry} is gone")
        elif has != signature:
            faults.append(f"{crate}: {entry} is {has}, and {signature} is listed")
        for reason in by.split("; "):
            word, _, rest = reason.partition(" ")
            if word == "test" and rest not in tests:
                faults.append(f"{crate}: {entry} names the test {rest}, which isn't there")
            elif word == "decision" and rest not in decisions:
                faults.append(f"{crate}: {entry} names a decision that isn't there: {rest}")
            elif word not in ("test", "decision") and reason != "signature":
                faults.append(f"{crate}: {entry} has neither a test nor a decision")
    for fault in faults:
        print(fault)
    used = {reason.split(" ", 1)[1] for line in lines for reason in line.split(" | ")[-1].strip().split("; ") if reason.startswith("test ")}
    print(f"{len(CRATES)} crates, {len(lines)} entries, {len(used)} tests")
    return bool(faults)


if sys.argv[1:2] == ["of"]:
    print(entries(sys.argv[2]).get(sys.argv[3], "none"))
elif sys.argv[1:2] == ["all"]:
    for crate in sys.argv[2:]:
        for entry, signature in entries(crate).items():
            print(f"{crate} | {entry} | {signature}")
else:
    sys.exit(compare())
