"""Lists the lines of src/ that may be places of a design pass, point by point, at a commit or in the working tree.

    python3 tools/design_count.py [COMMIT]

A line is a place to look at, not yet a place: docs/DESIGN-PASS.md says which are."""
import collections
import re
import subprocess
import sys

COMMIT = sys.argv[1] if len(sys.argv) > 1 else None

POINTS = {
    "1 refusals as bool, flags beside values, kinds as numbers":
        r"-> (Result<)?bool|\b(mark|kind|code): u(8|32)|: bool,|== 0xff|bool\b.*&mut \[",
    "2 names that stand in two crates' src, or twice in one":
        None,
    "3 loops over a counted index":
        r"\bfor \w+ in [^{]*\.\.|\bwhile ",
    "4 comparison, conversion and printing by hand":
        r"fn \w*(words|byte|digit|decoded|same|precedes|number|message_at|letter)\w*\b.*\(|\* 256|/ 32 / 6|Fault \{$",
    "5 clauses that stand in three or more functions":
        None,
    "6 buffers with a length, parallel arrays, arrays searched by hand, arenas":
        r"output: &mut \[u8\], at: usize|list: &mut \[Act\]|cells: &('a )?mut \[u32\]|let mut \w+ = \[0|counts: (&\[u32\]|\[u\d+; \w+\])|radices: |lengthens: u16|Vec<Option<|begun: u8|: Vec<(Queue|PartyViews|PartyLine)>",
    "7 switches on a step, tables of functions":
        r"fn command|fn advance|fn (mark|finish)\(&mut",
}


def text(path):
    if COMMIT:
        return subprocess.run(["git", "show", f"{COMMIT}:{path}"], capture_output=True, text=True).stdout
    with open(path) as file:
        return file.read()


def paths():
    command = ["git", "ls-tree", "-r", "--name-only", COMMIT] if COMMIT else ["git", "ls-files"]
    names = subprocess.run(command, capture_output=True, text=True).stdout.split()
    return [n for n in names if re.fullmatch(r"crates/\w+/src/.*\.rt", n) and not n.endswith("tests.rt")]


def clauses(source):
    """Each clause of each function, without the names of its variables."""
    for function in re.split(r"\n *(?:pub(?:\(crate\))? )?fn ", source)[1:]:
        for line in function.split("\n"):
            found = re.match(r" *(?:requires|ensures)(?: \w+)? \{ (.*) \}", line)
            if found:
                yield re.sub(r"\b[a-z_]+\.(now|old|new)\b", r"_", found.group(1))


def main():
    sources = {path: text(path) for path in paths()}
    for point, pattern in POINTS.items():
        rows = []
        if point.startswith("2"):
            places = collections.defaultdict(list)
            for path, source in sources.items():
                for name in re.findall(r"\bfn (\w+)", source):
                    places[name].append(path)
            rows = [f"{name}: {', '.join(p)}" for name, p in sorted(places.items()) if len(p) > 1]
        elif point.startswith("5"):
            counts = collections.Counter(c for source in sources.values() for c in clauses(source))
            rows = [f"{n} times: {c}" for c, n in counts.most_common() if n >= 3]
        else:
            for path, source in sources.items():
                for number, line in enumerate(source.split("\n"), 1):
                    if not line.strip().startswith("//") and re.search(pattern, line):
                        rows.append(f"{path}:{number}: {line.strip()}")
        print(f"== {point}: {len(rows)}")
        print("\n".join(rows))


main()
