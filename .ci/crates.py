"""What crates.txt, docs/architecture.md and the folders of edits say of the crates, for the scripts of the gate."""
import glob, os, re, shutil, subprocess

TOP = os.path.dirname(os.path.dirname(os.path.realpath(__file__)))
# What a check of a crate reads.
PARTS = ("src", "specs", "proofs", "c")
# The kinds of work of the gate's table, in the order of its columns.
KINDS = ("proof", "tests", "wrong bodies")
# What the largest proof of all crates was seen to take, in kilobytes: that of pp_cli.
LARGEST_PROOF = 5_000_000


def text_of(path):
    """The text of a file."""
    with open(path, encoding="utf-8") as file:
        return file.read()


def for_proofs():
    """The environment for `rt ci`: a proof for each processor, where there is memory for as many of the largest.

    By itself it reckons with twice what a large crate takes, so two of them keep the others waiting, and processors idle.
    """
    free = int(re.search(r"MemAvailable: *(\d+)", text_of("/proc/meminfo"))[1])
    lanes = min(len(os.sched_getaffinity(0)), free // LARGEST_PROOF)
    return {**({"RT_JOBS": str(lanes)} if lanes > 1 else {}), **os.environ}


def head_lines(top=TOP):
    """The lines of crates.txt that list a crate, by the crate's name, in their order."""
    lines = [line for line in text_of(f"{top}/crates.txt").splitlines() if ":" in line and not line.startswith("#")]
    return {line.split(":")[0].split()[0]: line for line in lines}


def uses_of(top=TOP):
    """Of each crate the libraries that its line names, those of the kit as well, in the order of crates.txt."""
    return {crate: line.partition(":")[2].split() for crate, line in head_lines(top).items()}


def below(crate, uses):
    """The repository's crates that this one stands on, each after those that it uses."""
    found = []
    for used in uses[crate]:
        if used in uses:
            found += [it for it in [*below(used, uses), used] if it not in found]
    return found


def above(crate, uses):
    """The crates that stand on this one, in the order of crates.txt."""
    return [it for it in uses if crate in below(it, uses)]


# The headings of crates.txt below which no part of the product stands.
ASIDE = ("Callers to copy from", "Tests", "Times")


def headings(top=TOP):
    """The heading of crates.txt below which each crate stands, by the crate's name, in their order."""
    found, heading = {}, ""
    for line in text_of(f"{top}/crates.txt").splitlines():
        if line.startswith("# "):
            heading = line[2:].strip()
        elif ":" in line:
            found[line.split(":")[0].split()[0]] = heading
    return found


def of_product(top=TOP):
    """The crates of the product: those that aren't tests, callers to copy from, or measurements."""
    return [it for it, heading in headings(top).items() if heading not in ASIDE]


def files_of(crate, top=TOP):
    """The files that a check of the crate reads."""
    for part in PARTS:
        for at, folders, names in os.walk(f"{top}/crates/{crate}/{part}"):
            folders.sort()
            yield from (f"{at}/{name}" for name in sorted(names))


def sources_of(crate, top=TOP):
    """The files of the crate's src/."""
    return sorted(glob.glob(f"{top}/crates/{crate}/src/**/*.rt", recursive=True))


def is_program(crate, top=TOP):
    """Whether the crate is a program."""
    return os.path.isfile(f"{top}/crates/{crate}/src/main.rt")


def has_tests(crate, top=TOP):
    """Whether a file of the crate has a test."""
    return any(path.endswith(".rt") and re.search(r"^\s*#\[test\]", text_of(path), re.M) for path in files_of(crate, top))


def costs_of(top=TOP):
    """Of each crate and kind of work the processor seconds that docs/architecture.md tells, *The gate*."""
    costs = {}
    for row in re.findall(r"^\| *(\w+) *\|([^\n]*)\|$", text_of(f"{top}/docs/architecture.md"), re.M):
        cells = [re.match(r" *(\d*)", cell)[1] for cell in row[1].split("|")]
        if row[0] in uses_of(top) and len(cells) == len(KINDS):
            costs[row[0]] = {kind: int(cell or 0) for kind, cell in zip(KINDS, cells)}
    return costs


class NoKit(Exception):
    """Why the toolchain isn't here."""


def kit():
    """The folder of the toolchain."""
    rt = shutil.which("rt")
    if rt:
        return os.path.dirname(os.path.dirname(os.path.realpath(rt)))
    wanted = re.search(r"kit `([\w-]+)`, logic `(\w+)`", text_of(f"{TOP}/README.md"))
    raise NoKit(
        "the command rt isn't on the PATH. It is the tool of Rattle, the language that pinpool is written in: Rust with "
        f"contracts, each proved. This is built with the kit whose `rt version` is `{wanted[1]} logic {wanted[2]}`, or another "
        "of the same logic. Its folder bin, where rt stands, has to be on the PATH."
    )


def ci_keeps():
    """Whether the kit's `rt ci` keeps what it has proved. Then it takes names of crates too, and --anew. Older kits, of which
    some have the same logic, prove all that there is each time."""
    said = subprocess.run(["rt", "help"], stdin=subprocess.DEVNULL, stdout=subprocess.PIPE, stderr=subprocess.STDOUT, text=True).stdout
    return not re.search(r"^ *rt ci {2,}", said, re.M)


# ---- edits


def edits_in(folder):
    """The edits of a folder, by their names."""
    return sorted(it for it in os.listdir(folder) if it.endswith(".edit")) if os.path.isdir(folder) else []


def edited(text, folder):
    """The texts of the files that an edit changes, by their paths in the crate's folder. Where it can't be applied, a
    ValueError says why. An edit has lines `file: PATH` and pairs of lines `old: TEXT` and `new: TEXT`. Each old text stands
    once in what the pairs before it made of the file."""
    path, old, pairs, texts, first = "", None, 0, {}, {}
    for line in text.split("\n"):
        key, _, value = line.partition(": ")
        if line == "new:":
            key, value = "new", ""
        if key not in ("file", "old", "new"):
            if line.strip() and not line.startswith(("#", "--", "//")):
                raise ValueError(f"nothing reads the line {line[:60]}")
        elif key == "file":
            path = value.strip()
            if os.path.normpath(path) != path or not path.startswith(("src/", "specs/", "proofs/")):
                raise ValueError(f"{path} isn't below src/, specs/ or proofs/")
        elif key == "old":
            old = value
        else:
            if not path or not old:
                raise ValueError("a new text has no file or no old text before it")
            if path not in texts:
                if not os.path.isfile(f"{folder}/{path}"):
                    raise ValueError(f"there is no file {path}")
                texts[path] = first[path] = text_of(f"{folder}/{path}")
            if texts[path].count(old) != 1:
                raise ValueError(f"its old text stands {texts[path].count(old)} times in {path}: {old[:90]}")
            texts[path], old, pairs = texts[path].replace(old, value), None, pairs + 1
    if not pairs or texts == first:
        raise ValueError("it changes nothing")
    return texts
