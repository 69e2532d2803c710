"""What the provers of a run use, by crate and kind of work, for .ci/times and for the gate."""
import collections, os, re, textwrap, time

import crates

# How long a watch waits between two looks, in seconds.
PAUSE = 0.5
# The first line of the table.
HEAD = "| Crate | Proof | Tests | Wrong bodies |"


def process(number):
    """The numbers of a process as the system tells them, its words, and its folder; nothing where it has ended."""
    try:
        with open(f"/proc/{number}/stat", encoding="utf-8") as file:
            numbers = file.read().rpartition(")")[2].split()
        with open(f"/proc/{number}/cmdline", encoding="utf-8") as file:
            words = file.read().split("\0")
        return numbers, words, os.readlink(f"/proc/{number}/cwd")
    except (OSError, UnicodeDecodeError):
        return None


def provers(session):
    """The provers of a session: which process, of which crate and kind, and the seconds that it and its own have used."""
    for number in filter(str.isdigit, os.listdir("/proc")):
        found = process(number)
        if not found or int(found[0][3]) != session or "--crate-name" not in found[1]:
            continue
        numbers, words, folder = found
        # What a prover starts counts with it.
        above = process(numbers[1])
        if above and "--crate-name" in above[1]:
            continue
        crate = words[words.index("--crate-name") + 1]
        kind = "wrong bodies" if "rt-edit" in folder else "tests" if "--test" in words else "proof"
        used = sum(map(int, numbers[11:15])) / os.sysconf("SC_CLK_TCK")
        yield (number, numbers[19]), crate, kind, used


def watch(started):
    """The seconds of each crate and kind, seen while a run goes on that has been started, in its session."""
    session, seen = os.getsid(started.pid), {}
    while started.poll() is None:
        seen.update((which, (crate, kind, used)) for which, crate, kind, used in provers(session))
        time.sleep(PAUSE)
    costs = collections.Counter()
    for crate, kind, used in seen.values():
        costs[crate, kind] += used
    return costs


def wrong_bodies(crate):
    """How many wrong bodies the gate tries of a crate."""
    return len(crates.edits_in(f"{crates.TOP}/crates/{crate}/must-fail"))


def table(costs):
    """The rows, a crate each, in the order of crates.txt."""
    yield HEAD
    yield "|---|---|---|---|"
    for crate in crates.uses_of():
        used = [f"{costs[crate, kind]:.0f}" if costs[crate, kind] else "" for kind in crates.KINDS]
        used[-1] += f" for {wrong_bodies(crate)}" if used[-1] else ""
        yield f"| {crate} | " + " | ".join(used) + " |"


def costs_in(table):
    """What a table's rows tell, by crate and kind."""
    costs = collections.Counter()
    for crate, row in re.findall(r"^\| *(pp_\w+) *\|([^\n]*)\|$", table, re.M):
        for kind, cell in zip(crates.KINDS, row.split("|")):
            costs[crate, kind] = int(re.match(r" *(\d*)", cell)[1] or 0)
    return costs


def longest_chain(costs):
    """The longest chain of proofs, each of which waits for the one before: its seconds, and its crates."""
    uses, chains = crates.uses_of(), {}
    for crate in sorted(uses, key=lambda it: len(crates.below(it, uses))):
        seconds, before = max([chains[it] for it in uses[crate] if it in uses], default=(0, []))
        chains[crate] = seconds + costs[crate, "proof"], [*before, crate]
    # The tests of a crate wait for what is below it, and not for its own proof.
    ends = [(seconds - costs[crate, "proof"] + costs[crate, "tests"], [*of[:-1], f"the tests of {crate}"]) for crate, (seconds, of) in chains.items()]
    return max([*chains.values(), *ends])


def totals(costs, commit, minutes, runs):
    """The totals, a sentence each."""
    product, kinds = crates.of_product(), collections.Counter()
    for (crate, kind), used in costs.items():
        kinds["product" if kind == "proof" and crate in product else "tests" if kind != "wrong bodies" else kind] += used / 60
    seconds, chain = longest_chain(costs)
    processors = len(os.sched_getaffinity(0))
    said = [
        f"- Commit {commit}, on {processors} processors{f', in {runs} runs' if runs > 1 else ''}: {minutes:.0f} minutes by the clock, and "
        f"{sum(kinds.values()):.0f} of a processor.",
        f"- The product takes {kinds['product']:.0f} of these; tests, callers and measurements {kinds['tests']:.0f}; wrong bodies "
        f"{kinds['wrong bodies']:.0f}.",
        f"- The longest chain of proofs takes {seconds:.0f} seconds: {', '.join(chain)}.",
    ]
    for it in said:
        yield from textwrap.wrap(it, 127, subsequent_indent="  ", break_long_words=False, break_on_hyphens=False)


def told(costs, commit, minutes, runs=1):
    """The lines of docs/architecture.md, *The gate*: the table, and the totals."""
    return [*table(costs), "", *totals(costs, commit, minutes, runs)]
