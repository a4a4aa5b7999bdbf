"""Files with long plans for the benchmarks of the program, and how a command is timed on them."""
import os
import subprocess
import tempfile
import time

from inputs import PROGRAM, TOP, build


def declarations():
    """The public-key protocol with its repair, without its plan."""
    text = (TOP / "examples/needham-schroeder-lowe.dy").read_text()
    return text[: text.index("plan {")]


def planned(text, rounds):
    lines = (f"  round {{ {' '.join(steps)} }}\n" for steps in rounds)
    return f"{text}plan {{\n{''.join(lines)}}}\n"


def key_exchange(principals, times=1, more=()):
    """Each principal exchanges keys with the next one, so many times. Then come more rounds."""
    pairs = [(i, i % principals + 1) for i in range(1, principals + 1)]
    rounds = [[f"k{i}: p{i} MakeKey();" for i, _ in pairs]]
    for n in range(times):
        rounds += [
            [f"q{n}x{i}: p{i} Ask(p{j});" for i, j in pairs],
            [f"r{n}x{i}: p{j} Reply() msg q{n}x{i}.1;" for i, j in pairs],
            [f"c{n}x{i}: p{i} Confirm() on q{n}x{i} msg r{n}x{i}.1;" for i, j in pairs],
            [f"a{n}x{i}: p{j} Accept() on r{n}x{i} msg c{n}x{i}.1;" for i, j in pairs],
        ]
    return planned(declarations(), [*rounds, *more])


def all_corrupted(principals):
    """The same, and then each state is taken."""
    pairs = [(i, i % principals + 1) for i in range(1, principals + 1)]
    return key_exchange(principals, more=[
        [f"xq{i}: corrupt p{i} q0x{i} 1;" for i, _ in pairs],
        [f"xr{i}: corrupt p{j} r0x{i} 1;" for i, j in pairs],
        [f"xk{i}: corrupt p{i} k{i} 1;" for i, _ in pairs],
    ])


NOISY = (
    "dystar 1\nusage nonce Rand();\nstate S (x: secret here);\n"
    "handler Make args() {\n" + "".join(f"  new n{i} : Rand() secret public;\n  send n{i};\n" for i in range(31))
    + "  new x : Rand() secret next;\n  store S(x);\n}\n"
    "handler Keep on S(old) args() {\n"
    + "".join(f"  new n{i} : Rand() secret public;\n  send n{i};\n" for i in range(31))
    + "  new x : Rand() secret next;\n  store S(x);\n}\n"
)


def many_sessions(steps):
    """So many sessions of 64 principals, of 66 entries each."""
    return planned(NOISY, [[f"s{i}: p{i % 64} Make();" for i in range(steps)]])


def many_versions(steps):
    """Four sessions with this many versions together, of 66 entries each."""
    first = [f"s{i}: p{i} Make();" for i in range(4)]
    # a round may go on with a session once
    later = [[f"k{i}: p{i % 4} Keep() on s{i % 4};" for i in range(j, min(j + 4, steps))] for j in range(4, steps, 4)]
    return planned(NOISY, [first, *later])


# A session has a key of its own, and sends 31 nonces under it.
SEALED = (
    "dystar 1\nusage aead Box();\nusage nonce Rand();\ncase Box \"d\"(x: any);\nstate S (k: key here Box());\n"
    "handler Make args() {\n  new k : Box() secret next;\n"
    + "".join(f'  new n{i} : Rand() secret next;\n  send aead(k using Box(), "d"(n{i}), "");\n' for i in range(31))
    + "  store S(k);\n}\n"
)


def attacked_at_the_end(steps, attacks):
    """So many sessions of 66 entries. Then so many of their keys are taken, and as many messages are opened and sent."""
    return planned(SEALED, [
        [f"s{i}: p{i % 64} Make();" for i in range(steps)],
        [f"x{i}: corrupt p{i % 64} s{i} 1;" for i in range(attacks)],
        [f"j{i}: inject adec(msg s{i}.1, field s{i}.1.1);" for i in range(attacks)],
    ])


def all_told(steps):
    """So many sessions of 66 entries, each of which sends 31 nonces that nobody may read."""
    return planned(NOISY.replace("secret public", "secret nobody"), [[f"s{i}: p{i % 64} Make();" for i in range(steps)]])


RUNS = {
    "64 principals": key_exchange(64),
    "60 principals, 1,020 steps": key_exchange(60, 4),
    "1,000 sessions": many_sessions(1000),
    "1,000 versions": many_versions(1000),
}

# At most 1,024 steps: 900 make 59,400 entries, and 124 are left for the attacker.
PLAYS = {
    "64 principals": key_exchange(64),
    "64 principals, all corrupted": all_corrupted(64),
    "900 sessions, 124 attacks": attacked_at_the_end(900, 62),
    "30 sessions, 930 breaches": all_told(30),
    "60 sessions, 1,860 breaches": all_told(60),
}

def timed(command, text):
    """The seconds of one run, its peak memory in KiB, and what it printed."""
    with tempfile.TemporaryFile() as source, tempfile.TemporaryFile() as sink:
        source.write(text.encode())
        source.seek(0)
        begun = time.perf_counter()
        process = subprocess.Popen([PROGRAM, command], stdin=source, stdout=sink)
        _, status, used = os.wait4(process.pid, 0)
        seconds = time.perf_counter() - begun
        assert status == 0, status
        sink.seek(0)
        return seconds, used.ru_maxrss, sink.read()


def total_of(printed):
    """The number of entries, by the line of totals."""
    return int(next(line for line in printed.splitlines() if line.startswith(b"total ")).split()[1])


def time_plans(command, plans, rounds):
    build()
    print(f"{'plan':28} {'entries':>8} {'ms':>9} {'us an entry':>12} {'MiB':>7}")
    for name, text in plans.items():
        runs = [timed(command, text) for _ in range(rounds)]
        seconds, peak, printed = min(run[0] for run in runs), max(run[1] for run in runs), runs[0][2]
        entries = total_of(printed)
        print(f"{name:28} {entries:8} {seconds * 1e3:9.1f} {seconds * 1e6 / entries:12.2f} {peak / 1024:7.1f}")
