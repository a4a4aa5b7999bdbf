"""Inputs of 1 MiB for the benchmarks of the program, and how a command is timed on them."""
import os
import pathlib
import subprocess
import tempfile
import time

TOP = pathlib.Path(__file__).resolve().parent.parent
PROGRAM = TOP / "crates/dy_main/out/dy_main"
SIZE = 1_048_576


def filled(parts, end=""):
    """As many of these parts as there is room for, and then the end."""
    text, room = ["dystar 1\n"], SIZE - len("dystar 1\n") - len(end)
    for part in parts:
        if len(part) > room:
            break
        text.append(part)
        room -= len(part)
    return "".join(text) + end


def handlers(statement, head="args()"):
    """Handlers of 64 such statements, as many as a file may have."""
    return (f"handler H{number} {head} {{\n{statement * 64}}}\n" for number in range(256))


def short_tokens():
    fields = ",".join(['"b"'] * 14)
    return filled(handlers(f'send "a"({fields});\n'))


def deep_expressions():
    return filled(handlers("send " + "hash(" * 62 + '"a"' + ")" * 62 + ";\n"))


def many_variables():
    def statement(first):
        return f'split m as "t"({", ".join(f"v{first + i}" for i in range(16))});\n'
    body = "".join(statement(16 * number) for number in range(63))
    return filled(f"handler H{number} args() recv m {{\n{body}}}\n" for number in range(256))


def many_handlers():
    text = "t" * 32
    return filled(handlers(f'{" " * 17}send "{text}";\n'))


def typed_statements():
    """Handlers of 64 statements that open, verify and compare, with labels of 16 leaves, 16 fields and 7 names."""
    label = "join(a, join(b, " * 7 + "join(a, b)" + "))" * 7
    fields = ", ".join(f"x{number}: upto {label}" for number in range(16))
    anything = ", ".join(f"x{number}: any" for number in range(16))
    declarations = (
        "usage aead Box(a, b);\nusage sig Sign(owner);\n"
        f'case Box "t"({fields});\ncase Sign "s"({anything});\n'
        "state Shared lasting (k: key join(self, b) Box(self, b), b: name);\n"
    )

    def step(number):
        opened, signed = ([f"{word}{number}_{place}" for place in range(16)] for word in "xy")
        return (
            f'open m with k using Box(self, b) as "t"({", ".join(opened)}) ad "";\n'
            f'verify m with v using Sign(b) as "s"({", ".join(signed)});\n'
            f"same {opened[0]} {signed[0]};\n"
        )

    body = "use Shared(k, =b);\nfind Sign of b as v;\n" + "".join(map(step, range(20))) + "send m;\n" * 2
    heads = (f"handler H{number} args(b, c, d, e, f, g) recv m {{\n" for number in range(256))
    return filled((declarations, *(f"{head}{body}}}\n" for head in heads)))


def long_plan():
    recipe = '"t"(' + ", ".join([f'pair("{"a" * 20}", hash("{"b" * 20}"))'] * 16) + ")"
    steps = (f"s{number}: inject {recipe};\n" for number in range(1024))
    return filled(("plan {\nround {\n", *steps), "}\n}\n")


def past_a_limit():
    return "dystar 1\nhandler H args() {\n" + '  send "job";\n' * 74_000 + "}\n"


INPUTS = {
    "many short tokens": short_tokens,
    "deep expressions": deep_expressions,
    "many variables": many_variables,
    "many handlers": many_handlers,
    "typed statements": typed_statements,
    "one long plan": long_plan,
    "past a limit": past_a_limit,
}


def seconds(command, path, rounds):
    """The least time of the rounds, for the program itself and not for the script that builds it."""
    best = float("inf")
    for _ in range(rounds):
        with open(path, "rb") as source:
            begin = time.perf_counter()
            subprocess.run(command, stdin=source, stdout=subprocess.DEVNULL)
            best = min(best, time.perf_counter() - begin)
    return best


def peak_mib(command, path):
    """The peak of resident memory, read while the program waits to write its answer into a full pipe."""
    out, full = os.pipe()
    os.set_blocking(full, False)
    try:
        while True:
            os.write(full, b"x" * 4096)
    except BlockingIOError:
        os.set_blocking(full, True)
    with open(path, "rb") as source:
        process = subprocess.Popen(command, stdin=source, stdout=full)
    before, peak = -1, 0
    while peak != before:
        before = peak
        time.sleep(0.2)
        status = pathlib.Path(f"/proc/{process.pid}/status").read_text()
        peak = int(next(line.split()[1] for line in status.splitlines() if line.startswith("VmHWM")))
    os.close(full)
    while os.read(out, 65536):
        pass
    os.close(out)
    process.wait()
    return peak / 1024


def build():
    """Builds the program, if need be."""
    subprocess.run([TOP / "laskfort", "check"], stdin=subprocess.DEVNULL, stdout=subprocess.DEVNULL)


def compare(word, other, rounds):
    """Prints, for each input, the time and peak memory of the program and of the other command."""
    build()
    for name, make in INPUTS.items():
        data = make().encode()
        assert len(data) <= SIZE, name
        with tempfile.NamedTemporaryFile() as file:
            file.write(data + b" " * (SIZE - len(data)))
            file.flush()
            with open(file.name, "rb") as source:
                printed = subprocess.run([PROGRAM, word], stdin=source, stdout=subprocess.PIPE).stdout
            first = printed.decode().split("\n")[0]
            ours = seconds([PROGRAM, word], file.name, rounds)
            theirs = seconds([other], file.name, rounds)
            memory = peak_mib([PROGRAM, word], file.name)
        print(f"{name}: {word} {ours * 1000:.1f} ms, {memory:.1f} MiB ({first}); "
              f"{other} {theirs * 1000:.1f} ms; times {other} {ours / theirs:.1f}")
