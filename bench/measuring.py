"""What the comparisons share: programs built from their sources, generated graphs, and measured runs."""
import filecmp
import glob
import os
import shutil
import subprocess
import sys

HERE = os.path.dirname(os.path.abspath(__file__))
TOP = os.path.dirname(HERE)
OUT = os.path.join(HERE, "out")
GHS = os.path.join(TOP, "crates", "ghs", "out", "ghs")


def build_ghs():
    """Has the script build the program where it isn't built yet."""
    subprocess.run([os.path.join(TOP, "ghs"), "--help"], stdout=subprocess.DEVNULL, check=True)


def build(name, *flags):
    os.makedirs(OUT, exist_ok=True)
    program = os.path.join(OUT, name)
    source = os.path.join(HERE, name + ".cpp")
    sources = [source, *glob.glob(os.path.join(HERE, "plain*.h"))]
    if not os.path.exists(program) or os.path.getmtime(program) < max(map(os.path.getmtime, sources)):
        compiler = shutil.which("clang++") or "g++"
        subprocess.run([compiler, "-O2", "-std=c++17", *flags, "-o", program, source], check=True)
    return program


def build_peers():
    """The five protocols of bench/peers.cpp, built anew where one of its headers has changed; nothing where there is no compiler."""
    program = os.path.join(OUT, "peers")
    headers = glob.glob(os.path.join(HERE, "peers_*.h"))
    if os.path.exists(program) and os.path.getmtime(program) < max(map(os.path.getmtime, headers)):
        os.remove(program)
    return build("peers") if shutil.which("clang++") or shutil.which("g++") else None


def road(nodes, links, order):
    """The path of a generated road-like graph."""
    program = build("road")
    path = os.path.join(OUT, f"road-{nodes}-{links}-{order}.gr")
    with open(path, "wb") as file:
        subprocess.run([program, str(nodes), str(links), order], stdout=file, check=True)
    return path


def write_graph(name, nodes, arcs):
    """The path of a graph of these arcs, each given by its ends and its weight."""
    path = os.path.join(OUT, name + ".gr")
    with open(path, "w") as file:
        file.write(f"p sp {nodes} {len(arcs)}\n")
        file.writelines(f"a {u} {v} {weight}\n" for u, v, weight in arcs)
    return path


def same_bytes(first, second):
    return filecmp.cmp(first, second, shallow=False)


def run(words, output):
    """Processor seconds and peak MiB of one run."""
    with open(output, "wb") as file:
        process = subprocess.Popen(words, stdout=file)
        _, status, usage = os.wait4(process.pid, 0)
    process.returncode = os.waitstatus_to_exitcode(status)
    if process.returncode != 0:
        sys.exit(f"{words[0]}: exit status {process.returncode}")
    return usage.ru_utime + usage.ru_stime, usage.ru_maxrss / 1024


def measure(programs, path, runs):
    """The best of so many runs of each program, which take turns and have to print the same: seconds, MiB, and the least and
    the greatest ratio of its seconds to the first program's in the same turn."""
    best, ratios = {}, {}
    printed = {label: os.path.join(OUT, "printed." + label) for label in programs}
    for _ in range(runs):
        turn = {label: run(words + [path], printed[label]) for label, words in programs.items()}
        base = next(iter(turn.values()))[0]
        for label, measured in turn.items():
            best[label] = tuple(map(min, measured, best.get(label, measured)))
            ratios.setdefault(label, []).append(measured[0] / base)
    first, *others = printed.values()
    for other in others:
        if not same_bytes(first, other):
            sys.exit(f"{path}: {first} and {other} differ")
    return {label: (*best[label], min(ratios[label]), max(ratios[label])) for label in programs}


def heading():
    print(f"{'graph':48} {'program':8} {'seconds':>8} {'MiB':>6} {'time':>6} {'memory':>7} {'turns':>11}")


def print_rows(graph, best):
    """A line for each program; ratios are to the first one, at the end those of time in the turns, the least and the greatest."""
    base = next(iter(best.values()))
    for label, (seconds, memory, low, high) in best.items():
        ratios = f"{seconds / base[0]:6.2f} {memory / base[1]:7.2f} {low:5.2f} {high:5.2f}"
        print(f"{graph:48} {label:8} {seconds:8.3f} {memory:6.0f} {ratios}", flush=True)
