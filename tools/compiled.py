"""Runs rxc, and takes the networks of what it wrote, for the scripts beside this one.

The program is that of the variable RXC, or the script `rxc` at the top. `tools/squares` may take 1 GB.
"""
import os, resource, subprocess, sys, tempfile

HERE = os.path.dirname(os.path.abspath(__file__))
RXC = os.environ.get("RXC", os.path.join(HERE, "..", "rxc"))
MOST_MEMORY = 1_000_000_000


def run(words, given, before=None):
    """What the command writes on the input. Where it fails, all ends with what it said."""
    it = subprocess.run(words, input=given, capture_output=True, text=True, preexec_fn=before)
    if it.returncode:
        sys.exit(f"{' '.join(words)}: status {it.returncode} {it.stderr}")
    return it.stdout


def limit_memory():
    resource.setrlimit(resource.RLIMIT_AS, (MOST_MEMORY, MOST_MEMORY))


def asked():
    """The words behind the script's name, and those among them that begin with two dashes."""
    return [it for it in sys.argv[1:] if it[:2] != "--"], [it for it in sys.argv[1:] if it[:2] == "--"]


def network(command, specification, flags):
    """The network text of the specification: what `net` wrote, or what a layout's squares stand for, by `tools/squares` or as asked."""
    made = run([RXC, command], specification)
    if command == "net":
        return made
    if "--extract" in flags:
        return run([RXC, "extract"], made)
    with tempfile.NamedTemporaryFile("w", suffix=".cif") as file:
        file.write(made)
        file.flush()
        if "--klayout" not in flags:
            return run([os.path.join(HERE, "squares"), file.name], "", limit_memory)
        with tempfile.NamedTemporaryFile("r", suffix=".net") as found:
            script = os.path.join(HERE, "klayout_network.py")
            run(["klayout", "-b", "-r", script, "-rd", f"chip={file.name}", "-rd", f"network={found.name}"], "")
            return found.read()


def simulated(trace, chip, flags):
    """The lines that `sim` writes for the trace, which ends with the line `chip`, and the network text; or, if asked, those of another simulator."""
    if not {"--icarus", "--ngspice"}.intersection(flags):
        return run([RXC, "sim"], trace + chip)
    with tempfile.TemporaryDirectory() as folder:
        files = [os.path.join(folder, name) for name in ("chip.net", "chip.trace", "chip.v", "chip.vvp")]
        for name, content in zip(files, (chip, trace)):
            with open(name, "w") as file:
                file.write(content)
        if "--ngspice" in flags:
            return run([os.path.join(HERE, "analog"), *files[:2]], "")
        with open(files[2], "w") as file:
            file.write(run([os.path.join(HERE, "verilog"), *files[:2]], ""))
        run(["iverilog", "-o", files[3], files[2]], "")
        return run(["vvp", "-n", files[3]], "")
