"""Runs the designs of this folder in iverilog and in a program that has the form `simv`.

How many bits the choices have is asked of the program: it refuses a text of choices with C1 at the first byte with
which no text can go on, and that is the digit behind the last one that the module has a bit for, or the blank where it
has none. So a `first` line of too many zeros tells the length of the first choice, and then a `cycle` line that of each
cycle's.
"""

import os
import re
import subprocess

from ports import FOLDER

# More than a design of this folder has in either choice.
MOST_BITS = 1 << 20


class NotRun(Exception):
    """Why a design has not been run."""


def stimulus_of(name):
    """The words of each cycle."""
    with open(os.path.join(FOLDER, name + ".stimulus")) as file:
        return [line.split()[1:] for line in file.read().splitlines()[1:-1]]


def write(folder, name, text):
    with open(os.path.join(folder, name), "w") as file:
        file.write(text)


def binary(words, ports, between):
    """Hexadecimal words of these ports in binary."""
    return between.join(format(int(word, 16), "0%db" % bits) for word, (_, bits) in zip(words, ports))


def bench(inputs, outputs, cycles):
    """A test bench that reads a binary word for each cycle, of all inputs, and shows all outputs in binary."""
    width = sum(bits for _, bits in inputs)
    declared = ["reg [%d:0] %s;" % (bits - 1, port) for port, bits in inputs]
    declared += ["wire [%d:0] %s;" % (bits - 1, port) for port, bits in outputs]
    connected = ", ".join(".%s(%s)" % (port, port) for port in ["clk"] + [port for port, _ in inputs + outputs])
    given = ", ".join(port for port, _ in inputs)
    shown = ", ".join(port for port, _ in outputs)
    return "\n".join(
        ["module bench; reg clk; integer bench_cycle;"]
        + declared
        + ["reg [%d:0] bench_given [0:%d];" % (width - 1, cycles - 1), "DESIGN bench_of(%s);" % connected]
        + ["initial begin", '  $readmemb("given", bench_given); clk = 0;']
        + ["  for (bench_cycle = 0; bench_cycle < %d; bench_cycle = bench_cycle + 1) begin" % cycles]
        + ["    {%s} = bench_given[bench_cycle];" % given]
        + ['    #1 $display("%s", %s); clk = 1; #1 clk = 0;' % (" ".join(["%b"] * len(outputs)), shown)]
        + ["  end", "  $finish;", "end", "endmodule", ""]
    )


def compile_bench(name, inputs, outputs, stimulus, folder):
    """Makes the program `bench` of the folder, which shows the outputs over the stimulus."""
    write(folder, "given", "".join(binary(words, inputs, "") + "\n" for words in stimulus))
    write(folder, "bench.v", bench(inputs, outputs, len(stimulus)).replace("DESIGN", name))
    command = ["iverilog", "-g2005", "-Wall", "-o", "bench", "bench.v", os.path.join(FOLDER, name + ".v")]
    made = subprocess.run(command, cwd=folder, capture_output=True, text=True)
    if made.returncode or made.stderr:
        raise NotRun("iverilog says " + (made.stderr.strip().splitlines() or ["nothing"])[0])


def run_bench(folder):
    """What that program shows."""
    return subprocess.run(["vvp", "-n", "bench"], cwd=folder, capture_output=True, text=True, check=True).stdout


def iverilog(name, inputs, outputs, stimulus, folder):
    """The outputs in each cycle, a binary word for each, x where it is not known."""
    compile_bench(name, inputs, outputs, stimulus, folder)
    return [line.split() for line in run_bench(folder).splitlines() if not line.startswith("bench.v:")]


def simulated(program, name, stimulus, choices, folder):
    """What `simv` answers over this stimulus and with these choices: its output and its lines of errors."""
    write(folder, "stimulus", "stim 1\n" + "".join(" ".join(["in"] + words) + "\n" for words in stimulus) + "end\n")
    write(folder, "choices", choices)
    return run_simv(program, name, folder)


def run_simv(program, name, folder):
    """The same with the stimulus and the choices of the folder."""
    files = [os.path.join(FOLDER, name + ".v")] + [os.path.join(folder, text) for text in ("stimulus", "choices")]
    ended = subprocess.run([program, "simv"] + files, capture_output=True, text=True)
    return ended.stdout, ended.stderr.strip()


def bits_after(program, name, stimulus, front, folder):
    """The number of bits of the choice whose line stands after `front`."""
    word = "cycle" if front.count("\n") > 1 else "first"
    _, said = simulated(program, name, stimulus, "%s%s %s" % (front, word, "0" * MOST_BITS), folder)
    place = re.fullmatch(r"error: C1 at (\d+)", said)
    if not place:
        has_form = said != "error: usage"
        raise NotRun("the program says %s" % (said or "nothing") if has_form else "the program has no form simv")
    return max(0, int(place[1]) - len(front) - len(word) - 1)


def line(word, bits):
    return "%s %s\n" % (word, "0" * bits) if bits else word + "\n"


def choices_of(program, name, stimulus, folder):
    """Choices of zeros for the stimulus."""
    front = "choices 1\n"
    front += line("first", bits_after(program, name, stimulus, front, folder))
    return front + line("cycle", bits_after(program, name, stimulus, front, folder)) * len(stimulus) + "end\n"


def simv(program, name, outputs, stimulus, folder):
    """The outputs in each cycle, a binary word for each, where all choices are 0."""
    trace, said = simulated(program, name, stimulus, choices_of(program, name, stimulus, folder), folder)
    if said:
        raise NotRun("the program says " + said)
    return [binary(text.split()[1:], outputs, " ").split() for text in trace.splitlines()[1:-1]]
