"""Which word of a line does not fit: what is found is what the store refuses."""
from concurrent.futures import ThreadPoolExecutor
from pathlib import Path

import drawn
import pytest
from rpstore import command, report

NO_COMMAND = {"long", "syntax", "range", "zero", "nodes"}
# A line, and the cause, the word and its place at which it is no command.
FAULTS = [
    ("walk", "syntax", "walk", 1), ("member  all 0 0 0 1", "syntax", "", 2), ("member half 1 0 0 00 0 0 0 1", "syntax", "00", 6),
    ("member half 16777217 0 0 x", "range", "16777217", 3), ("member half 0 0 0 0 x", "zero", "0", 6), ("list all", "syntax", "all", 2),
    ("register 7 all", "syntax", "7", 2), ("cut a all b", "syntax", None, 5), ("show prism 0 10 2 0 0 1 1", "range", "2", 5),
    ("member all " + 60000 * "1" + " 0 0 1", "range", 60000 * "1", 3), ("member" + 1024 * " not" + " all 0 0 0 1", "nodes", "all", 1026),
    ("section all 16777216", "range", "16777216", 3), ("let a : all", "syntax", ":", 3), ("subdivide a 1025", "range", "1025", 3),
]


@pytest.mark.parametrize("line, cause, word, place", FAULTS)
def test_the_first_fault_of_a_line(line, cause, word, place, store):
    with pytest.raises(command.Refusal) as found:
        command.read(line, 1)
    assert (found.value.cause, found.value.word, found.value.place + 1) == (cause, word, place)
    assert store(line).decode().endswith(f"= refused {cause}\n")


def test_decimals_of_version_2():
    assert command.read("section all -0.005", 2).numbers == [-5]
    for word in ("-0.000", "5", "5.0", "5.0000", ".500", "05.000", "+5.000"):
        with pytest.raises(command.Refusal, match="syntax at word 3"):
            command.read(f"section all {word}", 2)


def test_what_a_command_names():
    """The words of the language may be names too."""
    found = command.read("subdivide p 2 a or name name lot lot b minus lot prism box 0 0 0 1 1 1", 1)
    assert (found.names, found.named) == (["p", "a", "b"], [("name", "name"), ("lot", "lot"), ("lot", "prism")])
    assert [found.expression(0), found.expression(1)] == ["or name name lot lot", "minus lot prism box 0 0 0 1 1 1"]


def refused_by_table(script: bytes) -> dict:
    """The causes of the lines that are no commands, by their numbers, as the table of commands tells them."""
    lines = [line[: -1 if line.endswith(b"\r") else None] for line in script.split(b"\n")[:-1]] + [script.split(b"\n")[-1]]
    version = 2 if lines[0] == b"rp 2" else 1
    found = {}
    for number, line in enumerate(lines, 2 - version):
        if len(line) > report.LONG[version]:
            found[number] = "long"
        elif line and not line.startswith(b"#") and (number or version == 1):
            try:
                command.read(line.decode("utf-8", "replace"), version)
            except command.Refusal as fault:
                found[number] = fault.cause
    return found


def refused_by_store(told: bytes) -> dict:
    """The causes of the lines that are no commands, by their numbers, as a brief report tells them."""
    found, number = {}, 0
    for line in told.split(b"\n"):
        if line.startswith(b"> "):
            number = int(line.split(b" ")[1])
        elif line.startswith(b"= refused ") and line[10:].decode() in NO_COMMAND:
            found[number] = line[10:].decode()
    return found


def test_the_refused_lines_of_the_examples(root: Path, store):
    paths = sorted(root.glob("examples/*.rp"))
    assert len(paths) > 30
    for path in paths:
        assert refused_by_table(path.read_bytes()) == refused_by_store(store(path.read_text(), "run", "brief")), path


def test_the_refused_lines_of_5000_drawn_scripts(store):
    scripts = [drawn.script(seed) for seed in range(5000)]
    with ThreadPoolExecutor(4) as pool:
        reports = [*pool.map(lambda script: store(script, "run", "brief"), scripts)]
    causes = []
    for script, told in zip(scripts, reports):
        found = refused_by_table(script.encode())
        assert found == refused_by_store(told), script
        causes += found.values()
    assert {cause: causes.count(cause) > 50 for cause in NO_COMMAND} == dict.fromkeys(NO_COMMAND, True)
