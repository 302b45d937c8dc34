"""How the command is judged by each kind of vector, and by what each user of a command line expects."""

import bisect
import itertools
import tomllib

import programs
from programs import DATA_FILES, LIMIT_OF_VECTORS, SMALLEST, WRITERS, Outcome, complaint, first, line_of, octets_of, read_vectors, refused, refusing, run

EVERY = read_vectors()


# ---- what is wanted

def rooms_of(vector):
    return {field: vector.get(field) for field in ("reader_room", "writer_room")}


def outcome_of_same(vector):
    return Outcome(b"same\n", b"", 0) if vector["same"] else Outcome(b"different\n", b"", 1)


def outcome_of_many(vector):
    output = octets_of(vector, "output")
    if "fault" not in vector:
        return Outcome(output, b"", 0)
    fault = vector["fault"]
    of_streams = "read fault" if "read_fault" in fault else f"write fault after {fault.get('write_fault_after')}"
    line, status = (line_of(fault["refused"]), 3) if "refused" in fault else (of_streams, 4)
    return Outcome(output, f"message {fault['done']}: {line}\n".encode(), status)


@first
def judge_convert(program, vector):
    """A message that is refused is refused by each command as by `convert`. E18 comes only if nothing may follow the message."""
    given, again = octets_of(vector, "input"), bytes.fromhex(vector.get("then_forever", ""))
    if "refused" not in vector:
        yield "convert", Outcome(octets_of(vector, "output"), b"", 0), run([program, "convert"], given, again)
        return
    runs = [(words, b"", b"") for words in ("convert", "show", "changes", "check", "cover --signer 0")]
    runs += [("same", octets_of(EVERY[SMALLEST], "output"), b"second: ")]
    if vector["refused"]["name"] != "Trailing":
        runs += [("same", b"", b"first: "), ("check --content", b"", b""), ("cover --signer 0 --content", b"", b"")]
    wanted = refused(**vector["refused"])
    for words, before, prefix in runs:
        came = run([program, *words.split()], before + given, again)
        yield f"{words}, {prefix.decode()}", wanted._replace(stderr=prefix + wanted.stderr), came


def judge_run(program, vector):
    stdout = vector["stdout_text"].encode() if "stdout_text" in vector else bytes.fromhex(vector["stdout"])
    came = run([program, *vector["args"]], octets_of(vector, "stdin"), **rooms_of(vector))
    return complaint(Outcome(stdout, vector["stderr"].encode(), vector["status"]), came)


def judge_cover(program, vector):
    """Detached content is handed in after the message. The command is asked for signers alone: paths of one number."""
    (signer,) = vector["path"] if "path" in vector else [vector["signer"]]
    is_detached = "detached" in vector
    given = octets_of(vector, "message") + (octets_of(vector, "detached") if is_detached else b"")
    lines = {"NoSigner": b"refused: no such signer\n", "NoContent": b"refused: no content\n"}
    wanted = Outcome(b"", lines[vector["fault"]], 3) if "fault" in vector else Outcome(octets_of(vector, "octets"), b"", 0)
    return complaint(wanted, run([program, "cover", "--signer", str(signer), *(["--content"] if is_detached else [])], given))


def judge_same(program, vector):
    first, second = octets_of(vector, "first"), octets_of(vector, "second")
    return complaint(outcome_of_same(vector), run([program, "same"], first + second))


def judge_many(program, vector):
    return complaint(outcome_of_many(vector), run([program, "convert", "--many"], octets_of(vector, "input"), **rooms_of(vector)))


# ---- rules for the vectors that they name: for the command, and with other words and another status for the library

@first
def judge_cuts(program, rule, readers=(("convert",),), status=3):
    """Each input without its end is refused at the octet at which it was cut. If `ends` is given, only so many first and last cuts are tried."""
    for name, reader in itertools.product(rule["vectors"], readers):
        whole = octets_of(EVERY[name], "input")
        ends = rule.get("ends", len(whole))
        for cut in (it for it in range(len(whole)) if not ends <= it < len(whole) - ends):
            yield f"{name}, {reader[0]}, cut to {cut} octets", refused(1, "Truncated", cut, status), run([program, *reader], whole[:cut])


@first
def judge_again(program, rule):
    for name in rule["vectors"]:
        output = octets_of(EVERY[name], "output")
        yield f"output of {name}", Outcome(output, b"", 0), run([program, "convert"], output)


@first
def judge_failing_reads(program, rule, readers=(("convert",),), status=4):
    """Each reader that fails before the end of the input is a read fault."""
    for name, reader in itertools.product(rule["vectors"], readers):
        whole = octets_of(EVERY[name], "input")
        for room in range(len(whole)):
            came = run([program, *reader], whole, reader_room=room)
            yield f"{name}, {reader[0]}, a reader that fails after {room} octets", Outcome(b"", b"read fault\n", status), came


def conversions(program, rule):
    """Gives the name, the command, the input and each DER of a conversion; `many`: of the messages of one vector, one after another."""
    for name in rule.get("vectors") or [rule["many"]]:
        whole = octets_of(EVERY[name], "input")
        if "many" in rule:
            yield name, [program, "convert", "--many"], whole, [bytes.fromhex(der) for der in rule["ders"]]
        else:
            yield name, [program, "convert"], whole, [octets_of(EVERY[name], "output")]


@first
def judge_failing_writes(program, rule):
    """Each writer that fails before the end of the output is a write fault, after the octets that it took; for many messages, the line says
    in which one, and after how many of its octets."""
    for name, words, whole, ders in conversions(program, rule):
        output, ends = b"".join(ders), [0, *itertools.accumulate(map(len, ders))]
        for room, how in itertools.product(range(len(output)), WRITERS):
            done = bisect.bisect_right(ends, room) - 1
            line = f"message {done}: " * ("many" in rule) + f"write fault after {room - ends[done]}\n"
            came = run(refusing({"WRITE_ROOM": room, **how}, words), whole)
            yield f"{name}, a writer that fails after {room} octets ({how})", Outcome(output[:room], line.encode(), 4), came


def judge_refused_growths(program, rule):
    """Out of memory, `convert` writes nothing; and all of several messages before the one in work."""
    for name, words, whole, ders in conversions(program, rule):
        stopped = [Outcome(b"".join(ders[:i]), b"out of memory\n", 5) for i in range(len(ders))]
        done = Outcome(b"".join(ders), b"", 0)
        if differs := programs.complaint_of_growths(lambda call: run(refusing({"REFUSED_GROWTH": call}, words), whole), done, stopped):
            return f"{name}, {differs}"
    return ""


@first
def judge_status_of_faults(program, rule):
    """Faults of memory, of the reader and of the writer have their statuses, whether or not their lines can be written."""
    faults = [
        ({"REFUSED_GROWTH": 1}, Outcome(b"", b"out of memory\n", 5)),
        ({"READ_ROOM": 9}, Outcome(b"", b"read fault\n", 4)),
        ({"WRITE_ROOM": 0}, Outcome(b"", b"write fault after 0\n", 4)),
    ]
    for name, (how, wanted) in itertools.product(rule["vectors"], faults):
        for script, line in (('exec "$0" convert', wanted.stderr), ('exec "$0" convert 2>/dev/full', b"")):
            words = ["sh", "-c", script.replace("exec", f"exec env {' '.join(programs.settings(how))}"), program]
            yield f"{name}, {how}, {script}", wanted._replace(stderr=line), run(words, octets_of(EVERY[name], "input"))


JUDGES = {
    "convert": judge_convert, "run": judge_run, "run-faulty": judge_run, "cover": judge_cover, "cover-path": judge_cover, "same": judge_same,
    "many": judge_many, "sweep-cuts": judge_cuts, "sweep-again": judge_again, "sweep-reads": judge_failing_reads,
    "sweep-writes": judge_failing_writes, "refused-growth": judge_refused_growths, "status-of-faults": judge_status_of_faults,
}
NEED_GCC = ("sweep-writes", "refused-growth", "status-of-faults")


# ---- the command

def kind_of(vector):
    """Returns the kind of a vector. A rule in words is known by its name, which may have an ending."""
    return vector["name"].removesuffix("-countersignatures") if vector["kind"] == "rule" else vector["kind"]


def is_of_command(vector):
    """Whether the vector is asked of the command. What the commands do not offer, the tests of the libraries ask."""
    is_offered = vector.get("limit", LIMIT_OF_VECTORS) == LIMIT_OF_VECTORS and vector.get("tail") != "leave"
    return kind_of(vector) in JUDGES and is_offered and len(vector.get("path", [0])) == 1


def own_checks():
    """Gives what each user of a command line expects: a name, a script of a shell, the vector whose input it has if any, and what is wanted."""
    read = tomllib.loads((DATA_FILES / "command-line.toml").read_text())
    for check in read.pop("check"):
        for words in check.get("words", [""]):
            name, script, line = (check.get(it, "").format(words=words, **read) for it in ("name", "script", "stderr"))
            wanted = Outcome(None if check.get("writes") else b"", line.encode(), check.get("status", 0))
            yield name, script, SMALLEST if check.get("given") else "", wanted
