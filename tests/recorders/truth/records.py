"""What a run of a random program left: the log, the trace, and the memory of its pools."""
import pathlib
import struct

from effects import NEVER, Done

RECORD = struct.Struct("<8Q")


def read_logs(program, name):
    """What each thread's operations did, those that began. What a child did is no operation of its parent."""
    records = RECORD.iter_unpack(pathlib.Path(f"{name}.log").read_bytes())
    logs = []
    for operations in program.threads:
        log, of_child = [], 0
        for operation, (begun, ended, answer, expected, expected2, seen, seen2, _) in zip(operations, records):
            if of_child > 0:
                of_child -= 1
            elif begun:
                of_child = operation[1] if operation[0] == "fork" else 0
                log.append(Done(operation, begun, ended or NEVER, answer, expected | expected2 << 64, seen | seen2 << 64))
        logs.append(log)
    return logs


def read_memory(program, name):
    """The last bytes of all pools, each at its place."""
    memory = bytearray(program.flat_end())
    for number, pool in enumerate(program.pools):
        if pool.base == number:
            content = pathlib.Path(f"{name}.pool{number}").read_bytes()[pool.skew :]
            memory[pool.flat : pool.flat + len(content)] = content
    return bytes(memory)


def read_text(program, name):
    """The trace. Of a program that was killed the file ends in zeros or in a part of a line, behind its last whole line."""
    text = pathlib.Path(f"{name}.trace").read_bytes()
    if program.ending[0] == "_exit" or program.ending == ("signal", 9):
        text = text[: text.rfind(b"\n") + 1]
    return text.decode()
