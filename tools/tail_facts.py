"""An independent reader of what follows RAM in a machine's stream: it shares nothing with the library.

`facts` looks for QEMU's description of the devices (`qemu_savevm_state_complete_precopy_non_iterable`
in migration/savevm.c): the end byte, 0x06, a length of four bytes, and JSON. It looks everywhere.
"""
import json
import re

HEAD = re.compile(rb'(?=\x00\x06(.{4})\{")', re.S)


def state_len(part):
    """The bytes of a device's or a subsection's state (`vmstate_subsection_save` in migration/vmstate.c)."""
    fields = sum(it["size"] * it.get("array_len", 1) for it in part["fields"])
    return fields + sum(6 + len(it["vmsd_name"]) + state_len(it) for it in part.get("subsections", []))


def listed(text):
    """The devices of a description: of each its name, its instance and the bytes of its state; None if it is none."""
    try:
        return [(it["name"], it["instance_id"], state_len(it)) for it in json.loads(text)["devices"]]
    except (ValueError, KeyError, TypeError):
        return None


def descriptions(tail):
    """Where a description may be: the bytes before its JSON, and after it."""
    return [(it.start() + 6, it.start() + 6 + int.from_bytes(it[1], "big")) for it in HEAD.finditer(tail)]


def facts(tail):
    """What is known of the bytes after RAM, a word for it, how many are unknown, and the devices or None."""
    if not tail:
        return "cut", "cut", 0, None
    has_devices = tail[0] != 0
    word = "whole" if has_devices else "none"
    if len(tail) == 1 and not has_devices:
        return "whole", word, 0, None
    places = [it for it in descriptions(tail) if has_devices or it[0] == 6]
    for start, end in places:
        devices = listed(tail[start:end])
        if end <= len(tail) and devices is not None:
            extra = len(tail) - end
            return "extra" if extra else "whole", word, extra, devices
    head = tail[:8]
    in_head = not has_devices and len(tail) == len(head) and head[:2] + b"%" + head[6:] in (b"\0\x06%", b"\0\x06%{", b'\0\x06%{"')
    if in_head or any(end > len(tail) and b"\0" not in tail[start:] for start, end in places):
        return "cut description", "cut", 0, None
    if not has_devices:
        return "extra", word, len(tail) - 1, None
    if tail[-1] == 0 or any(end == len(tail) for _, end in places):
        return "unknown", "not known", 0, None
    return "cut", "cut", 0, None


def line(tail):
    """What the line of a complete stream says of the bytes after RAM."""
    _, word, extra, _ = facts(tail)
    return f"devices: {word}, {len(tail)} bytes" + (f", {extra} of them unknown" if extra else "")


def value(tail):
    """The two members of the JSON on the bytes after RAM."""
    state, _, _, devices = facts(tail)
    listed_devices = devices and [{"name": name, "instance_id": it, "bytes": length} for name, it, length in devices]
    return {"devices": listed_devices, "tail": {"state": state.split()[0], "bytes": len(tail)}}


def device_lines(tail):
    return [f'device "{name}" instance {it}, {length} bytes' for name, it, length in facts(tail)[3] or []]


CUT = "the stream ends early; the file was cut, or the save didn't come to its end"


def fault_line(name, length, tail):
    """The line on what is wrong with the bytes after RAM; None if nothing is. The input has `length` bytes."""
    state, _, extra, _ = facts(tail)
    wrong = {"cut": f"byte {length} (devices): {CUT}",
             "cut description": f"byte {length} (description of the devices): {CUT}",
             "unknown": f"byte {length} (devices): no valid description follows, so it isn't known whether their state is complete",
             "extra": f"byte {length - extra} (after the end): {extra} unknown bytes follow"}.get(state)
    return wrong and f"zimgasol: {name}: {wrong}; `--ram-only` verifies RAM alone"
