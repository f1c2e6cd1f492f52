#!/usr/bin/env python3
"""A plug-in with the macros `stringify` and `nested`, to be timed beside `sample_plugin`.

It reads frames from standard input and writes one frame for each, in their order, until the input ends. Its status
is 0 where the input ended after a whole frame, 1 where it ended inside one, 6 where a frame is too long, and 7 at a
payload that it doesn't know.
"""

import json
import re
import sys

LARGEST_PAYLOAD = 16_777_216
LARGEST_SOURCE = 4_194_304

CAPABILITY = {"getCapabilityResult": {"capability": {"protocolVersion": 7}}}

CLOSES = {"(": ")", "[": "]", "{": "}"}
PIECES = re.compile(r'[ \n]+|"[^"\\\n]*"|[^ \n]')
ESCAPES = str.maketrans({"\\": "\\\\", '"': '\\"', "\n": "\\n", "\r": "\\r"})


class Cut(Exception):
    """The input ended inside a frame."""


class TooLong(Exception):
    """A frame above the limit."""


def take(stream, count):
    """So many bytes, or fewer where the input ends."""
    parts = []
    while count > 0:
        part = stream.read(count)
        if not part:
            break
        parts.append(part)
        count -= len(part)
    return b"".join(parts)


def frames(stream):
    while header := take(stream, 8):
        length = int.from_bytes(header, "little")
        if len(header) < 8:
            raise Cut
        if length > LARGEST_PAYLOAD:
            raise TooLong
        payload = take(stream, length)
        if len(payload) < length:
            raise Cut
        yield payload


def send(stream, message):
    """The payload without white space, keys in the order of their bytes, behind its length."""
    payload = json.dumps(message, sort_keys=True, separators=(",", ":"), ensure_ascii=False).encode()
    stream.write(len(payload).to_bytes(8, "little") + payload)
    stream.flush()


def argument(source):
    """What stands in the first round brackets of a use, or None."""
    if len(source.encode()) > LARGEST_SOURCE:
        return None
    start = end = None
    closing = []
    inside = found = False
    for piece in PIECES.finditer(source):
        text = piece.group()
        if text[0] in " \n":
            continue
        if text == '"':
            return None
        if text in CLOSES:
            if text == "(" and not closing and not found:
                inside = found = True
                start, end = None, None
                closing.append(")")
                continue
            closing.append(CLOSES[text])
        elif text in (")", "]", "}"):
            if not closing or closing.pop() != text:
                return None
            if inside and not closing:
                inside = False
                continue
        if inside:
            start = piece.start() if start is None else start
            end = piece.end()
    if closing or start is None:
        return None
    return source[start:end]


def misfit(syntax):
    location = syntax.get("location") or {"fileName": "", "offset": 0}
    error = {
        "message": "this macro does not fit here",
        "severity": "error",
        "position": {"fileName": location["fileName"], "offset": location["offset"]},
        "highlights": [],
        "notes": [],
        "fixIts": [],
    }
    return {"expandMacroResult": {"diagnostics": [error]}}


def expanded(request):
    """A use of `nested` is replaced by one of `stringify`, and that by its argument and the argument's text."""
    syntax = request["syntax"]
    text = argument(syntax["source"]) if request["macroRole"] == "expression" else None
    if text is None:
        return misfit(syntax)
    if request["macro"]["typeName"] == "NestedMacro":
        return {"expandMacroResult": {"diagnostics": [], "expandedSource": f"#stringify({text})"}}
    return {"expandMacroResult": {"diagnostics": [], "expandedSource": f'({text}, "{text.translate(ESCAPES)}")'}}


def answer(payload):
    (case, labels), = json.loads(payload).items()
    if case == "getCapability":
        return CAPABILITY
    if case == "expandFreestandingMacro":
        return expanded(labels)
    if case == "expandAttachedMacro":
        return misfit(labels["declSyntax"])
    raise ValueError(case)


def main():
    try:
        for payload in frames(sys.stdin.buffer):
            send(sys.stdout.buffer, answer(payload))
    except Cut:
        return 1
    except TooLong:
        return 6
    except (ValueError, KeyError, TypeError):
        return 7
    return 0


if __name__ == "__main__":
    sys.exit(main())
