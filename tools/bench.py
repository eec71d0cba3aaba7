#!/usr/bin/env python3
"""Measures the compiled program beside one that only parses JSON and prints it: seconds and memory on 10 MB made here, and
instructions, which don't depend on what else a machine does, on modules made here and on a real one.

Run at the repository's top, after `./shake.sh build` and `(cd crates/test_json_echo && rt run < stdin)`
have built both programs: python3 tools/bench.py [seconds|instructions]

Instructions are counted by callgrind, and the real module is acorn's own as acorn gives it (Debian's valgrind and node-acorn).
"""
import json
import os
import re
import subprocess
import sys
import tempfile

INPUT = "/tmp/diwagbo_bench.json"
ACORN = "/usr/share/nodejs/acorn/dist/acorn.mjs"
PROGRAMS = [
    ("shake dce", ["crates/shake_cli/out/shake_cli", "dce"]),
    ("test_json_echo", ["crates/test_json_echo/out/test_json_echo"]),
]


def program(items):
    return '{"type":"Program","sourceType":"module","body":[' + ",".join(items) + "]}"


def name(text): return {"type": "Identifier", "name": text}
def literal(value): return {"type": "Literal", "value": value, "raw": json.dumps(value)}
def call(callee, *arguments): return {"type": "CallExpression", "callee": callee, "arguments": list(arguments), "optional": False}
def member(object, key): return {"type": "MemberExpression", "object": object, "property": name(key), "computed": False, "optional": False}
def block(*body): return {"type": "BlockStatement", "body": list(body)}
def returned(argument): return {"type": "ReturnStatement", "argument": argument}
def statement(expression): return {"type": "ExpressionStatement", "expression": expression}


def function(kind, id, params, *body):
    return {"type": kind, "id": id, "params": params, "body": block(*body), "generator": False, "async": False, "expression": False}


def constant(id, init):
    return {"type": "VariableDeclaration", "kind": "const", "declarations": [{"type": "VariableDeclarator", "id": id, "init": init}]}


def placed(node, at=0):
    """The node with places like those of a parser."""
    if isinstance(node, list): return [placed(n, at + 8 * i) for i, n in enumerate(node)]
    if not isinstance(node, dict): return node
    out = {"type": node["type"], "start": at, "end": at + 40} if "type" in node else {}
    return {**out, **{key: placed(value, at + 4) for key, value in node.items() if key != "type"}}


def real_item(number):
    """export function f0(a, b) { const x = a.b.c(d, 1, 'text'); if (x) { g(x, function (e) { return e.h + 1; }); } return x; }"""
    made = constant(name("x"), call(member(member(name("a"), "b"), "c"), name("d"), literal(1), literal("text")))
    inner = function("FunctionExpression", None, [name("e")], returned({"type": "BinaryExpression", "operator": "+", "left": member(name("e"), "h"), "right": literal(1)}))
    branch = {"type": "IfStatement", "test": name("x"), "consequent": block(statement(call(name("g"), name("x"), inner))), "alternate": None}
    declared = function("FunctionDeclaration", name("f%d" % number), [name("a"), name("b")], made, branch, returned(name("x")))
    return json.dumps(placed({"type": "ExportNamedDeclaration", "declaration": declared, "specifiers": [], "source": None}), separators=(",", ":"))


def group(number):
    """function f0() {} let a0 = 1; let b0 = a0; use(x);"""
    def declares(id, init): return {"type": "VariableDeclaration", "kind": "let", "declarations": [{"type": "VariableDeclarator", "id": name(id), "init": init}]}
    items = [function("FunctionDeclaration", name("f%d" % number), []), declares("a%d" % number, literal(1)), declares("b%d" % number, name("a%d" % number)), statement(call(name("use"), name("x")))]
    return ",".join(json.dumps(item, separators=(",", ":")) for item in items)


def inputs(size):
    """Programs of about this many bytes, by name."""
    stay = '{"type":"DebuggerStatement","start":0,"end":9}'
    directive = '{"type":"ExpressionStatement","directive":"use strict","expression":{"type":"Literal","value":"use strict","raw":"\'use strict\'"}}'
    leave = '{"type":"ExpressionStatement","expression":{"type":"Literal","value":"some text of a literal","raw":"\\"some text of a literal\\""}}'
    for name, item in [("statements that stay", stay), ("directives", directive), ("statements that leave", leave)]:
        yield name, program([item] * (size // (len(item) + 1)))
    # each function has a name of its own: a module declares a name once
    yield "functions, calls and members", program([real_item(number) for number in range(size // (len(real_item(0)) + 3))])


# A process counts as its peak what the one that started it held then, so a small one starts the programs.
STARTER = """
import os, sys, time
start = time.perf_counter()
child = os.fork()
if not child:
    os.dup2(os.open(sys.argv[1], os.O_RDONLY), 0)
    os.dup2(os.open(os.devnull, os.O_WRONLY), 1)
    os.execv(sys.argv[2], sys.argv[2:])
_, status, usage = os.wait4(child, 0)
print(status, time.perf_counter() - start, usage.ru_maxrss * 1024)
"""


def run(command):
    """Seconds and peak bytes of memory of one run."""
    told = subprocess.run([sys.executable, "-S", "-E", "-c", STARTER, INPUT, *command], check=True, capture_output=True, text=True).stdout
    status, seconds, peak = told.split()
    if int(status) != 0:
        sys.exit(f"{command[0]}: status {status}")
    return float(seconds), int(peak)


def seconds():
    for name, text in inputs(10_000_000):
        data = given(text)
        print(f"{name}: {len(data)} bytes")
        for label, command in PROGRAMS:
            runs = [run(command) for _ in range(7)]
            best = min(r[0] for r in runs)
            peak = max(r[1] for r in runs)
            print(f"  {label:10} {len(data) / best / 1e6:7.0f} MB/s {best * 1000:6.0f} ms {peak / len(data):5.1f} bytes of memory a byte")


# ---- instructions

def groups(count): return program([group(number) for number in range(count)])


def chain(count):
    """let a0 = 1; let a1 = a0; .. of which nothing uses the last, so that each pass takes one."""
    def declares(number): return {"type": "VariableDeclaration", "kind": "let", "declarations": [{"type": "VariableDeclarator", "id": name("a%d" % number), "init": name("a%d" % (number - 1)) if number else literal(1)}]}
    return program([json.dumps(declares(number), separators=(",", ":")) for number in range(count)])


def acorn(file):
    """The module's tree as acorn gives it."""
    return subprocess.run(["acorn", "--ecma2022", "--module", "--compact", file], check=True, capture_output=True, text=True).stdout


def without_places(node):
    if isinstance(node, list): return [without_places(n) for n in node]
    if not isinstance(node, dict): return node
    return {key: without_places(value) for key, value in node.items() if key not in ("start", "end")}


def counted():
    """Programs of which instructions are counted, by name."""
    yield "2,000 groups, of which all but the calls leave", groups(2000)
    yield "4,000 groups", groups(4000)
    real = acorn(ACORN)
    yield "acorn's own module, with places", real
    yield "acorn's own module", json.dumps(without_places(json.loads(real)), separators=(",", ":"))
    yield "10 MB of functions, calls and members", list(inputs(10_000_000))[-1][1]
    yield "a chain of 300 unused names", chain(300)


def instructions_of(command):
    """Million instructions of one run."""
    with tempfile.TemporaryDirectory() as room, open(INPUT, "rb") as stdin, open(os.devnull, "wb") as out:
        done = subprocess.run(["valgrind", "--tool=callgrind", f"--callgrind-out-file={room}/out", *command], stdin=stdin, stdout=out, stderr=subprocess.PIPE, text=True)
    found = re.search(r"Collected : (\d+)", done.stderr)
    if done.returncode or not found:
        sys.exit(f"{command[0]}: status {done.returncode}\n{done.stderr[-400:]}")
    return int(found[1]) / 1e6


def instructions():
    for name, text in counted():
        data = given(text)
        (ours, kept), (echoed, held) = [(instructions_of(command), run(command)[1] / len(data)) for _, command in PROGRAMS]
        print(f"{name}: {len(data)} bytes, {ours:.1f} and {echoed:.1f} million instructions, {ours / echoed:.2f} times; {kept:.1f} and {held:.1f} bytes of memory a byte", flush=True)


def given(text):
    """Puts the text where the programs read it, and answers its bytes."""
    data = text.encode()
    with open(INPUT, "wb") as file:
        file.write(data)
    return data


def main():
    wanted = sys.argv[1:] or ["seconds", "instructions"]
    if "seconds" in wanted: seconds()
    if "instructions" in wanted: instructions()
    os.remove(INPUT)


main()
