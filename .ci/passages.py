#!/usr/bin/env python3
"""Takes events through configurations made at random, and compares what comes of them with what the model of
crates/filter_tests/data/passages.py says, which goes through the statements by recursion.

The program filter_tests runs them, which rt ci builds, or another that is named. Prints what isn't as it should be."""

import importlib.util
import os
import random
import shutil
import subprocess
import sys
import tempfile

DATA = os.path.abspath("crates/filter_tests/data")
PROGRAM = os.path.abspath(sys.argv[1] if len(sys.argv) > 1 else "crates/filter_tests/out/filter_tests")
SEED, ROWS = 1, 2500

spec = importlib.util.spec_from_file_location("passages", f"{DATA}/passages.py")
model = importlib.util.module_from_spec(spec)
spec.loader.exec_module(model)
pick = random.Random(SEED)


def value(depth=0):
    kind = pick.randrange(8)
    if kind == 0:
        return None
    if kind == 1:
        return pick.choice([True, False])
    if kind < 4:
        return pick.choice(["x", "y", "xy"])
    if kind == 4 and depth < 2:
        return [value(depth + 1) for _ in range(pick.randrange(4))]
    return pick.randrange(4)


def event():
    made = {field: value() for field in "ablm" if pick.random() < 0.6}
    if pick.random() < 0.2:
        made["tags"] = pick.sample(["t", "c", "d"], pick.randrange(3))
    return made


def condition(depth=0):
    kind, field = pick.randrange(5 if depth else 8), pick.choice("ablm")
    if kind == 0:
        return model.is_(field, pick.choice([1, 2, "x"]))
    if kind == 1:
        return model.over(field, pick.randrange(3))
    if kind == 2:
        return model.matches(field, "x")
    if kind == 3:
        return model.tagged(pick.choice("tcd"))
    if kind == 4:
        return model.has(field)
    if kind == 5:
        return model.no(condition(1))
    return pick.choice([model.both, model.either])(condition(1), condition(1))


def filter_():
    kind = pick.randrange(9)
    if kind < 3:
        return model.tag(pick.choice("tuv"))
    if kind == 3:
        return model.put(pick.choice("de"), pick.choice("1z"))
    if kind < 6:
        return model.clone(*pick.sample("cde", pick.randrange(1, 3)))
    if kind < 8:
        return model.split(pick.choice("lm"))
    return model.drop()


def output(used):
    kind, own = pick.randrange(4), None
    if pick.random() < 0.5:
        own = f"own_{len(used)}"
    used.append(own)
    if kind == 0:
        return model.stdout(own)
    if kind == 1:
        return model.sink(own)
    if kind == 2:
        return model.file(f"/tmp/{len(used)}")
    return model.pipeline(*(pick.choice("pqr") for _ in range(pick.randrange(1, 4))))


def block(plugin, depth=0):
    return [statement(plugin, depth) for _ in range(pick.randrange(4 if depth else 5))]


def statement(plugin, depth):
    if depth == 3 or pick.random() > 0.35:
        return plugin()
    arms = [(condition(), block(plugin, depth + 1)) for _ in range(pick.randrange(1, 4))]
    return model.If(*arms, other=block(plugin, depth + 1) if pick.random() < 0.5 else None)


def row():
    used = []
    filters, outputs = block(filter_), block(lambda: output(used))
    events = [event() for _ in range(pick.randrange(1, 7))]
    text = f"filter {{ {model.written(filters)} }} output {{ {model.written(outputs)} }} on {' and '.join(map(model.shown, events))}"
    return text, model.passage(filters, outputs, events)


def main():
    if not os.path.exists(PROGRAM):
        print(f"passages: {PROGRAM} isn't built")
        return 1
    rows = [row() for _ in range(ROWS)]
    with tempfile.TemporaryDirectory() as folder:
        shutil.copytree(DATA, folder, dirs_exist_ok=True)
        with open(f"{folder}/passages", "w", encoding="utf-8") as table:
            table.writelines(f"{text}\n" for text, _ in rows)
        run = subprocess.run([PROGRAM], cwd=folder, stdout=subprocess.PIPE, timeout=300)
    lines = run.stdout.decode().split("\n")
    found = lines[lines.index("# passages") + 1 : lines.index("# walks")] if "# walks" in lines else []
    wrong = [(text, said, wanted) for (text, wanted), said in zip(rows, found) if said != wanted]
    for text, said, wanted in wrong[:3]:
        print(f"passages: {text}\n  {said}, and not\n  {wanted}")
    if run.returncode != 0 or len(found) != ROWS:
        print(f"passages: status {run.returncode}, {len(found)} of {ROWS} answers")
        return 1
    return 1 if wrong else 0


if __name__ == "__main__":
    sys.exit(main())
