#!/usr/bin/env python3
"""Writes what bench/run measures: bundles, submissions, and build files for make and ninja.

    bench/generators.py tree TASKS LENGTH FOLDER       a binary tree of TASKS tasks, over a text of LENGTH bytes
    bench/generators.py submissions COUNT LENGTH FILE  COUNT submissions for that tree
    bench/generators.py bundle BYTES FILE              a bundle of BYTES bytes, or a little less

The same words always write the same bytes.
"""

import json
import os
import random
import sys

SEED = 1

# How many nodes the primary workflow of a generated bundle has for each MiB: 960 at 16 MiB. 1,024 are the most.
PRIMARY_NODES_PER_MIB = 60

# How many tasks, and how many nodes of the workflow over them, one module of a generated bundle has.
MODULE_TASKS = 8
MODULE_NODES = 12


def as_json(value):
    return json.dumps(value, separators=(",", ":"))


def identifier(kind, name, version="1"):
    return {"resourceType": kind, "project": "bench", "domain": "development", "name": name, "version": version}


def promise(node, variable):
    return {"promise": {"nodeId": node, "var": variable}}


def primitive(field, value):
    return {"scalar": {"primitive": {field: value}}}


def interface(inputs, outputs):
    """An interface, of types by the names of the variables."""
    def variables(types):
        return {"variables": {name: {"type": types[name]} for name in types}}
    return {"inputs": variables(inputs), "outputs": variables(outputs)}


# ---- the tree that is run

def parent_of(place):
    return (place - 1) // 2


def value_of(length):
    """The literal map that each task of the tree gets and gives: one text of so many bytes."""
    return {"literals": {"value": primitive("stringValue", "x" * length)}}


def tree_bundle(tasks):
    """Node n0 gets the workflow's input, each other node its parent's output. All run one task, `cat`: its output
    has its input's name, so that a copy of its input is its answer."""
    text = {"value": {"simple": "STRING"}}
    copy = identifier("TASK", "copy")
    tree = identifier("WORKFLOW", "tree")
    nodes = []
    for place in range(tasks):
        source = f"n{parent_of(place)}" if place else "start-node"
        nodes.append({
            "id": f"n{place}",
            "taskNode": {"referenceId": copy},
            "inputs": [{"var": "value", "binding": promise(source, "value")}],
        })
    return {
        "primary": tree,
        "tasks": [{"id": copy, "interface": interface(text, text), "container": {"command": ["cat"]}}],
        "workflows": [{
            "id": tree,
            "interface": interface(text, text),
            "nodes": nodes,
            "outputs": [{"var": "value", "binding": promise(f"n{tasks - 1}", "value")}],
        }],
    }


def submissions(count, length):
    return [{"name": f"e{number}", "inputs": value_of(length)} for number in range(count)]


def files_of_tree(tasks):
    """The file that each task of the tree reads and the one that it writes, for make and ninja."""
    for place in range(tasks):
        yield (f"n{parent_of(place)}.json" if place else "start.json"), f"n{place}.json"


def makefile(tasks):
    lines = ["all: " + " ".join(made for _, made in files_of_tree(tasks)), ""]
    for source, made in files_of_tree(tasks):
        lines += [f"{made}: {source}", f"\tcat <{source} >{made}", ""]
    return "\n".join(lines)


def ninja_file(tasks):
    lines = ["rule copy", "  command = cat <$in >$out", ""]
    for source, made in files_of_tree(tasks):
        lines.append(f"build {made}: copy {source}")
    return "\n".join(lines) + "\n"


def write_text(path, text):
    with open(path, "w", encoding="utf-8") as file:
        file.write(text)


def write_tree(tasks, length, folder):
    os.makedirs(folder, exist_ok=True)
    write_text(f"{folder}/bundle.json", as_json(tree_bundle(tasks)))
    write_text(f"{folder}/submissions.json", as_json(submissions(1, length)))
    write_text(f"{folder}/start.json", as_json(value_of(length)))
    write_text(f"{folder}/Makefile", makefile(tasks))
    write_text(f"{folder}/build.ninja", ninja_file(tasks))


# ---- the bundle that is compiled

# The variables of all tasks. A name has one type everywhere, so that an output of a name can be bound to any input
# of that name.
TYPES = {
    "bucket": {"simple": "STRING"},
    "checksum": {"simple": "BINARY"},
    "columns": {"collectionType": {"simple": "STRING"}},
    "counts": {"mapValueType": {"simple": "INTEGER"}},
    "dry_run": {"simple": "BOOLEAN"},
    "key": {"unionType": {"variants": [{"simple": "INTEGER"}, {"simple": "STRING"}]}},
    "limit": {"simple": "INTEGER"},
    "mode": {"enumType": {"values": ["append", "overwrite", "upsert"]}},
    "options": {"simple": "STRUCT"},
    "since": {"simple": "DATETIME"},
    "source": {"blob": {"format": "csv", "dimensionality": "SINGLE"}},
    "window": {"simple": "DURATION"},
}

# What is bound to a variable where nothing else is.
CONSTANTS = {
    "bucket": primitive("stringValue", "warehouse-eu-west-1"),
    "checksum": {"scalar": {"binary": {"value": "c2hhMjU2OjAwMDE=", "tag": "sha256"}}},
    "columns": {"collection": {"bindings": [primitive("stringValue", name) for name in ("id", "created", "amount")]}},
    "counts": {"map": {"bindings": {"rejected": primitive("integer", "0"), "accepted": primitive("integer", "1000")}}},
    "dry_run": primitive("boolean", False),
    "key": primitive("integer", "42"),
    "limit": primitive("integer", "100000"),
    "mode": primitive("stringValue", "append"),
    "options": {"scalar": {"generic": {"delimiter": ",", "quote": "\"", "header": True, "nulls": ["", "NA"]}}},
    "since": primitive("datetime", "2024-03-01T00:00:00Z"),
    "source": {"scalar": {"blob": {"metadata": {"type": TYPES["source"]["blob"]}, "uri": "s3://warehouse/part-1.csv"}}},
    "window": primitive("duration", "3600s"),
}

SUBJECTS = ["orders", "invoices", "customers", "shipments", "returns", "sessions", "prices", "stock"]
VERBS = ["load", "clean", "join", "rank", "count", "split", "score", "publish"]


def some_types(chance, least, most):
    names = chance.sample(sorted(TYPES), chance.randint(least, most))
    return {name: TYPES[name] for name in sorted(names)}


def bundle_task(chance, number):
    """A task with two to five inputs and one to three outputs, whose command names two of its inputs."""
    subject = SUBJECTS[number // len(VERBS) % len(SUBJECTS)]
    verb = VERBS[number % len(VERBS)]
    inputs = some_types(chance, 2, 5)
    args = ["--run", f"{subject}/{number}"]
    for name in list(inputs)[:2]:
        args += [f"--{name}", "{{.inputs." + name + "}}"]
    return {
        "id": identifier("TASK", f"pipelines.{subject}.{verb}_{number}", "3f2a9c1d"),
        "metadata": {"timeout": "600s", "retries": {"retries": chance.randint(0, 3)}},
        "interface": interface(inputs, some_types(chance, 1, 3)),
        "container": {"command": ["python3", "-m", f"pipelines.{subject}"], "args": args},
    }


def bundle_node(chance, number, task, makers):
    """A node that runs the task. Each input is bound to the output of an earlier node that has one of that name, or
    to an input of the workflow, or to a constant."""
    inputs = []
    for name in task["interface"]["inputs"]["variables"]:
        earlier = makers.get(name, [])
        if earlier and chance.random() < 0.7:
            binding = promise(chance.choice(earlier[-8:]), name)
        elif chance.random() < 0.5:
            binding = promise("start-node", name)
        else:
            binding = CONSTANTS[name]
        inputs.append({"var": name, "binding": binding})
    run = {"referenceId": task["id"]}
    return {"id": f"n{number}", "metadata": {"timeout": "900s"}, "inputs": inputs, "taskNode": run}


def bundle_workflow(chance, name, tasks):
    """A workflow with a node for each of the tasks, in their order, that takes all variables, and gives those that
    some node makes."""
    makers = {}
    nodes = []
    for number, task in enumerate(tasks):
        node = bundle_node(chance, number, task, makers)
        nodes.append(node)
        for made in task["interface"]["outputs"]["variables"]:
            makers.setdefault(made, []).append(node["id"])
    outputs = {made: TYPES[made] for made in sorted(makers)}
    return {
        "id": identifier("WORKFLOW", name, "3f2a9c1d"),
        "interface": interface(TYPES, outputs),
        "nodes": nodes,
        "outputs": [{"var": made, "binding": promise(makers[made][-1], made)} for made in outputs],
    }


def write_bundle(size, path):
    """Modules of eight tasks and a workflow over them, as many as there is room for, and the primary workflow, whose
    nodes run tasks of all modules."""
    chance = random.Random(SEED)
    head = '{"primary":' + as_json(identifier("WORKFLOW", "pipelines.all", "3f2a9c1d")) + ',"tasks":['
    between = '],"workflows":['
    tail = "]}"
    primary_nodes = max(1, PRIMARY_NODES_PER_MIB * size >> 20)
    tasks = [bundle_task(chance, number) for number in range(primary_nodes)]
    primary = as_json(bundle_workflow(chance, "pipelines.all", tasks))
    texts_of_tasks = [as_json(task) for task in tasks]
    texts_of_workflows = [primary]
    # A comma stands behind each element.
    room = size - sum(len(text) + 1 for text in [head, between, tail, *texts_of_tasks, *texts_of_workflows])
    module = 0
    while True:
        first = len(texts_of_tasks)
        tasks = [bundle_task(chance, first + number) for number in range(MODULE_TASKS)]
        run = [tasks[number % MODULE_TASKS] for number in range(MODULE_NODES)]
        more_tasks = [as_json(task) for task in tasks]
        workflow = as_json(bundle_workflow(chance, f"pipelines.module_{module}", run))
        room -= sum(len(text) + 1 for text in [workflow, *more_tasks])
        if room < 0:
            break
        texts_of_tasks += more_tasks
        texts_of_workflows.append(workflow)
        module += 1
    write_text(path, head + ",".join(texts_of_tasks) + between + ",".join(texts_of_workflows) + tail)


def main(words):
    if len(words) == 4 and words[0] == "tree":
        write_tree(int(words[1]), int(words[2]), words[3])
    elif len(words) == 4 and words[0] == "submissions":
        write_text(words[3], as_json(submissions(int(words[1]), int(words[2]))))
    elif len(words) == 3 and words[0] == "bundle":
        write_bundle(int(words[1]), words[2])
    else:
        sys.exit(__doc__)


if __name__ == "__main__":
    main(sys.argv[1:])
