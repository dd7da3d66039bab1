#!/usr/bin/env python3
"""Checks that the documents of a store say what the lines do; standard library alone.

It reads, of each of the programs list, verify and restore, PROGRAM.text and PROGRAM.json in the current folder, and
show.json. Where they don't agree, it ends with an exception that shows both."""
import json

KINDS = {1: "pre-dump", 2: "dump", 3: "merged"}


def load(name):
    with open(name, encoding="utf-8") as file:
        return json.load(file)


def fault_line(document):
    if document["fault"] == "damaged":
        assert set(document) == {"fault", "slot", "reason", "why"} and document["why"]
        return "damaged %03d %d" % (document["slot"], document["reason"])
    assert set(document) == {"fault"}
    return document["fault"]


def list_lines(document):
    """The lines of `list`. Its headers are those that `show` has of the open slots."""
    headers = {s["slot"]: s["header"] for s in load("show.json")["slots"] if s["state"] == "open"}
    assert {i["slot"]: i["header"] for i in document["images"]} == headers
    for image in document["images"]:
        h = image["header"]
        yield "slot %03d %s serial %d stands %d parent %d checkpoint %d pages %d" % (
            image["slot"], KINDS[h["kind"]], h["serial"], h["stands_for"], h["parent"], h["checkpoint"], h["pages"])
    yield "tip none" if document["tip"] is None else "tip %d" % document["tip"]


def verify_lines(document):
    if document["checkpoint"] is None:
        return ["ok empty"]
    return ["ok checkpoint %d images %d" % (document["checkpoint"], document["images"])]


def restore_lines(document):
    """The lines of `restore` but for its bytes, and that the sums are those of the areas and spaces."""
    yield "checkpoint %d" % document["checkpoint"]
    for space in document["spaces"]:
        yield "space %d" % space["space"]
        for a in space["areas"]:
            letters = "".join(c if a["permissions"] >> i & 1 else "-" for i, c in enumerate("rwx"))
            yield "area 0x%x 0x%x %s" % (4096 * a["first"], 4096 * (a["first"] + a["count"]), letters)
        assert space["pages"] == sum(a["count"] for a in space["areas"])
    assert document["pages"] == sum(s["pages"] for s in document["spaces"])
    assert document["zeros"] == sum(s["zeros"] for s in document["spaces"])


def check(program, lines_of):
    with open(program + ".text", encoding="utf-8") as file:
        lines = file.read().splitlines()
    document = load(program + ".json")
    told = [line for line in lines if not line.startswith("bytes ")]
    made = [fault_line(document)] if "fault" in document else list(lines_of(document))
    assert made == told, (program, made, told)
    if program == "restore" and "fault" not in document:
        stored = {line.split()[1][:-3] for line in lines if line.startswith("bytes ")}
        assert len(stored) <= document["pages"] - document["zeros"]


check("list", list_lines)
check("verify", verify_lines)
check("restore", restore_lines)
