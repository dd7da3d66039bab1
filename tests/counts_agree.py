#!/usr/bin/env python3
"""Checks that what `run --stats` counted agrees with the images, and with itself; standard library alone.

It reads, in the current folder, the lines of counts in `counts`, what `show --json` prints of the store in show.json,
and the answers of the run in `wanted`. Where they don't agree, it ends with an exception that shows both."""
import json

KINDS = {1: "pre-dump", 2: "dump", 3: "merged"}
SUMS = ("pages", "data", "zeros", "in_parent", "bytes", "calls")


def read(name):
    with open(name, encoding="utf-8") as file:
        return file.read()


def check_image(line, slot):
    """The line of an image says what its slot shows."""
    header = slot["header"]
    runs = [r for s in slot["spaces"] for r in s["runs"]]
    pages = {kind: sum(r["count"] for r in runs if r["kind"] == kind) for kind in (1, 2, 3)}
    assert (line["data"], line["in_parent"], line["zeros"]) == (pages[1], pages[2], pages[3]), (line, pages)
    assert line["pages"] == sum(pages.values()) and line["data"] == header["pages"]
    assert line["slot"] == slot["slot"] and line["kind"] == KINDS[header["kind"]]
    assert line["checkpoint"] == header["checkpoint"]
    assert line["bytes"] == 4096 + 4096 * header["pages"] + header["table_len"]


def check_checkpoint(line, images):
    """The line of a checkpoint has the sums over its images, and the calls from its freeze on."""
    its = [l for l in images.values() if l["checkpoint"] == line["checkpoint"] and l["kind"] != "merged"]
    dump = images[line["serial"]]
    assert dump["kind"] == "dump" and line["rounds"] == len(its) - 1 and line["slot"] == dump["slot"]
    for name in SUMS:
        assert line[name] == sum(l[name] for l in its), (name, line, its)
    assert line["frozen_calls"] == dump["data"] + 5
    assert 0 <= line["frozen_seconds"] <= line["seconds"]


def main():
    lines = [json.loads(line) for line in read("counts").splitlines()]
    images = {l["serial"]: l for l in lines if l["of"] == "image"}
    for slot in json.loads(read("show.json"))["slots"]:
        if slot["state"] == "open":
            check_image(images[slot["header"]["serial"]], slot)
    for line in images.values():
        assert line["data"] + 5 < line["calls"] <= line["data"] + 8 and line["seconds"] >= 0, line
    for line in lines:
        if line["of"] == "checkpoint":
            check_checkpoint(line, images)
    answers = read("wanted").split()
    for kind, answer in (("checkpoint", "acked"), ("merge", "merged")):
        assert sum(l["of"] == kind for l in lines) == answers.count(answer), (kind, answers.count(answer))


main()
