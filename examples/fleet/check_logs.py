#!/usr/bin/env python3
"""Checks a folder of logs on the workers of a Dask cluster (https://docs.dask.org/), or by a process for each processor of this machine.

    export PYTHONPATH=bindings/python LASPIDRU_LIBRARY=build/liblaspidru.so.0.1.0
    examples/fleet/check_logs.py logs table
    examples/fleet/check_logs.py --scheduler tcp://head:8786 /shared/logs table

A cluster's workers need the package laspidru, and see the folder under one path. On Debian 12 this needs python3-distributed,
python3-pandas and python3-matplotlib.

TABLE.csv and TABLE.html have a row for each editor, version and code: how many messages were refused so, in how many logs, and the first
message in the first of these logs. A log in which nothing was refused, and one that can't be checked to its end, have rows too. An editor
has the name that it gives itself in `initialize`, if it gives one."""
import argparse
import collections
import io
import json
import os
import sys

try:
    import laspidru
    import matplotlib
    import pandas
    from dask.distributed import Client, as_completed
except ImportError as why:
    if "--help" not in sys.argv[1:]:
        sys.exit(f"check_logs.py: {why} (--help says what is needed)")

VERSION_LINE, BEGINNING, ACCEPTED = b"lsp-session-log 2\n", 1 << 20, "nothing refused"
KEY = ["editor", "version", "code"]


def editor_of(log):
    """The name and the version that an editor gives itself in the first message."""
    start = len(VERSION_LINE) + 1 if log.startswith(VERSION_LINE) else 0
    try:
        bodies = laspidru.Framer().receive(log[start:start + BEGINNING])
    except laspidru.FrameFault as fault:  # in version 2 the second record's mark
        bodies = fault.events
    try:
        editor = json.loads(bodies[0])["params"]["clientInfo"]
        return tuple(" ".join(str(editor.get(name, "")).split()) for name in ("name", "version"))
    except (AttributeError, IndexError, KeyError, TypeError, ValueError):
        return "", ""


def is_refused(word):
    return word.startswith("refused ") or word == "exit 1" or word.startswith("error ") and word != "error -32601"


def rows_of(path):
    """What a worker finds in a log: editor, version, code, how many messages have it, and the first of them."""
    if not os.path.isfile(path):
        return [("", "", "a folder" if os.path.isdir(path) else "no file", 1, None)]
    try:
        with open(path, "rb") as file:
            log = file.read()
    except OSError as why:
        return [("", "", f"can't be read: {why.strerror}", 1, None)]
    try:
        output, fault = laspidru.check(log).output, None
    except laspidru.LogFault as found:
        output = found.output
        fault = {"CUT": "cut", "BAD_FRAME": f"frame fault F{found.frame}"}.get(found.code, "bad log")
    lines = [line.split(" ", 1) for line in output.decode().splitlines()]
    codes = collections.defaultdict(list)
    for number, word in lines:
        if is_refused(word):
            codes[word.replace("refused ", "")].append(int(number))
    if fault:
        codes[fault] = [len(lines) + 1]
    rows = [(code, len(numbers), numbers[0]) for code, numbers in codes.items()]
    return [(*editor_of(log), *row) for row in rows or [(ACCEPTED if lines else "no messages", len(lines), None)]]


def all_rows(client, paths):
    """The rows of all logs. One that a worker had no memory for, or that ended it, has the reason."""
    rows, paths_of = [], dict(zip(client.map(rows_of, paths, pure=False), paths))
    for future, result in as_completed(paths_of, with_results=True, raise_errors=False):
        found = [("", "", f"not checked: {result[0].__name__}", 1, None)] if future.status == "error" else result
        rows += [(*row, os.path.basename(paths_of[future])) for row in found]
    return rows


def table_of(rows):
    found = pandas.DataFrame(rows, columns=[*KEY, "messages", "first", "log"]).astype({"first": "Int64"}).sort_values("log")
    columns = {"messages": ("messages", "sum"), "logs": ("log", "nunique"), "first": ("first", "first"), "log": ("log", "first")}
    return found.groupby(KEY, as_index=False).agg(**columns).sort_values(["messages", *KEY], ascending=[False, True, True, True])


def plot_of(table):
    """How many messages have each code, by editor and version, as SVG."""
    matplotlib.use("svg")
    matplotlib.rcParams.update({"svg.fonttype": "none", "text.parse_math": False})
    names = (table.editor.replace("", "no name") + " " + table.version).str.strip()
    bars = table.assign(by=names).pivot_table(index="code", columns="by", values="messages", aggfunc="sum", fill_value=0)
    axes, written = bars.plot.barh(stacked=True, figsize=(10, 1 + 0.4 * len(bars)), xlabel="messages", ylabel=""), io.StringIO()
    axes.legend(title=None, fontsize="small")
    axes.figure.savefig(written, format="svg", bbox_inches="tight")
    return "<svg" + written.getvalue().partition("<svg")[2]


def write(words, client):
    paths = sorted(os.path.abspath(entry.path) for entry in os.scandir(words.folder))
    if not paths:
        raise SystemExit(f"check_logs.py: {words.folder} has no logs")
    table = table_of(all_rows(client, paths))
    table.to_csv(f"{words.table}.csv", index=False)
    refused = table[table.code != ACCEPTED]
    plot = plot_of(refused) if len(refused) else "<p>Nothing was refused.</p>"
    with open(f"{words.table}.html", "w", encoding="utf-8") as file:
        file.write('<!DOCTYPE html>\n<html lang="en"><meta charset="utf-8"><title>What was refused</title>\n')
        file.write(f'{plot}\n{table.to_html(index=False, na_rep="", border=0)}\n</html>\n')
    print(f"{len(paths)} logs, {len(table)} rows")


def main():
    parser = argparse.ArgumentParser(description=__doc__, formatter_class=argparse.RawDescriptionHelpFormatter)
    parser.add_argument("--scheduler", metavar="ADDRESS", help="the cluster; without it one is started on this machine")
    parser.add_argument("--workers", type=int, metavar="N", help="how many processes that one has")
    parser.add_argument("folder", metavar="FOLDER", help="the logs, under a path that all workers see")
    parser.add_argument("table", metavar="TABLE", help="where the table goes, without .csv and .html")
    words = parser.parse_args()
    local = {} if words.scheduler else {"n_workers": words.workers, "threads_per_worker": 1, "dashboard_address": None}
    try:
        with Client(words.scheduler, **local) as client:
            write(words, client)
    except OSError as why:
        raise SystemExit(f"check_logs.py: {why}") from None


if __name__ == "__main__":
    main()
