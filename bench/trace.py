"""trace.py TRACE: whether a text is a trace as Perfetto and chrome://tracing read it.

Each event has the fields that the Trace Event Format requires of its phase; the slices of a track don't cross; and each
flow goes from a slice to one on another track that begins later.
"""
import json
import sys

FIELDS = {
    "M": {"name": str, "pid": int, "tid": int, "args": dict},
    "X": {"name": str, "cat": str, "ts": int, "dur": int, "pid": int, "tid": int, "args": dict},
    "s": {"name": str, "cat": str, "id": int, "ts": int, "pid": int, "tid": int},
    "f": {"name": str, "cat": str, "id": int, "bp": str, "ts": int, "pid": int, "tid": int},
}


def check_fields(event):
    for name, kind in FIELDS[event["ph"]].items():
        assert isinstance(event[name], kind), (name, event)


def check_tracks(slices):
    ends = {}
    for event in slices:
        assert event["dur"] >= 1, event
        assert event["ts"] >= ends.get(event["tid"], 0), event
        ends[event["tid"]] = event["ts"] + event["dur"]


def check_flows(events, starts_at):
    begun = {}
    for event in events:
        if event["ph"] == "s":
            assert event["id"] not in begun, event
            begun[event["id"]] = event
        elif event["ph"] == "f":
            start = begun.pop(event["id"])
            assert (start["tid"], start["ts"]) in starts_at, start
            assert (event["tid"], event["ts"]) in starts_at, event
            assert start["ts"] < event["ts"] and (start["name"], start["cat"]) == (event["name"], event["cat"]), event
    assert not begun, begun


def main():
    events = json.load(open(sys.argv[1]))["traceEvents"]
    for event in events:
        check_fields(event)
    slices = [event for event in events if event["ph"] == "X"]
    check_tracks(slices)
    check_flows(events, {(event["tid"], event["ts"]) for event in slices})
    named = {event["tid"] for event in events if event.get("name") == "thread_name"}
    assert named == {event["tid"] for event in slices}, named
    print(f"ok: {len(slices)} entries, {len(named)} threads, {sum(e['ph'] == 'f' for e in events)} flows")


main()
