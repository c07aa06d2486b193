"""What `lsp_simulate` writes of its events, by the definitions: both ends of a session. One more event, `{"event":"body","body":".."}`,
hands any body to the client."""
import json

from .logs import ENCODINGS, FORMS, LIMITS, Frames, Output, limits_of, options_of
from .values import case, joined, list_of, record, utf8
from .vectors import json_option

SIMULATE = {"utf-8", "utf-32", "lenient"}, {
    "prefer": ENCODINGS, "fixed": ENCODINGS, "sync": FORMS, **{f"{of}max-{it}": None for of in ("", "server-") for it in LIMITS}}
ORDERS = {"open": "opens", "edit": "edits", "close": "closes"}
CALLS = {"start": "starts", "shutdown": "shuts_down", "exit": "exits"}


def setting_of(run, options):
    own = limits_of(run, options, run("default_limits").changed(x_lenient="lenient" in options))
    kind, name = ("Fixed", options["fixed"]) if "fixed" in options else ("Negotiated", options.get("prefer", "utf-16"))
    limits, sync = limits_of(run, options, own, "server-max-"), FORMS[options.get("sync", "incremental")]
    config = record(limits=limits, choice=case(kind, ENCODINGS[name]), sync=sync)
    return record(limits=own, offers=record(utf8="utf-8" in options, utf32="utf-32" in options), config=config)


def order_of(run, event):
    """The call on documents that an event is: its members are those of the message's parameters."""
    name = event["event"]
    read = run(f"Params::{'change' if name == 'edit' else name}_of", json_option(event))
    if not read.args:
        return None
    it = read.args[0]
    edits = (it.x_uri, it.x_version, list_of(run("content_change_from_data", one) for one in it.x_changes)) if name == "edit" else ()
    return case("orders", case(ORDERS[name], *(edits or [it if name == "open" else it.x_uri])))


class Pair:
    """Both ends, and the frames on their way. What a step does is what the relation `IsStep` says of the calls of both."""

    def __init__(self, run, setting):
        self.run, self.state = run, run("new_pair", setting)

    def change(self, end, state, queue, messages):
        """An end gets a new state, and what it sends comes last in a queue."""
        waiting = joined(getattr(self.state, queue), list_of(self.run("message_frame", it) for it in messages))
        self.state = self.state.changed(**{end: state, queue: waiting})

    def call(self, call):
        result = self.run("call_result", self.state.x_client, call)
        if result.tag == "Err":
            return case("Refused", *result.args)
        self.change("x_client", result.args[0].x_state, "x_to_server", [result.args[0].x_message])
        return case("Sent")

    def deliver(self, queue, max_body, hear):
        """Hands the oldest frame of a queue to an end, which reads it by its limit."""
        waiting = getattr(self.state, queue)
        if not waiting:
            return case("Nothing")
        (_, body), = Frames(self.run, bytes(waiting.at(0)), max_body).all_from(0)
        self.state = self.state.changed(**{queue: waiting.dropped(1)})
        return hear(body)

    def server_hears(self, body):
        step = self.run("lsp_server::step", self.state.x_server, self.run("Message::reading", body))
        self.change("x_server", step.x_state, "x_to_client", self.run("replies_in", step.x_answer))
        return case("Server", self.run("did_of", step.x_answer))

    def client_hears(self, body):
        result = self.run("delivery_result", self.state.x_client, self.run("Message::reading", body))
        if result.tag == "Err":
            return case("Refused", *result.args)
        delivered = result.args[0].x_delivered
        self.change("x_client", result.args[0].x_state, "x_to_server", self.run("messages_in", delivered))
        return case("Client", self.run("heard_of", delivered))

    def happened(self, line):
        """What happens at a line; None if it is no event."""
        try:
            event = dict(json.loads(line))
        except (ValueError, TypeError):
            return None
        name = event.get("event")
        if name == "toServer":
            return self.deliver("x_to_server", self.state.x_server.x_config.x_limits.x_max_body, self.server_hears)
        if name == "toClient":
            return self.deliver("x_to_client", self.state.x_client.x_limits.x_max_body, self.client_hears)
        if name == "body":
            return self.client_hears(utf8(event["body"]))
        call = case(CALLS[name]) if name in CALLS else order_of(self.run, event) if name in ORDERS else None
        return call and self.call(call)


def run_events(run, words, data):
    """What the program writes of events, its status, and its line on standard error."""
    setting = setting_of(run, options_of(words, *SIMULATE))
    kind = None if run("are_within", setting.x_limits, setting.x_config.x_limits) else "LimitsTooSmall"
    kind = kind if run("can_choose_utf16", setting.x_config.x_choice) else "NotUtf16"
    fault, out, pair = kind and case("Pair", case(kind)), b"", Pair(run, setting)
    for number, line in enumerate(data.removesuffix(b"\n").split(b"\n") if data and not fault else (), 1):
        what = pair.happened(line)
        if what is None:
            fault = case("BadEvent", number)
            break
        out += bytes(run("step_line", number, what))
    if fault:
        return Output(out, run("run_fault_status", fault), bytes(run("Run::line", run("run_fault_text", fault))))
    return Output(out + bytes(run("end_lines", pair.state)), 0, b"")
