"""What the peers that apply text edits to a buffer need of a vector."""


def steps_of(vector):
    """The lists of text edits that are applied one after another."""
    if "edits" in vector:
        return [vector["edits"]]
    return [[{"range": change.get("range"), "newText": change["text"]}] for change in vector["changes"]]


def line_end_of(text):
    if "\r\n" in text and text.count("\r\n") == text.count("\r") == text.count("\n"):
        return "\r\n"
    return "\r" if "\r" in text and "\n" not in text else "\n"
