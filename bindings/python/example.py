"""A document that is opened, changed as a didChange says, and read back."""
from laspidru import Document, LaspidruError


def at(line, character):
    return {"line": line, "character": character}


def change(start, end, text):
    return {"range": {"start": start, "end": end}, "text": text}


def main():
    document = Document("one\ntwo\n", encoding="utf-16")
    # Replaces "two" by "2", and then puts "0" before all.
    document.change([change(at(1, 0), at(1, 3), "2"), change(at(0, 0), at(0, 0), "0")])
    print(document.text, end="")
    print("line 1, character 1 is byte", document.byte_offset(at(1, 1)))
    try:
        document.change([change(at(0, 2), at(0, 1), "")])
    except LaspidruError as error:
        print("refused:", error)


main()
