#!/usr/bin/python3
"""pylsp as it is installed, or as PYTHONPATH has it, which appends its text after each message on a document to the file DUMP. It reads
`source` and nothing else; the server isn't changed."""
import json
import os
import sys

from pylsp import python_lsp
from pylsp.__main__ import main

SERVER = python_lsp.PythonLSPServer


def noting(method, out):
    def call(self, *args, **kwargs):
        uri, fault = kwargs["textDocument"]["uri"], None
        try:
            return method(self, *args, **kwargs)
        except Exception as error:
            fault = f"{type(error).__name__}: {error}"
            raise
        finally:
            document = self._match_uri_to_workspace(uri).documents.get(uri)
            text = document and document.source
            out.write(json.dumps({"uri": uri, "method": method.__name__, "fault": fault, "text": text}) + "\n")
            out.flush()
    return call


with open(os.environ["DUMP"], "a", encoding="utf-8") as dump:
    for name in ("m_text_document__did_open", "m_text_document__did_change", "m_text_document__did_close"):
        setattr(SERVER, name, noting(getattr(SERVER, name), dump))
    sys.argv[0] = "pylsp"
    main()
