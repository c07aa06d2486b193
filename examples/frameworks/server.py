#!/usr/bin/env python3
"""A server by pygls whose documents are laspidru's. Hover shows the document."""
from laspidru import TextDocument
from lsprotocol.types import TEXT_DOCUMENT_HOVER, Hover
from pygls.server import LanguageServer
from pygls.workspace import Workspace


def create(self, doc_uri, source=None, version=None, language_id=None):
    return TextDocument(doc_uri, source, version, language_id, sync_kind=self._sync_kind, position_codec=self._position_codec)


Workspace._create_text_document = create
server = LanguageServer("hover", "0.1")


@server.feature(TEXT_DOCUMENT_HOVER)
def hover(params):
    return Hover(server.workspace.get_text_document(params.text_document.uri).source)


if __name__ == "__main__":
    server.start_io()
