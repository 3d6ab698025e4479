"""The tool qss-lsp: a language server, which shows in an editor what is wrong with a model while it is written."""
import difflib
import logging
import os
import re
import sys
import tempfile
import urllib.parse
from dataclasses import dataclass, field
from typing import Any, Callable, Dict, List, Optional, Sequence

from ..fault import FINE, Arguments, Fault, run_tool
from ..model.commas import commas_of
from ..model.source import SETTINGS, WORDS
from ..program import add_program_option, find_program
from . import words
from .background import Background, advice_by_process
from .checks import Checker, Problem
from .fixes import Fix, fix
from .layout import indented
from .names import Names, Occurrence
from .text import Edit, Json, Text, edited

ABOUT = """A language server: marks, fixes and help for models in an editor, while they are written (docs/EDITORS.md).

  tools/qss-lsp                speaks the language server protocol on standard input and output

An editor starts it. It needs the package pylsp_jsonrpc (Debian: python3-pylsp-jsonrpc).
Status: 0 the editor ended it, 2 a fault of this tool."""

PAUSE, ADVICE_PAUSE = 0.1, 0.6  # seconds after a change, before a check and before the advice
ERROR, WARNING, INFORMATION = 1, 2, 3
NAME = re.compile(r"[A-Za-z_][A-Za-z0-9_]*\Z")
# Phases after which the settings of a model may be what is wrong.
ADVISED = ("", "machine", "overflow")
FULL_TEXT = 1


@dataclass
class Document:
    """A document that is open, with what is known of its text."""

    text: Text
    problems: List[Problem] = field(default_factory=list)
    warnings: List[Problem] = field(default_factory=list)
    proposed: Optional[str] = None  # the text with settings that fit
    known: Optional[Names] = None

    @property
    def names(self) -> Names:
        if self.known is None:
            self.known = Names(self.text.source)
        return self.known


class Server:
    """Answers an editor. Checks and advice run in threads of their own, so that no answer waits for them."""

    def __init__(self, program: str, folder: str) -> None:
        self.program, self.folder = program, folder
        self.checker = Checker(program, folder)
        self.documents: Dict[str, Document] = {}
        self.notify: Callable[[str, Any], None] = lambda method, params: None
        self.leave: Callable[[], None] = lambda: None
        self.checks = Background(self.check, PAUSE)
        self.advices = Background(self.advise, ADVICE_PAUSE)

    def handlers(self) -> Dict[str, Callable[[Any], Any]]:
        """The function of each method of the protocol."""
        return {
            "initialize": lambda _: {"capabilities": CAPABILITIES, "serverInfo": {"name": "qss-lsp"}},
            "initialized": lambda _: None,
            "shutdown": lambda _: None,
            "exit": lambda _: self.leave(),
            "textDocument/didOpen": self.opened,
            "textDocument/didChange": self.changed,
            "textDocument/didSave": lambda _: None,
            "textDocument/didClose": self.closed,
            "textDocument/hover": self.hover,
            "textDocument/definition": self.definition,
            "textDocument/references": self.references,
            "textDocument/documentHighlight": self.highlights,
            "textDocument/prepareRename": self.prepare_rename,
            "textDocument/rename": self.rename,
            "textDocument/completion": self.completion,
            "textDocument/documentSymbol": self.outline,
            "textDocument/codeAction": self.actions,
            "textDocument/formatting": self.format,
        }

    # documents

    def opened(self, params: Json) -> None:
        one = params["textDocument"]
        self.take(one["uri"], one.get("text", ""), one.get("version"))

    def changed(self, params: Json) -> None:
        one = params["textDocument"]
        if params["contentChanges"]:
            self.take(one["uri"], params["contentChanges"][-1]["text"], one.get("version"))

    def take(self, uri: str, text: str, version: Any) -> None:
        path = urllib.parse.unquote(urllib.parse.urlparse(uri).path)
        self.documents[uri] = Document(Text(os.path.basename(path) or "model.mo", text, version))
        self.checks.ask(uri)

    def closed(self, params: Json) -> None:
        uri = params["textDocument"]["uri"]
        self.documents.pop(uri, None)
        self.notify("textDocument/publishDiagnostics", {"uri": uri, "diagnostics": []})

    def document(self, params: Json) -> Document:
        return self.documents.get(params["textDocument"]["uri"]) or Document(Text("model.mo", ""))

    def check(self, uri: str) -> None:
        """Checks a document and publishes its marks."""
        document = self.documents.get(uri)
        if document is None:
            return
        try:
            document.problems = self.checker.problems(document.text.name, document.text.data)
        except (Fault, OSError):
            logging.exception("a check failed")
        self.publish(uri, document)
        if not document.problems or document.problems[0].phase in ADVISED:
            self.advices.ask(uri)

    def advise(self, uri: str) -> None:
        """Asks for the advice on a document and publishes its warnings."""
        document = self.documents.get(uri)
        if document is None or any(one.phase not in ADVISED for one in document.problems):
            return
        path = os.path.join(self.folder, "advised.mo")
        with open(path, "wb") as file:
            file.write(document.text.data)
        advice = advice_by_process(path, self.program, lambda: self.documents.get(uri) is document)
        if advice is not None:
            document.proposed = advice["text"]
            document.warnings = [warning_of(document.text, one) for one in advice["findings"]]
            self.publish(uri, document)

    def publish(self, uri: str, document: Document) -> None:
        """Publishes the marks of a document if its text is still the one that was checked."""
        if self.documents.get(uri) is not document:
            return
        marks = [diagnostic(document.text, one) for one in document.problems + document.warnings]
        params = {"uri": uri, "diagnostics": marks}
        if document.text.version is not None:
            params["version"] = document.text.version
        self.notify("textDocument/publishDiagnostics", params)

    # questions about a place

    def hover(self, params: Json) -> Optional[Json]:
        document = self.document(params)
        return words.hover(document.text, document.names, document.text.offset(params["position"]))

    def occurrence(self, params: Json) -> Optional[Occurrence]:
        document = self.document(params)
        return document.names.at(document.text.offset(params["position"]))

    def definition(self, params: Json) -> Optional[Json]:
        document, one = self.document(params), self.occurrence(params)
        at = document.names.place(one.key) if one is not None else None
        if at is None or one is None:
            return None
        span = document.text.range(at, at + len(one.token.text))
        return {"uri": params["textDocument"]["uri"], "range": span}

    def spans(self, params: Json) -> List[Json]:
        """The ranges of all places of the name at a place."""
        document, one = self.document(params), self.occurrence(params)
        found = document.names.of(one.key) if one is not None else []
        return [document.text.range(each.token.at, each.end) for each in found]

    def references(self, params: Json) -> List[Json]:
        return [{"uri": params["textDocument"]["uri"], "range": span} for span in self.spans(params)]

    def highlights(self, params: Json) -> List[Json]:
        return [{"range": span} for span in self.spans(params)]

    def prepare_rename(self, params: Json) -> Optional[Json]:
        document, one = self.document(params), self.occurrence(params)
        return None if one is None else document.text.range(one.token.at, one.end)

    def rename(self, params: Json) -> Optional[Json]:
        new = params["newName"]
        document, one = self.document(params), self.occurrence(params)
        if one is None or new == one.token.text:
            return None
        taken = new in WORDS or new in SETTINGS or any(other.token.text == new for other in document.names.found)
        if taken or not NAME.match(new):
            raise refusal(f"'{new}' is used already" if taken else f"'{new}' is not a name: letters, digits and '_'")
        edits = [{"range": span, "newText": new} for span in self.spans(params)]
        return {"changes": {params["textDocument"]["uri"]: edits}}

    def completion(self, params: Json) -> List[Json]:
        document = self.document(params)
        return words.completions(document.text, document.names, document.text.offset(params["position"]))

    def outline(self, params: Json) -> List[Json]:
        document = self.document(params)
        return words.outline(document.text, document.names)

    # actions

    def actions(self, params: Json) -> List[Json]:
        """The fixes of the marks in a range, all sure fixes together, and settings that fit."""
        document, uri = self.document(params), params["textDocument"]["uri"]
        text = document.text
        begin, end = (text.offset(params["range"][name]) for name in ("start", "end"))
        found = []
        for one in document.problems + document.warnings:
            if one.begin <= end and begin <= max(one.end, one.begin):
                marks = [diagnostic(text, one)]
                found += [action(text, uri, each, marks, each.sure and each is one.fixes[0]) for each in one.fixes]
        together = all_sure(text, document.problems)
        if together is not None:
            found.append({**action(text, uri, together, [], False), "kind": "source.fixAll"})
        if document.proposed is not None:
            settings = Fix("Take the settings that fit (qss-advise)", tuple(differences(text, document.proposed)))
            found.append(action(text, uri, settings, [], False))
        return found

    def format(self, params: Json) -> Optional[List[Json]]:
        """The edits that indent the text. Nothing but the blanks before lines changes."""
        text = self.document(params).text
        new = indented(text.source)
        return None if new is None else [edit.json(text) for edit in differences(text, new.decode("utf-8", "replace"))]


CAPABILITIES = {
    "textDocumentSync": {"openClose": True, "change": FULL_TEXT, "save": True},
    "hoverProvider": True,
    "definitionProvider": True,
    "referencesProvider": True,
    "documentHighlightProvider": True,
    "renameProvider": {"prepareProvider": True},
    "completionProvider": {"triggerCharacters": ["("]},
    "documentSymbolProvider": True,
    "codeActionProvider": {"codeActionKinds": ["quickfix", "source.fixAll"]},
    "documentFormattingProvider": True,
}


def refusal(message: str) -> Exception:
    """The answer that a request cannot be granted."""
    from pylsp_jsonrpc.exceptions import JsonRpcInvalidParams

    failure: Exception = JsonRpcInvalidParams(message)
    return failure


def diagnostic(text: Text, one: Problem) -> Json:
    """A problem as a mark of the protocol."""
    message = "\n".join([one.sentence, *one.ways])
    severity = (ERROR if one.phase else WARNING) if one.grave else INFORMATION
    span = text.range(one.begin, max(one.end, one.begin))
    return {"range": span, "severity": severity, "source": "qss", "code": one.phase or "advice", "message": message}


def warning_of(text: Text, finding: Json) -> Problem:
    """A finding of qss-advise as a problem."""
    at = finding["at"] or 0
    width = text.source.width_at(at)
    fixes = []
    way = finding["way"] or ""
    meant = re.match(r"write '?(\w+)'?\Z", way)
    if meant and finding["at"] is not None and "ignored" in finding["sentence"]:
        fixes.append(fix(f"Write '{meant.group(1)}'", at, at + width, meant.group(1)))
    for one in commas_of(text.source) if "is read as" in finding["sentence"] else ():
        if one.begin == finding["at"]:
            width = one.end - one.begin
            meanings = [each for each in (one.decimal, one.grouped) if each]
            fixes += [fix(f"Write '{each}'", at, at + width, each, each == one.certain) for each in meanings]
    return Problem(at, at + width, finding["sentence"], [way] if way else [], "", fixes, finding["grave"])


def action(text: Text, uri: str, one: Fix, marks: List[Json], preferred: bool) -> Json:
    edits = [edit.json(text) for edit in one.edits]
    found: Json = {"title": one.title, "kind": "quickfix", "edit": {"changes": {uri: edits}}, "diagnostics": marks}
    return {**found, "isPreferred": True} if preferred else found


def all_sure(text: Text, problems: Sequence[Problem]) -> Optional[Fix]:
    """The sure fixes of several problems as one, if there are several."""
    edits = [edit for one in problems for edit in (one.fixes[0].edits if one.fixes and one.fixes[0].sure else ())]
    edits.sort(key=lambda one: one.begin)
    apart = all(left.end <= right.begin and left.begin < right.begin for left, right in zip(edits, edits[1:]))
    return Fix("Apply all fixes that are sure", tuple(edits)) if len(edits) > 1 and apart else None


def differences(text: Text, new: str) -> List[Edit]:
    """The edits, line by line, that make a text a new one."""
    before = text.data.decode("utf-8", "replace").splitlines(keepends=True)
    after = new.splitlines(keepends=True)
    starts = [0]
    for line in before:
        starts.append(starts[-1] + len(line.encode()))
    found = []
    for tag, first, last, left, right in difflib.SequenceMatcher(None, before, after, False).get_opcodes():
        if tag != "equal":
            found.append(Edit(starts[first], starts[last], "".join(after[left:right])))
    return found if edited(text.data, found).decode("utf-8", "replace") == new else [Edit(0, len(text.data), new)]


# the tool


def tool(arguments: Sequence[str]) -> int:
    parser = Arguments(prog="qss-lsp", description=ABOUT)
    parser.add_argument("--stdio", action="store_true", help="use standard input and output: the only way, for clients")
    parser.add_argument("--log", metavar="FILE", help="append faults of the server to this file")
    add_program_option(parser)
    args = parser.parse_args(arguments)
    try:
        from pylsp_jsonrpc.endpoint import Endpoint
        from pylsp_jsonrpc.streams import JsonRpcStreamReader, JsonRpcStreamWriter
    except ImportError as error:
        raise Fault(
            f"the package pylsp_jsonrpc is needed, and {sys.executable} has it not"
            " (Debian: python3-pylsp-jsonrpc, pip: python-lsp-jsonrpc)"
        ) from error
    logging.basicConfig(filename=args.log, level=logging.ERROR if args.log else logging.CRITICAL)
    with tempfile.TemporaryDirectory(prefix="qss-lsp-") as folder:
        server = Server(find_program(args.program), folder)
        reader, writer = JsonRpcStreamReader(sys.stdin.buffer), JsonRpcStreamWriter(sys.stdout.buffer)
        endpoint = Endpoint(server.handlers(), writer.write, max_workers=2)
        server.notify, server.leave = endpoint.notify, reader.close
        server.checks.start()
        server.advices.start()
        reader.listen(endpoint.consume)
        endpoint.shutdown()
    return FINE


def main(arguments: Optional[Sequence[str]] = None) -> int:
    """Runs the tool and returns its status."""
    return run_tool("qss-lsp", tool, arguments, numeric=True, package="pylsp_jsonrpc")


if __name__ == "__main__":
    sys.exit(main())
