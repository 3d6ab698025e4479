"""A client of the language server: it speaks the protocol over a pipe, as an editor does."""
import json
import queue
import subprocess
import threading
from pathlib import Path
from typing import Any, Callable, Dict, List

SERVER = Path(__file__).resolve().parent.parent / "qss-lsp"
PATIENCE = 60  # seconds
Json = Dict[str, Any]


class Client:
    """An editor with a document, which talks to a server that it has started. Texts that it edits are ASCII."""

    def __init__(self, python: str, program: str) -> None:
        words = [python, str(SERVER), "--program", program]
        self.server = subprocess.Popen(words, stdin=subprocess.PIPE, stdout=subprocess.PIPE)
        self.answers: "queue.Queue[Json]" = queue.Queue()
        self.marks: "queue.Queue[Json]" = queue.Queue()
        self.uri = self.text = ""
        self.number = self.version = 0
        threading.Thread(target=self.listen, daemon=True).start()
        self.capabilities = self.ask("initialize", {"capabilities": {}})["capabilities"]
        self.tell("initialized", {})

    def listen(self) -> None:
        """Reads what the server sends."""
        stream = self.server.stdout
        assert stream is not None
        while True:
            head = stream.readline()
            if not head:
                return
            while stream.readline().strip():
                pass
            message = json.loads(stream.read(int(head.split(b":")[1])))
            if "id" in message:
                self.answers.put(message)
            elif message["method"] == "textDocument/publishDiagnostics":
                self.marks.put(message["params"])

    def send(self, message: Json) -> None:
        data = json.dumps({"jsonrpc": "2.0", **message}).encode()
        assert self.server.stdin is not None
        self.server.stdin.write(b"Content-Length: %d\r\n\r\n" % len(data) + data)
        self.server.stdin.flush()

    def tell(self, method: str, params: Any) -> None:
        self.send({"method": method, "params": params})

    def request(self, method: str, params: Any) -> Json:
        """The whole answer to a request."""
        self.number += 1
        self.send({"id": self.number, "method": method, "params": params})
        return self.answers.get(timeout=PATIENCE)

    def ask(self, method: str, params: Any) -> Any:
        """The result of a request, which is granted."""
        answer = self.request(method, params)
        assert "error" not in answer, answer
        return answer["result"]

    # a document

    def open(self, uri: str, text: str) -> None:
        self.uri, self.text, self.version = uri, text, 1
        document = {"uri": uri, "languageId": "modelica", "version": 1, "text": text}
        self.tell("textDocument/didOpen", {"textDocument": document})

    def change(self, text: str) -> None:
        self.text, self.version = text, self.version + 1
        document = {"uri": self.uri, "version": self.version}
        self.tell("textDocument/didChange", {"textDocument": document, "contentChanges": [{"text": text}]})

    def seen(self, is_wanted: Callable[[List[Json]], bool] = lambda marks: True) -> List[Json]:
        """The next marks of this version of the document that are wanted."""
        while True:
            params = self.marks.get(timeout=PATIENCE)
            if params.get("version") == self.version and is_wanted(params["diagnostics"]):
                found: List[Json] = params["diagnostics"]
                return found

    def position(self, part: str, shift: int = 0) -> Json:
        """The place of a part of the text."""
        at = self.text.index(part) + shift
        return {"line": self.text.count("\n", 0, at), "character": at - (self.text.rfind("\n", 0, at) + 1)}

    def at(self, part: str, shift: int = 0) -> Json:
        return {"textDocument": {"uri": self.uri}, "position": self.position(part, shift)}

    def actions(self, span: Json) -> Dict[str, Json]:
        """The actions for a range, by their titles."""
        params = {"textDocument": {"uri": self.uri}, "range": span, "context": {"diagnostics": []}}
        return {one["title"]: one for one in self.ask("textDocument/codeAction", params)}

    def apply(self, edits: List[Json]) -> None:
        """Makes edits of the text, as an editor does, and sends the new text."""
        lines = self.text.split("\n")

        def offset(place: Json) -> int:
            return sum(len(line) + 1 for line in lines[: place["line"]]) + int(place["character"])

        text = self.text
        for edit in sorted(edits, key=lambda one: offset(one["range"]["start"]), reverse=True):
            begin, end = offset(edit["range"]["start"]), offset(edit["range"]["end"])
            text = text[:begin] + edit["newText"] + text[end:]
        self.change(text)

    def close(self) -> int:
        """Ends the server and returns its status."""
        self.ask("shutdown", None)
        self.tell("exit", None)
        self.server.wait(timeout=PATIENCE)
        for stream in (self.server.stdin, self.server.stdout):
            if stream is not None:
                stream.close()
        return self.server.returncode
