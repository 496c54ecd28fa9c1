#!/usr/bin/env python3
"""Whether the language server of extras/lsp answers as its protocol says.

    bench/lsp.py [BINARY]

Starts the server and talks to it as an editor does: several documents, changes, hovering, requests that it doesn't
have, and messages that are malformed. Compares each answer with what is written here. BINARY is the built program, by
default crates/fmc_cli/out/fmc_cli.
"""
import glob
import json
import os
import queue
import subprocess
import sys
import threading

TOP = os.path.dirname(os.path.dirname(os.path.abspath(__file__)))
PATIENCE = 30
UNTYPED = "      PROGRAM P\nC     \U0001f600\n      COUNT = 1\n      PRINT *, COUNT\n      END\n"
TYPED = UNTYPED.replace("C     \U0001f600\n", "      INTEGER COUNT\n")
UNSET = "      PROGRAM P\n      PRINT *, K\n      END\n"
OPEN = "      PROGRAM P\n      PRINT *,\n     + 'it's'\n      END\n"
BEHIND = "      PROGRAM P\n" + "      PRINT *, 1".ljust(72) + "é\U0001f600x\n      END\n"


class Client:
    """A server that was started, and the messages that it has sent."""

    def __init__(self, binary):
        self.process = subprocess.Popen([f"{TOP}/extras/lsp"], stdin=subprocess.PIPE, stdout=subprocess.PIPE,
                                        env={**os.environ, "FMC": binary})
        self.messages = queue.Queue()
        threading.Thread(target=self.read, daemon=True).start()
        self.number = 0

    def read(self):
        out = self.process.stdout
        while True:
            head = out.readline()
            if not head:
                self.messages.put(None)
                return
            assert out.readline() == b"\r\n", "a message has one header"
            self.messages.put(json.loads(out.read(int(head.split(b":")[1]))))

    def raw(self, body):
        self.process.stdin.write(body)
        self.process.stdin.flush()

    def send(self, message):
        body = json.dumps({"jsonrpc": "2.0", **message}).encode()
        self.raw(b"Content-Length: %d\r\n\r\n%s" % (len(body), body))

    def notify(self, method, params):
        self.send({"method": method, "params": params})

    def next(self):
        return self.messages.get(timeout=PATIENCE)

    def ask(self, method, params=None):
        """The result of a request, or the number of its error."""
        self.number += 1
        self.send({"id": self.number, "method": method, **({} if params is None else {"params": params})})
        while True:
            message = self.next()
            if message is None or message.get("id") == self.number:
                return message and message.get("error", {}).get("code", message.get("result"))

    def put(self, name, version, text):
        """Opens a document or changes it."""
        if version == 1:
            document = {"uri": name, "languageId": "fortran", "version": version, "text": text}
            self.notify("textDocument/didOpen", {"textDocument": document})
        else:
            self.notify("textDocument/didChange", {"textDocument": {"uri": name, "version": version},
                                                   "contentChanges": [{"text": text}]})

    def told(self, name, version):
        """What is sent of a version of a document: its codes, with the ranges as numbers."""
        while True:
            message = self.next()
            params = message and message.get("params", {})
            if message is None or (params.get("uri"), params.get("version")) == (name, version):
                return message and [row(it) for it in params["diagnostics"]]

    def end(self):
        """The status with which the server ends, once its input has."""
        self.process.stdin.close()
        return self.process.wait(PATIENCE)


def row(it):
    """A diagnostic in short."""
    start, end = it["range"]["start"], it["range"]["end"]
    return it["severity"], it["code"], start["line"], start["character"], end["line"], end["character"], it["message"]


class Tally:
    """Counts what was compared, and says what differs."""

    def __init__(self):
        self.count = self.wrong = 0

    def compare(self, name, found, wanted):
        self.count += 1
        if found != wanted:
            self.wrong += 1
            print(f"{name}: {found}, and not {wanted}")


def documents(client, tally):
    """Several documents that are opened, changed and closed."""
    untyped = [(1, "E31", 2, 6, 2, 11, "E31 no type: COUNT")]
    client.put("file:///a.f", 1, UNTYPED)
    tally.compare("a refused document", client.told("file:///a.f", 1), untyped)
    client.put("file:///b.f", 1, UNSET)
    tally.compare("a slip", client.told("file:///b.f", 1),
                  [(2, "unset", 1, 15, 1, 16, "K is read and never set: it is 0")])
    hovered = client.ask("textDocument/hover", {"textDocument": {"uri": "file:///a.f"},
                                                "position": {"line": 2, "character": 8}})
    tally.compare("hovering", hovered["contents"]["value"].startswith("### E31 no type\n"), True)
    tally.compare("hovering elsewhere", client.ask("textDocument/hover", {
        "textDocument": {"uri": "file:///a.f"}, "position": {"line": 0, "character": 8}}), None)
    client.put("file:///a.f", 2, TYPED)
    tally.compare("the same, mended", client.told("file:///a.f", 2), [])
    for version in range(3, 23):
        client.put("file:///a.f", version, [TYPED, UNTYPED][version % 2] + "\n" * version)
    client.put("file:///a.f", 23, UNTYPED)
    tally.compare("the last of many changes", client.told("file:///a.f", 23), untyped)
    client.put("file:///c.f", 1, OPEN)
    tally.compare("a statement of two lines", client.told("file:///c.f", 1),
                  [(1, "E05", 1, 6, 2, 13, "E05 open character constant")])
    client.put("file:///c.f", 2, BEHIND)
    tally.compare("letters of more than a byte", client.told("file:///c.f", 2),
                  [(2, "columns", 1, 72, 1, 76, "behind column 72 nothing is read: é\U0001f600x")])
    client.put("file:///c.f", 3, "")
    tally.compare("an empty document", client.told("file:///c.f", 3),
                  [(1, "E26", 0, 0, 0, 0, "E26 not exactly one PROGRAM")])
    client.put("file:///c.f", 4, BEHIND.replace("\n", "\r\n"))
    tally.compare("lines that end with CR and LF", len(client.told("file:///c.f", 4)), 1)
    client.notify("textDocument/didClose", {"textDocument": {"uri": "file:///c.f"}})
    tally.compare("a document that is closed", client.told("file:///c.f", None), [])


def malformed(client, tally):
    """Messages that are none, and requests that can't be answered."""
    for name, body in (("no JSON", b"Content-Length: 9\r\n\r\n{\"id\": 1,"), ("no length", b"Content-Type: x\r\n\r\n"),
                       ("a length that is no number", b"Content-Length: many\r\n\r\n"),
                       ("no object", b"content-length:2\r\n\r\n[]"), ("no text", b"Content-Length: 2\r\n\r\n\xff\xfe"),
                       ("too deep", b"Content-Length: 100000\r\n\r\n" + b"[" * 100000)):
        client.raw(body)
        message = client.next()
        tally.compare(name, (message["id"], message["error"]["code"]), (None, -32700))
    client.send({"id": 900})
    tally.compare("no method", client.next()["error"]["code"], -32600)
    client.send({"id": 901, "result": None})
    client.notify("textDocument/didOpen", {"textDocument": {"uri": "file:///d.f"}})
    tally.compare("a document without a text", client.next()["method"], "window/logMessage")
    client.notify("textDocument/didChange", {"textDocument": {"uri": "file:///d.f"}, "contentChanges": []})
    client.notify("textDocument/didSomething", {})
    client.send({"method": "initialized", "params": None})
    tally.compare("an unknown request", client.ask("textDocument/definition", {}), -32601)
    tally.compare("a request without parameters", client.ask("textDocument/hover"), -32602)


def examples(client, tally):
    """Each example has no diagnostics."""
    for name in sorted(glob.glob(f"{TOP}/examples/*.f") + glob.glob(f"{TOP}/examples/gallery/*.f")):
        with open(name, encoding="ascii") as file:
            client.put(name, 1, file.read())
        tally.compare(name, client.told(name, 1), [])


def main():
    binary = os.path.abspath(sys.argv[1] if len(sys.argv) > 1 else f"{TOP}/crates/fmc_cli/out/fmc_cli")
    tally = Tally()
    client = Client(binary)
    tally.compare("a request before initialize", client.ask("textDocument/hover", {}), -32002)
    client.put("file:///early.f", 1, UNSET)
    found = client.ask("initialize", {"processId": None, "rootUri": None, "capabilities": {}})
    tally.compare("initialize", found["capabilities"]["textDocumentSync"],
                  {"openClose": True, "change": 1, "save": False})
    client.notify("initialized", {})
    documents(client, tally)
    malformed(client, tally)
    examples(client, tally)
    tally.compare("shutdown", client.ask("shutdown"), None)
    tally.compare("a request behind shutdown", client.ask("textDocument/hover", {}), -32600)
    client.send({"method": "exit"})
    tally.compare("exit", client.end(), 0)
    client = Client(binary)
    client.ask("initialize", {})
    client.send({"method": "exit"})
    tally.compare("exit without shutdown", client.end(), 1)
    client = Client(binary)
    client.raw(b"Content-Length: 100\r\n\r\n{")
    tally.compare("an end within a message", client.end(), 1)
    client = Client("/nowhere/fmc")
    client.ask("initialize", {})
    client.put("file:///a.f", 1, UNSET)
    tally.compare("no fmc", client.next()["method"], "window/showMessage")
    tally.compare("the server goes on", client.ask("shutdown"), None)
    client.end()
    print(f"{tally.count} answers; {tally.wrong} wrong")
    sys.exit(1 if tally.wrong else 0)


if __name__ == "__main__":
    main()
