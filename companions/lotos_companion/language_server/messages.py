"""JSON-RPC over two streams, as the language server protocol frames it: a head with the length of each message, then JSON."""
from __future__ import annotations

import json
from threading import Lock
from typing import IO, Any, Dict, Optional

# What is read in one message at most, in bytes.
MOST = 64 << 20

PARSE_ERROR, INVALID_REQUEST, METHOD_NOT_FOUND, INVALID_PARAMS, INTERNAL_ERROR = -32700, -32600, -32601, -32602, -32603
NOT_INITIALISED = -32002

Message = Dict[str, Any]


class Broken(Exception):
    """What came is no message. After one whose length is known, the next message can still be read."""

    def __init__(self, what: str, is_over: bool = False):
        super().__init__(what)
        self.is_over = is_over


class Channel:
    """Messages in both directions. Several threads may write."""

    def __init__(self, source: IO[bytes], sink: IO[bytes]):
        self._source = source
        self._sink = sink
        self._lock = Lock()

    def read(self) -> Optional[Message]:
        """The next message, or nothing at the end of the input. `Broken` where it is none."""
        length = self._read_head()
        if length is None:
            return None
        body = self._source.read(length)
        if len(body) < length:
            return None
        try:
            message = json.loads(body.decode("utf-8"))
        except (ValueError, RecursionError) as fault:
            raise Broken(f"a message is not JSON: {fault}") from None
        if not isinstance(message, dict):
            raise Broken("a message is not an object")
        return message

    def _read_head(self) -> Optional[int]:
        """The length that the head of a message tells."""
        length = None
        while True:
            line = self._source.readline(1 << 12)
            if not line:
                return None
            text = line.decode("latin-1").strip()
            if not text:
                break
            name, _, value = text.partition(":")
            if name.strip().lower() == "content-length" and value.strip().isdecimal():
                length = int(value)
        if length is None or length > MOST:
            raise Broken("a message has no length that can be read", True)
        return length

    def notify(self, method: str, params: object) -> None:
        """Says something that wants no answer."""
        self._write({"method": method, "params": params})

    def answer(self, identity: object, result: object) -> None:
        """Answers a request."""
        self._write({"id": identity, "result": result})

    def refuse(self, identity: object, code: int, what: str) -> None:
        """Answers a request that cannot be served."""
        self._write({"id": identity, "error": {"code": code, "message": what}})

    def _write(self, message: Message) -> None:
        body = json.dumps({"jsonrpc": "2.0", **message}, ensure_ascii=False).encode("utf-8", "replace")
        with self._lock:
            self._sink.write(b"Content-Length: %d\r\n\r\n" % len(body) + body)
            self._sink.flush()
