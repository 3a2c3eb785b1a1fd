"""The commands as methods, over one function that sends a request."""
from __future__ import annotations

import time
from typing import Any, List, TypeVar

from .frames import Hit, Hits, Request, Text, Usage
from .json_texts import from_json

Result = TypeVar("Result")


class Calls:
    """The commands, each as a method that gives its value or raises."""

    def _call(self, request: Request[Result]) -> Result:
        raise NotImplementedError

    def put(self, collection: Text, document: Text, text: Text) -> None:
        """Keeps a JSON text under a collection and a document, in the place of one that is there."""
        return self._call(Request.put(collection, document, text))

    def put_new(self, collection: Text, document: Text, text: Text) -> None:
        """Keeps a JSON text under a collection and a document. Refused as Exists where a document is there."""
        return self._call(Request.put_new(collection, document, text))

    def put_json(self, collection: Text, document: Text, value: Any) -> None:
        """Puts the JSON text of a value. A decimal.Decimal keeps its digits."""
        return self._call(Request.put_json(collection, document, value))

    def get(self, collection: Text, document: Text) -> bytes:
        """The text as it was put, byte for byte. Refused as NotFound if there is none."""
        return self._call(Request.get(collection, document))

    def get_json(self, collection: Text, document: Text, exact: bool = False) -> Any:
        """The value of a document's text. If it is to be exact, a number with a fraction or an exponent is a decimal.Decimal."""
        return from_json(self.get(collection, document), exact)

    def remove(self, collection: Text, document: Text) -> None:
        """Removes a document. Refused as NotFound if there is none."""
        return self._call(Request.remove(collection, document))

    def list(self, collection: Text) -> List[str]:
        """The names of a collection's documents, in the order of their bytes; empty if there is no such collection."""
        return self._call(Request.list(collection))

    def query(self, collection: Text, query: Text) -> List[Hit]:
        """The hits of a JSONPath query (RFC 9535) in each document of a collection, by document and within it in the query's order."""
        return self._call(Request.query(collection, query))

    def hits(self, collection: Text, query: Text) -> Hits:
        """The same hits, each made when it is asked for, so that a long reply is not copied."""
        return self._call(Request.hits(collection, query))

    def documents(self, collection: Text, query: Text) -> List[str]:
        """The names of the documents in which a query has a hit, each once, in the order of their bytes."""
        return self._call(Request.documents(collection, query))

    def drop(self, collection: Text) -> None:
        """Removes a collection with all its documents. Refused as NotFound if there is none."""
        return self._call(Request.drop(collection))

    def usage(self) -> Usage:
        """What the tenant keeps."""
        return self._call(Request.usage())

    def ping(self) -> float:
        """The seconds that a USAGE took: whether the server answers, and knows the key."""
        began = time.monotonic()
        self.usage()
        return time.monotonic() - began


class AsyncCalls:
    """The commands, each as a coroutine that gives its value or raises."""

    async def _call(self, request: Request[Result]) -> Result:
        raise NotImplementedError

    async def put(self, collection: Text, document: Text, text: Text) -> None:
        """Keeps a JSON text under a collection and a document, in the place of one that is there."""
        return await self._call(Request.put(collection, document, text))

    async def put_new(self, collection: Text, document: Text, text: Text) -> None:
        """Keeps a JSON text under a collection and a document. Refused as Exists where a document is there."""
        return await self._call(Request.put_new(collection, document, text))

    async def put_json(self, collection: Text, document: Text, value: Any) -> None:
        """Puts the JSON text of a value. A decimal.Decimal keeps its digits."""
        return await self._call(Request.put_json(collection, document, value))

    async def get(self, collection: Text, document: Text) -> bytes:
        """The text as it was put, byte for byte. Refused as NotFound if there is none."""
        return await self._call(Request.get(collection, document))

    async def get_json(self, collection: Text, document: Text, exact: bool = False) -> Any:
        """The value of a document's text. If it is to be exact, a number with a fraction or an exponent is a decimal.Decimal."""
        return from_json(await self.get(collection, document), exact)

    async def remove(self, collection: Text, document: Text) -> None:
        """Removes a document. Refused as NotFound if there is none."""
        return await self._call(Request.remove(collection, document))

    async def list(self, collection: Text) -> List[str]:
        """The names of a collection's documents, in the order of their bytes; empty if there is no such collection."""
        return await self._call(Request.list(collection))

    async def query(self, collection: Text, query: Text) -> List[Hit]:
        """The hits of a JSONPath query (RFC 9535) in each document of a collection, by document and within it in the query's order."""
        return await self._call(Request.query(collection, query))

    async def hits(self, collection: Text, query: Text) -> Hits:
        """The same hits, each made when it is asked for, so that a long reply is not copied."""
        return await self._call(Request.hits(collection, query))

    async def documents(self, collection: Text, query: Text) -> List[str]:
        """The names of the documents in which a query has a hit, each once, in the order of their bytes."""
        return await self._call(Request.documents(collection, query))

    async def drop(self, collection: Text) -> None:
        """Removes a collection with all its documents. Refused as NotFound if there is none."""
        return await self._call(Request.drop(collection))

    async def usage(self) -> Usage:
        """What the tenant keeps."""
        return await self._call(Request.usage())

    async def ping(self) -> float:
        """The seconds that a USAGE took: whether the server answers, and knows the key."""
        began = time.monotonic()
        await self.usage()
        return time.monotonic() - began
