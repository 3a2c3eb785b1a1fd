"""What a user writes, for mypy --strict: each line behind a type is of that type."""
import ssl
from typing import Any, AsyncIterator, List, Union

import path_client
from path_client import Hit, Refused, Request, Usage


def use() -> None:
    context = ssl.create_default_context()
    with path_client.connect("127.0.0.1:7000", "00" * 16, ssl=context) as client, path_client.pool(size=2) as many:
        text: bytes = client.get("shop", "order-1")
        hits: List[Hit] = many.query("shop", "$")
        values: List[bytes] = [hit.value for hit in client.hits("shop", "$")]
        names: List[str] = client.documents("shop", "$")
        texts: List[Union[bytes, Refused]] = client.pipeline([Request.get("shop", name) for name in names])
        requests: List[Request[Any]] = [Request.put("shop", "a", "1"), Request.usage()]
        mixed: List[Any] = client.pipeline(requests)
        try:
            client.put_new("shop", "order-1", text)
        except path_client.Exists as refused:
            print(refused.collection, refused.sentence, hits, values, texts, mixed)


async def use_tasks() -> None:
    async def source() -> AsyncIterator[Request[Usage]]:
        yield Request.usage()

    async with path_client.connect_async() as client:
        usages: List[Union[Usage, Refused]] = await client.pipeline(source())
        print(usages)
    many = await path_client.pool_async()
    seconds: float = await many.ping()
    print(seconds)
