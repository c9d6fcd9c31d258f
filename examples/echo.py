#!/usr/bin/env python3
"""An upstream that sends back what it gets.

usage: examples/echo.py HOST:PORT
"""

import asyncio
import sys


async def echo(reader, writer):
    try:
        while data := await reader.read(65536):
            writer.write(data)
            await writer.drain()
    except ConnectionError:
        pass
    writer.close()


async def main():
    host, _, port = sys.argv[1].rpartition(":")
    server = await asyncio.start_server(echo, host, int(port))
    await server.serve_forever()


asyncio.run(main())
