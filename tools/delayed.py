"""A TCP proxy that holds each piece up, as a network far away does: to try the programs at a round trip of so many
milliseconds, over the loopback.

    python3 tools/delayed.py HOST:PORT MILLISECONDS [PORT]

It connects each of its clients to the server at HOST:PORT, and passes on what either sends half of the milliseconds
later, in order. A connection is taken at once, and begins a round trip later, as if its own packets had gone there and
back. It listens on 127.0.0.1, at PORT or where the system chooses, and puts a line `listening ADDRESS`. It ends when
it is killed.
"""
import asyncio
import sys

PIECE = 65_536


async def passed_on(reader, writer, seconds):
    """Passes on what comes, each piece so many seconds after it came, up to the end."""
    clock = asyncio.get_running_loop().time
    pieces = asyncio.Queue()

    async def put():
        while True:
            due, piece = await pieces.get()
            await asyncio.sleep(due - clock())
            if not piece:
                break
            writer.write(piece)
            await writer.drain()
        if writer.can_write_eof():
            writer.write_eof()

    putting = asyncio.create_task(put())
    try:
        while True:
            piece = await reader.read(PIECE)
            pieces.put_nowait((clock() + seconds, piece))
            if not piece:
                break
        await putting
    except OSError:
        # Whoever reset the connection is passed on as an end.
        putting.cancel()


async def serve(reader, writer, host, port, seconds):
    try:
        await asyncio.sleep(2 * seconds)
        far_reader, far_writer = await asyncio.open_connection(host, port)
    except OSError:
        writer.close()
        return
    try:
        await asyncio.gather(passed_on(reader, far_writer, seconds), passed_on(far_reader, writer, seconds))
    finally:
        far_writer.close()
        writer.close()


async def main():
    host, port = sys.argv[1].rsplit(":", 1)
    seconds = float(sys.argv[2]) / 2_000
    own = int(sys.argv[3]) if len(sys.argv) > 3 else 0
    serving = await asyncio.start_server(lambda r, w: serve(r, w, host, int(port), seconds), "127.0.0.1", own)
    print("listening 127.0.0.1:%d" % serving.sockets[0].getsockname()[1], flush=True)
    async with serving:
        await serving.serve_forever()


if __name__ == "__main__":
    asyncio.run(main())
