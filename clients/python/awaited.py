"""The client for asyncio behind the calls of the one for threads, so that one test can try both."""

import asyncio
import contextlib
import inspect

from pequod import aio


class Awaited:
    """A client for asyncio each of whose calls a loop of its own runs to the end. `end` ends the loop."""

    def __init__(self, host, port, timeout):
        self._loop = asyncio.new_event_loop()
        self._client = self._run(aio.connect(host, port, timeout))

    def watch(self, *words, **named):
        watch = self._client.watch(*words, **named)
        while True:
            yield self._run(watch.__anext__())

    @contextlib.contextmanager
    def pipeline(self):
        pipeline = self._client.pipeline()
        yield pipeline
        self._run(pipeline.send())

    def end(self):
        self._client.close()
        # The loop closes the socket at its next step.
        self._run(asyncio.sleep(0))
        self._run(self._loop.shutdown_asyncgens())
        self._loop.close()

    def __getattr__(self, name):
        found = getattr(self._client, name)
        if not inspect.iscoroutinefunction(found):
            return found
        return lambda *words, **named: self._run(found(*words, **named))

    def _run(self, awaitable):
        async def wait():
            return await awaitable

        return self._loop.run_until_complete(wait())
