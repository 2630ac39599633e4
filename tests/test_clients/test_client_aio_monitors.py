"""Monitors of `metad.aio`: how they end, and what they report of lines that were lost."""

import asyncio
from pathlib import Path

import metad
from metad import aio

from .fronts import PATIENCE, ClientCases, monitored

LINE, WHOLE = {"reply": 1, "session": "c1"}, '{"reply":1,"session":"c1"}\n'
HALF = '{"reply":2,"sess'
LEFT_OUT, COUNTED = '{"error":"F10","session":"-"}\n', '{"error":"F10","lost":1234,"session":"-"}\n'


class AioMonitors(ClientCases):
    """Monitors that are awaited, compared with those that wait."""

    def written(self, *texts):
        return monitored(self.room, *texts)

    def heard(self, path, session=None):
        """The lines of a monitor that is awaited, and of one that waits, which have to be the same, and what they raise at the end."""

        async def read():
            told = []
            try:
                async with aio.monitor(path, session) as monitor:
                    async for line in monitor:
                        told.append(line)
            except metad.MetadError as error:
                return told, error
            return told, None

        told, error = asyncio.run(asyncio.wait_for(read(), PATIENCE))
        waited = []
        try:
            with metad.monitor(path, session) as monitor:
                waited.extend(monitor)
        except metad.MetadError as other:
            self.assertEqual((type(error), str(error)), (type(other), str(other)), "what both raise")
        else:
            self.assertIsNone(error, "what one that is awaited raises")
        self.assertEqual(told, waited, "the lines of both")
        return told, error

    def test_front(self):
        """The lines of all sessions, or of one, come as they are written, up to the end of the front."""

        async def read(front):
            async with aio.monitor(front.monitor_path) as monitor, aio.monitor(front.monitor_path, "c2") as chosen:
                async with await aio.connect(front.path) as one, await aio.connect(front.path) as other:
                    await one.session("a").new("Cell")
                    await other.session("a").new("Cell")
                    told = [await monitor.__anext__() for _ in range(2)]
                    self.assertEqual(await chosen.__anext__(), {"reply": 1, "session": "c2"}, "the line of one session")
                await asyncio.get_running_loop().run_in_executor(None, front.close)
                rest = [line async for line in monitor]
                return told, rest

        with metad.start_front(self.program, monitor=True, timeout=PATIENCE) as front:
            told, rest = asyncio.run(asyncio.wait_for(read(front), PATIENCE))
        self.assertEqual(told, [{"reply": 1, "session": "c1"}, {"reply": 1, "session": "c2"}], "the lines of all")
        self.assertTrue(all(it["session"] in ("c1", "c2") for it in rest), "what came at the end")

    def test_lost(self):
        """Lines that were lost are reported after all that arrived: how many, or that it is unknown."""
        for last, count, said in (
            (LEFT_OUT, None, "lines were lost, and how many is unknown"),
            (COUNTED, 1234, "1,234 lines were lost"),
            (HALF, None, "lines were lost, and how many is unknown"),
        ):
            with self.written(WHOLE, WHOLE, last) as path:
                told, error = self.heard(path)
            self.assertEqual(told, [LINE, LINE], "what has arrived")
            self.assertIsInstance(error, metad.LinesLost, last)
            self.assertEqual(error.count, count, "how many")
            self.assertTrue(str(error).endswith(said), str(error))

    def test_lost_again(self):
        """It is said again, however often the next line is asked for."""

        async def read(path):
            async with aio.monitor(path) as monitor:
                for _ in range(2):
                    with self.assertRaises(metad.LinesLost) as caught:
                        await monitor.__anext__()
                    self.assertEqual(caught.exception.count, 1234, "how many")

        with self.written(COUNTED) as path:
            asyncio.run(asyncio.wait_for(read(path), PATIENCE))

    def test_chosen(self):
        """A monitor of one session drops what came before the answer; a refusal is raised, and an end without an answer."""
        asked, other = '{"front":"monitor","session":"c1"}\n', '{"error":"E04","session":"c2"}\n'
        with self.written(other, asked, WHOLE) as path:
            self.assertEqual(self.heard(path, "c1"), ([LINE], None), "its lines")
        with self.written(other) as path:
            self.assertIsInstance(self.heard(path, "c1")[1], metad.ConnectionClosed, "no answer")
        with self.written('{"error":"F02","session":"-"}\n') as path:
            self.assertEqual(self.heard(path, "c1")[1].code, "F02", "a refusal")
        self.raised("nobody listens", OSError, asyncio.run, self.opened(Path(self.room, "nothing")))

    async def opened(self, path):
        async with aio.monitor(path):
            pass

    def test_closed(self):
        """One that is closed by another task ends the iteration there."""

        async def read(front):
            monitor = await aio.monitor(front.monitor_path)
            reading = asyncio.ensure_future(monitor.__anext__())
            await asyncio.sleep(0.05)
            await monitor.close()
            with self.assertRaises(StopAsyncIteration):
                await reading
            await monitor.close()
            return [line async for line in monitor]

        with metad.start_front(self.program, monitor=True, timeout=PATIENCE) as front:
            self.assertEqual(asyncio.run(asyncio.wait_for(read(front), PATIENCE)), [], "its lines after that")
