"""Chromium without a window, driven over its DevTools protocol, for benches/page."""

from __future__ import annotations

import asyncio
import base64
import itertools
import json
import pathlib
import shutil
from typing import Any, Coroutine, Dict, Optional, TypeVar

import aiohttp

from programs_parts import Bench
from waiting import wait_for

CHROMIUM = shutil.which("chromium")
KEYS = {"Tab": 9, "Enter": 13, " ": 32, "ArrowDown": 40}
Answer = TypeVar("Answer")


class Chromium:
    """A browser with one page. Each call waits for its answer."""

    def __init__(self, bench: Bench) -> None:
        self.bench, self.loop, self.numbers = bench, asyncio.new_event_loop(), itertools.count(1)
        self.folder = bench.folder / "chromium"
        words = ("--headless=new", "--no-sandbox", "--disable-gpu", "--disable-dev-shm-usage", "--no-first-run")
        quiet = {"stdout": -3, "stderr": -3, "start_new_session": True}
        where = (f"--user-data-dir={self.folder}", "--remote-debugging-port=0", "--hide-scrollbars", "about:blank")
        self.process = bench.start(CHROMIUM, *words, *where, **quiet)
        port = self.folder / "DevToolsActivePort"
        if not wait_for(lambda: port.exists() and len(port.read_text().split()) == 2, 120):
            raise TimeoutError("chromium does not listen")
        self.run(self.attach(port.read_text().split()[0]))
        for part in ("Page", "Runtime", "Accessibility", "Log"):
            self.ask(f"{part}.enable")

    async def attach(self, port: str) -> None:
        self.session = aiohttp.ClientSession()
        async with self.session.get(f"http://127.0.0.1:{port}/json/list") as answer:
            pages = [it for it in await answer.json() if it["type"] == "page"]
        self.socket = await self.session.ws_connect(pages[0]["webSocketDebuggerUrl"], max_msg_size=0)
        self.troubles: list[str] = []

    def run(self, work: Coroutine[Any, Any, Answer]) -> Answer:
        return self.loop.run_until_complete(asyncio.wait_for(work, 120))

    def ask(self, method: str, **words: Any) -> Dict[str, Any]:
        return self.run(self.exchange(method, words))

    async def exchange(self, method: str, words: Dict[str, Any]) -> Dict[str, Any]:
        number = next(self.numbers)
        await self.socket.send_json({"id": number, "method": method, "params": words})
        while True:
            came = json.loads((await self.socket.receive_str()))
            if came.get("id") == number:
                if "error" in came:
                    raise RuntimeError(f"{method}: {came['error']}")
                result: Dict[str, Any] = came["result"]
                return result
            self.note(came)

    def note(self, came: Dict[str, Any]) -> None:
        """Keeps what the browser says of mistakes in the page."""
        if came.get("method") == "Runtime.exceptionThrown":
            self.troubles.append(str(came["params"]["exceptionDetails"].get("exception", {}).get("description")))
        elif came.get("method") == "Log.entryAdded" and came["params"]["entry"]["level"] == "error":
            self.troubles.append(f"{came['params']['entry']['text']} {came['params']['entry'].get('url', '')}")

    def value(self, script: str) -> Any:
        """What an expression of the page's script is, once it is there."""
        came = self.ask("Runtime.evaluate", expression=script, awaitPromise=True, returnByValue=True)
        if "exceptionDetails" in came:
            raise RuntimeError(f"{script}: {came['exceptionDetails']}")
        return came["result"].get("value")

    def open(self, address: str) -> None:
        self.ask("Page.navigate", url=address)
        wait_for(lambda: self.value("document.readyState") == "complete")

    def becomes(self, script: str, wanted: Any, seconds: float = 10.0) -> Optional[str]:
        """None once an expression is what is wanted; else what it is at the end."""
        found: Any = None

        def holds() -> bool:
            nonlocal found
            found = self.value(script)
            return bool(found == wanted)

        return None if wait_for(holds, seconds) else f"{script}: found {found!r}, wanted {wanted!r}"

    def key(self, name: str) -> None:
        """Presses a key and lets it go."""
        text = {"Enter": "\r", " ": " "}.get(name, "")
        words = {"key": name, "code": name, "windowsVirtualKeyCode": KEYS[name]}
        self.ask("Input.dispatchKeyEvent", type="keyDown", text=text, **words)
        self.ask("Input.dispatchKeyEvent", type="keyUp", **words)

    def size(self, width: int, height: int, is_phone: bool = False) -> None:
        scale = 2 if is_phone else 1
        self.ask(
            "Emulation.setDeviceMetricsOverride", width=width, height=height, deviceScaleFactor=scale, mobile=is_phone
        )

    def media(self, scheme: str) -> None:
        """Light or dark."""
        self.ask("Emulation.setEmulatedMedia", features=[{"name": "prefers-color-scheme", "value": scheme}])

    def picture(self, path: pathlib.Path) -> None:
        came = self.ask("Page.captureScreenshot", format="png")
        path.write_bytes(base64.b64decode(came["data"]))

    def close(self) -> None:
        self.run(self.session.close())
        self.loop.close()
        self.bench.end(self.process)
