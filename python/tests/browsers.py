"""Real browsers without a window, for tests of the page: Chromium by its driver, Firefox by WebDriver BiDi.

Needed are of Debian chromium, chromium-driver and python3-selenium; firefox-esr and python3-websocket.
"""
import base64
import contextlib
import importlib
import importlib.util
import json
import os
import shutil
import subprocess
import sys
import tempfile
import threading
import time
from pathlib import Path
from typing import Any, Dict, List, Sequence, Tuple

# where Debian puts what another Python does not look for
PACKAGES = "/usr/lib/python3/dist-packages"
# a wide window, and that of a phone
WIDE, NARROW = (1100, 1250), (390, 840)
# a name of this machine that browsers trust as little as another machine
ELSEWHERE = "elsewhere.test"
FLAGS = ["--headless=new", "--no-sandbox", "--disable-dev-shm-usage", "--disable-background-networking", "--disable-component-update",
         f"--host-resolver-rules=MAP {ELSEWHERE} 127.0.0.1"]


class Missing(Exception):
    """What a browser needs is not installed; the text names it."""


def require(commands: Sequence[str], modules: Sequence[str]) -> None:
    """Raises `Missing` unless all commands and modules are there."""
    if PACKAGES not in sys.path:
        sys.path.append(PACKAGES)
    lacking = [name for name in commands if shutil.which(name) is None]
    lacking += [name for name in modules if importlib.util.find_spec(name) is None]
    if lacking:
        raise Missing(f"not installed: {', '.join(lacking)}")


class Downloads:
    """A folder that downloads go to."""

    def __init__(self) -> None:
        self.folder = tempfile.mkdtemp(prefix="downloads-")

    def downloaded(self, name: str, most: float = 60) -> bytes:
        """The bytes of a file that is being downloaded. The file is removed, since another download may have its name."""
        path, end = Path(self.folder, name), time.monotonic() + most
        while not path.is_file() or not path.stat().st_size:
            if time.monotonic() > end:
                raise RuntimeError(f"{name} was not downloaded")
            time.sleep(0.1)
        data = path.read_bytes()
        path.unlink()
        return data

    def close(self) -> None:
        shutil.rmtree(self.folder, ignore_errors=True)


class Chromium(Downloads):
    """Chromium with a new profile. `size` is that of its window, `dark` its colour scheme, `still` a wish for less motion."""
    name = "chromium"
    NAMES = {"ArrowLeft": "ARROW_LEFT", "ArrowUp": "ARROW_UP"}

    def __init__(self, size: Tuple[int, int] = WIDE, dark: bool = False, still: bool = False) -> None:
        require(["chromium", "chromedriver"], ["selenium"])
        super().__init__()
        webdriver: Any = importlib.import_module("selenium.webdriver")
        service: Any = importlib.import_module("selenium.webdriver.chrome.service")
        options = webdriver.ChromeOptions()
        options.binary_location = shutil.which("chromium")
        for flag in FLAGS:
            options.add_argument(flag)
        self.driver = webdriver.Chrome(service=service.Service(shutil.which("chromedriver")), options=options)
        self.driver.set_script_timeout(300)
        self.version = self.driver.capabilities["browserVersion"]
        self._command("Emulation.setDeviceMetricsOverride", width=size[0], height=size[1], deviceScaleFactor=1, mobile=False)
        self._command("Browser.setDownloadBehavior", behavior="allow", downloadPath=self.folder)
        self._set_media(dark, still)

    def _command(self, method: str, **values: object) -> None:
        self.driver.execute_cdp_cmd(method, values)

    def _set_media(self, dark: bool, still: bool) -> None:
        features = {"prefers-color-scheme": "dark" if dark else "light",
                    "prefers-reduced-motion": "reduce" if still else "no-preference"}
        self._command("Emulation.setEmulatedMedia", features=[{"name": name, "value": value} for name, value in features.items()])

    def open(self, address: str) -> None:
        self.driver.get("about:blank")
        self.driver.get(address)

    def run(self, script: str) -> Any:
        """The value of the body of an async function."""
        body = f"const done = arguments[0]; (async () => {{{script}\n}})().then((value) => done({{value}}), (fault) => done({{fault: String(fault)}}));"
        outcome = self.driver.execute_async_script(body)
        if "fault" in outcome:
            raise RuntimeError(outcome["fault"])
        return outcome.get("value")

    def press(self, *keys: str) -> None:
        """Presses keys one after the other, as `Tab` or `Control+Enter`."""
        chain = importlib.import_module("selenium.webdriver.common.action_chains").ActionChains(self.driver)
        names = importlib.import_module("selenium.webdriver.common.keys").Keys
        for key in keys:
            *held, last = [getattr(names, self.NAMES.get(part, part.upper()), part) for part in key.split("+")]
            for part in held:
                chain.key_down(part)
            chain.send_keys(last)
            for part in held:
                chain.key_up(part)
        chain.perform()

    def accessible(self) -> List[Tuple[str, str, Dict[str, Any]]]:
        """What a screen reader is told: the role and the name of each element, with its other properties."""
        self._command("Accessibility.enable")
        nodes = self.driver.execute_cdp_cmd("Accessibility.getFullAXTree", {})["nodes"]
        return [(node.get("role", {}).get("value", ""), node.get("name", {}).get("value", ""), {one["name"]: one["value"].get("value") for one in node.get("properties", [])})
                for node in nodes if not node["ignored"]]

    def with_role(self, role: str, name: str) -> int:
        """How many elements have a role and a name for a screen reader."""
        return sum((found, called) == (role, name) for found, called, _ in self.accessible())

    def picture(self) -> bytes:
        """The window as a PNG."""
        return bytes(self.driver.get_screenshot_as_png())

    def printed(self) -> bytes:
        """The page as it is printed, as a PDF."""
        return base64.b64decode(self.driver.print_page())

    def close(self) -> None:
        self.driver.quit()
        super().close()


class Firefox(Downloads):
    """Firefox with a new profile. `size` is that of its window, `dark` its colour scheme, `still` a wish for less motion."""
    name = "firefox"
    KEYS = {"Tab": "\ue004", "Enter": "\ue006", "Escape": "\ue00c", "Control": "\ue009", "Space": " ", "Home": "\ue011", "ArrowLeft": "\ue012",
            "ArrowUp": "\ue013"}

    def __init__(self, size: Tuple[int, int] = WIDE, dark: bool = False, still: bool = False) -> None:
        require(["firefox-esr"], ["websocket"])
        super().__init__()
        websocket: Any = importlib.import_module("websocket")
        self.profile = tempfile.mkdtemp(prefix="firefox-")
        settings = {"ui.systemUsesDarkTheme": int(dark), "layout.css.prefers-color-scheme.content-override": 0 if dark else 1,
                    "ui.prefersReducedMotion": int(still), "dom.max_script_run_time": 0, "browser.shell.checkDefaultBrowser": False,
                    "network.dns.localDomains": ELSEWHERE,
                    "browser.download.folderList": 2, "browser.download.dir": self.folder, "browser.download.useDownloadDir": True,
                    # else the list of downloads opens, and takes the focus from the page
                    "browser.download.alwaysOpenPanel": False}
        lines = [f"user_pref({json.dumps(name)}, {json.dumps(value)});\n" for name, value in settings.items()]
        Path(self.profile, "user.js").write_text("".join(lines), "utf8")
        self.process = self._start()
        self.socket = websocket.create_connection(f"{self._address()}/session", timeout=300, suppress_origin=True)
        self.count = 0
        self.version = self._send("session.new", capabilities={})["capabilities"]["browserVersion"]
        # the first one never has the focus, without which keys press no button
        self.context = self._send("browsingContext.create", type="tab")["context"]
        self._send("browsingContext.setViewport", context=self.context, viewport={"width": size[0], "height": size[1]})

    def _start(self) -> "subprocess.Popen[str]":
        words = ["firefox-esr", "--headless", "--no-remote", "--profile", self.profile, "--remote-debugging-port", "0"]
        return subprocess.Popen(words, stderr=subprocess.PIPE, stdout=subprocess.DEVNULL, text=True, env={**os.environ, "HOME": self.profile})

    def _address(self) -> str:
        said = self.process.stderr
        assert said is not None
        for line in said:
            if "WebDriver BiDi listening on" in line:
                # nobody reads the rest, and it must not fill the pipe
                self.reader = threading.Thread(target=list, args=(said,), daemon=True)
                self.reader.start()
                return line.split()[-1]
        raise RuntimeError("Firefox ended before it listened")

    def _send(self, method: str, **values: object) -> Any:
        self.count += 1
        self.socket.send(json.dumps({"id": self.count, "method": method, "params": values}))
        while True:
            outcome = json.loads(self.socket.recv())
            if outcome.get("id") != self.count:
                continue
            if outcome["type"] == "error":
                raise RuntimeError(f"{outcome['error']}: {outcome['message']}")
            return outcome["result"]

    def open(self, address: str) -> None:
        for place in ("about:blank", address):
            self._send("browsingContext.navigate", context=self.context, url=place, wait="complete")

    def run(self, script: str) -> Any:
        """The value of the body of an async function."""
        body = f"(async () => JSON.stringify(await (async () => {{{script}\n}})()))()"
        outcome = self._send("script.evaluate", expression=body, target={"context": self.context}, awaitPromise=True)
        if outcome["type"] != "success":
            raise RuntimeError(outcome["exceptionDetails"]["text"])
        value = outcome["result"].get("value")
        return None if value is None else json.loads(value)

    def press(self, *keys: str) -> None:
        """Presses keys one after the other, as `Tab` or `Control+Enter`."""
        actions: List[Dict[str, str]] = []
        for key in keys:
            parts = [self.KEYS.get(part, part) for part in key.split("+")]
            actions += [{"type": "keyDown", "value": part} for part in parts]
            actions += [{"type": "keyUp", "value": part} for part in reversed(parts)]
        self._send("input.performActions", context=self.context, actions=[{"type": "key", "id": "keys", "actions": actions}])

    def with_role(self, role: str, name: str) -> int:
        """How many elements have a role and a name for a screen reader."""
        locator = {"type": "accessibility", "value": {"role": role, "name": name}}
        return len(self._send("browsingContext.locateNodes", context=self.context, locator=locator)["nodes"])

    def picture(self) -> bytes:
        """The window as a PNG."""
        return base64.b64decode(self._send("browsingContext.captureScreenshot", context=self.context)["data"])

    def printed(self) -> bytes:
        """The page as it is printed, as a PDF."""
        return base64.b64decode(self._send("browsingContext.print", context=self.context)["data"])

    def close(self) -> None:
        with contextlib.suppress(Exception):
            self._send("browser.close")
        try:
            self.process.wait(60)
        except subprocess.TimeoutExpired:
            self.process.kill()
            self.process.wait()
        self.socket.close()
        # another process of Firefox may have the pipe for a moment longer
        self.reader.join(60)
        if not self.reader.is_alive() and self.process.stderr is not None:
            self.process.stderr.close()
        shutil.rmtree(self.profile, ignore_errors=True)
        super().close()
