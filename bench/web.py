#!/usr/bin/env python3
"""Times the module for WebAssembly in Node and in both browsers beside the native library: bench/web.py [--memory] MODULE

Processor seconds of one call, the least of several rounds, and in brackets how many times the native library's. Calls
share an instance, as the page's do. As many calls go before those that are measured, since engines compile a module better
while it runs. Browsers are measured with all of their processes.

--memory measures in place of that how much memory (its resident set) the process of the page has in Chromium, before it lists
the surfaces of 24 tetrahedra and with the whole list described, each ten seconds after its garbage was collected.
"""
from __future__ import annotations

import functools
import http.server
import json
import os
import subprocess
import sys
import tempfile
import threading
import time
from pathlib import Path
from typing import Any, Callable, Dict, Iterator, Tuple

TOP = Path(__file__).resolve().parents[1]
sys.path[:0] = [str(TOP / "python"), str(TOP / "tools")]

import web_page  # noqa: E402
from tests import browsers  # noqa: E402
from trinorm.program import find_library  # noqa: E402

SIGNATURES = {
    9: "jLvLAQQadhfhfggiibuvfgvncab", 14: "oLLLPwLAQMcbdfhfgiljjmmlnnabuagwehgoxxfjb",
    18: "sLLLAMvvQLQMQcegfehinkknmpporqrraaaahnalcjavaavavuu",
    24: "yLLvLAwwwAALAMQMQaeheiikjolrrpuqsrvtwvuxxxbavgaaxoroaalapcssbxvcurr",
}
ROUNDS = 2
TIMES = {"sig": 300, "info": 300}
TIMES_OF_LISTS = {9: 100, 14: 30, 18: 5, 24: 1}

NODE = """
import {readFileSync} from 'node:fs';
import {call} from '%s';
const module = new WebAssembly.Module(readFileSync(process.argv[2]));
const {words, text, times} = JSON.parse(process.argv[3]), input = new TextEncoder().encode(text);
const spent = () => { const {user, system} = process.cpuUsage(); return (user + system) / 1e6; };
for (let n = 0; n < times; n++) call(module, words, input);
const begun = spent();
for (let n = 0; n < times; n++) call(module, words, input);
console.log((spent() - begun) / times);
"""

BROWSER = """
const module = await WebAssembly.compile(await (await fetch('trinorm.wasm')).arrayBuffer());
const worker = new Worker('worker.js', {type: 'module'});
const input = new TextEncoder().encode(TEXT);
const ask = (first) => new Promise((done) => {
  worker.onmessage = ({data}) => done(data.status);
  worker.postMessage({module: first, words: WORDS, input, limit: 0});
});
await ask(module);
globalThis.ask_once = ask;
for (let n = 0; n < TIMES; n++) await ask();
return 0;
"""


def questions() -> Iterator[Tuple[str, int, str, int]]:
    for size, signature in SIGNATURES.items():
        for command in ("sig", "info", "surfaces"):
            yield command, size, f"sig {signature}\n", TIMES.get(command) or TIMES_OF_LISTS[size]


def native(command: str, text: str, times: int) -> float:
    library = find_library()
    assert library is not None
    begun = time.process_time()
    for _ in range(times):
        library.answer([command], text)
    return (time.process_time() - begun) / times


def by_node(module: str, command: str, text: str, times: int) -> float:
    with tempfile.TemporaryDirectory() as folder:
        script = Path(folder, "speed.mjs")
        script.write_text(NODE % (TOP / "web" / "engine.js").as_uri(), "utf8")
        question = json.dumps({"words": [command], "text": text, "times": times})
        return float(subprocess.run(["node", str(script), module, question], capture_output=True, text=True, check=True).stdout)


def children() -> Tuple[Dict[int, int], Dict[int, float]]:
    """The parents of all processes, and the processor seconds of each."""
    parents: Dict[int, int] = {}
    spent: Dict[int, float] = {}
    for path in Path("/proc").glob("[0-9]*/stat"):
        try:
            fields = path.read_text("utf8", "replace").rpartition(")")[2].split()
        except OSError:
            continue
        parents[int(path.parent.name)] = int(fields[1])
        spent[int(path.parent.name)] = sum(map(int, fields[11:13])) / os.sysconf("SC_CLK_TCK")
    return parents, spent


def spent_below(process: int) -> float:
    """Processor seconds of a process and all below it."""
    parents, spent = children()

    def is_below(one: int) -> bool:
        while one and one != process:
            one = parents.get(one, 0)
        return one == process
    return sum(seconds for one, seconds in spent.items() if is_below(one))


def by_browser(window: Any, process: int, address: str, command: str, text: str, times: int) -> float:
    window.open(address)
    window.run(BROWSER.replace("TEXT", json.dumps(text)).replace("WORDS", json.dumps([command])).replace("TIMES", str(times)))
    begun = spent_below(process)
    window.run(f"for (let n = 0; n < {times}; n++) await ask_once(); return 0;")
    return (spent_below(process) - begun) / times


# seconds after which Chromium has given back what was freed
SETTLED = 10
# a list of 106,026 surfaces
LONG_LIST = "sig yLALvLvAzAQMzzMQQaccehjikqpoornspvuttwwvxxbggggtccanffxwavawcvaeccc\n"
LISTED = """
const by = (id) => document.getElementById(id);
const until = async (condition) => { while (!condition()) await new Promise((done) => setTimeout(done, 100)); };
await until(() => document.documentElement.dataset.ready && by('stop').disabled);
"""
ASK = """
by('input').value = TEXT;
by('message').textContent = '';
by('answer').click();
await until(() => by('message').textContent && by('stop').disabled);
return by('tally').textContent.split(';')[0];
"""


def resident() -> Dict[int, int]:
    """The resident set of each process of a page in Chromium, in MB."""
    found: Dict[int, int] = {}
    for path in Path("/proc").glob("[0-9]*"):
        try:
            if b"--type=renderer" in (path / "cmdline").read_bytes():
                [line] = [line for line in (path / "status").read_text("utf8").splitlines() if line.startswith("VmRSS:")]
                found[int(path.name)] = int(line.split()[1]) // 1000
        except (OSError, ValueError):
            continue
    return found


def print_memory(address: str) -> None:
    """Prints the memory of the page without a list and with a long one."""
    makers: Any = browsers
    window = makers.Chromium()
    try:
        window.driver.set_script_timeout(1800)
        window.open(address)
        window.run(LISTED + "return 0;")
        measured = []
        for script in (LISTED + "return '';", LISTED + ASK.replace("TEXT", json.dumps(LONG_LIST))):
            said = window.run(script)
            window.driver.execute_cdp_cmd("HeapProfiler.collectGarbage", {})
            time.sleep(SETTLED)
            measured.append(resident())
        before, after = measured
        page = max(after, key=lambda process: after[process] - before.get(process, 0))
        print(f"{said}: {after[page]} MB, before {before.get(page, 0)} MB")
    finally:
        window.close()


def least(measure: Callable[..., float], *words: Any) -> float:
    return min(measure(*words) for _ in range(ROUNDS))


def main() -> None:
    module = os.path.realpath(sys.argv[-1])
    with tempfile.TemporaryDirectory() as folder:
        web_page.write(Path(module).read_bytes(), Path(folder))
        handler = functools.partial(Quiet, directory=f"{folder}/web")
        server = http.server.ThreadingHTTPServer(("127.0.0.1", 0), handler)
        threading.Thread(target=server.serve_forever, daemon=True).start()
        address = f"http://127.0.0.1:{server.server_port}/index.html"
        if "--memory" in sys.argv[1:]:
            print_memory(address)
            server.shutdown()
            return
        makers: Any = browsers
        windows: Dict[str, Any] = {"Chromium": makers.Chromium(), "Firefox": makers.Firefox()}
        pids = {"Chromium": windows["Chromium"].driver.service.process.pid, "Firefox": windows["Firefox"].process.pid}
        try:
            print("| Question | native, ms | Node | Chromium | Firefox |\n|---|---|---|---|---|")
            for command, size, text, times in questions():
                own = least(native, command, text, times)
                others = [least(by_node, module, command, text, times)]
                others += [least(by_browser, window, pids[name], address, command, text, times) for name, window in windows.items()]
                cells = [f"{1000 * seconds:.3g} ({seconds / own:.1f})" for seconds in others]
                print(f"| `{command}` of {size} | {1000 * own:.3g} | {' | '.join(cells)} |", flush=True)
        finally:
            for window in windows.values():
                window.close()
            server.shutdown()


class Quiet(http.server.SimpleHTTPRequestHandler):
    """Serves a folder and says nothing."""

    def log_message(self, *_: object) -> None:
        pass


if __name__ == "__main__":
    main()
