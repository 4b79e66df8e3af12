"""Debian's chromium, driven through its chromedriver as WebDriver has it: a browser with no window and no network."""
import base64
import http.client
import json
import os
import pathlib
import re
import shutil
import signal
import subprocess
import tempfile
import time

PACKAGES = {"chromium": "chromium", "chromedriver": "chromium-driver", "setpriv": "util-linux"}
PATIENCE = 120  # seconds that nothing takes but what hangs
ELEMENT = "element-6066-11e4-a52e-4f735466cecf"  # WebDriver's word for an element
# without a window, a network, a bus of the desktop or a card for graphics; scrolled at once; ended with the pipe, when its driver ends
FLAGS = """
    --headless=new --remote-debugging-pipe --disable-gpu --disable-dev-shm-usage --disable-smooth-scrolling --hide-scrollbars
    --no-first-run --no-default-browser-check --no-pings --password-store=basic --disable-extensions
    --disable-background-networking --disable-component-update --disable-default-apps --disable-domain-reliability --disable-sync
    --disable-client-side-phishing-detection --disable-features=DialMediaRouteProvider,MediaRouter,OptimizationHints,Translate
""".split()
KEYS = {"plus": "+", "minus": "-", "Space": " ", **{name: chr(0xE000 + code) for name, code in {
    "Backspace": 3, "Tab": 4, "Enter": 6, "Shift": 8, "Control": 9, "Alt": 10, "Escape": 12, "PageUp": 14, "PageDown": 15, "End": 16,
    "Home": 17, "ArrowLeft": 18, "ArrowUp": 19, "ArrowRight": 20, "ArrowDown": 21, "Insert": 22, "Delete": 23, "Meta": 61}.items()}}
STEPS = 8  # moves of a pointer that is drawn from one place to another


class Failed(Exception):
    pass


def found(command):
    path = shutil.which(command)
    if not path:
        raise Failed(f"'{command}' is missing; it needs Debian's package {PACKAGES[command]} (tools/install installs it)")
    return path


def running(session, folder):
    """The numbers of the processes of a session that have not ended, and of those out of it that keep reports of crashes in a folder."""
    keeps = b"\0--database=" + os.fsencode(folder)
    for process in pathlib.Path("/proc").glob("[0-9]*"):
        try:
            state, _, _, of = (process / "stat").read_text(errors="replace").rpartition(")")[2].split()[:4]
            if state not in "ZX" and (int(of) == session or keeps in (process / "cmdline").read_bytes()):
                yield int(process.name)
        except (FileNotFoundError, ProcessLookupError):  # it ended in between
            pass


def pointer(name, kind, places):
    """A pointer that goes down at the first place, over the others, and up at the last."""
    (first, *others) = [{"type": "pointerMove", "x": round(x), "y": round(y), "duration": 0} for x, y in places]
    down, up = ({"type": f"pointer{way}", "button": 0} for way in ("Down", "Up"))
    return {"type": "pointer", "id": name, "parameters": {"pointerType": kind}, "actions": [first, down, *others, up]}


def line(start, end):
    """The places from one to another, both counted in."""
    return [tuple(a + (b - a) * step / STEPS for a, b in zip(start, end)) for step in range(STEPS + 1)]


class Browser:
    """One browser with one page, for a with-block. All of its files are in a folder of its own, which goes when it ends."""

    def __init__(self, width=1280, height=900, dark=False, script=True, touch=False):
        self.size, self.dark, self.script, self.touch = (width, height), dark, script, touch
        self.features, self.kind = {}, ""

    def __enter__(self):
        commands = {command: found(command) for command in PACKAGES}
        self.at = pathlib.Path(tempfile.mkdtemp(prefix="octalmure browser "))
        self.log = self.at / "log"
        homes = ("HOME", "TMPDIR", "XDG_CACHE_HOME", "XDG_CONFIG_HOME", "XDG_DATA_HOME", "XDG_RUNTIME_DIR")
        environment = {"PATH": os.environ["PATH"], "LANG": "C.UTF-8", "TZ": "UTC", **{name: str(self.at) for name in homes}}
        words = [commands["setpriv"], "--pdeathsig", "KILL", commands["chromedriver"], "--port=0", "--enable-chrome-logs"]
        with self.log.open("wb") as log:
            self.driver = subprocess.Popen(words, cwd=self.at, env=environment, stdin=subprocess.DEVNULL, stdout=log, stderr=log,
                                           start_new_session=True)
        try:
            self.begin(commands["chromium"])
        except BaseException:
            self.end()
            raise
        return self

    def __exit__(self, *_):
        self.end()

    def begin(self, chromium):
        self.port = self.listening()
        self.session = ""
        flags = [*FLAGS, "--host-resolver-rules=MAP * ~NOTFOUND", f"--user-data-dir={self.at / 'profile'}"]
        options = {"binary": chromium, "args": flags + ["--no-sandbox"] * (os.getuid() == 0), "perfLoggingPrefs": {"enablePage": False},
                   "prefs": {"session": {"restore_on_startup": 4, "startup_urls": ["about:blank"]}}}
        wanted = {"goog:chromeOptions": options, "goog:loggingPrefs": {"browser": "ALL", "performance": "ALL"},
                  "timeouts": {"pageLoad": 500 * PATIENCE, "script": 250 * PATIENCE}}
        self.session = "/" + self.ask("POST", "", {"capabilities": {"alwaysMatch": wanted}})["sessionId"]
        self.resize(*self.size)
        self.scheme("dark" if self.dark else "light")
        self.tell("Emulation.setTouchEmulationEnabled", enabled=self.touch, maxTouchPoints=5)
        self.script_off(not self.script)

    def end(self):
        """Ends the driver and the browser, by their processes' numbers: no other session has the driver's until it is waited for."""
        deadline = time.monotonic() + PATIENCE
        while (left := [*running(self.driver.pid, self.at)]) and time.monotonic() < deadline:
            for process in left:
                try:
                    os.kill(process, signal.SIGKILL)
                except ProcessLookupError:
                    pass
            time.sleep(0.01)
        self.driver.wait(PATIENCE)
        shutil.rmtree(self.at)

    def listening(self):
        """The driver's port, which the system chose."""
        deadline = time.monotonic() + PATIENCE
        while not (port := re.search(r"started successfully on port (\d+)", self.log.read_text(errors="replace"))):
            if self.driver.poll() is not None or time.monotonic() > deadline:
                raise Failed(f"chromedriver did not start: {self.said()}")
            time.sleep(0.01)
        return int(port[1])

    def said(self):
        """The last of what the driver and the browser wrote."""
        return self.log.read_text(errors="replace")[-4000:]

    def ask(self, method, path, body=None):
        """What WebDriver answers to a command of the session."""
        connection = http.client.HTTPConnection("127.0.0.1", self.port, timeout=PATIENCE)
        try:
            connection.request(method, f"/session{self.session}{path}", None if body is None else json.dumps(body))
            answer = connection.getresponse()
            value = json.loads(answer.read())["value"]
        except (OSError, http.client.HTTPException) as why:
            raise Failed(f"chromedriver does not answer: {why!r}; {self.said()}") from why
        finally:
            connection.close()
        if answer.status != 200:
            lost = value["error"] in ("session not created", "invalid session id", "unknown error", "timeout")
            raise Failed(f"{value['error']}: {value['message']}" + (f"; {self.said()}" if lost else ""))
        return value

    def tell(self, command, **parameters):
        """What the browser answers to a command of its developer tools."""
        return self.ask("POST", "/goog/cdp/execute", {"cmd": command, "params": parameters})

    def open(self, path):
        """Returns when the page is loaded."""
        self.ask("POST", "/url", {"url": path.resolve(strict=True).as_uri()})

    def run(self, js, *args):
        """What the body of a function returns, whose arguments these are; a promise is waited for."""
        return self.ask("POST", "/execute/sync", {"script": js, "args": args})

    def find(self, css):
        return self.ask("POST", "/element", {"using": "css selector", "value": css})

    def find_all(self, css):
        return self.ask("POST", "/elements", {"using": "css selector", "value": css})

    def click(self, element):
        self.ask("POST", f"/element/{element[ELEMENT]}/click", {})

    def text(self, element):
        return self.ask("GET", f"/element/{element[ELEMENT]}/text")

    def act(self, *sources):
        self.ask("POST", "/actions", {"actions": sources})

    def keys(self, *keys):
        """Presses one key after the other; one as 'Shift+Tab' with others held. A key is a name of KEYS or a character."""
        actions = []
        for words in keys:
            names = [KEYS.get(name, name) for name in words.split("+")]
            actions += [{"type": "keyDown", "value": name} for name in names]
            actions += [{"type": "keyUp", "value": name} for name in reversed(names)]
        self.act({"type": "key", "id": "keyboard", "actions": actions})

    def click_at(self, x, y):
        self.act(pointer("mouse", "mouse", [(x, y)]))

    def drag(self, start, end):
        self.act(pointer("mouse", "mouse", line(start, end)))

    def tap(self, x, y):
        self.act(pointer("finger", "touch", [(x, y)]))

    def pinch(self, x, y, start, end):
        """Two fingers beside a place, whose distance goes from one to another."""
        self.act(*(pointer(name, "touch", line((x + side * start / 2, y), (x + side * end / 2, y)))
                   for name, side in (("finger", -1), ("thumb", 1))))

    def wheel(self, x, y, dx, dy, control=False):
        pause = {"type": "pause"}
        turn = {"type": "scroll", "x": x, "y": y, "deltaX": dx, "deltaY": dy, "duration": 0}
        held = [{"type": "keyDown", "value": KEYS["Control"]}, pause, {"type": "keyUp", "value": KEYS["Control"]}]
        keyboard = [{"type": "key", "id": "keyboard", "actions": held}] if control else []
        self.act(*keyboard, {"type": "wheel", "id": "wheel", "actions": [pause, turn]})

    def console(self):
        """What the console has had since it was last asked for: the level, where it comes from, and what it says."""
        entries = self.ask("POST", "/se/log", {"type": "browser"})
        return [f"{entry['level']} {entry['source']}: {entry['message']}" for entry in entries]

    def requests(self):
        """The addresses that were asked for since this was last called, the page's own among them."""
        events = [json.loads(entry["message"])["message"] for entry in self.ask("POST", "/se/log", {"type": "performance"})]
        asked = [event["params"]["request"]["url"] for event in events if event["method"] == "Network.requestWillBeSent"]
        return asked + [event["params"]["url"] for event in events if event["method"] == "Network.webSocketCreated"]

    def resize(self, width, height):
        """The page's own size, however small."""
        self.tell("Emulation.setDeviceMetricsOverride", width=width, height=height, deviceScaleFactor=1, mobile=False)

    def media(self, kind):
        """'print', or '' for the screen."""
        self.kind = kind
        features = [{"name": name, "value": value} for name, value in self.features.items()]
        self.tell("Emulation.setEmulatedMedia", media=kind, features=features)

    def feature(self, name, value):
        """As ('prefers-reduced-motion', 'reduce')."""
        self.features[name] = value
        self.media(self.kind)

    def scheme(self, value):
        """'dark' or 'light'."""
        self.feature("prefers-color-scheme", value)

    def script_off(self, off=True):
        """For the pages that are opened from now on."""
        self.tell("Emulation.setScriptExecutionDisabled", value=off)

    def pdf(self, path, **options):
        """On paper of the page's own size, if its style names one; the options are those of Page.printToPDF."""
        printed = self.tell("Page.printToPDF", **{"printBackground": True, "preferCSSPageSize": True, **options})
        path.write_bytes(base64.b64decode(printed["data"]))

    def picture(self, path):
        """What is in view."""
        path.write_bytes(base64.b64decode(self.ask("GET", "/screenshot")))

    def whole(self, path):
        """All of the page."""
        size = self.tell("Page.getLayoutMetrics")["cssContentSize"]
        taken = self.tell("Page.captureScreenshot", format="png", captureBeyondViewport=True, clip={**size, "scale": 1})
        path.write_bytes(base64.b64decode(taken["data"]))
