"""A headless Chromium that is driven over two pipes by its own protocol: JSON texts, each ended by a NUL byte.

`Browser.program()` is its path, or None where there is none; CHROMIUM in the environment replaces it.
"""
import base64
import fcntl
import json
import os
import select
import shutil
import subprocess
import tempfile
import time

NAMES = ('chromium', 'chromium-browser', 'google-chrome')
# A test's machine may be busy.
PATIENCE = 120
KEYS = {'Enter': 13, 'Escape': 27, 'Tab': 9, 'ArrowLeft': 37, 'ArrowUp': 38, 'ArrowRight': 39, 'ArrowDown': 40, 'Backspace': 8}


class Gone(Exception):
    """The browser has ended, or doesn't reply."""


class Browser:
    @staticmethod
    def program():
        return os.environ.get('CHROMIUM') or next(filter(None, map(shutil.which, NAMES)), None)

    def __init__(self):
        self.room = tempfile.TemporaryDirectory(prefix='chromium-', ignore_cleanup_errors=True)
        ends = [fcntl.fcntl(it, fcntl.F_DUPFD_CLOEXEC, 10) for it in (*os.pipe(), *os.pipe())]
        read_here, written_here = ends[2], ends[1]

        def place():
            os.dup2(ends[0], 3)
            os.dup2(ends[3], 4)

        words = [self.program(), '--headless=new', '--no-sandbox', '--disable-gpu', '--no-first-run', '--disable-extensions', '--disable-background-networking',
                 '--force-color-profile=srgb', f'--user-data-dir={self.room.name}', '--remote-debugging-pipe', 'about:blank']
        self.process = subprocess.Popen(words, stdin=subprocess.DEVNULL, stdout=subprocess.DEVNULL, stderr=subprocess.DEVNULL, preexec_fn=place, pass_fds=(3, 4),
                                        env={**os.environ, 'HOME': self.room.name})
        os.close(ends[0])
        os.close(ends[3])
        self.read, self.written, self.rest, self.number, self.events = read_here, written_here, b'', 0, []

    def __enter__(self):
        return self

    def __exit__(self, *_):
        try:
            self.call('Browser.close')
            self.process.wait(10)
        except (Gone, subprocess.TimeoutExpired):
            self.process.kill()
            self.process.wait()
        os.close(self.read)
        os.close(self.written)
        self.room.cleanup()

    def message(self, until):
        """The next message. Raises Gone if none comes before the time `until`."""
        while b'\0' not in self.rest:
            ready, _, _ = select.select([self.read], [], [], max(0, until - time.monotonic()))
            more = os.read(self.read, 1 << 20) if ready else b''
            if not more:
                raise Gone('the browser has ended' if ready else 'the browser does not reply')
            self.rest += more
        text, _, self.rest = self.rest.partition(b'\0')
        return json.loads(text)

    def call(self, method, session=None, **parameters):
        """Calls a method, and returns its result. Events that come before it are appended to `events`."""
        self.number += 1
        asked = {'id': self.number, 'method': method, 'params': parameters, **({'sessionId': session} if session else {})}
        text = json.dumps(asked).encode() + b'\0'
        while text:
            text = text[os.write(self.written, text):]
        until = time.monotonic() + PATIENCE
        while (said := self.message(until)).get('id') != self.number:
            self.events.append(said)
        if 'error' in said:
            raise ValueError(f'{method}: {said["error"]}')
        return said['result']


class Page:
    """A page in a tab of its own."""

    def __init__(self, browser, width=1200, height=800):
        self.browser = browser
        target = browser.call('Target.createTarget', url='about:blank')['targetId']
        self.session = browser.call('Target.attachToTarget', targetId=target, flatten=True)['sessionId']
        self.messages, self.requests = [], []
        for name in ('Page', 'Runtime', 'Log', 'Network'):
            self.call(f'{name}.enable')
        self.call('Emulation.setDeviceMetricsOverride', width=width, height=height, deviceScaleFactor=1, mobile=False)
        self.call('Emulation.setFocusEmulationEnabled', enabled=True)
        self.colours('light')

    def call(self, method, **parameters):
        result = self.browser.call(method, self.session, **parameters)
        self.note()
        return result

    def colours(self, scheme):
        self.call('Emulation.setEmulatedMedia', features=[{'name': 'prefers-color-scheme', 'value': scheme}])

    def note(self):
        """Notes what the events say: messages on the console, and requests."""
        for it in self.browser.events:
            said, method = it.get('params', {}), it.get('method')
            if it.get('sessionId') != self.session:
                continue
            if method in ('Runtime.consoleAPICalled', 'Runtime.exceptionThrown', 'Log.entryAdded'):
                self.messages.append(json.dumps(said)[:600])
            elif method == 'Network.requestWillBeSent':
                self.requests.append(said['request']['url'])
        self.browser.events.clear()

    def open(self, path, address=''):
        """Loads a file, by way of an empty page, and waits until it is loaded."""
        for url in ('about:blank', f'file://{path}{address}'):
            self.call('Page.navigate', url=url)
            self.until(f'document.readyState === "complete" && location.href.startsWith({json.dumps(url[:8])})')

    def value(self, expression):
        """The value of an expression in the page. A promise is awaited."""
        said = self.call('Runtime.evaluate', expression=expression, returnByValue=True, awaitPromise=True)
        if 'exceptionDetails' in said:
            raise ValueError(f'{expression}: {said["exceptionDetails"]}')
        return said['result'].get('value')

    def until(self, expression):
        """Waits until an expression is true in the page."""
        end = time.monotonic() + PATIENCE
        while not self.value(expression):
            if time.monotonic() > end:
                raise Gone(f'never true: {expression}')
            time.sleep(0.02)

    def key(self, name):
        """Presses a key, by its name, or the key of a character."""
        text = {} if name in KEYS and name != 'Enter' else {'text': '\r' if name == 'Enter' else name}
        code = {'windowsVirtualKeyCode': KEYS[name]} if name in KEYS else {}
        self.call('Input.dispatchKeyEvent', type='keyDown', key=name, **text, **code)
        self.call('Input.dispatchKeyEvent', type='keyUp', key=name, **code)

    def type(self, text):
        for it in text:
            self.key(it)

    def picture(self):
        """The bytes of a picture, in PNG."""
        return base64.b64decode(self.call('Page.captureScreenshot', format='png')['data'])
