"""A page in headless Chromium, by its debugging protocol over two pipes; the standard library alone."""
import base64
import itertools
import json
import os
import shutil
import subprocess
import tempfile
import time

PATH = next((path for path in map(shutil.which, ('chromium', 'chromium-browser', 'google-chrome', 'chrome')) if path), None)
FLAGS = ['--headless=new', '--no-sandbox', '--disable-gpu', '--hide-scrollbars', '--remote-debugging-pipe', '--no-first-run', '--disable-extensions',
         '--disable-background-networking', '--window-size=1440,1000', 'about:blank']
# What goes with keys that are no letters.
KEYS = {'Enter': {'code': 'Enter', 'windowsVirtualKeyCode': 13, 'text': '\r'}, 'Escape': {'code': 'Escape', 'windowsVirtualKeyCode': 27},
        'Tab': {'code': 'Tab', 'windowsVirtualKeyCode': 9}, ' ': {'code': 'Space', 'windowsVirtualKeyCode': 32, 'text': ' '},
        'ArrowDown': {'code': 'ArrowDown', 'windowsVirtualKeyCode': 40}, 'ArrowRight': {'code': 'ArrowRight', 'windowsVirtualKeyCode': 39},
        'End': {'code': 'End', 'windowsVirtualKeyCode': 35}}


class Page:
    """A page that was opened. `complaints` are errors and messages of its console so far."""

    def __init__(self, path):
        self.numbers, self.complaints = itertools.count(1), []
        to_child, from_child = os.pipe(), os.pipe()
        self.profile = tempfile.TemporaryDirectory(ignore_cleanup_errors=True)
        # Chromium reads its commands from number 3 and writes its answers to number 4.
        shell = f'exec "$0" "$@" 3<&{to_child[0]} 4>&{from_child[1]}'
        self.browser = subprocess.Popen(['bash', '-c', shell, PATH, f'--user-data-dir={self.profile.name}', *FLAGS],
                                        pass_fds=(to_child[0], from_child[1]), stdin=subprocess.DEVNULL, stdout=subprocess.DEVNULL,
                                        stderr=subprocess.DEVNULL, start_new_session=True)
        os.close(to_child[0])
        os.close(from_child[1])
        self.out, self.answers, self.rest = os.fdopen(to_child[1], 'wb', buffering=0), os.fdopen(from_child[0], 'rb', buffering=0), b''
        self.session = None
        target = self.ask('Target.createTarget', url='about:blank')['targetId']
        self.session = self.ask('Target.attachToTarget', targetId=target, flatten=True)['sessionId']
        for domain in ('Runtime', 'Log', 'Page'):
            self.ask(f'{domain}.enable')
        self.ask('Page.navigate', url=f'file://{path}')
        while self.run('document.readyState') != 'complete':
            pass

    def ask(self, method, **words):
        number = next(self.numbers)
        message = {'id': number, 'method': method, 'params': words, **({'sessionId': self.session} if self.session else {})}
        self.out.write(json.dumps(message).encode() + b'\0')
        while True:
            found = self.message()
            if found.get('id') == number:
                assert 'error' not in found, found
                return found['result']
            if found.get('method') in ('Runtime.exceptionThrown', 'Runtime.consoleAPICalled', 'Log.entryAdded'):
                self.complaints.append(found['params'])

    def message(self):
        while b'\0' not in self.rest:
            piece = self.answers.read(1 << 16)
            assert piece, 'Chromium has gone'
            self.rest += piece
        text, _, self.rest = self.rest.partition(b'\0')
        return json.loads(text)

    def run(self, expression):
        """The value of an expression in the page."""
        found = self.ask('Runtime.evaluate', expression=expression, returnByValue=True)
        assert 'exceptionDetails' not in found, found
        return found['result'].get('value')

    def middle(self, selector):
        """Where the middle of an element is on the screen; it is scrolled there."""
        return self.run('''(() => { const element = document.querySelector(%s); element.scrollIntoView({block: 'center'});
            const box = element.getBoundingClientRect(); return [box.x + box.width / 2, box.y + box.height / 2]; })()''' % json.dumps(selector))

    def click(self, selector):
        """Presses the mouse in the middle of an element, or on the middle of a line."""
        self.click_at(*self.middle(selector))

    def move_to(self, x, y, **words):
        self.ask('Input.dispatchMouseEvent', type='mouseMoved', x=x, y=y, **words)

    def click_at(self, x, y):
        self.move_to(x, y)
        for kind in ('mousePressed', 'mouseReleased'):
            self.ask('Input.dispatchMouseEvent', type=kind, x=x, y=y, button='left', buttons=1, clickCount=1)

    def drag(self, start, end):
        """Presses the mouse at one place and lets it go at another, by way of their middle."""
        self.move_to(*start)
        self.ask('Input.dispatchMouseEvent', type='mousePressed', x=start[0], y=start[1], button='left', buttons=1, clickCount=1)
        for share in (0.5, 1):
            self.move_to(*(a + share * (b - a) for a, b in zip(start, end)), button='left', buttons=1)
        self.ask('Input.dispatchMouseEvent', type='mouseReleased', x=end[0], y=end[1], button='left', buttons=0, clickCount=1)

    def wheel(self, x, y, down, control=False):
        self.ask('Input.dispatchMouseEvent', type='mouseWheel', x=x, y=y, deltaX=0, deltaY=down, modifiers=2 if control else 0)

    def tap(self, x, y):
        self.ask('Input.dispatchTouchEvent', type='touchStart', touchPoints=[{'x': x, 'y': y}])
        self.ask('Input.dispatchTouchEvent', type='touchEnd', touchPoints=[])

    def fingers(self, *steps):
        """Puts fingers down at the first places, moves them to the others and lifts them."""
        for kind, places in zip(['touchStart'] + ['touchMove'] * (len(steps) - 1), steps):
            self.ask('Input.dispatchTouchEvent', type=kind, touchPoints=[{'x': x, 'y': y, 'id': k} for k, (x, y) in enumerate(places)])
            self.frames(2)
        self.ask('Input.dispatchTouchEvent', type='touchEnd', touchPoints=[])

    def press(self, key, shift=False):
        words = {'key': key, **KEYS.get(key, {}), 'modifiers': 8 if shift else 0}
        self.ask('Input.dispatchKeyEvent', type='keyDown', **words)
        self.ask('Input.dispatchKeyEvent', type='keyUp', **words)

    def write(self, text):
        """Types a text, letter by letter."""
        for letter in text:
            self.ask('Input.dispatchKeyEvent', type='keyDown', key=letter, text=letter)
            self.ask('Input.dispatchKeyEvent', type='keyUp', key=letter)

    def frames(self, count=3):
        """Waits until the page was drawn so many times."""
        self.ask('Runtime.evaluate', awaitPromise=True, expression=f'''new Promise((done) => {{ let left = {count};
            const step = () => (left-- > 0 ? requestAnimationFrame(step) : done(true)); step(); }})''')

    def size(self, wide, high, phone=False):
        """Gives the page a screen of this size."""
        self.ask('Emulation.setDeviceMetricsOverride', width=wide, height=high, deviceScaleFactor=2 if phone else 1, mobile=phone)
        self.ask('Emulation.setTouchEmulationEnabled', enabled=phone)
        self.frames()

    def media(self, kind='', scheme='light'):
        """As on paper (`print`), or with the wish for dark colours."""
        self.ask('Emulation.setEmulatedMedia', media=kind, features=[{'name': 'prefers-color-scheme', 'value': scheme}])
        self.frames()

    def saved(self, folder, action):
        """The file that the page saves when this is done; its folder is empty before."""
        self.ask('Browser.setDownloadBehavior', behavior='allow', downloadPath=str(folder), eventsEnabled=True)
        action()
        deadline = time.monotonic() + 20
        while time.monotonic() < deadline:
            found = [path for path in folder.iterdir() if path.suffix != '.crdownload' and not path.name.startswith('.')]
            if found and found[0].stat().st_size:
                return found[0]
            self.frames(2)
        raise AssertionError('nothing was saved')

    def picture(self, path):
        with open(path, 'wb') as out:
            out.write(base64.b64decode(self.ask('Page.captureScreenshot')['data']))

    def whole_picture(self, path):
        """The page from its top to its end."""
        high = self.run('document.documentElement.scrollHeight')
        with open(path, 'wb') as out:
            found = self.ask('Page.captureScreenshot', captureBeyondViewport=True,
                             clip={'x': 0, 'y': 0, 'width': self.run('innerWidth'), 'height': min(high, 6000), 'scale': 1})
            out.write(base64.b64decode(found['data']))

    def print(self, path):
        with open(path, 'wb') as out:
            out.write(base64.b64decode(self.ask('Page.printToPDF', printBackground=True, preferCSSPageSize=True)['data']))

    def close(self):
        self.session = None
        try:
            self.ask('Browser.close')
        except (AssertionError, OSError):
            self.browser.kill()
        self.browser.wait(30)
        self.out.close()
        self.answers.close()
        self.profile.cleanup()
