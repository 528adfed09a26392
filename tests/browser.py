"""A real browser, Debian's chromium without a window, driven as its own tools drive it: keys and mouse come in as from a keyboard and a mouse, what it has to complain of
is heard. Messages are JSON on two pipes, each ended by a 0 (--remote-debugging-pipe)."""

import base64
import json
import os
import shutil
import subprocess
import tempfile
from pathlib import Path

KEYS = {'ArrowLeft': 37, 'ArrowRight': 39, 'Home': 36, 'End': 35, 'Escape': 27, 'Enter': 13, 'PageUp': 33, 'PageDown': 34}


class Browser:
    def __enter__(self):
        self.profile = tempfile.mkdtemp()
        theirs, ours = os.pipe(), os.pipe()
        words = ['chromium', '--headless', '--no-sandbox', '--disable-gpu', '--hide-scrollbars', '--remote-debugging-pipe', f'--user-data-dir={self.profile}', 'about:blank']
        # the browser reads on 3 and writes on 4
        self.process = subprocess.Popen(['sh', '-c', f'exec 3<&{theirs[0]} 4>&{ours[1]}; exec "$@"', 'sh', *words], pass_fds=(theirs[0], ours[1]), stdin=subprocess.DEVNULL,
                                        stdout=subprocess.DEVNULL, stderr=subprocess.DEVNULL)
        os.close(theirs[0])
        os.close(ours[1])
        self.to, self.come, self.said, self.number, self.session, self.heard = theirs[1], ours[0], b'', 0, None, []
        target = self.ask('Target.createTarget', url='about:blank')['targetId']
        self.session = self.ask('Target.attachToTarget', targetId=target, flatten=True)['sessionId']
        for domain in ('Page', 'Runtime', 'Log'):
            self.ask(f'{domain}.enable')
        return self

    def __exit__(self, *_):
        self.process.terminate()
        self.process.wait()
        os.close(self.to)
        os.close(self.come)
        shutil.rmtree(self.profile, ignore_errors=True)

    def message(self):
        while b'\0' not in self.said:
            piece = os.read(self.come, 1 << 20)
            if not piece:
                raise OSError('the browser has ended')
            self.said += piece
        one, _, self.said = self.said.partition(b'\0')
        return json.loads(one)

    def hear(self, message):
        """Events: what the page complains of is kept, the others only wake up who waits for them."""
        what, about = message.get('method', ''), message.get('params', {})
        if what == 'Runtime.exceptionThrown':
            self.heard.append(about['exceptionDetails'].get('exception', {}).get('description') or about['exceptionDetails']['text'])
        elif what == 'Runtime.consoleAPICalled' and about['type'] in ('error', 'warning', 'assert'):
            self.heard.append(' '.join(str(one.get('value')) for one in about['args']))
        elif what == 'Log.entryAdded' and about['entry']['level'] in ('error', 'warning'):
            self.heard.append(about['entry']['text'])
        return what

    def ask(self, method, **about):
        self.number += 1
        message = {'id': self.number, 'method': method, 'params': about, **({'sessionId': self.session} if self.session else {})}
        os.write(self.to, json.dumps(message).encode() + b'\0')
        while True:
            answer = self.message()
            if answer.get('id') == self.number:
                if 'error' in answer:
                    raise OSError(f'{method}: {answer["error"]["message"]}')
                return answer['result']
            self.hear(answer)

    def open(self, page, wide=1280, high=900, dark=False, scripts=True):
        """A file, at an address below which a part may be named (#e12); until its script has said that it is there."""
        self.ask('Emulation.setDeviceMetricsOverride', width=wide, height=high, deviceScaleFactor=1, mobile=False)
        self.ask('Emulation.setEmulatedMedia', features=[{'name': 'prefers-color-scheme', 'value': 'dark' if dark else 'light'}])
        self.ask('Emulation.setScriptExecutionDisabled', value=not scripts)
        self.ask('Page.navigate', url='about:blank')
        self.ask('Page.navigate', url=page)
        while scripts and self.value('document.documentElement?.dataset.opened ?? null') is None:
            pass
        while not scripts and self.value('document.readyState') != 'complete':
            pass

    def value(self, expression):
        found = self.ask('Runtime.evaluate', expression=expression, returnByValue=True, awaitPromise=True)
        if 'exceptionDetails' in found:
            raise OSError(found['exceptionDetails'].get('exception', {}).get('description', 'an error') + ': ' + expression)
        return found['result'].get('value')

    def key(self, key, shift=False):
        more = {'text': key} if len(key) == 1 else {'text': '\r'} if key == 'Enter' else {}
        about = {'key': key, 'windowsVirtualKeyCode': KEYS.get(key, ord(key[0].upper())), 'modifiers': 8 if shift else 0}
        self.ask('Input.dispatchKeyEvent', type='keyDown', **about, **more)
        self.ask('Input.dispatchKeyEvent', type='keyUp', **about)
        self.settle()

    def mouse(self, x, y, click=False, **more):
        self.ask('Input.dispatchMouseEvent', type='mouseMoved', x=x, y=y)
        if click:
            for kind in ('mousePressed', 'mouseReleased'):
                self.ask('Input.dispatchMouseEvent', type=kind, x=x, y=y, button='left', buttons=1 if kind == 'mousePressed' else 0, clickCount=1)
        self.settle()

    def wheel(self, x, y, across=0, down=0, ctrl=False):
        self.ask('Input.dispatchMouseEvent', type='mouseWheel', x=x, y=y, deltaX=across, deltaY=down, modifiers=2 if ctrl else 0)
        self.settle()

    def settle(self):
        """Until what was asked for is on the screen."""
        self.value('new Promise(done => requestAnimationFrame(() => requestAnimationFrame(done)))')

    def picture(self, file):
        Path(file).write_bytes(base64.b64decode(self.ask('Page.captureScreenshot', format='png')['data']))

    def printed(self):
        return base64.b64decode(self.ask('Page.printToPDF', preferCSSPageSize=True, printBackground=True)['data'])
