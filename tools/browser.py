"""A headless chromium that is told what to do, by the developer protocol through two pipes."""
import base64
import json
import os
import shutil
import subprocess
import tempfile


class Browser:
    """One tab of a chromium of its own, in a folder of its own, with no network."""

    def __init__(self, program='chromium', width=1360, height=860):
        self.room = tempfile.mkdtemp(prefix='browser.')
        commands, self.to_browser = os.pipe()
        self.from_browser, answers = os.pipe()

        def give_pipes():
            # Commands are read from 3, answers written to 4; the pipes may stand at these.
            high = os.dup2(commands, 100), os.dup2(answers, 101)
            os.dup2(high[0], 3)
            os.dup2(high[1], 4)

        self.process = subprocess.Popen(
            [program, '--headless=new', '--remote-debugging-pipe', '--disable-gpu', '--no-first-run',
             '--disable-dev-shm-usage', '--host-resolver-rules=MAP * ~NOTFOUND',
             *(['--no-sandbox'] if os.geteuid() == 0 else []),
             f'--user-data-dir={self.room}', f'--window-size={width},{height}', 'about:blank'],
            preexec_fn=give_pipes, close_fds=False, stdin=subprocess.DEVNULL,
            stdout=subprocess.DEVNULL, stderr=subprocess.DEVNULL)
        os.close(commands)
        os.close(answers)
        self.rest, self.number, self.session, self.events = b'', 0, None, []
        target = self.command('Target.createTarget', url='about:blank')['targetId']
        attached = self.command('Target.attachToTarget', targetId=target, flatten=True)
        self.session = attached['sessionId']
        for domain in ('Page', 'Runtime', 'Log', 'Network', 'Performance'):
            self.command(f'{domain}.enable')
        self.command('Emulation.setDeviceMetricsOverride', width=width, height=height,
                     deviceScaleFactor=1, mobile=False)

    def message(self):
        while b'\0' not in self.rest:
            data = os.read(self.from_browser, 1 << 20)
            if not data:
                raise EOFError('the browser has ended')
            self.rest += data
        text, self.rest = self.rest.split(b'\0', 1)
        return json.loads(text)

    def command(self, method, **parameters):
        self.number += 1
        message = {'id': self.number, 'method': method, 'params': parameters}
        if self.session:
            message['sessionId'] = self.session
        self.send(message)
        while True:
            answer = self.message()
            if answer.get('id') == self.number:
                if 'error' in answer:
                    raise RuntimeError(f'{method}: {answer["error"]}')
                return answer['result']
            if 'method' in answer:
                self.events.append(answer)

    def send(self, message):
        data = json.dumps(message).encode() + b'\0'
        while data:
            data = data[os.write(self.to_browser, data):]

    def await_event(self, method):
        while not any(event['method'] == method for event in self.events):
            message = self.message()
            if 'method' in message:
                self.events.append(message)

    def open(self, path):
        """Opens a file, and forgets what was told of earlier pages."""
        self.events = []
        self.command('Page.navigate', url=f'file://{path}')
        self.await_event('Page.loadEventFired')

    def value(self, expression):
        answer = self.command(
            'Runtime.evaluate', expression=expression, returnByValue=True, awaitPromise=True)
        if 'exceptionDetails' in answer:
            raise RuntimeError(json.dumps(answer['exceptionDetails'])[:500])
        return answer['result'].get('value')

    def press(self, key):
        for kind in ('keyDown', 'keyUp'):
            text = {'text': key} if len(key) == 1 and kind == 'keyDown' else {}
            self.command('Input.dispatchKeyEvent', type=kind, key=key, **text)
        self.settle()

    def click(self, selector):
        """A click of the mouse in the middle of what the selector finds."""
        place = self.value(f'''(() => {{
            const found = document.querySelector({json.dumps(selector)});
            found.scrollIntoView({{ block: 'center' }});
            const {{ x, y, width, height }} = found.getBoundingClientRect();
            return {{ x: x + width / 2, y: y + height / 2 }};
        }})()''')
        for kind in ('mousePressed', 'mouseReleased'):
            self.command(
                'Input.dispatchMouseEvent', type=kind, button='left', clickCount=1, **place)
        self.settle()

    def seconds(self):
        """The processor time that the tab has taken, which a busy machine doesn't lengthen."""
        metrics = self.command('Performance.getMetrics')['metrics']
        return {metric['name']: metric['value'] for metric in metrics}['ProcessTime']

    def settle(self):
        """Waits until what was done is drawn."""
        self.value('new Promise((done) => requestAnimationFrame(() => setTimeout(done)))')

    def use(self, **features):
        """Media features, as `prefers_color_scheme='dark'`."""
        self.command('Emulation.setEmulatedMedia', features=[
            {'name': name.replace('_', '-'), 'value': value} for name, value in features.items()])

    def screenshot(self, path):
        data = self.command('Page.captureScreenshot', format='png')['data']
        with open(path, 'wb') as file:
            file.write(base64.b64decode(data))

    def faults(self):
        """What the browser told of errors in the page, and of requests for more than its file."""
        told = []
        for event in self.events:
            method, values = event['method'], event['params']
            if method == 'Runtime.exceptionThrown':
                told.append(f"exception: {values['exceptionDetails'].get('exception')}")
            if method == 'Runtime.consoleAPICalled':
                told.append(f"console: {values['args']}")
            if method == 'Log.entryAdded' and values['entry']['level'] == 'error':
                told.append(values['entry']['text'])
            if method == 'Page.javascriptDialogOpening':
                told.append(f"dialog: {values['message']}")
        requests = [event['params']['request']['url'] for event in self.events
                    if event['method'] == 'Network.requestWillBeSent']
        return told + [f'asked for {url[:100]}' for url in requests[1:]]

    def close(self):
        try:
            self.command('Browser.close')
        except (EOFError, RuntimeError, OSError):
            pass
        try:
            self.process.wait(timeout=10)
        except subprocess.TimeoutExpired:
            self.process.kill()
            self.process.wait()
        shutil.rmtree(self.room, ignore_errors=True)
