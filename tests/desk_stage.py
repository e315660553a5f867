"""The stage of tests/desk-page: a desk in Python, nginx in front of it with examples/desk/nginx.conf, Chromium, and clients without a page."""
import base64
import fcntl
import hashlib
import json
import os
import re
import shutil
import socket
import ssl
import subprocess
import threading
import time

HERE = os.path.dirname(os.path.dirname(os.path.abspath(__file__)))
SHOTS = os.environ.get('SHOTS')
KEYS = {'heron-4182': 'p05', 'otter-7730': 'p06'}
HERON, OTTER = KEYS
PHRASES = {200: 'OK', 401: 'Unauthorized', 404: 'Not Found', 405: 'Method Not Allowed', 409: 'Conflict', 413: 'Payload Too Large', 503: 'Service Unavailable', 507: 'Insufficient Storage'}
PHONE = 360, 740      # the width and height of the window, but where a test says another
failures = []


def expect(what, found, wanted):
    if found != wanted:
        failures.append(what)
        print(f'FAILS: {what}\n  found  {found!r}\n  wanted {wanted!r}', flush=True)


def until(what, holds, seconds=10):
    """Waits until something holds, or tells that it doesn't."""
    end = time.monotonic() + seconds
    while not holds():
        if time.monotonic() > end:
            expect(what, 'not in time', 'in time')
            return
        time.sleep(0.02)


# ---- the desk


class Office:
    """What the desk tells: rounds before the last are `panels`, each a list of ids. `seat` has the dropouts and the seat of whoever asks."""

    def __init__(self, phase='Open', panels=(), chance=None, drawn=None, withdrawn=(), seat=((), False)):
        self.phase, self.panels, self.chance, self.drawn, self.seat = phase, list(panels), chance, drawn, seat
        self.round, self.withdrawn, self.padding = len(self.panels) + 1, set(withdrawn), 0

    def sealed(self):
        """The panels of the rounds with a bundle; the last is None if it isn't drawn."""
        last = {'Drawn': [['p05', 'p09'] if self.drawn else ['p08', 'p09']], 'Sealed': [None]}.get(self.phase, [])
        return self.panels + last

    def bundle(self, number):
        return f'bundle of round {number}\n'.encode() + b'.' * self.padding

    def reply(self, method, path, key):
        known = KEYS.get(key)
        if path == '/me':
            if method != 'GET':
                return 405, None
            return (200, dict(chance=self.chance, drawn=self.drawn, id=known, phase=self.phase, round=self.round, withdrawn=known in self.withdrawn)) if known else (401, None)
        if path == '/me/seat':
            if method != 'GET':
                return 405, None
            return (200, dict(dropped=self.seat[0], id=known, seated=self.seat[1])) if known else (401, None)
        if path == '/me/withdraw':
            if method != 'POST':
                return 405, None
            if not known:
                return 401, None
            if known not in self.withdrawn and (self.phase != 'Open' or any(known in panel for panel in self.panels)):
                return 409, None
            self.withdrawn.add(known)
            return 200, dict(id=known, withdrawn=True)
        rounds, of_round = self.sealed(), re.fullmatch('/public/(bundle|draw)/([0-9]{1,4})', path)
        number = int(of_round[2]) if of_round else 0
        if not 1 <= number <= len(rounds) or (of_round[1] == 'draw' and rounds[number - 1] is None):
            return 404, None
        if of_round[1] == 'bundle':
            return 200, self.bundle(number)
        return 200, dict(digits='31', panel=rounds[number - 1], seal=hashlib.sha256(self.bundle(number)).hexdigest(), ticket='5')


class Desk:
    """A desk over an office. `fails` says for a path what comes in place of its reply: a status, `cut`: nothing, with what was asked done;
    `silent`: nothing for longer than the proxy waits; `nonsense`. `waits` has an event for a key, which the reply to it waits for. `held` has for
    how many seconds each connection had the desk."""

    def __init__(self):
        self.office, self.fails, self.waits, self.asked, self.heads, self.held = Office(), {}, {}, [], [], []
        self.door = None
        with socket.socket() as it:
            it.bind(('127.0.0.1', 0))
            self.port = it.getsockname()[1]

    def open(self):
        self.door = socket.create_server(('127.0.0.1', self.port), backlog=500)
        threading.Thread(target=self.attend, args=(self.door,), daemon=True).start()

    def close(self):
        self.door.shutdown(socket.SHUT_RDWR)
        self.door.close()

    def attend(self, door):
        while True:
            try:
                link, _ = door.accept()
            except OSError:
                return
            threading.Thread(target=self.serve, args=(link,), daemon=True).start()

    def serve(self, link):
        begun = time.monotonic()
        self.attended(link)
        self.held.append(time.monotonic() - begun)

    def attended(self, link):
        with link:
            data = b''
            while b'\r\n\r\n' not in data:
                more = link.recv(65536)
                if not more:
                    return
                data += more
            head, _, body = data.partition(b'\r\n\r\n')
            lines = head.decode().split('\r\n')
            fields = {name.lower(): value.strip() for name, _, value in (line.partition(':') for line in lines[1:])}
            while len(body) < int(fields.get('content-length', 0)):
                body += link.recv(65536)
            method, target, _ = lines[0].split(' ')
            path, key = target.split('?')[0], fields.get('office-key')
            self.asked.append((method, path, key))
            self.heads.append(fields)
            if key in self.waits:
                self.waits[key].wait(20)
            try:
                link.sendall(self.bytes_for(method, path, key))
            except OSError:
                pass

    def bytes_for(self, method, path, key):
        fail = self.fails.get(path)
        if fail == 'silent':
            time.sleep(4)
            return b''
        status, body = (fail, None) if isinstance(fail, int) else self.office.reply(method, path, key)
        if fail == 'cut':
            return b''
        media = 'text/plain; charset=utf-8' if isinstance(body, bytes) else 'application/json'
        body = body if isinstance(body, bytes) else json.dumps(body if body is not None else {'status': status}, separators=(',', ':')).encode()
        body = b'<html>' if fail == 'nonsense' else body
        more = {401: 'WWW-Authenticate: office-key\r\n', 405: f'Allow: {"POST" if path == "/me/withdraw" else "GET"}\r\n'}.get(status, '')
        return f'HTTP/1.1 {status} {PHRASES[status]}\r\nContent-Type: {media}\r\n{more}Content-Length: {len(body)}\r\nConnection: close\r\n\r\n'.encode() + body


# ---- the proxy


class Proxy:
    """nginx with the file of examples/desk, in a folder of its own."""

    def __init__(self, folder, desk_port):
        self.folder, self.ports = folder, []
        for _ in range(2):
            with socket.socket() as it:
                it.bind(('127.0.0.1', 0))
                self.ports.append(it.getsockname()[1])
        plain, self.port = self.ports
        with open(os.path.join(HERE, 'examples', 'desk', 'nginx.conf')) as it:
            text = it.read()
        for old, new in (('/etc/ssl/certs/assembly.example.org.pem', f'{folder}/site.pem'), ('/etc/ssl/private/assembly.example.org.key', f'{folder}/site.key'),
                         ('/srv/desk', f'{folder}/page'), ('/var/log/nginx/desk.log', f'{folder}/desk.log'), ('/var/lib/nginx/desk keys', f'{folder}/kept keys'),
                         ('127.0.0.1:8642', f'127.0.0.1:{desk_port}'), ('listen 80;', f'listen {plain};'), ('listen [::]:80;', f'listen [::]:{plain};'),
                         ('listen 443 ssl;', f'listen {self.port} ssl;'), ('listen [::]:443 ssl;', f'listen [::]:{self.port} ssl;'), ('proxy_read_timeout 30s', 'proxy_read_timeout 3s')):
            assert old in text, old
            text = text.replace(old, new)
        # (so that a client of this script can come from any address)
        text = 'set_real_ip_from 127.0.0.1;\nset_real_ip_from ::1;\nreal_ip_header X-From;\n' + text
        others = ''.join(f'{name}_temp_path {folder}/{name};\n' for name in ('client_body', 'proxy', 'fastcgi', 'uwsgi', 'scgi'))
        self.text = (f'daemon off; pid {folder}/pid; error_log {folder}/errors; worker_processes 1;\n{"user root;" if os.getuid() == 0 else ""}\nevents {{ worker_connections 2000; }}\nhttp {{\ninclude /etc/nginx/mime.types;\n{others}{text}\n}}\n')
        with open(f'{folder}/nginx.conf', 'w') as it:
            it.write(self.text)
        shutil.copytree(os.path.join(HERE, 'examples', 'desk'), f'{folder}/page')
        subprocess.run(['openssl', 'req', '-x509', '-newkey', 'rsa:2048', '-nodes', '-keyout', f'{folder}/site.key', '-out', f'{folder}/site.pem', '-days', '3', '-subj', '/CN=localhost'], check=True, capture_output=True)
        self.begin()

    def begin(self):
        self.process = subprocess.Popen(['nginx', '-p', self.folder, '-c', f'{self.folder}/nginx.conf'], stderr=subprocess.DEVNULL)
        until('nginx begins', lambda: self.answers())

    def answers(self):
        try:
            socket.create_connection(('127.0.0.1', self.port), 1).close()
            return True
        except OSError:
            return False

    def forget(self):
        """Empties what is kept, as the file says it is done."""
        for name in os.listdir(f'{self.folder}/kept'):
            shutil.rmtree(f'{self.folder}/kept/{name}', ignore_errors=True) if os.path.isdir(f'{self.folder}/kept/{name}') else os.remove(f'{self.folder}/kept/{name}')

    def renew(self, rate=None):
        """Begins again, with limits that nobody has used. With `rate`, who has used them up waits for long."""
        self.end()
        with open(f'{self.folder}/nginx.conf', 'w') as it:
            it.write(re.sub('rate=[0-9]+r/s', f'rate={rate}', self.text) if rate else self.text)
        self.begin()

    def end(self):
        self.process.terminate()
        self.process.wait(20)


# ---- the browser


class Chromium:
    """Debian's Chromium, by its own pipe."""

    def __init__(self, home):
        ends = [fcntl.fcntl(end, fcntl.F_DUPFD, 20) for pair in (os.pipe(), os.pipe()) for end in pair]
        words = ['bash', '-c', f'exec chromium "$@" 3<&{ends[0]} 4>&{ends[3]}', 'bash', '--headless=new', '--no-sandbox', '--disable-gpu', '--disable-dev-shm-usage', '--no-first-run', '--ignore-certificate-errors', f'--user-data-dir={home}', '--remote-debugging-pipe', 'about:blank']
        self.child = subprocess.Popen(words, stdout=subprocess.DEVNULL, stderr=subprocess.DEVNULL, pass_fds=(ends[0], ends[3]))
        os.close(ends[0])
        os.close(ends[3])
        self.to, self.last, self.session, self.heard, self.answers = ends[1], 0, None, [], {}
        self.came = threading.Condition()
        threading.Thread(target=self.listen, args=(ends[2],), daemon=True).start()
        target = self.call('Target.createTarget', url='about:blank')['targetId']
        self.session = self.call('Target.attachToTarget', targetId=target, flatten=True)['sessionId']
        for domain in ('Page', 'Log', 'Runtime', 'Network'):
            self.call(f'{domain}.enable')
        self.width(*PHONE)

    def listen(self, end):
        held = b''
        while more := os.read(end, 1 << 20):
            *messages, held = (held + more).split(b'\0')
            with self.came:
                for message in map(json.loads, messages):
                    if 'id' in message:
                        self.answers[message['id']] = message
                    else:
                        self.heard.append(message)
                self.came.notify_all()

    def call(self, method, **params):
        self.last += 1
        number = self.last
        message = dict(id=number, method=method, params=params)
        if self.session:
            message['sessionId'] = self.session
        os.write(self.to, json.dumps(message).encode() + b'\0')
        with self.came:
            if not self.came.wait_for(lambda: number in self.answers, 60):
                raise TimeoutError(method)
            answer = self.answers.pop(number)
        if 'error' in answer:
            raise RuntimeError(f'{method}: {answer["error"]}')
        return answer['result']

    def value(self, expression):
        result = self.call('Runtime.evaluate', expression=expression, returnByValue=True, awaitPromise=True, userGesture=True)
        if 'exceptionDetails' in result:
            raise RuntimeError(result['exceptionDetails']['exception'].get('description'))
        return result['result'].get('value')

    def go(self, url):
        self.call('Page.navigate', url=url)
        self.loaded(url)

    def loaded(self, url):
        until(f'{url} is open', lambda: self.value(f'location.href === {json.dumps(url)} && document.readyState === "complete"'))

    def width(self, width, height, dark=False):
        self.call('Emulation.setDeviceMetricsOverride', width=width, height=height, deviceScaleFactor=1, mobile=width < 600)
        self.call('Emulation.setEmulatedMedia', features=[dict(name='prefers-color-scheme', value='dark' if dark else 'light')])

    def press(self, key, code, text=None):
        more = dict(text=text) if text else {}
        self.call('Input.dispatchKeyEvent', type='keyDown' if text else 'rawKeyDown', key=key, windowsVirtualKeyCode=code, **more)
        self.call('Input.dispatchKeyEvent', type='keyUp', key=key, windowsVirtualKeyCode=code)

    def type(self, text):
        for it in text:
            self.press(it, ord(it.upper()), it)

    def picture(self, name):
        if SHOTS:
            time.sleep(0.15)
            data = self.call('Page.captureScreenshot', captureBeyondViewport=True)['data']
            with open(os.path.join(SHOTS, f'{re.sub("[^a-z0-9]+", "-", name.lower()).strip("-")}.png'), 'wb') as it:
                it.write(base64.b64decode(data))

    def end(self):
        self.session = None
        self.call('Browser.close')
        self.child.wait(20)


# ---- other clients


def curl(proxy, path, *words):
    """The status, the fields and the body of a reply. The words go to curl."""
    done = subprocess.run(['curl', '-sk', '-D', '-', '--max-time', '30', *words, f'https://localhost:{proxy.port}{path}'], capture_output=True)
    parts = done.stdout.split(b'\r\n\r\n')
    heads = [part.decode() for part in parts if part.startswith(b'HTTP/')]
    fields = {name.lower(): value.strip() for name, _, value in (line.partition(':') for line in heads[-1].split('\r\n')[1:])}
    return [int(head.split()[1]) for head in heads], fields, parts[-1]


def asked(proxy, method, path, source=None, key=HERON):
    """All bytes of the reply to a request. With `source`, from this address."""
    with socket.create_connection(('127.0.0.1', proxy.port)) as plain, ssl._create_unverified_context().wrap_socket(plain) as link:
        more = f'X-From: {source}\r\n' if source else ''
        link.sendall(f'{method} {path} HTTP/1.1\r\nHost: localhost\r\noffice-key: {key}\r\n{more}Connection: close\r\n\r\n'.encode())
        reply = b''
        while piece := link.recv(65536):
            reply += piece
        return reply


def fetched(proxy, paths, source=None, at_once=40):
    """The statuses of requests that come together. With `source`, from this address."""
    made, lock, rest = [], threading.Lock(), list(paths)

    def work():
        while True:
            with lock:
                if not rest:
                    return
                path = rest.pop()
            reply = asked(proxy, 'GET', path, source)
            with lock:
                made.append(int(reply[9:12]))
    threads = [threading.Thread(target=work) for _ in range(at_once)]
    for it in threads:
        it.start()
    for it in threads:
        it.join()
    return made
