#!/usr/bin/python3
"""Lets nginx answer out of the server, as its module memcached is documented (https://nginx.org/en/docs/http/ngx_http_memcached_module.html)."""
import gzip
import http.client
import os
import socket
import subprocess
import tempfile
import threading
import time

import checks

PORT, SILENT, CONTROL = checks.ports()
SECONDS = 10
CONFIGURATION = """
daemon off;
pid {folder}/pid;
error_log {folder}/error.log;
worker_processes 2;
events {{ worker_connections 256; }}
http {{
    access_log off;
    client_body_temp_path {folder}/1; proxy_temp_path {folder}/2; fastcgi_temp_path {folder}/3; uwsgi_temp_path {folder}/4; scgi_temp_path {folder}/5;
    upstream cache {{ server 127.0.0.1:{cache}; keepalive 8; }}
    upstream silent {{ server 127.0.0.1:{silent}; }}
    server {{
        listen 127.0.0.1:{port};
        default_type text/plain;
        location / {{ set $memcached_key "page:$uri?$args"; memcached_pass cache; error_page 404 502 504 = @made; }}
        location /alone/ {{ set $memcached_key "page:$uri"; memcached_pass cache; }}
        location /packed/ {{ set $memcached_key "page:$uri"; memcached_gzip_flag 2; gunzip on; memcached_pass cache; }}
        location /silent/ {{ set $memcached_key "page:$uri"; memcached_read_timeout 300ms; memcached_pass silent; }}
        location @made {{ return 200 "made"; }}
    }}
}}
"""


def free_port():
    with socket.create_server((checks.HOST, 0)) as it:
        return it.getsockname()[1]


def stored(key, block, flags=0):
    """Stores an item, as the application behind nginx does."""
    with socket.create_connection((checks.HOST, PORT), timeout=SECONDS) as link:
        link.sendall(b"set %s %d 0 %d\r\n%s\r\n" % (key.encode(), flags, len(block), block))
        return link.recv(100)


def asked(path, **fields):
    """Asks nginx: the status, and the body."""
    link = http.client.HTTPConnection(checks.HOST, WEB, timeout=SECONDS)
    try:
        link.request("GET", path, headers=fields)
        answer = link.getresponse()
        return answer.status, answer.read()
    finally:
        link.close()


def asked_by(threads, each):
    """Asks in threads side by side, and gives how many answers were right."""
    right = []

    def ask():
        right.extend(asked(f"/alone/{at}") == (200, b"page %d" % at) for at in range(each))

    running = [threading.Thread(target=ask) for _ in range(threads)]
    for it in running:
        it.start()
    for it in running:
        it.join()
    return sum(right)


def comes(call, wanted):
    """Makes a call until it gives what is wanted."""
    end = time.monotonic() + SECONDS
    while time.monotonic() < end:
        try:
            if call() == wanted:
                return True
        except OSError:
            pass
        time.sleep(0.1)
    return False


WEB = free_port()
LARGE = os.urandom(1000000)
folder = tempfile.TemporaryDirectory()
with open(f"{folder.name}/nginx.conf", "w", encoding="utf-8") as it:
    it.write(CONFIGURATION.format(folder=folder.name, cache=PORT, silent=SILENT, port=WEB))
os.chmod(folder.name, 0o755)
nginx = subprocess.Popen(
    ["nginx", "-p", folder.name, "-c", f"{folder.name}/nginx.conf"], env={**os.environ, "PATH": f"{os.environ['PATH']}:/usr/sbin"},
    stdin=subprocess.DEVNULL, stderr=subprocess.DEVNULL,
)
try:
    check = checks.Checks(**globals())

    check.about("pages out of the store, and what is asked for behind it")
    check.is_true("comes(lambda: asked('/none'), (200, b'made'))")
    check.gives("stored('page:/a?', b'<p>a</p>')", b"STORED\r\n")
    check.gives("asked('/a')", (200, b"<p>a</p>"))
    check.gives("stored('page:/a?x=1', b'with words')", b"STORED\r\n")
    check.gives("asked('/a?x=1')", (200, b"with words"))
    check.gives("asked('/a%20b')[0], asked('/alone/none')[0]", (200, 404))
    check.gives("stored('page:/alone/empty', b'')", b"STORED\r\n")
    check.gives("asked('/alone/empty')", (200, b""))
    check.gives("stored('page:/alone/large', LARGE)", b"STORED\r\n")
    check.gives("asked('/alone/large') == (200, LARGE)", True)

    check.about("flags that say what is packed")
    check.gives("stored('page:/packed/a', gzip.compress(b'text' * 1000), 2)", b"STORED\r\n")
    check.gives("asked('/packed/a') == (200, b'text' * 1000)", True)
    check.gives("gzip.decompress(asked('/packed/a', **{'Accept-Encoding': 'gzip'})[1]) == b'text' * 1000", True)

    check.about("2,000 requests in 8 threads, over connections that are kept")
    check.gives("[stored(f'page:/alone/{at}', b'page %d' % at) for at in range(250)] == [b'STORED\\r\\n'] * 250", True)
    check.gives("asked_by(8, 250)", 2000)

    check.about("a server that doesn't answer, and one that was killed and started anew")
    check.gives("asked('/silent/a')[0]", 504)
    check.gives("checks.restart(CONTROL)", True)
    check.is_true("comes(lambda: asked('/a'), (200, b'made'))")
    check.gives("stored('page:/a?', b'again')", b"STORED\r\n")
    check.is_true("comes(lambda: asked('/a'), (200, b'again'))")
finally:
    nginx.terminate()
    nginx.wait(SECONDS)
check.end()
