#!/usr/bin/env python3
"""The clients speak TLS with HAProxy in front of a server: Python, Node where there is Node, and Go where there is Go. The certificates are those of
deploy/certificates.sh, and each client shows its own. Without HAProxy or openssl nothing is run, and it is told.
"""
import asyncio
import os
import shutil
import socket
import ssl
import subprocess
import sys
import tempfile
import time
from pathlib import Path

from lib.running_server import TOP, Listening, Report
from path_client import connect, connect_async, pool

KEY = bytes.fromhex("00112233445566778899aabbccddeeff")
LARGE = b'"' + b"x" * 4_000_000 + b'"'
CONFIGURATION = """
global
    ssl-default-bind-options ssl-min-ver TLSv1.2
defaults
    mode tcp
    timeout connect 10s
    timeout client 60s
    timeout server 60s
listen path_server
    bind 127.0.0.1:{port} ssl crt {folder}/tls/server.pem ca-file {folder}/tls/ca.crt verify required
    server one {address}
"""
NODE = """
import {{ readFileSync }} from 'node:fs';
import {{ connect, pool }} from '{index}';
const file = (name) => readFileSync(`{folder}/tls/${{name}}`);
const options = {{ at: '{address}', key: '{key}' }};
const tls = {{ ca: file('ca.crt'), cert: file('acme-web.crt'), key: file('acme-web.key') }};
const text = `"${{'x'.repeat(4_000_000)}}"`;
for (const open of [connect, pool]) {{
  const client = await open({{ ...options, tls }});
  await client.put('node', 'large', text);
  console.log((await client.get('node', 'large')).toString() === text, await client.documents('node', '$'));
  client.close();
}}
await connect({{ ...options, tls: {{ ...tls, ca: undefined }} }}).then(() => console.log('taken'), (fault) => console.log('refused', /VERIFY|CERT/.test(fault.code)));
"""


class Balancer:
    """HAProxy with TLS on a port of its own."""

    def __init__(self, folder, address):
        with socket.create_server(("127.0.0.1", 0)) as free:
            port = free.getsockname()[1]
        self.address = f"127.0.0.1:{port}"
        (folder / "haproxy.cfg").write_text(CONFIGURATION.format(port=port, folder=folder, address=address))
        self.process = subprocess.Popen(["haproxy", "-db", "-f", folder / "haproxy.cfg"], stdout=subprocess.DEVNULL, stderr=subprocess.DEVNULL)
        until = time.monotonic() + 30
        while time.monotonic() < until:
            try:
                return socket.create_connection(("127.0.0.1", port), 1).close()
            except OSError:
                time.sleep(0.05)
        sys.exit("HAProxy does not listen")

    def __enter__(self):
        return self

    def __exit__(self, *_):
        self.process.kill()
        self.process.wait()


def context_of(folder, name="acme-web"):
    context = ssl.create_default_context(cafile=folder / "tls/ca.crt")
    context.load_cert_chain(folder / f"tls/{name}.crt", folder / f"tls/{name}.key")
    return context


def check_python(report, folder, address):
    context = context_of(folder)
    for open_one in (connect, pool):
        with open_one(address, KEY, ssl=context) as client:
            for name in ("a", "b"):
                client.put("python", name, LARGE)
                report.case("a document over TLS", name, True, client.get("python", name) == LARGE)
            client.put("python", "small", "[1]")
            report.case("its hits", "", [("small", "$[0]", b"1")], [tuple(it) for it in client.query("python", "$[0]")])

    async def use():
        async with connect_async(address, KEY, ssl=context) as client:
            await asyncio.gather(*(client.put("python", str(it), LARGE) for it in range(2)))
            return await asyncio.gather(*(client.get("python", str(it)) for it in range(2)))
    report.case("tasks over TLS", "", True, asyncio.run(use()) == [LARGE] * 2)
    for name, given in (("another authority", ssl.create_default_context()), ("no TLS", None)):
        try:
            with connect(address, KEY, 5.0, given) as client:
                client.usage()
            report.case(name, "", "an error", "none")
        except OSError as fault:
            report.case(name, "", True, isinstance(fault, (ssl.SSLCertVerificationError, ConnectionError)) or fault)
    with connect(address, KEY, ssl=context) as client:
        client.drop("python")


def check_node(report, folder, address):
    script = NODE.format(index=(TOP / "clients/node/index.js").as_uri(), folder=folder, address=address, key=KEY.hex())
    ran = subprocess.run(["node", "--input-type=module", "-e", script], stdout=subprocess.PIPE, stderr=subprocess.STDOUT, timeout=120)
    wanted = b"true [ 'large' ]\ntrue [ 'large' ]\nrefused true\n"
    report.case("Node over TLS", "", (0, wanted), (ran.returncode, ran.stdout))


def check_go(report, folder, address):
    (folder / "key").write_text(KEY.hex())
    environment = {**os.environ, "PATH_TLS_FOLDER": str(folder / "tls"), "PATH_SERVER_AT": address, "PATH_SERVER_KEY_FILE": str(folder / "key"),
                   "GOCACHE": str(folder / "cache"), "GOPROXY": "off", "GOFLAGS": "-mod=mod", "CGO_ENABLED": "0"}
    command = ["go", "test", "-count=1", "-v", "-run", "TestTLS", "./..."]
    ran = subprocess.run(command, cwd=TOP / "clients/go", env=environment, stdout=subprocess.PIPE, stderr=subprocess.STDOUT, timeout=300)
    report.case("Go over TLS", "", (0, True), (ran.returncode, b"--- PASS: TestTLS" in ran.stdout or ran.stdout))


def main():
    missing = [it for it in ("haproxy", "openssl") if not shutil.which(it)]
    if missing:
        print(f"not run, since there is no {missing[0]} here")
        return
    report = Report()
    with tempfile.TemporaryDirectory(prefix="path-client-tls-") as made:
        folder = Path(made)
        subprocess.run([TOP / "deploy/certificates.sh", folder / "tls", "127.0.0.1", "acme-web"], check=True, stdout=subprocess.DEVNULL,
                       stderr=subprocess.DEVNULL)
        with Listening([KEY]) as server, Balancer(folder, server.address) as balancer:
            check_python(report, folder, balancer.address)
            for tool, check in (("node", check_node), ("go", check_go)):
                if shutil.which(tool):
                    check(report, folder, balancer.address)
                else:
                    print(f"{tool}: not run, since it is not installed")
    report.close("clients over TLS")


if __name__ == "__main__":
    main()
