"""The files that follow from a table: what shards and HAProxy are started with."""
import re
import secrets
import shutil
import subprocess
from pathlib import Path
from string import Template

from shard_table import ADDRESS, PROBE, write_whole

NUMERIC = re.compile(r"[\d.]+|\[.*\]")
PAUSED = "paused"


def haproxy(table, folder):
    """The text of haproxy.cfg."""
    options = table.options
    names = [it for it, _ in table.shards.values()] + [table.reception]
    is_resolved = not all(NUMERIC.fullmatch(ADDRESS.fullmatch(it)[1]) for it in names)
    binds = [f"    bind {options.plain}"] if options.plain else []
    if options.tls:
        revoked = f" crl-file {folder}/tls/crl.pem" if (table.folder / "tls/crl.pem").exists() else ""
        binds.append(f"    bind {options.tls} ssl crt {folder}/tls/server.pem ca-file {folder}/tls/ca.crt{revoked} verify required")
    words = {"folder": folder, "all": options.all, "source": options.source, "tenant": options.tenant, "binds": "\n".join(binds),
             "user": f"\n    user {options.user}\n    group {options.user}" if options.user else "",
             "resolved": " resolvers names init-addr last,libc,none" if is_resolved else "",
             "resolvers": "\nresolvers names\n    parse-resolv-conf\n    hold valid 5s\n" if is_resolved else ""}
    text = Template((Path(__file__).resolve().parent / "haproxy.cfg").read_text(encoding="utf-8")).substitute(words)
    get = bytes.fromhex("0200000001" + table.probe) + b"\x05ready\x05ready"
    turns = ["    option tcp-check", "    tcp-check connect linger", "    tcp-check send-binary 00000000",
             "    tcp-check expect min-recv 9 binary 000000050100000000"]
    is_ready = [f"    tcp-check send-binary {(len(get).to_bytes(4, 'big') + get).hex()}", "    tcp-check expect min-recv 9 binary 000000060000000001"]
    for name, (address, _) in table.shards.items():
        servers = [f"    server path_server {address} check"]
        servers += [f"    server {it.digest[:8]} {address} track path_server" for it in table.tenants.values() if name in it.places]
        text += "\n".join(["", f"backend shard-{name}", *turns, *is_ready, f"    tcp-request content reject if {{ be_conn gt {options.shard} }}",
                           "    use-server %[var(sess.tenant),bytes(0,8)] if TRUE", *servers, ""])
    return text + "\n".join(["", "backend reception", *turns, "    timeout server 10s", f"    server path_server {table.reception} check maxconn 1000", ""])


def variables(table, name, address):
    """The text of a .env."""
    words = [table.options.words] * bool(table.options.words) + [f"--admin {it}" for it in table.admins[name]]
    return f"ADDRESS={address}\nOPTIONS={shell_word(' '.join(words))}\n"


def shell_word(text):
    """As a shell and systemd read it."""
    return f'"{text}"' if " " in text else text


def files(table):
    """Each file's name and text. A shard's keys come before the map that sends tenants there, and the map before the configuration."""
    keys = {name: [f"{table.probe} {PROBE}", *[f"{it.key} {it.label}".strip() for it in table.tenants.values() if name in it.places]] for name in table.shards}
    for name, (address, _) in table.shards.items():
        yield f"{name}.keys", "".join(f"{key}\n" for key in keys[name])
        yield f"{name}.env", variables(table, name, address)
    reception = table.folder / "reception.keys"
    yield "reception.keys", reception.read_text(encoding="utf-8") if reception.exists() else secrets.token_hex(16) + "\n"
    yield "reception.env", variables(table, "reception", table.reception)
    yield "probe.key", table.probe + "\n"
    yield "tenants.map", "".join(f"{it.digest} {place_of(it)}\n" for it in table.tenants.values())
    yield "grants.map", "".join(f"{name}:{it.digest} 1\n" for it in table.tenants.values() for name in it.certificates)
    yield "haproxy.cfg", haproxy(table, table.options.at or table.folder)


def place_of(tenant):
    """Where HAProxy sends a tenant's connections."""
    return PAUSED if tenant.moving else f"shard-{tenant.places[0]}"


def write(table):
    """Writes each file that is not as it should be, removes those of shards that are gone, and says whether HAProxy has to be reloaded."""
    table.folder.mkdir(mode=0o700, parents=True, exist_ok=True)
    # it stands until the table's command has succeeded, also where this is interrupted
    mark, changed = table.folder / ".changed", []
    for name, text in files(table):
        path = table.folder / name
        if not path.exists() or path.read_text(encoding="utf-8") != text or path.stat().st_mode & 0o077:
            mark.touch()
            write_whole(path, text)
            changed.append(name)
    for variables_of in table.folder.glob("*.env"):
        name = variables_of.stem
        if name not in table.shards and name != "reception" and variables_of.read_text(encoding="utf-8").startswith("ADDRESS="):
            mark.touch()
            for it in (table.folder / f"{name}.keys", variables_of):
                it.unlink(missing_ok=True)
                changed.append(it.name)
    if mark.exists():
        if "written" in table.commands:
            subprocess.run(["sh", "-c", table.commands["written"]], check=True, stdin=subprocess.DEVNULL)
        mark.unlink()
    return changed


def is_valid(table):
    """What HAProxy says against its configuration, where there is a HAProxy here."""
    if table.options.at or not shutil.which("haproxy"):
        return ""
    ran = subprocess.run(["haproxy", "-c", "-q", "-f", table.folder / "haproxy.cfg"], stdin=subprocess.DEVNULL, capture_output=True, encoding="utf-8")
    return ran.stderr if ran.returncode else ""
