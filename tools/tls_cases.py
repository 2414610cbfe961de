"""TLS between overctl and overstored, by the two samples for stunnel in dist/examples, over the loopback: the owner's
commands go through, a client whose certificate the server doesn't have is refused, and so is a server with another
certificate than the one that the client was given.

Run, after `rt run` has built the programs, at the top of the repository; it needs `stunnel` and `openssl`:

    python3 tools/tls_cases.py crates/overstored/out/overstored crates/overctl/out/overctl
"""
import re
import socket
import subprocess
import time

from common import ROOT, new_folder
from in_between import Server

SAMPLES = ROOT / "dist" / "examples"
LINK_FAULT = 8


def free_port():
    with socket.socket() as listener:
        listener.bind(("127.0.0.1", 0))
        return listener.getsockname()[1]


def certify(folder, name):
    """A key and a self-signed certificate, as the sample for servers says."""
    text = (SAMPLES / "stunnel-server.conf").read_text()
    words = re.search(r"openssl req .*", text).group().split()
    words = [word.replace("server", name) for word in words]
    subprocess.run(words, cwd=folder, check=True, capture_output=True)


def changed(sample, **values):
    """The text of a sample with these values in place of its own."""
    text = (SAMPLES / sample).read_text()
    for key, value in values.items():
        text, count = re.subn(rf"^{key} = .*$", f"{key} = {value}", text, flags=re.M)
        assert count == 1, key
    return text


class Tunnel:
    """A stunnel that listens at a port."""

    def __init__(self, folder, name, text, port):
        (folder / name).write_text(text)
        self.address = f"127.0.0.1:{port}"
        self.process = subprocess.Popen(["stunnel", name], cwd=folder, stderr=subprocess.DEVNULL)
        for _ in range(100):
            try:
                return socket.create_connection(("127.0.0.1", port)).close()
            except ConnectionRefusedError:
                time.sleep(0.05)
        raise AssertionError(f"{name}: no stunnel listens")

    def stop(self):
        self.process.terminate()
        self.process.wait()


def commands(server, tunnel):
    """What the owner's commands print through a tunnel; the last one is a reader's."""
    owner = lambda command, *words: server.owner(command, *words, over=tunnel).decode()
    yield from (owner("enrol", "alice"), owner("enrol", "bob"))
    yield server.create("note", "alice,bob", b"hello\n", over=tunnel).decode()
    line = owner("key", "bob").encode()
    yield server.reader(line, "note", over=tunnel).decode()
    yield from (owner("revoke", "bob", "note"), owner("list", "note"))


def status_of(server, *words):
    """The status with which the client ends."""
    try:
        server.client(*words)
    except subprocess.CalledProcessError as ended:
        return ended.returncode
    return 0


def main():
    folder, server = new_folder(), Server(new_folder())
    for name in ("server", "owner", "stranger", "other"):
        certify(folder, name)
    (folder / "clients.pem").write_text((folder / "owner.crt").read_text())
    port = free_port()
    front = Tunnel(folder, "front.conf", changed("stunnel-server.conf", accept=f"127.0.0.1:{port}", connect=server.address), port)

    def client(name, trusted):
        at = free_port()
        values = {"accept": f"127.0.0.1:{at}", "connect": f"127.0.0.1:{port}"}
        files = {"cert": f"{name}.crt", "key": f"{name}.key", "CAfile": f"{trusted}.crt"}
        return Tunnel(folder, f"{name}-{trusted}.conf", changed("stunnel-client.conf", **values, **files), at)

    tunnels = [front]
    try:
        tunnels.append(client("owner", "server"))
        printed = list(commands(server, tunnels[-1]))
        wanted = ["ok 1\n", "ok 2\n", "ok 3\n", "hello\n", "ok 4\n", "list note alice\n"]
        assert printed == wanted, printed
        for name, trusted in (("stranger", "server"), ("owner", "other")):
            tunnels.append(client(name, trusted))
            status = status_of(server, "epoch", tunnels[-1].address)
            assert status == LINK_FAULT, (name, trusted, status)
    finally:
        for tunnel in tunnels:
            tunnel.stop()
        server.stop()
    print("3 cases, 0 wrong")


if __name__ == "__main__":
    main()
