"""A conversation between a client and `openssl s_server`, whose bytes a relay writes down."""
import os
import socket
import subprocess
import tempfile
import threading
import time
from dataclasses import dataclass

from peers.tls_keys import read_key_log

PATIENCE = 30
# s_server can't say where it listens, and ends, where its socket's path has 32 bytes or more
FOLDER = {"prefix": "peer-", "dir": "/tmp"}


@dataclass
class Talk:
    """The bytes of both directions, what each side was given to send, and the secrets of the key log."""

    streams: dict
    said: dict
    secrets: dict


class Relay:
    """Takes one client, connects it to the server's socket, and keeps what passes."""

    def __init__(self, listening, server):
        self.listening, self.server = listening, server
        self.streams = {"client": bytearray(), "server": bytearray()}
        self.thread = threading.Thread(target=self.serve, daemon=True)
        self.thread.start()

    def serve(self):
        client, _ = self.listening.accept()
        server = socket.socket(socket.AF_UNIX)
        try:
            server.connect(self.server)
        except OSError:
            client.close()
            return
        back = threading.Thread(target=self.carry, args=(server, client, "server"), daemon=True)
        back.start()
        self.carry(client, server, "client")
        back.join()

    def carry(self, giver, taker, side):
        try:
            while octets := giver.recv(65536):
                self.streams[side] += octets
                taker.sendall(octets)
            taker.shutdown(socket.SHUT_WR)
        except OSError:
            pass

    def wait_for(self, side, length):
        """Until so many bytes have passed."""
        ends = time.monotonic() + PATIENCE
        while len(self.streams[side]) < length and time.monotonic() < ends:
            time.sleep(0.005)


def wait_for_path(path):
    ends = time.monotonic() + PATIENCE
    while not os.path.exists(path) and time.monotonic() < ends:
        time.sleep(0.01)


def make_certificate(folder):
    words = ["openssl", "req", "-x509", "-newkey", "rsa:2048", "-nodes", "-subj", "/CN=peer"]
    subprocess.run([*words, "-keyout", f"{folder}/key", "-out", f"{folder}/cert"], capture_output=True, check=True)


def start(words):
    return subprocess.Popen(words, stdin=subprocess.PIPE, stdout=subprocess.DEVNULL, stderr=subprocess.DEVNULL)


def start_server(suite, folder, certificate, more):
    files = ["-cert", f"{certificate}/cert", "-key", f"{certificate}/key", "-keylogfile", f"{folder}/log"]
    words = ["openssl", "s_server", "-unix", f"{folder}/server", "-naccept", "1", *files]
    server = start([*words, *suite.words_of_openssl(), *suite.words_of_server(), *more])
    wait_for_path(f"{folder}/server")
    return server


def start_client(is_gnutls, suite, folder, more):
    """The client, and the socket at which the relay waits for it."""
    if is_gnutls:
        listening = socket.create_server(("127.0.0.1", 0))
        words = ["gnutls-cli", "--insecure", "--priority", suite.priority(), "-p", str(listening.getsockname()[1]), "127.0.0.1"]
    else:
        listening = socket.socket(socket.AF_UNIX)
        listening.bind(f"{folder}/relay")
        listening.listen()
        words = ["openssl", "s_client", "-unix", f"{folder}/relay", *suite.words_of_openssl(), *more]
    return start(words), listening


def say(process, relay, side, octets, sealed_length):
    """Writes to a side, and waits until so many bytes have passed the relay. A side that has ended says nothing more."""
    before = len(relay.streams[side])
    try:
        process.stdin.write(octets)
        process.stdin.flush()
    except OSError:
        return
    relay.wait_for(side, before + sealed_length)


def end(process, octets):
    try:
        process.stdin.write(octets)
        process.stdin.close()
        process.wait(PATIENCE)
    except (OSError, subprocess.TimeoutExpired):
        process.kill()
        process.wait()


def converse(suite, certificate, turns, is_gnutls=False, more=()):
    """`turns` are pairs of a side and its bytes, or of a side and None for a key update, which s_client and s_server send at a line K; the
    peer's own, for which that asks, comes before its next record. The texts are digits, which no program takes for a command."""
    with tempfile.TemporaryDirectory(**FOLDER) as folder:
        server = start_server(suite, folder, certificate, [] if is_gnutls else more)
        client, listening = start_client(is_gnutls, suite, folder, more)
        relay = Relay(listening, f"{folder}/server")
        sides, said = {"client": client, "server": server}, {"client": b"", "server": b""}
        for side, octets in turns:
            if octets is None:
                # a record has more than its header of 5 bytes
                say(sides[side], relay, side, b"K\n", 6)
            else:
                say(sides[side], relay, side, octets, len(octets))
                said[side] += octets
        end(client, b"" if is_gnutls else b"Q\n")
        relay.thread.join(PATIENCE)
        end(server, b"")
        listening.close()
        return Talk({side: bytes(stream) for side, stream in relay.streams.items()}, said, read_key_log(f"{folder}/log"))
