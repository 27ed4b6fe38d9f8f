"""What the scripts beside this one share: a server that says what a script makes it say, a relay that cuts data connections, the tool, and rows.

A script takes the built program from the environment, in TOOL (crates/ftp_tool/out/ftp_tool, seen from the top of the repository, where it is
not set), speaks to the loopback alone, works in a folder of its own below the system's folder of temporary files, and ends with the line
'N passed, M failed' and the status 0 where M is 0.
"""
import os
import re
import shutil
import socket
import subprocess
import sys
import tempfile
import threading
from pathlib import Path

TOP = Path(__file__).resolve().parent.parent.parent
TOOL = str(Path(os.environ.get("TOOL", TOP / "crates/ftp_tool/out/ftp_tool")).resolve())
SECONDS = 120


class Rows:
    """Rows that passed and failed, and the folder in which they run."""

    def __init__(self):
        if not os.access(TOOL, os.X_OK):
            sys.exit(f"no program {TOOL}: build it, or name it in TOOL")
        self.folder = Path(tempfile.mkdtemp(prefix="ftp_attacks_"))
        self.passed = self.failed = 0

    def row(self, what, holds, seen=""):
        """Counts a row, and prints one that fails with what was seen."""
        if holds:
            self.passed += 1
            print(f"passed: {what}")
        else:
            self.failed += 1
            print(f"FAILED: {what}: {seen}")

    def finish(self):
        """Prints the last line, and ends the script."""
        shutil.rmtree(self.folder, ignore_errors=True)
        print(f"{self.passed} passed, {self.failed} failed")
        sys.exit(1 if self.failed else 0)

    def tool(self, *words, seconds=SECONDS):
        """Runs the tool in the folder: its status, standard output and standard error."""
        return self.tool_in(self.folder, None, *words, seconds=seconds)

    def tool_in(self, folder, script, *words, seconds=SECONDS):
        """The same in another folder, with a script on standard input."""
        done = subprocess.run([TOOL, *words], cwd=folder, input=script or b"", capture_output=True, timeout=seconds)
        return done.returncode, done.stdout, done.stderr


def stop(listener, accepting):
    """Ends a listener, and the thread that waits at it: it would wait on behind a close alone, at a descriptor that the next listener may have."""
    try:
        listener.shutdown(socket.SHUT_RDWR)
    except OSError:
        pass
    accepting.join()
    listener.close()


class FakeServer:
    """A server on a port of the loopback. `says` maps a verb to the reply to it, or to a function of the session and the argument."""

    def __init__(self, says):
        self.says, self.commands = says, []
        self.listener = socket.create_server(("127.0.0.1", 0))
        self.port = self.listener.getsockname()[1]
        self.accepting = threading.Thread(target=self.accept, daemon=True)
        self.accepting.start()

    def accept(self):
        while True:
            try:
                connection = self.listener.accept()[0]
            except OSError:
                return
            threading.Thread(target=Session(self, connection).serve, daemon=True).start()

    def close(self):
        stop(self.listener, self.accepting)


class Session:
    """A control connection of a fake server."""

    PLAIN = {"USER": "331 password", "PASS": "230 in", "TYPE": "200 ok", "STRU": "200 ok", "MODE": "200 ok", "QUIT": "221 bye"}

    def __init__(self, server, connection):
        self.server, self.connection = server, connection
        self.data = None
        self.offset = 0

    def reply(self, text):
        self.connection.sendall(text.encode("latin1") + b"\r\n")

    def serve(self):
        try:
            self.reply("220 ready")
            for line in self.connection.makefile("rb"):
                self.obey(line.rstrip(b"\r\n").decode("latin1"))
        except OSError:
            pass
        finally:
            self.connection.close()

    def obey(self, line):
        self.server.commands.append(line)
        verb, _, argument = line.partition(" ")
        says = self.server.says.get(verb)
        if callable(says):
            says(self, argument)
        elif says is not None:
            self.reply(says)
        elif verb == "REST":
            self.offset = int(argument)
            self.reply("350 restart")
        elif verb in ("PASV", "EPSV"):
            self.passive(verb)
        else:
            self.reply(self.PLAIN.get(verb, "500 what"))

    def passive(self, verb):
        self.data = socket.create_server(("127.0.0.1", 0))
        port = self.data.getsockname()[1]
        if verb == "EPSV":
            self.reply(f"229 here (|||{port}|)")
        else:
            self.reply(f"227 here (127,0,0,1,{port >> 8},{port & 255})")

    def send(self, octets, last="226 done"):
        """Sends octets over the data connection, ends it cleanly, and then replies."""
        self.reply("150 here")
        link = self.data.accept()[0]
        link.sendall(octets)
        link.close()
        self.data.close()
        self.reply(last)

    def receive(self, last="226 done"):
        """Takes all octets of the data connection, and then replies."""
        self.reply("150 here")
        link = self.data.accept()[0]
        count = 0
        while octets := link.recv(65536):
            count += len(octets)
        link.close()
        self.data.close()
        self.reply(last)
        return count


class Relay:
    """Stands before a server, and cuts the data connection of each number from 0 that `cuts` has behind so many octets, cleanly."""

    def __init__(self, port, cuts):
        self.target, self.cuts, self.count = port, cuts, 0
        self.listener = socket.create_server(("127.0.0.1", 0))
        self.port = self.listener.getsockname()[1]
        self.accepting = threading.Thread(target=self.accept, daemon=True)
        self.accepting.start()

    def close(self):
        stop(self.listener, self.accepting)

    def accept(self):
        while True:
            try:
                client = self.listener.accept()[0]
            except OSError:
                return
            server = socket.create_connection(("127.0.0.1", self.target))
            threading.Thread(target=pump, args=(client, server), daemon=True).start()
            threading.Thread(target=self.replies, args=(server, client), daemon=True).start()

    def replies(self, server, client):
        """Passes replies on, with the port of a relay of its own for that of each data connection."""
        try:
            for line in server.makefile("rb"):
                found = re.match(rb"229 .*\(\|\|\|(\d+)\|\)", line)
                if found:
                    line = b"229 here (|||%d|)\r\n" % self.data(int(found[1]))
                found = re.match(rb"227 .*?(\d+),(\d+),(\d+),(\d+),(\d+),(\d+)", line)
                if found:
                    port = self.data(int(found[5]) * 256 + int(found[6]))
                    line = b"227 here (127,0,0,1,%d,%d)\r\n" % (port >> 8, port & 255)
                client.sendall(line)
            client.shutdown(socket.SHUT_WR)
        except OSError:
            client.close()

    def data(self, port):
        listener = socket.create_server(("127.0.0.1", 0))
        number, self.count = self.count, self.count + 1
        threading.Thread(target=self.link, args=(listener, port, self.cuts.get(number)), daemon=True).start()
        return listener.getsockname()[1]

    def link(self, listener, port, cut):
        client = listener.accept()[0]
        listener.close()
        server = socket.create_connection(("127.0.0.1", port))
        threading.Thread(target=pump, args=(client, server), daemon=True).start()
        pump(server, client, cut)


def pump(source, sink, cut=None):
    """Passes octets on to the end; with a cut behind so many, and then both connections end cleanly."""
    left = cut
    try:
        while left is None or left > 0:
            octets = source.recv(65536 if left is None else min(left, 65536))
            if not octets:
                sink.shutdown(socket.SHUT_WR)
                return
            sink.sendall(octets)
            left = None if left is None else left - len(octets)
        for end in (sink, source):
            end.shutdown(socket.SHUT_RDWR)
    except OSError:
        sink.close()


class OwnServer:
    """`serve` of the tool over a folder, in which anonymous may change all."""

    def __init__(self, folder, *more):
        folder.mkdir(exist_ok=True)
        words = [TOOL, "serve", "--port", "0", "--dir", str(folder), "--sessions", "forever", *more]
        self.process = subprocess.Popen(words, stdout=subprocess.PIPE, stderr=subprocess.DEVNULL)
        self.port = int(self.process.stdout.readline().split()[-1].rsplit(b":")[-1])

    def close(self):
        self.process.kill()
        self.process.wait()
