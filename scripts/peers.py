"""The servers that `speed` measures, each over a folder of its own."""
import os
import pwd
import socket
import subprocess
import time
from pathlib import Path

PEERS = ("vsftpd", "proftpd", "pure-ftpd", "pyftpdlib")
# What crypt makes of "secret": the cheapest form, so that a login of pure-ftpd costs no more than those of others.
SECRET = "abNANd1rDfiNc"
# The bare server: it reads a file and writes the link, or reads the link, writes a file beside, flushes and renames it, by pieces.
BARE = r"""
#include <arpa/inet.h>
#include <fcntl.h>
#include <stdio.h>
#include <stdlib.h>
#include <sys/socket.h>
#include <unistd.h>
static char piece[262144];
static int pass(int from, int to) {
  ssize_t got;
  while ((got = read(from, piece, sizeof piece)) > 0)
    for (ssize_t at = 0, put; at < got; at += put)
      if ((put = write(to, piece + at, got - at)) < 0) return 1;
  return got != 0;
}
int main(int count, char **words) {
  struct sockaddr_in at = {.sin_family = AF_INET, .sin_port = htons(atoi(words[1])), .sin_addr.s_addr = htonl(INADDR_LOOPBACK)};
  int door = socket(AF_INET, SOCK_STREAM, 0), one = 1;
  setsockopt(door, SOL_SOCKET, SO_REUSEADDR, &one, sizeof one);
  if (count != 3 || chdir(words[2]) || bind(door, (struct sockaddr *)&at, sizeof at) || listen(door, 5)) return 1;
  for (;;) {
    int link = accept(door, 0, 0);
    char what = 0;
    if (link < 0 || read(link, &what, 1) != 1) return 1;
    if (what == 'g') {
      int file = open("big", O_RDONLY);
      if (file < 0 || pass(file, link)) return 1;
      close(file);
    }
    if (what == 'p') {
      int file = open("d/.came", O_WRONLY | O_CREAT | O_EXCL, 0644);
      if (file < 0 || pass(link, file) || fsync(file) || close(file) || rename("d/.came", "d/came")) return 1;
    }
    close(link);
  }
}
"""
VSFTPD = """listen=YES
listen_port=%d
listen_address=127.0.0.1
background=NO
anonymous_enable=YES
anon_root=%s
no_anon_password=YES
ftp_username=bin
write_enable=YES
anon_upload_enable=YES
anon_mkdir_write_enable=YES
anon_other_write_enable=YES
anon_world_readable_only=NO
allow_writeable_chroot=YES
anon_umask=022
secure_chroot_dir=%s
isolate=NO
isolate_network=NO
seccomp_sandbox=NO
"""
PROFTPD = """ServerName "speed"
ServerType standalone
Port %d
DefaultAddress 127.0.0.1
UseIPv6 off
UseReverseDNS off
AuthOrder mod_auth_unix.c
WtmpLog off
TransferLog none
SystemLog none
ScoreboardFile %s/board
PidFile %s/pid
<Anonymous %s>
User nobody
Group nogroup
UserAlias anonymous nobody
RequireValidShell off
AllowOverwrite on
<Limit ALL>
AllowAll
</Limit>
</Anonymous>
"""


def free_port():
    with socket.socket() as door:
        door.bind(("127.0.0.1", 0))
        return door.getsockname()[1]


class Lacking(Exception):
    """Why a server is not measured."""


class Server:
    """A running server over a folder of its own."""

    def __init__(self, kind, program, folder, room, peers):
        self.kind, self.folder, self.room, self.peers = kind, Path(folder), Path(room), peers
        self.port = free_port()
        words, env = self.words(kind, program)
        self.program = program
        self.said = open(self.room / f"{kind}.log", "wb")
        begun = time.perf_counter()
        self.process = subprocess.Popen(words, stdin=subprocess.DEVNULL, stdout=self.said, stderr=self.said, env={**os.environ, **env})
        self.await_port()
        self.started = time.perf_counter() - begun

    def again(self):
        """Another one over the same folder."""
        return Server(self.kind, self.program, self.folder, self.room, self.peers)

    def find(self, name):
        below = [self.peers / "usr/sbin", self.peers / "usr/bin"] if self.peers else []
        for place in [*below, *map(Path, os.environ["PATH"].split(":")), Path("/usr/sbin")]:
            if (place / name).is_file():
                return str(place / name)
        raise Lacking(f"no {name} (see --help)")

    def words(self, kind, program):
        port, folder, room = self.port, self.folder, self.room
        libraries = f"{self.peers}/usr/lib/x86_64-linux-gnu:{self.peers}/lib/x86_64-linux-gnu" if self.peers else ""
        env = {"LD_LIBRARY_PATH": libraries} if libraries else {}
        if program:
            told = subprocess.run([program, "serve", "--help"], stdout=subprocess.PIPE, check=False).stdout
            every = ["--any"] if b"--any" in told else []
            return [program, "serve", "--port", str(port), "--dir", str(folder), "--sessions", "forever", *every], {}
        if kind == "bare":
            return [str(room / "bare"), str(port), str(folder)], {}
        if kind == "vsftpd":
            (room / "empty").mkdir(exist_ok=True)
            (room / "vsftpd.conf").write_text(VSFTPD % (port, folder, room / "empty"))
            return [self.find("vsftpd"), str(room / "vsftpd.conf")], env
        if kind == "proftpd":
            (room / "proftpd.conf").write_text(PROFTPD % (port, room, room, folder))
            return [self.find("proftpd"), "-n", "-q", "-c", str(room / "proftpd.conf")], env
        if kind == "pure-ftpd":
            users, known = room / "pure.users", room / "pure.pdb"
            nobody = pwd.getpwnam("nobody")
            users.write_text(f"guest:{SECRET}:{nobody.pw_uid}:{nobody.pw_gid}::{folder}/./::::::::::::\n")
            subprocess.run([self.find("pure-pw"), "mkdb", str(known), "-f", str(users)], env={**os.environ, **env}, check=True)
            words = [self.find("pure-ftpd"), "-S", f"127.0.0.1,{port}", "-l", f"puredb:{known}", "-E", "-H", "-L", "500000:8", "-m", "1000"]
            return [*words, "-g", str(room / "pure.pid")], env
        packages = f"{self.peers}/usr/lib/python3/dist-packages" if self.peers else ""
        env = {"PYTHONPATH": packages} if packages else {}
        if subprocess.run(["/usr/bin/python3", "-c", "import pyftpdlib"], env={**os.environ, **env}, stderr=subprocess.DEVNULL).returncode:
            raise Lacking("no pyftpdlib (see --help)")
        return ["/usr/bin/python3", "-m", "pyftpdlib", "-i", "127.0.0.1", "-p", str(port), "-w", "-d", str(folder)], env

    def await_port(self):
        for _ in range(20_000):
            if self.process.poll() is not None:
                break
            with open("/proc/net/tcp", encoding="ascii") as it:
                if any(line.split()[1].endswith(f":{self.port:04X}") and line.split()[3] == "0A" for line in it.readlines()[1:]):
                    return
            time.sleep(0.002)
        text = (self.room / f"{self.kind}.log").read_text(errors="replace")[-300:]
        raise Lacking(f"{self.kind} does not start: {text}")

    def tree(self):
        """The process and all below it."""
        parents = {}
        for it in Path("/proc").iterdir():
            if it.name.isdigit():
                try:
                    parents[int(it.name)] = int((it / "stat").read_text().rpartition(")")[2].split()[1])
                except OSError:
                    pass
        found = [self.process.pid]
        for parent in found:
            found += [pid for pid, its in parents.items() if its == parent]
        return found

    def cpu_seconds(self):
        """Seconds of a processor, of all its processes."""
        fields = [Path(f"/proc/{pid}/stat").read_text().rpartition(")")[2].split() for pid in self.tree()]
        return sum(int(it[11]) + int(it[12]) for it in fields) / os.sysconf("SC_CLK_TCK")

    def memory(self, what="VmHWM"):
        """Of its processes the most memory that one has (`VmRSS`), or ever had (`VmHWM`), in MiB."""
        found = [line.split() for pid in self.tree() for line in Path(f"/proc/{pid}/status").read_text().splitlines()]
        return max(int(it[1]) for it in found if it and it[0] == f"{what}:") / 1024

    def shares(self):
        """What all its processes have for themselves, with their shares of what they have together, in MiB."""
        lines = [line.split() for pid in self.tree() for line in Path(f"/proc/{pid}/smaps_rollup").read_text().splitlines()]
        return sum(int(it[1]) for it in lines if it[0] == "Pss:") / 1024

    def stop(self):
        self.process.terminate()
        self.process.wait(20)
        self.said.close()
