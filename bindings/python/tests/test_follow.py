"""Following logs over HTTP from this machine: sites that hashlib makes, beside the program paxlog where PAXLOG names it."""
import base64
import hashlib
import http.server
import os
import shutil
import socket
import subprocess
import sys
import tempfile
import threading
import unittest
import urllib.request

import paxidore
from paxidore import notes

# a proxy would not reach this machine's own servers
os.environ["no_proxy"] = "*"

SEED, NAME = hashlib.sha256(b"follow").digest(), "example.com/log"
POLICY = notes.policy_of(notes.verifier_text(NAME, paxidore.ed25519.public_key(SEED)))


def sha(data):
    return hashlib.sha256(data).digest()


class Log:
    """A list of entries whose digests may be another log's from some place on, and its site."""

    def __init__(self, other_from=None):
        self.other_from = other_from
        self.levels = [[]]

    def grow(self, size):
        row = self.levels[0]
        for i in range(len(row), size):
            other = self.other_from is not None and i >= self.other_from
            row.append(sha(b"\0%s %d" % (b"other" if other else b"entry", i)))
        level = 0
        # only complete nodes are stored, those of every eighth level in tiles
        while len(self.levels[level]) > 1:
            if level + 1 == len(self.levels):
                self.levels.append([])
            below, above = self.levels[level], self.levels[level + 1]
            for i in range(len(above), len(below) // 2):
                above.append(sha(b"\1" + below[2 * i] + below[2 * i + 1]))
            level += 1
        return self

    def node(self, start, end):
        count = end - start
        if count & count - 1 == 0 and start % count == 0:
            return self.levels[count.bit_length() - 1][start // count]
        middle = start + (1 << (count - 1).bit_length() - 1)
        return sha(b"\1" + self.node(start, middle) + self.node(middle, end))

    def root(self, size):
        return self.node(0, size) if size else sha(b"")

    def path(self, index, start, end):
        if end - start == 1:
            return []
        middle = start + (1 << (end - start - 1).bit_length() - 1)
        if index < middle:
            return self.path(index, start, middle) + [self.node(middle, end)]
        return self.path(index, middle, end) + [self.node(start, middle)]

    def site(self, size):
        """The files of the log's site at a size, by their names."""
        files = {"checkpoint": notes.sign_checkpoint(SEED, NAME, self.root(size), size)}
        for level in range(0, len(self.levels), 8):
            row = self.levels[level][: size >> level]
            for index in range(-(-len(row) // 256)):
                tile = row[256 * index : 256 * index + 256]
                name = "%03d" % index if index < 1000 else "x%03d/%03d" % divmod(index, 1000)
                files["tile/%d/%s%s" % (level // 8, name, ".p/%d" % len(tile) if len(tile) < 256 else "")] = b"".join(tile)
        return files


class Server:
    """Serves files, which may be changed while it runs, and keeps the names that were asked for."""

    def __init__(self):
        self.files, self.asked, self.status = {}, [], 404
        site = self

        class Handler(http.server.BaseHTTPRequestHandler):
            def do_GET(self):
                name = self.path.lstrip("/")
                site.asked.append(name)
                data = site.files.get(name)
                self.send_response(200 if data is not None else site.status)
                self.send_header("Content-Length", str(len(data or b"")))
                self.end_headers()
                self.wfile.write(data or b"")

            def log_message(self, *words):
                pass

        self.server = http.server.ThreadingHTTPServer(("127.0.0.1", 0), Handler)
        self.url = "http://127.0.0.1:%d" % self.server.server_address[1]
        threading.Thread(target=self.server.serve_forever, daemon=True).start()

    def close(self):
        self.server.shutdown()
        self.server.server_close()


class Follows(unittest.TestCase):
    def setUp(self):
        self.site = Server()
        self.addCleanup(self.site.close)
        try:
            socket.create_connection(self.site.server.server_address, timeout=5).close()
        except OSError:
            self.skipTest("this machine does not reach its own servers")
        folder = tempfile.TemporaryDirectory()
        self.addCleanup(folder.cleanup)
        self.folder, self.state = folder.name, folder.name + "/state"

    def read(self, path):
        with open(path, "rb") as file:
            return file.read()

    def follow(self, **more):
        return paxidore.follow(self.site.url, POLICY, self.state, **more)

    def test_a_log_that_grows(self):
        log = Log()
        for size in (0, 1, 2, 3, 5, 8, 255, 256, 257, 511, 512, 700, 65535, 65536, 65537, 70000, 131073):
            self.site.files = log.grow(size).site(size)
            self.site.asked.clear()
            self.assertEqual(self.follow(), (size, log.root(size)))
            self.assertEqual(self.read(self.state), self.site.files["checkpoint"])
            self.assertLess(len(self.site.asked), 12)
        self.assertEqual(self.follow(), (131073, log.root(131073)))
        self.assertEqual(sorted(os.listdir(self.folder)), ["state", "state.lock"])
        # a full tile serves for the smaller one that is gone
        self.site.files = {name: data for name, data in log.grow(131328).site(131328).items() if ".p/" not in name}
        self.site.files["checkpoint"] = notes.sign_checkpoint(SEED, NAME, log.root(131100), 131100)
        self.site.files.update((name, data) for name, data in log.site(131100).items() if name.startswith(("tile/1", "tile/2")))
        self.assertEqual(self.follow().size, 131100)

    def test_from_a_function(self):
        files = Log().grow(9).site(9)

        def read(name):
            if name not in files:
                raise FileNotFoundError(name)
            return files[name]

        self.assertEqual(paxidore.follow(read, POLICY, self.state).size, 9)
        files = Log().grow(12).site(12)
        self.assertEqual(paxidore.follow(read, POLICY, self.state).size, 12)

    def refused(self, error, **more):
        before = self.read(self.state) if os.path.exists(self.state) else None
        with self.assertRaises(error) as raised:
            self.follow(**more)
        self.assertEqual(self.read(self.state) if os.path.exists(self.state) else None, before)
        return raised.exception

    def test_forks(self):
        for old, size, place in ((5, 9, 3), (5, 9, 0), (256, 700, 255), (300, 301, 299), (4, 4, 1)):
            for name in os.listdir(self.folder):
                os.remove(os.path.join(self.folder, name))
            self.site.files = Log().grow(old).site(old)
            self.follow()
            other = Log(place).grow(size)
            self.site.files = other.site(size)
            fork = self.refused(paxidore.Fork)
            self.assertEqual((fork.old, fork.new), (self.read(self.state), self.site.files["checkpoint"]))
            self.assertEqual(self.read(self.state + ".fork"), fork.new)
            if size == old:
                self.assertFalse(os.path.exists(self.state + ".fork-proof"))
                continue
            words = self.read(self.state + ".fork-proof").decode().split()
            self.assertEqual(words[:4], [str(old), other.root(old).hex(), str(size), other.root(size).hex()])
            self.assertTrue(
                paxidore.Log.verify_consistency(bytes.fromhex(words[1]), old, bytes.fromhex(words[3]), size, bytes.fromhex(words[4]))
            )
        log = Log()
        self.site.files = log.grow(3).site(3)
        self.refused(paxidore.OldCheckpoint)

    def test_sites_that_are_damaged(self):
        log = Log().grow(600)
        self.site.files = log.site(300)
        self.follow()
        good = log.site(600)
        for name in ("tile/0/000", "tile/0/001", "tile/1/000.p/2", "tile/0/002.p/88"):
            if name not in good:
                self.fail(name)
            for damaged in (good[name][:-32], good[name][:-1] + bytes([good[name][-1] ^ 1]), bytes(32) + good[name][32:], b"", good[name] + bytes(9000)):
                self.site.files = dict(good, **{name: damaged})
                self.site.asked.clear()
                try:
                    self.follow()
                    # not one of those that the proof needs, or its digests are not
                    os.replace(self.state, self.folder + "/used")
                    self.site.files = log.site(300)
                    self.follow()
                except (paxidore.WrongTiles, ValueError):
                    self.assertIn(name, self.site.asked)
                    self.assertEqual(self.read(self.state), log.site(300)["checkpoint"])
        for status in (404, 410, 500):
            self.site.files, self.site.status = {"checkpoint": good["checkpoint"]}, status
            self.refused(FileNotFoundError if status < 500 else OSError)
            self.site.files = {}
            self.refused(FileNotFoundError if status < 500 else OSError)
        self.site.files = dict(good, checkpoint=b"x" * 1000001)
        self.refused(ValueError)
        self.site.files = dict(good, checkpoint=good["checkpoint"][:-9])
        self.refused(paxidore.InvalidProof)
        self.site.files = good
        self.refused(paxidore.OtherOrigin, origin="another log")
        self.assertEqual(self.follow().size, 600)
        self.site.files = dict(good, **{name: bytes(len(data)) for name, data in good.items() if name != "checkpoint"})
        os.remove(self.state)
        self.refused(paxidore.WrongTiles)

    def test_states_that_are_none(self):
        self.site.files = Log().grow(5).site(5)
        for state in (b"", b"x", notes.sign_checkpoint(bytes(32), NAME, bytes(32), 3)):
            with open(self.state, "wb") as file:
                file.write(state)
            self.refused(paxidore.Refused)
        os.remove(self.state)
        os.symlink("elsewhere", self.state)
        self.refused(OSError)
        os.remove(self.state)
        with self.assertRaises(ValueError):
            paxidore.follow("ftp://127.0.0.1/", POLICY, self.state)
        with open(self.state + ".lock", "w") as file:
            import fcntl

            fcntl.flock(file, fcntl.LOCK_EX)
            self.refused(BlockingIOError)
            self.refused(BlockingIOError, wait=0.1)
        self.assertEqual(self.follow().size, 5)

    def test_proofs_of_entries(self):
        log = Log()
        for size in (1, 2, 7, 256, 257, 1000):
            self.site.files = log.grow(size).site(size)
            head = self.follow()
            for index in {0, size // 3, size // 2, size - 1}:
                path = paxidore.prove_inclusion(self.site.url, head, index)
                self.assertTrue(paxidore.Log.verify_inclusion(head.root, size, index, b"entry %d" % index, path))
            for index in (-1, size):
                with self.assertRaises(IndexError):
                    paxidore.prove_inclusion(self.site.url, head, index)

    def test_a_checksum_database(self):
        """The example gosum.py, over a database in the form of Go's."""
        name = "sum.example.com"
        records = [b"example.com/M%d v1.0.%d h1:x=\nexample.com/M%d v1.0.%d/go.mod h1:y=\n" % (i, i, i, i) for i in range(700)]
        log = Log()
        log.levels[0] = [sha(b"\0" + record) for record in records]
        log.grow(len(records))
        key = notes.verifier_text(name, paxidore.ed25519.public_key(SEED))

        def publish(size):
            note = notes.sign_checkpoint(SEED, name, log.root(size), size, origin="go.sum database tree")
            files = {name.replace("tile/", "tile/8/", 1): data for name, data in log.site(size).items() if name != "checkpoint"}
            files["latest"] = note
            for i, record in enumerate(records[:size]):
                files["lookup/example.com/!m%d@v1.0.%d" % (i, i)] = b"%d\n%s\n%s" % (i, record, note)
            self.site.files = files

        def ask(number, version=None):
            words = ["--key", key, self.site.url, self.state, "example.com/M%d" % number, "v1.0.%d" % (number if version is None else version)]
            example = os.path.join(os.path.dirname(os.path.dirname(os.path.abspath(__file__))), "examples", "gosum.py")
            ran = subprocess.run([sys.executable, example, *words], stdout=subprocess.PIPE, stderr=subprocess.PIPE)
            return ran.returncode, ran.stdout

        for size in (300, 700):
            publish(size)
            for number in (0, 255, 299):
                self.assertEqual(ask(number), (0, records[number]))
        before = self.read(self.state)
        self.site.files["lookup/example.com/!m7@v1.0.7"] = b"7\n" + records[8] + b"\n" + self.site.files["latest"]
        self.assertEqual(ask(7), (1, b""))
        self.site.files["lookup/example.com/!m7@v1.0.7"] = b"8\n" + records[8] + b"\n" + self.site.files["latest"]
        self.assertEqual(ask(7), (1, b""))
        publish(300)
        self.assertEqual(ask(7), (1, b""))
        self.assertEqual(self.read(self.state), before)

    def test_a_sigsum_proof(self):
        """The example sigsum.py, over proofs in the form of versions 1 and 2."""
        seeds = [bytes([n]) * 32 for n in range(5)]
        keys = [paxidore.ed25519.public_key(seed) for seed in seeds]
        files = [b"release %d" % n for n in range(7)]
        sums = [sha(sha(file)) for file in files]
        signed = [paxidore.ed25519.sign(seeds[1], b"sigsum.org/v1/tree-leaf\0" + checksum) for checksum in sums]
        log = Log()
        log.levels[0] = [sha(b"\0" + checksum + signature + sha(keys[1])) for checksum, signature in zip(sums, signed)]
        log.grow(len(files))

        def proof(version, number, size, time=1700000000):
            root = log.root(size)
            text = b"sigsum.org/v1/tree/%s\n%d\n%s\n" % (sha(keys[0]).hex().encode(), size, base64.b64encode(root))
            short = sums[number][:2].hex() + " " if version == 1 else ""
            lines = ["version=%d" % version, "log=" + sha(keys[0]).hex()]
            lines += ["leaf=%s%s %s" % (short, sha(keys[1]).hex(), signed[number].hex()), ""]
            lines += ["size=%d" % size, "root_hash=" + root.hex(), "signature=" + paxidore.ed25519.sign(seeds[0], text).hex()]
            for seed, key in zip(seeds[2:], keys[2:]):
                cosigned = paxidore.ed25519.sign(seed, b"cosignature/v1\ntime %d\n%s" % (time, text)).hex()
                lines.append("cosignature=%s %d %s" % (sha(key).hex(), time, cosigned))
            if size > 1:
                lines += ["", "leaf_index=%d" % number] + ["node_hash=" + node.hex() for node in log.path(number, 0, size)]
            return "\n".join(lines) + "\n"

        def ask(text, number, *words, submitter=keys[1]):
            for name, data in (("/proof", text.encode()), ("/file", files[number])):
                with open(self.folder + name, "wb") as file:
                    file.write(data)
            example = os.path.join(os.path.dirname(os.path.dirname(os.path.abspath(__file__))), "examples", "sigsum.py")
            words = ["--log", keys[0].hex(), "--submitter", submitter.hex(), *words, self.folder + "/proof", self.folder + "/file"]
            return subprocess.run([sys.executable, example, *words], stderr=subprocess.PIPE).returncode

        three = [word for key in keys[2:] for word in ("--witness", key.hex())]
        for version, number, size in ((1, 0, 1), (2, 0, 1), (1, 3, 7), (2, 6, 7)):
            self.assertEqual(ask(proof(version, number, size), number, *three, "--quorum", "3"), 0)
        text = proof(2, 3, 7)
        self.assertEqual(ask(text, 3), 0)
        cut = "\n".join(line for line in text.split("\n") if sha(keys[2]).hex() not in line)
        self.assertEqual([ask(cut, 3, *three, "--quorum", str(quorum)) for quorum in (2, 3)], [0, 1])
        others = [text.replace("leaf_index=3", "leaf_index=2"), text.replace("size=7", "size=6"), text.replace("version=2", "version=1")]
        others += [text.replace(log.path(3, 0, 7)[0].hex(), "00" * 32), text.replace(log.root(7).hex(), "00" * 32), text[:300], ""]
        others += [text.replace("1700000000", "1700000001")]
        self.assertEqual([ask(other, 3, *three, "--quorum", "1") for other in others], [1] * len(others))
        self.assertEqual([ask(text, 4), ask(text, 3, submitter=keys[2])], [1, 1])

    @unittest.skipUnless(shutil.which("go") and os.path.isdir("/usr/share/gocode/src/golang.org/x/mod/sumdb"), "no Go with golang.org/x/mod")
    def test_a_checksum_database_of_go(self):
        """The example gosum.py, over a server of golang.org/x/mod/sumdb."""
        top = os.path.dirname(os.path.dirname(os.path.dirname(os.path.abspath(__file__))))
        go = {**os.environ, "GO111MODULE": "off", "GOPATH": "/usr/share/gocode", "GOFLAGS": ""}
        program = self.folder + "/sumdb"
        subprocess.run(["go", "build", "-o", program, top + "/go/sumdb.go"], env=go, cwd=self.folder, check=True)
        with subprocess.Popen([program], stdout=subprocess.PIPE) as server:
            self.addCleanup(server.kill)
            key, address = server.stdout.readline().decode().split()
            for size in (3, 300, 700):
                for number in range(size):
                    with urllib.request.urlopen("%s/lookup/example.com/!m%d@v1.0.0" % (address, number)) as answer:
                        answer.read()
                for number in (0, size // 2, size - 1):
                    words = ["--key", key, address, self.state, "example.com/M%d" % number, "v1.0.0"]
                    ran = subprocess.run([sys.executable, top + "/python/examples/gosum.py", *words], stdout=subprocess.PIPE, check=True)
                    self.assertEqual(ran.stdout.count(b"example.com/M%d v1.0.0" % number), 2)
            server.kill()

    @unittest.skipUnless("PAXLOG" in os.environ, "no program paxlog is named")
    def test_beside_paxlog(self):
        def ask(*words):
            ran = subprocess.run([os.environ["PAXLOG"], *words], stdout=subprocess.PIPE, cwd=self.folder, check=True)
            return ran.stdout.decode()

        policy = notes.policy_of(ask("keygen", NAME, "key").strip())
        for i in range(4):
            with open(self.folder + "/lines", "w") as file:
                file.writelines("%d %d\n" % (i, j) for j in range(200))
            ask("append-lines", "log", "lines")
            said = ask("tiles", "log", "site", "--key", "key").split()
            for at, _, names in os.walk(self.folder + "/site"):
                for name in names:
                    path = os.path.join(at, name)
                    self.site.files[os.path.relpath(path, self.folder + "/site")] = self.read(path)
            # in turn, over one state
            if i % 2 == 0:
                head = paxidore.follow(self.site.url, policy, self.state)
                self.assertEqual([str(head.size), head.root.hex()], said)
            else:
                self.assertEqual(ask("follow", "site", policy.split()[1], "state").split(), said)
        self.assertEqual(ask("follow", "site", policy.split()[1], "state").split(), said)


if __name__ == "__main__":
    unittest.main()
