"""Logs whose two slots lie in different sectors: .ci/paxlog calls it."""
import os
import shutil
import subprocess

from paxlog_model import DRAWS, PROGRAM, apart, ask, check, file_of, path, read, read_log, root, together, write

def lays_out(room, names, digests):
    """A new log has its slots in two sectors; a part of them is completed, and no other file is."""
    log, head, grown = room + "/laid-out", apart(file_of([])), apart(file_of(digests[:1]))
    check("a new log", ask("append", log, names[0]) == (0, "1\n", "") and read(log) == grown)
    parts = [head[:size] for size in (0, 1, 12, 31, 32, 63, 64, 96, 97, 4095, 4096, 4128, 4160, 8191, 8192)]
    parts += [bytes(size) for size in (1, 96, 97, 4096, 8192)] + [bytes(4096) + head[4096:], head[:4096] + bytes(4096)]
    parts += [bytes(byte & DRAWS.choice((0, 255)) for byte in head) for _turn in range(4)]
    for part in parts:
        write(log, part)
        check("%d bytes of two sectors: they are completed" % len(part), ask("append", log, names[0]) == (0, "1\n", "") and read(log) == grown)
    for other in (bytes(8193), bytes(8191) + b"x", b"x" + bytes(95), head[:4000] + b"x", head[:64] + b"\n"):
        write(log, other)
        said = ask("append", log, names[0])
        check("%d other bytes" % len(other), read(log)[96:] == other[96:] and (said[0], read(log)[:96]) in ((3, other[:96]), (0, other[:96])))
    for size in (0, 1, 5):
        write(log, file_of(digests[:size]))
        check("an older log keeps its layout", ask("append", log, names[size])[0] == 0 and read(log) == file_of(digests[: size + 1]))
    os.remove(log)
    if not shutil.which("strace"):
        return
    for call, times in (("pwrite64", 5), ("fsync", 5)):
        for number in range(1, times + 1):
            for how in ("signal=KILL", "error=EIO", "error=ENOSPC"):
                trace = ["strace", "-o", "/dev/null", "-e", "trace=" + call, "-e", "inject=%s:%s:when=%d" % (call, how, number)]
                subprocess.run([*trace, PROGRAM, "append", log, names[0]], stdout=subprocess.PIPE, stderr=subprocess.PIPE)
                left = read(log)[:8192]
                check("%s %d of a new log, %s" % (call, number, how), left == head[: len(left)] or ask("root", log)[0] == 0)
                said = ask("append", log, names[1])
                check("%s %d of a new log, %s: it goes on" % (call, number, how), said in ((0, "1\n", ""), (0, "2\n", "")) and read_log(log) == file_of(digests[:2] if said[1] == "2\n" else digests[1:2]))
                os.remove(log)


def heals(room, names, digests):
    """A sector that is lost is written again before the log is appended to or signed."""
    log, key = room + "/healed", room + "/healed-key"
    ask("keygen", "healed.example", key)
    for size in (0, 1, 2, 5):
        whole, grown = apart(file_of(digests[:size])), apart(file_of(digests[: size + 1]))
        top = root(digests[:size]).hex()
        write(log, whole)
        signed = ask("checkpoint", log, "--key", key)
        for sector in (0, 4096):
            own = whole[sector : sector + 4096]
            for what, lost in (("zeros", bytes(4096)), ("random bytes", os.urandom(4096)), ("no title", bytes(32) + own[32:]), ("no slot", own[:32] + bytes(4064))):
                data, named = whole[:sector] + lost + whole[sector + 4096 :], "%s in sector %d of a log of %d: " % (what, sector, size)
                write(log, data)
                check(named + "it is read", ask("root", log) == (0, "%d %s\n" % (size, top), "") and read(log) == data)
                check(named + "an append", ask("append", log, names[size]) == (0, "%d\n" % (size + 1), "") and read(log) == grown)
                write(log, data)
                check(named + "an append after it", ask("append", log, "--after", size, top, names[size]) == (0, "%d\n" % (size + 1), "") and read(log) == grown)
                write(log, data)
                check(named + "it is signed", ask("checkpoint", log, "--key", key) == signed and read(log) == whole)
    both = bytes(8192) + whole[8192:]
    write(log, both)
    check("both sectors are lost: nothing is written", ask("append", log, names[size])[0] == 3 and read(log) == both)
    said = {"%d %s\n" % (count, root(digests[:count]).hex()) for count in (size, size + 1)}
    if shutil.which("strace"):
        for sector in (0, 4096):
            data = whole[:sector] + os.urandom(4096) + whole[sector + 4096 :]
            for call, times in (("pwrite64", 8), ("fsync", 7)):
                for number in range(1, times + 1):
                    for how in ("signal=KILL", "error=EIO"):
                        write(log, data)
                        trace = ["strace", "-o", "/dev/null", "-e", "trace=" + call, "-e", "inject=%s:%s:when=%d" % (call, how, number)]
                        subprocess.run([*trace, PROGRAM, "append", log, names[size]], stdout=subprocess.PIPE, stderr=subprocess.PIPE)
                        check("%s %d, %s: sector %d is lost" % (call, number, how, sector), ask("root", log)[1] in said)
        # a sector whose read is refused once: of these calls the first reads the first sector, the second one the second sector
        for number in (1, 2):
            write(log, whole)
            trace = ["strace", "-o", "/dev/null", "-e", "trace=pread64", "-e", "inject=pread64:error=EIO:when=%d" % number, "-P", log]
            ran = subprocess.run([*trace, PROGRAM, "append", log, names[size]], stdout=subprocess.PIPE, stderr=subprocess.PIPE)
            check("sector %d is refused: an append" % number, (ran.returncode, ran.stdout) == (0, b"%d\n" % (size + 1)) and read(log) == grown)
    for name in (log, key):
        os.remove(name)


def lies_apart(room, names, digests):
    log = room + "/apart"
    for size in (0, 1, 2, 5, len(digests) - 1):
        whole, said = apart(file_of(digests[:size])), (0, "%d %s\n" % (size, root(digests[:size]).hex()), "")
        write(log, whole)
        check("slots in two sectors: the root of %d" % size, ask("root", log) == said)
        check("slots in two sectors: it is a log", ask("check", log)[:2] == (0, "yes\n"))
        lost = [bytes(4096) + whole[4096:], whole[:4096] + bytes(4096) + whole[8192:], os.urandom(4096) + whole[4096:]]
        for number, data in enumerate(lost):
            write(log, data)
            check("lost sector %d: the root of %d" % (number, size), ask("root", log) == said and read(log) == data)
            if size:
                end = ask("prove", log, 0)
                check("lost sector %d: a proof" % number, end[0] == 0 and path(0, digests[:size]).hex() in end[1].replace("\n", ""))
            os.path.exists(log + "-new") and os.remove(log + "-new")
            check("lost sector %d: it is recovered" % number, ask("recover", log, log + "-new")[0] == 0)
            check("lost sector %d: the new file" % number, read(log + "-new") == apart(file_of(digests[:size])))
        write(log, whole)
        check("slots in two sectors: an append", ask("append", log, names[size]) == (0, "%d\n" % (size + 1), ""))
        check("slots in two sectors: the file", together(read(log)) == file_of(digests[: size + 1]))
        check("slots in two sectors: it lies as it did", read(log) == apart(file_of(digests[: size + 1])))
        write(log, lost[1])
        check("zeros for the second slot: an append", ask("append", log, names[size]) == (0, "%d\n" % (size + 1), ""))
        check("zeros for the second slot: both are there", together(read(log)) == file_of(digests[: size + 1]))
    for cut in (0, 32, 64, 4096, 4160, 8191):
        write(log, apart(file_of([]))[:cut])
        check("a file with sectors that is cut at %d" % cut, ask("root", log)[0] == 3)
    if not shutil.which("strace"):
        return
    before, after = apart(file_of(digests[:5])), {"%d %s\n" % (size, root(digests[:size]).hex()) for size in (5, 6)}
    for call, times in (("pwrite64", 6), ("fsync", 5)):
        for number in range(1, times + 1):
            for how in ("signal=KILL", "error=EIO"):
                write(log, before)
                trace = ["strace", "-o", "/dev/null", "-e", "trace=" + call, "-e", "inject=%s:%s:when=%d" % (call, how, number)]
                subprocess.run([*trace, PROGRAM, "append", log, names[5]], stdout=subprocess.PIPE, stderr=subprocess.PIPE)
                check("%s %d, %s: the log in two sectors" % (call, number, how), ask("root", log)[1] in after)
    # a sector whose read is refused: of these calls the first reads the first sector, the second one the second sector
    for number in (1, 2):
        write(log, before)
        trace = ["strace", "-o", "/dev/null", "-e", "trace=pread64", "-e", "inject=pread64:error=EIO:when=%d" % number, "-P", log]
        ran = subprocess.run([*trace, PROGRAM, "root", log], stdout=subprocess.PIPE, stderr=subprocess.PIPE)
        check("sector %d is refused: the log" % number, ran.stdout.decode() in after)
    os.remove(log)
