#!/bin/sh
# Makes a store of several regions with mail, a message in an attachment and a search folder in it, and has other readers of .pst files read it: libpst's `readpst` and libpff's `pffexport`, where they are installed (Debian: pst-utils and pff-tools).
# They also read the store with its blocks encoded by each of the two methods, which `decode` then makes the store again, byte for byte; and the copy without holes that `compact` makes of it, which must be the one that bench/compact_stores.py makes.
# Says of each what of the mail it found, and what not.
# Needs crates/pstore/out/pstore, which ./pstore builds, or the program named by PSTORE.
cd "$(dirname "$0")/.." || exit 1
exec python3 - "${PSTORE:-crates/pstore/out/pstore}" <<'END'
import base64, os, re, shutil, struct, subprocess, sys, tempfile, zlib

program, folder = sys.argv[1], tempfile.mkdtemp()
path = os.path.join(folder, "mail.pst")
DATA = bytes(i * i % 251 for i in range(800_000))  # fills some regions
LINES = [
    "mkdir 0x8022 Inbox", "mkdir 0x8082 Projects", "new 0x8082 IPM.Note 133500000000000000",
    "set 0x200024 0x0037001f Hello", "set 0x200024 0x1000001f Body of the first", "set 0x200024 0x0c1a001f Alice", "set 0x200024 0x0042001f Alice",
    "rcpt 0x200024 1 bob@example.org Bob", "rcpt 0x200024 2 carol@example.org Carol", "attach 0x200024 note.txt 48656c6c6f",
    "new 0x80a2 IPM.Note 133500000000000000", "set 0x200044 0x0037001f Second", "attach 0x200044 big.bin " + DATA[:400_000].hex(), "append 0x200044 0x8025 " + DATA[400_000:].hex(),
    "new 0x8082 IPM.Note 133500000000000000", "set 0x200064 0x0037001f A letter", "set 0x200064 0x1000001f Body of the letter", "rcpt 0x200064 1 dan@example.org Dan", "attach 0x200064 sketch.txt 536b65746368",
    "embed 0x200024 0x200064 letter.msg", "rm 0x200064", "eset 0x200024 0x8045 0x0037001f A letter within",
    "mksearch 0x8042 Greetings", "criteria 0x80023 0x6 0x8082 03010001001f0037001f00370068000000",  # the subject begins with `h`
    "name 0329060000000000c000000000000046 0x8554",  # libpff wants a name that is known
    "save",
]
subprocess.run([program, "new", path, "Mail"], check=True, stdout=subprocess.DEVNULL)
said = subprocess.run([program, "run", path], input="".join(line + "\n" for line in LINES).encode(), check=True, stdout=subprocess.PIPE).stdout
assert b"no " not in said, said


def texts(of):
    """The bytes of all that stands in a folder, with the names."""
    found = b""
    for at, folders, files in os.walk(of):
        found += "\n".join([at, *folders, *files]).encode()
        for name in files:
            with open(os.path.join(at, name), "rb") as it:
                found += it.read()
    return found


def tell(reader, words, wanted):
    if not shutil.which(reader):
        return print(f"{reader:10} is not installed")
    for kind, file in files.items():
        to = os.path.join(folder, reader, kind)
        os.makedirs(to)
        done = subprocess.run([reader, *words(to), file], stdout=subprocess.PIPE, stderr=subprocess.STDOUT)
        found = texts(to)
        lost = [name for name, it in wanted.items() if it not in found]
        print(f"{reader:10} {kind:10} status {done.returncode}, " + (f"not found: {', '.join(lost)}" if lost else f"all found: {', '.join(wanted)}"))


# The tables of [MS-PST] 5.1.
with open("crates/block_encoding/src/tables.rt") as it:
    R, S, I = (bytes(int(byte, 16) for byte in re.findall("0x..", table)) for table in re.findall(r"= \[(.*?)\];", it.read(), re.S))


def crc(data):
    return zlib.crc32(data, 0xFFFFFFFF) ^ 0xFFFFFFFF


def encoded(method, bid, data):
    """The data of a block, encoded (5.1, 5.2)."""
    if method == 1:
        return data.translate(R)
    word, out = (bid >> 16 & 0xFFFF) ^ (bid & 0xFFFF), bytearray()
    for byte in data:
        low, high = word & 0xFF, word >> 8
        out.append(I[S[R[byte + low & 0xFF] + high & 0xFF] - high & 0xFF] - low & 0xFF)
        word = word + 1 & 0xFFFF
    return bytes(out)


def block_entries(file, ib):
    """The entries of the block tree below a page (2.2.2.7.7)."""
    count, size, level = file[ib + 488], file[ib + 490], file[ib + 491]
    for at in range(ib, ib + count * size, size):
        if level:
            yield from block_entries(file, struct.unpack_from("<Q", file, at + 16)[0])
        else:
            yield struct.unpack_from("<QQH", file, at)


def encode(file, method):
    """A file whose data blocks are encoded."""
    out = bytearray(file)
    for bid, ib, cb in block_entries(file, struct.unpack_from("<Q", file, 240)[0]):
        if not bid & 2:
            out[ib:ib + cb] = encoded(method, bid, file[ib:ib + cb])
            struct.pack_into("<I", out, ib + (cb + 79) // 64 * 64 - 12, crc(out[ib:ib + cb]))
    out[513] = method
    struct.pack_into("<I", out, 524, crc(out[8:524]))
    return bytes(out)


def ask(*words):
    return subprocess.run([program, *words], stdin=subprocess.DEVNULL, stdout=subprocess.PIPE, stderr=subprocess.DEVNULL).stdout.decode().strip()


with open(path, "rb") as it:
    store = it.read()
files = {"plain": path}
for name, method in {"permuted": 1, "cyclic": 2}.items():
    files[name] = os.path.join(folder, name + ".pst")
    with open(files[name], "wb") as it:
        it.write(encode(store, method))
    back = os.path.join(folder, name + ".decoded")
    said = ask("decode", files[name], back)
    with open(back, "rb") as it:
        print(f"{'decode':10} {name:10} {said}: " + ("the store again" if it.read() == store else "NOT the store"))


short = files["compact"] = os.path.join(folder, "short.pst")
said = ask("compact", path, short)
sys.path.insert(0, "bench")
from compact_stores import Copy, Source
with open(short, "rb") as it:
    print(f"{'compact':10} {'plain':10} {said}: " + ("the copy of the format" if it.read() == Copy(Source(store)).made() else "NOT the copy of the format"))


def lines_of(data):
    """The first lines of data in base64, as mail has them."""
    return base64.b64encode(data[:57])


SAID = {"folders": b"Projects", "subjects": b"Second", "body": b"Body of the first", "sender": b"Alice"}
SAID |= {"embedded subject": b"A letter within", "embedded body": b"Body of the letter"}
tell("readpst", lambda to: ["-q", "-M", "-o", to], SAID | {"attachment": base64.b64encode(b"Hello"), "long attachment": lines_of(DATA), "embedded message": b"message/rfc822", "embedded attachment": base64.b64encode(b"Sketch")})
tell("pffexport", lambda to: ["-q", "-t", os.path.join(to, "all")], SAID | {"search folder": b"Greetings", "recipients": b"carol@example.org", "attachment": b"Hello", "long attachment": DATA, "embedded recipient": b"dan@example.org", "embedded attachment": b"Sketch"})
shutil.rmtree(folder)
END
