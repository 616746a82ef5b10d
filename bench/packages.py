"""Programs of Debian's source packages Lua, zlib, bzip2, LZ4, pugixml, cJSON and Duktape, built for a RISC-V processor
without a system.

`packages/` has what each of them wants beside its own code: a main function, standard input, and what is run. Their
sources are fetched by `apt-get` from a mirror of Debian 12, which checks them by the archive's keys, and used as
their authors wrote them, without Debian's patches.
"""
import dataclasses
import glob
import os
import subprocess
import sys
import tempfile

BENCH = os.path.dirname(os.path.abspath(__file__))
OWN = os.path.join(BENCH, "packages")
CACHE = os.path.join(os.environ.get("XDG_CACHE_HOME", os.path.expanduser("~/.cache")), "sudrepka")
KEYS = "/usr/share/keyrings/debian-archive-keyring.gpg"
MIRROR = f"deb-src [signed-by={KEYS}] http://deb.debian.org/debian bookworm main\n"


@dataclasses.dataclass
class Program:
    """A program of a package: its folder of sources, files of it that are compiled, and those that aren't."""

    source: str
    folder: str
    code: list
    own: list = ()
    without: list = ()
    flags: list = ()
    words: list = ()
    given: str = ""  # the file that is standard input, in the folder of sources or in `packages`
    length: int = 1 << 20  # how many bytes of that
    reported: bool = True  # whether `report.py` tries it, if no program is named

    def files(self, sources):
        top = os.path.join(sources, self.folder)
        found = sorted(file for pattern in self.code for file in glob.glob(os.path.join(top, pattern)))
        return [file for file in found if os.path.basename(file) not in self.without]

    def include(self, sources):
        return sorted({os.path.dirname(file) for file in self.files(sources)}) + [OWN]

    def input(self, sources):
        if not self.given:
            return b""
        for folder in (os.path.join(sources, self.folder), OWN):
            path = os.path.join(folder, self.given)
            if os.path.isfile(path):
                with open(path, "rb") as file:
                    return file.read(self.length)
        raise FileNotFoundError(self.given)


PACKAGES = {
    "lua": Program("lua5.4", "lua-5.4.4", ["src/*.c"], without=["luac.c"], words=["-"], given="work.lua",
                   # a seed not made of addresses, and no pieces of pointers in padding: runs would be stuck on them
                   flags=["-DLUA_USE_C89", "-Dluai_makeseed(L)=1u", "-ftrivial-auto-var-init=zero"]),
    "zpipe": Program("zlib", "zlib-1.2.13.dfsg", ["*.c", "examples/zpipe.c"], given="deflate.c", length=16384,
                     without=["gzclose.c", "gzlib.c", "gzread.c", "gzwrite.c"]),
    "bzip2": Program("bzip2", "bzip2-1.0.8", ["[bcdhr]*.c"], own=["bzip_pipe.c"], given="compress.c", length=8192,
                     without=["bzip2.c", "bzip2recover.c", "dlltest.c"], flags=["-DBZ_NO_STDIO"]),
    "lz4": Program("lz4", "lz4-1.9.4", ["lib/lz4.c", "lib/lz4hc.c"], own=["lz4_pipe.c"], given="lib/lz4hc.c",
                   length=16384),
    "pugixml": Program("pugixml", "pugixml-1.13", ["src/pugixml.cpp"], own=["xml_outline.cc"],
                       given="outline.xml",
                       flags=["-DPUGIXML_NO_STL", "-DPUGIXML_NO_EXCEPTIONS", "-fno-exceptions"]),
    "cjson": Program("cjson", "cJSON-1.7.15", ["cJSON.c", "cJSON_Utils.c"], own=["json_sort.c"], words=["2"],
                     given="tests/json-patch-tests/tests.json", reported=False),
    "duktape": Program("duktape", "duktape-2.7.0", ["src/duktape.c"], own=["script.c"], given="work.js",
                       flags=["-ftrivial-auto-var-init=zero"], reported=False),
}


def unpack(archive, sources, part=None):
    """Unpacks what isn't in the folder yet, or of that one part: into another folder first, so that each is whole."""
    only = ["--wildcards", f"*/{part}/*"] if part else []
    with tempfile.TemporaryDirectory(dir=sources) as room:
        subprocess.run(["tar", "xf", os.path.abspath(archive), "-C", room, *only], check=True)
        for name in os.listdir(room):
            if not os.path.exists(os.path.join(sources, name)):
                os.replace(os.path.join(room, name), os.path.join(sources, name))


def download(sources, wanted):
    """Fetches archives of source packages into the folder."""
    os.makedirs(os.path.join(sources, "lists", "partial"), exist_ok=True)
    with open(os.path.join(sources, "sources.list"), "w", encoding="ascii") as file:
        file.write(MIRROR)
    apt = ["apt-get", "-qq", "-o", f"Dir::Etc::sourcelist={sources}/sources.list",
           "-o", "Dir::Etc::sourceparts=/dev/null", "-o", f"Dir::State::Lists={sources}/lists"]
    for command in (["update"], ["source", "--download-only", *wanted]):
        if subprocess.run([*apt, *command], cwd=sources, check=False).returncode != 0:
            sys.exit(f"{' '.join([*apt, *command])} failed: the sources of {', '.join(wanted)} can't be had")


def archives_of(source, sources):
    return glob.glob(os.path.join(sources, f"{source}_*.orig.tar.*"))


def fetch(sources, names):
    """Fetches and unpacks the sources of programs that aren't in the folder yet."""
    sources = os.path.abspath(sources)  # apt looks for others in its own folder
    wanted = {PACKAGES[name].source: PACKAGES[name].folder for name in names}
    wanted = [source for source, folder in wanted.items() if not os.path.isdir(os.path.join(sources, folder))]
    if not wanted:
        return
    download(sources, wanted)
    for source in wanted:
        for archive in archives_of(source, sources):
            unpack(archive, sources)


def fetch_part(sources, source, part):
    """Fetches a source package, and unpacks the part of that name; gives its folder, or ends where there is none."""
    sources = os.path.abspath(sources)
    folders = lambda: glob.glob(os.path.join(sources, f"{source}*", part))
    if not folders():
        download(sources, [source])
        for archive in archives_of(source, sources):
            unpack(archive, sources, part)
    if not folders():
        sys.exit(f"the sources of {source} have no {part}")
    return folders()[0]
