"""Fetches a real extract of OpenStreetMap to try the tools with: Liechtenstein as it was on 3 August 2013.

FOLDER/liechtenstein-2013-08-03.osm.pbf is written, 592,570 bytes: 65,733 nodes and 7,121 ways. It comes out of Debian's
source package of osm2pgsql, which is fetched by apt-get with a list of sources of its own: nothing on the machine is
changed, and no root is needed. Some 12 MB go over the network. Its SHA-256 is compared before it is written; if the
right file is there already nothing is fetched. The data is © OpenStreetMap contributors, under the ODbL 1.0.

Status 0: the extract is there. 1: it can't be had, one line says why, and nothing is written. 2: the arguments
were refused.
"""
import hashlib
import pathlib
import subprocess
import tarfile
import tempfile

from domethyme.atomic_files import atomic_write

from .cli import ToolError, argument_parser, warn

NAME = "liechtenstein-2013-08-03.osm.pbf"
SHA256 = "edb2b075be057662691fc343abed4ed58f139dd7c501c243197640fcb3ea82d4"
PACKAGE = "osm2pgsql=1.8.0+ds-1"
KEYRING = "/usr/share/keyrings/debian-archive-keyring.gpg"
SOURCES = f"deb-src [signed-by={KEYRING}] http://deb.debian.org/debian bookworm main\n"


def fetch(folder: pathlib.Path) -> bytes:
    """The bytes of the extract, by way of an empty folder."""
    sources = folder / "sources.list"
    sources.write_text(SOURCES, encoding="ascii")
    settings = [
        f"Dir::Etc::SourceList={sources}", "Dir::Etc::SourceParts=/dev/null", f"Dir::State={folder / 'state'}",
        f"Dir::Cache={folder / 'cache'}", "APT::Sandbox::User=", "Acquire::http::Timeout=20", "Acquire::Retries=1",
        "APT::Update::Error-Mode=any",
    ]
    for lists in ("state/lists/partial", "cache/archives/partial"):
        (folder / lists).mkdir(parents=True)
    apt_get = ["apt-get", "-qq", *(word for setting in settings for word in ("-o", setting))]
    try:
        for words in (["update"], ["source", "--download-only", "--tar-only", PACKAGE]):
            subprocess.run([*apt_get, *words], cwd=folder, stdin=subprocess.DEVNULL, capture_output=True, check=True)
    except FileNotFoundError as error:
        raise ToolError(f"{NAME} can't be had: there is no apt-get on this machine") from error
    except subprocess.CalledProcessError as error:
        errors = error.stderr.decode("utf-8", "replace").splitlines()
        reason = next((line.removeprefix("E: ") for line in errors if line.startswith("E: ")), "nothing")
        raise ToolError(f"{NAME} can't be had: apt-get says: {reason}") from error
    for package in folder.glob("osm2pgsql_*.tar.*"):
        with tarfile.open(package) as archive:
            for member in archive:
                is_it = pathlib.PurePath(member.name).name == NAME and member.isfile()
                if is_it and (found := archive.extractfile(member)) is not None:
                    return found.read()
    raise ToolError(f"{NAME} can't be had: Debian's source package hasn't got it")


def main() -> None:
    parser = argument_parser(__doc__, "%(prog)s out")
    parser.add_argument("folder", metavar="FOLDER", nargs="?", default=".",
                        help="where the extract goes, which is made if it isn't there (.)")
    target = pathlib.Path(parser.parse_args().folder) / NAME
    target.parent.mkdir(parents=True, exist_ok=True)
    if target.is_file() and hashlib.sha256(target.read_bytes()).hexdigest() == SHA256:
        warn(f"{target} is there already")
        return
    with atomic_write(target, "wb") as file, tempfile.TemporaryDirectory(prefix="fetch-extract-") as folder:
        data = fetch(pathlib.Path(folder))
        if hashlib.sha256(data).hexdigest() != SHA256:
            raise ToolError(f"{NAME} can't be had: Debian's source package has another file of that name")
        file.write(data)
    warn(f"{target}: {len(data)} bytes")
