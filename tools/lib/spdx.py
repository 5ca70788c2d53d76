"""What is in each library of the package for C, as an SPDX list (2.3): parts, versions, licences and sums."""

import collections.abc
import datetime
import hashlib
import json
import re
import typing

from lib import ROOT, packing

NAME = "dali_c.spdx.json"
EITHER = "MIT OR Apache-2.0"
NOT_SAID = "NOASSERTION"
TYPES = {".a": "ARCHIVE", ".ll": "SOURCE"}
SPACE = "https://yolgibat.example/spdx"


def part(name: str, version: str, licence: str) -> dict[str, typing.Any]:
    """A part that is linked."""
    said = {"licenseConcluded": licence, "licenseDeclared": licence, "copyrightText": NOT_SAID, "downloadLocation": NOT_SAID}
    return {"SPDXID": identity(name), "name": name, "versionInfo": version, "filesAnalyzed": False, **said}


def identity(name: str) -> str:
    return "SPDXRef-" + re.sub(r"[^A-Za-z0-9.]+", "-", name)


def library(name: str, content: bytes) -> dict[str, typing.Any]:
    """A file with its sums."""
    sums = [{"algorithm": it.upper(), "checksumValue": hashlib.new(it, content).hexdigest()} for it in ("sha1", "sha256")]
    said = {"licenseConcluded": EITHER, "licenseInfoInFiles": [NOT_SAID], "copyrightText": NOT_SAID}
    return {"SPDXID": identity(name), "fileName": f"./{name}", "fileTypes": [TYPES[name[name.rindex(".") :]]], "checksums": sums, **said}


def listed(version: str, crates: collections.abc.Iterable[str], files: packing.Files) -> packing.Entry:
    """The list of a package: its libraries, each of which has the code of this repository and of these crates of the kit."""
    kit = (ROOT / "KIT").read_text().split()[0]
    has_licence = {name.split("/")[1] for name in files if name.count("/") == 2 and name.startswith("licences/")}
    own = part("dali_c", version, EITHER)
    others = [part(it, kit, EITHER if it in has_licence else NOT_SAID) for it in crates]
    libraries = [library(name, it.content) for name, it in sorted(files.items()) if name.endswith(tuple(TYPES))]
    pairs = [("SPDXRef-DOCUMENT", "DESCRIBES", own["SPDXID"])]
    for one in libraries:
        pairs.append((own["SPDXID"], "CONTAINS", one["SPDXID"]))
        pairs += [(one["SPDXID"], "STATIC_LINK", it["SPDXID"]) for it in others]
    title = f"dali_c-{version}"
    document = {
        "spdxVersion": "SPDX-2.3",
        "dataLicense": "CC0-1.0",
        "SPDXID": "SPDXRef-DOCUMENT",
        "name": title,
        "documentNamespace": f"{SPACE}/{title}-{packing.commit()}",
        "creationInfo": {
            "created": datetime.datetime.fromtimestamp(packing.moment(), datetime.UTC).strftime("%Y-%m-%dT%H:%M:%SZ"),
            "creators": ["Tool: tools/package"],
        },
        "packages": [own, *others],
        "files": libraries,
        "relationships": [dict(zip(("spdxElementId", "relationshipType", "relatedSpdxElement"), it)) for it in pairs],
    }
    return packing.Entry(f"{json.dumps(document, indent=1)}\n".encode())


def faults(read: typing.Callable[[str], bytes], text: bytes) -> list[str]:
    """What is wrong with a list, whose files are read by their names in the package."""
    document = json.loads(text)
    known = [it["SPDXID"] for it in (document, *document["packages"], *document["files"])]
    found = [it for it in known if known.count(it) > 1 or not re.fullmatch(r"SPDXRef-[A-Za-z0-9.-]+", it)]
    for it in document["files"]:
        sums = {hashlib.new(sum["algorithm"].lower(), read(it["fileName"][2:])).hexdigest() == sum["checksumValue"] for sum in it["checksums"]}
        found += [] if sums == {True} else [f"the sums of {it['fileName']}"]
    for it in document["relationships"]:
        found += [end for end in (it["spdxElementId"], it["relatedSpdxElement"]) if end not in known]
    return found
