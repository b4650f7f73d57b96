"""The list of what is in a release, as a document of SPDX 2.3 in JSON.

It has each file with its checksums, and each crate of the kit with its licence; relations say which
file is linked from which crate.
"""
import hashlib
import json
import re
from datetime import datetime, timezone

import licences

TOOL = "Tool: zimgasol tools/dist/dist.py"
NONE = "NOASSERTION"
NAME = "zimgasol.spdx.json"


def identifier(kind, name):
    return f"SPDXRef-{kind}-" + re.sub(r"[^A-Za-z0-9.-]", "-", name)


def checksum(kind, data):
    return {"algorithm": kind, "checksumValue": hashlib.new(kind.lower(), data).hexdigest()}


def file_entry(name, data, binary):
    """The entry of a file. What is linked has parts whose licence isn't known."""
    return {"SPDXID": identifier("File", name), "fileName": f"./{name}",
            "checksums": [checksum("SHA1", data), checksum("SHA256", data)],
            "licenseConcluded": NONE if binary else "Apache-2.0", "licenseInfoInFiles": [NONE],
            "copyrightText": NONE, "fileTypes": ["BINARY" if binary else "OTHER"]}


def package(name, version, licence, comment, **more):
    return {"SPDXID": identifier("Package", name), "name": name, **({"versionInfo": version} if version else {}),
            "downloadLocation": NONE, "filesAnalyzed": False, "licenseConcluded": licence,
            "licenseDeclared": licence, "copyrightText": NONE, "comment": comment, **more}


def own(name):
    """The comment on a library of the kit's own."""
    said = ("a library of the Rattle kit, which has no licence text for it: on which terms its compiled code may be passed on "
            "isn't known")
    more = [f"{it.name} is under {it.licence}" for it in licences.parts([name])]
    if name in licences.OBJECTS:
        more.append(f"with the kit's C code in {licences.OBJECTS[name]}, for which the same holds")
    return "; ".join([said, *more])


def crate(name, kit):
    """The entry of a crate of the kit."""
    if name not in licences.CRATES:
        return package(name, kit, NONE, own(name))
    what, licence = licences.CRATES[name]
    return package(name, kit, licence, f"a library of the Rattle kit, {what}")


def relation(one, kind, other):
    return {"spdxElementId": one, "relationshipType": kind, "relatedSpdxElement": other}


def document(release, files, linked):
    """Returns the document. files: bytes by name; linked: by the names of binaries the crates of each."""
    entries = [file_entry(name, data, name in linked) for name, data in sorted(files.items())]
    sums = sorted(it["checksums"][0]["checksumValue"] for it in entries)
    code = hashlib.sha1("".join(sums).encode()).hexdigest()
    top = package("zimgasol", release.version, NONE, release.status, filesAnalyzed=True,
                  packageVerificationCode={"packageVerificationCodeValue": code,
                                           "packageVerificationCodeExcludedFiles": [f"./{NAME}"]},
                  packageFileName=f"{release.name}.tar.xz", licenseDeclared="Apache-2.0",
                  licenseInfoFromFiles=[NONE], sourceInfo=f"commit {release.commit}")
    crates = sorted({it for names in linked.values() for it in names})
    parts = [package(it.name, release.kit, it.licence, f"a part of {it.crate}, {it.what}") for it in licences.parts(crates)]
    startup = [package(f"startup-{number}", "", licence, what) for number, (what, licence) in enumerate(licences.STARTUP, 1)]
    relations = [relation("SPDXRef-DOCUMENT", "DESCRIBES", top["SPDXID"])]
    relations += [relation(top["SPDXID"], "CONTAINS", it["SPDXID"]) for it in entries]
    for name, used in sorted(linked.items()):
        one = identifier("File", name)
        relations += [relation(one, "STATIC_LINK", identifier("Package", it)) for it in used]
        if not name.endswith(".a"):
            relations += [relation(one, "STATIC_LINK", it["SPDXID"]) for it in startup]
    relations += [relation(identifier("Package", it.crate), "CONTAINS", identifier("Package", it.name))
                  for it in licences.parts(crates)]
    created = datetime.fromtimestamp(release.epoch, timezone.utc).strftime("%Y-%m-%dT%H:%M:%SZ")
    text = {"spdxVersion": "SPDX-2.3", "dataLicense": "CC0-1.0", "SPDXID": "SPDXRef-DOCUMENT", "name": release.name,
            "documentNamespace": f"https://spdx.org/spdxdocs/{release.name}-{release.commit}-{code}",
            "creationInfo": {"created": created, "creators": [TOOL]},
            "packages": [top, *(crate(it, release.kit) for it in crates), *parts, *startup],
            "files": entries, "relationships": relations}
    return json.dumps(text, indent=1) + "\n"
