#!/usr/bin/env python3
"""Prints what an unpacked release is made of, as an SPDX 2.3 document in JSON: its files with their hashes, and the crates of
Rattle's kit that the binaries have code of. Each has its licence, unless the kit has no text of it.

usage: SOURCE_DATE_EPOCH=SECONDS sbom.py TREE

The kit's crates are ports. The version of one is that of the Rust crate that its page in the kit names; there is no
package URL for it. A licence is what the kit has a text of; of LICENSE-APACHE and LICENSE-MIT, one can be chosen. The
binaries also have code that the kit has no licence text for, so theirs is not known.
"""
import datetime
import hashlib
import json
import os
import re
import subprocess
import sys

# Licences, each with words that only its text has.
LICENCES = [
    ("Unicode-3.0", r"(?i)unicode license"),
    ("Apache-2.0", r"Apache License\s+Version 2\.0"),
    ("MIT", r"Permission is hereby granted, free of charge"),
    ("Unlicense", r"free and unencumbered software"),
    ("BSL-1.0", r"Boost Software License"),
    ("BSD-3-Clause", r"[Rr]edistribution and use in source and binary"),
]
UNKNOWN = "NOASSERTION"
CHOICE = ("LICENSE-APACHE", "LICENSE-MIT")
COPYRIGHT = re.compile(r"^ *(Copyright [^\[{\n]+)$", re.MULTILINE)


def read(path):
    with open(path, "rb") as file:
        return file.read()


def licence_of(path):
    """Returns the identifier of the licence whose text is in a file."""
    text = read(path).decode(errors="replace")
    return next((name for name, words in LICENCES if re.search(words, text)), UNKNOWN)


def licences_of(folder):
    """Returns the expression for the texts in a folder, which need not exist."""
    texts = texts_of(folder)
    names = {it: licence_of(f"{folder}/{it}") for it in texts}
    if not names or UNKNOWN in names.values():
        return UNKNOWN
    choice = [names.pop(it) for it in CHOICE] if all(it in names for it in CHOICE) else []
    rest = sorted({*names.values()})
    first = [f"({' OR '.join(choice)})" if rest else " OR ".join(choice)] if choice else []
    return " AND ".join(first + rest)


def texts_of(folder):
    return sorted(os.listdir(folder)) if os.path.isdir(folder) else []


def copyright_of(folder):
    """Returns the lines with a copyright of the texts in a folder."""
    texts = [read(f"{folder}/{it}").decode(errors="replace") for it in texts_of(folder)]
    return "\n".join(dict.fromkeys(line for text in texts for line in COPYRIGHT.findall(text))) or UNKNOWN


def version_of(page):
    """Returns the version of the Rust crate that a page of the kit names, or None."""
    found = re.search(r"crate `[\w-]+`,? (\d+\.\d+\.\d+)", read(page).decode()) if os.path.exists(page) else None
    return found[1] if found else None


def package(name, comment, version=None, licence=UNKNOWN, copyright_text=UNKNOWN):
    found = {
        "SPDXID": f"SPDXRef-{re.sub('[^A-Za-z0-9.-]', '-', name)}",
        "name": name,
        "downloadLocation": UNKNOWN,
        "filesAnalyzed": False,
        "licenseConcluded": licence,
        "licenseDeclared": licence,
        "copyrightText": copyright_text,
        "comment": comment,
    }
    return found | ({"versionInfo": version} if version else {})


def files_of(tree):
    """Returns the entries of the files of a tree, except links."""
    found = []
    for folder, folders, names in os.walk(tree):
        folders.sort()
        paths = [os.path.join(folder, it) for it in sorted(names)]
        found += [it for it in paths if not os.path.islink(it)]
    return [file(number, os.path.relpath(path, tree), path) for number, path in enumerate(found)]


def licence_of_file(name, path):
    """Returns the licence of a file with this name in the tree: that of this repository, but of binaries and other licences."""
    if name.startswith(("bin/", "lib/libnlroute.")):
        return UNKNOWN
    return licence_of(path) if re.match("licences/.*/", name) else "MIT"


def file(number, name, path):
    content, licence = read(path), licence_of_file(name, path)
    sums = {"SHA1": hashlib.sha1(content), "SHA256": hashlib.sha256(content)}
    return {
        "SPDXID": f"SPDXRef-File-{number}",
        "fileName": f"./{name}",
        "checksums": [{"algorithm": name, "checksumValue": it.hexdigest()} for name, it in sums.items()],
        "licenseConcluded": licence,
        "licenseInfoInFiles": [licence],
        "copyrightText": UNKNOWN,
    }


def release(version, mark, files):
    """Returns the package of the release, which has these files."""
    sums = "".join(sorted(it["checksums"][0]["checksumValue"] for it in files))
    return package("nlroute", mark, version, "MIT") | {
        "filesAnalyzed": True,
        "packageVerificationCode": {"packageVerificationCodeValue": hashlib.sha1(sums.encode()).hexdigest()},
        "licenseConcluded": UNKNOWN,
        "licenseInfoFromFiles": sorted({it["licenseConcluded"] for it in files}),
        "hasFiles": [it["SPDXID"] for it in files],
    }


def crates(tree):
    """Returns the packages of the kit's crates, which licences/CRATES lists with the texts of each."""
    kit = os.path.dirname(subprocess.run(["rt", "doc"], stdout=subprocess.PIPE, text=True, check=True).stdout.strip())
    for line in read(f"{tree}/licences/CRATES").decode().splitlines():
        found = re.match(r"  (\w+)  ", line)
        if found:
            name = found[1]
            version = version_of(f"{kit}/rattle/{name}/README.md")
            texts = f"{tree}/licences/{name}"
            comment = f"the kit's crate {name}"
            yield package(f"rattle-{name}", comment, version, licences_of(texts), copyright_of(texts))


def document(tree):
    described = read(f"{tree}/lib/pkgconfig/nlroute.pc").decode()
    mark, version = (re.search(rf"^{key}(.*)$", described, re.MULTILINE)[1] for key in ("build=", "Version: "))
    time = datetime.datetime.fromtimestamp(int(os.environ["SOURCE_DATE_EPOCH"]), datetime.timezone.utc)
    files = files_of(tree)
    whole = release(version, mark, files)
    kit = package("rattle-kit", "compiler, standard library and C code of the binaries", mark.split(", ", 3)[3])
    upstream = package("netlink-packet-route", "the Rust crate that is ported; none of its code is compiled", "0.34.0", "MIT")
    parts = [kit, *crates(tree)]
    relations = [("SPDXRef-DOCUMENT", "DESCRIBES", whole), (kit["SPDXID"], "BUILD_TOOL_OF", whole)]
    relations += [(whole["SPDXID"], "STATIC_LINK", it) for it in parts] + [(whole["SPDXID"], "DESCENDANT_OF", upstream)]
    return {
        "spdxVersion": "SPDX-2.3",
        "dataLicense": "CC0-1.0",
        "SPDXID": "SPDXRef-DOCUMENT",
        "name": f"nlroute-{version}",
        "documentNamespace": f"urn:nlroute:{whole['packageVerificationCode']['packageVerificationCodeValue']}",
        "creationInfo": {"created": time.strftime("%Y-%m-%dT%H:%M:%SZ"), "creators": ["Tool: extra/release/sbom.py"]},
        "packages": [whole, *parts, upstream],
        "files": files,
        "relationships": [
            {"spdxElementId": one, "relationshipType": kind, "relatedSpdxElement": other["SPDXID"]}
            for one, kind, other in relations
        ],
    }


if __name__ == "__main__":
    if len(sys.argv) != 2:
        sys.exit(__doc__)
    print(json.dumps(document(sys.argv[1]), indent=1))
