"""The bill of materials (SPDX 2.3): what a release is made of, with licences, and its files."""
import glob
import hashlib
import json
import os
import re
import shutil
import subprocess
import time

from trial_build import Kit
from versions import ROOT, version

OURS = "MIT OR Apache-2.0"
# The crates whose programs and library are released.
RELEASED = ("mesh", "triangulate", "tevasulim_c")
PORT_OF = re.compile(r"port of (?:the Rust crate )?`(\w+)` ([\d.]+)")


def crates_of_kit(kit):
    """The kit's crates that are compiled into what is released."""
    crates = [kit.crate(it) for it in RELEASED]
    words = kit.rtlib.kit_sources({n for it in crates for e in [it, *it.below()] for n in e.of_kit})
    return sorted(re.findall(r"^(\w+):", "\n".join(words[1::2]), re.M))


def license_of(files):
    """The licence that the names and texts of a crate's licence files tell."""
    names = {os.path.basename(it) for it in files}
    if {"LICENSE-MIT", "LICENSE-APACHE"} <= names:
        return OURS
    texts = "".join(open(it).read() for it in files)
    is_mit = "Permission is hereby granted, free of charge" in texts
    return "MIT" if is_mit and len(names) == 1 else "NOASSERTION"


def licenses_of(kit, name):
    return sorted(glob.glob(f"{kit.folder}/rattle/{name}/LICENSE*"))


def write_licenses(folder):
    """Copies the licences of the kit's crates, each into a folder with the crate's name."""
    kit = Kit()
    for name in crates_of_kit(kit):
        for file in licenses_of(kit, name):
            os.makedirs(f"{folder}/{name}", exist_ok=True)
            shutil.copy(file, f"{folder}/{name}")


def package(name, of_version, licence, **more):
    named = {"SPDXID": f"SPDXRef-{re.sub('[^A-Za-z0-9.]', '-', name)}", "name": name}
    named.update({"versionInfo": of_version, "downloadLocation": "NOASSERTION"})
    named.update({"filesAnalyzed": False, "licenseConcluded": licence})
    return {**named, "licenseDeclared": licence, "copyrightText": "NOASSERTION", **more}


def packages(kit):
    """What a release is made of: first itself, then the original, the kit, its crates, gcc."""
    with open(f"{kit.folder}/KIT-ID") as file:
        kit_name = file.read().strip()
    gcc = subprocess.run(["gcc", "-dumpfullversion"], capture_output=True, text=True, check=True)
    yield "DESCRIBES", package("tevasulim", version(), OURS)
    yield "DESCENDANT_OF", package("spade", "2.15.1", OURS)
    yield "BUILD_TOOL_OF", package("rattle-kit", kit_name, "NOASSERTION")
    yield "BUILD_TOOL_OF", package("gcc", gcc.stdout.strip(), "GPL-3.0-or-later")
    for name in crates_of_kit(kit):
        readme, found = f"{kit.folder}/rattle/{name}/README.md", None
        if os.path.exists(readme):
            with open(readme) as file:
                found = PORT_OF.search(file.read())
        of_version = f"{kit_name}, a port of {found[1]} {found[2]}" if found else kit_name
        yield "STATIC_LINK", package(name, of_version, license_of(licenses_of(kit, name)))


def files(out):
    for name in sorted(os.listdir(out)):
        with open(f"{out}/{name}", "rb") as file:
            content = file.read()
        sums = {"SHA1": hashlib.sha1(content), "SHA256": hashlib.sha256(content)}
        told = [{"algorithm": k, "checksumValue": v.hexdigest()} for k, v in sums.items()]
        named = {"SPDXID": f"SPDXRef-file-{re.sub('[^A-Za-z0-9.]', '-', name)}"}
        named.update({"fileName": f"./{name}", "checksums": told})
        yield {**named, "licenseConcluded": OURS, "copyrightText": "NOASSERTION"}


def relations(materials, made):
    """How each material and each file stands to the release."""
    release = "SPDXRef-tevasulim"
    for relation, material in materials:
        ends = {"spdxElementId": material["SPDXID"], "relatedSpdxElement": release}
        if relation == "DESCRIBES":
            ends["spdxElementId"] = "SPDXRef-DOCUMENT"
        elif relation in ("DESCENDANT_OF", "STATIC_LINK"):
            ends = {"spdxElementId": release, "relatedSpdxElement": material["SPDXID"]}
        yield {**ends, "relationshipType": relation}
    for file in made:
        ends = {"spdxElementId": release, "relatedSpdxElement": file["SPDXID"]}
        yield {**ends, "relationshipType": "GENERATES"}


def write_bill(path, out, epoch):
    """Writes the bill of the files in the folder OUT."""
    made, materials = list(files(out)), list(packages(Kit()))
    sums = "".join(it["checksums"][1]["checksumValue"] for it in made)
    name = f"tevasulim-{version()}"
    space = f"https://tevasulim.example/spdx/{name}-{hashlib.sha256(sums.encode()).hexdigest()}"
    created = time.strftime("%Y-%m-%dT%H:%M:%SZ", time.gmtime(epoch))
    bill = {"spdxVersion": "SPDX-2.3", "dataLicense": "CC0-1.0", "SPDXID": "SPDXRef-DOCUMENT"}
    bill.update({"name": name, "documentNamespace": space})
    bill["creationInfo"] = {"created": created, "creators": ["Tool: tevasulim-release"]}
    bill["packages"] = [material for _, material in materials]
    bill["files"] = made
    bill["relationships"] = list(relations(materials, made))
    with open(path, "w") as file:
        json.dump(bill, file, indent=1)
        file.write("\n")
