#!/usr/bin/env python3
"""What a release is made of: an SBOM, CycloneDX 1.5 in JSON, from what nm, cargo and dpkg know.

    packaging/sbom.py ARCHIVE PROGRAM.. >FILE
    packaging/sbom.py --check FILE [FOLDER]      compares a file with packaging/cyclonedx.json; status 1 where it does not fit

With FOLDER the file is held to CycloneDX's own schema too, by the module jsonschema. The folder has the files of Debian's package
python3-cyclonedx-lib, cyclonedx/schema/_res.

The archive: each symbol is of a crate of crates.txt, or called in the C library. A program: the packages of the shared libraries that
the loader finds; the command, called tillerclover, also the crates that cargo links. Licences are those that crates and packages state.
"""
import datetime
import hashlib
import json
import os
import re
import subprocess
import sys
import uuid

ROOT = os.path.join(os.path.dirname(os.path.abspath(__file__)), "..")
# of the C library: the functions that the archive may call
C_LIBRARY = {"memcpy", "memmove", "memset", "memcmp"}
# of packages whose file of copyrights no machine can read, the main licence
MAIN = {"libc6": "LGPL-2.1-or-later", "libgcc-s1": "GPL-3.0-or-later WITH GCC-exception-3.1"}


def said(*command):
    done = subprocess.run(command, cwd=os.path.join(ROOT, "tool"), capture_output=True, text=True, check=False)
    if done.returncode != 0:
        sys.exit(f"sbom: {' '.join(command[:2])}: {done.stderr.strip()[-300:]}")
    return done.stdout


def read(path):
    with open(os.path.join(ROOT, path), encoding="utf-8") as file:
        return file.read()


def component(ref, licences, file=None, **values):
    """A component; a licence with a blank or in capitals is an expression of SPDX, any other a name."""
    made = {"type": "library", "bom-ref": ref, **values}
    if file:
        with open(file, "rb") as bytes_of:
            made["hashes"] = [{"alg": "SHA-256", "content": hashlib.sha256(bytes_of.read()).hexdigest()}]
    expression = len(licences) == 1 and re.fullmatch(r"[A-Za-z0-9.+() -]+", licences[0]) and licences[0][0].isupper()
    return {
        **made,
        "licenses": [{"expression": licences[0]}] if expression else [{"license": {"name": x}} for x in licences],
    }


def own(ref, file, version, **values):
    return component(ref, ["none granted until the owner decides"], file, version=version, **values)


def library(path, version):
    """The archive. A symbol that is neither the project's nor the C library's ends the program."""
    symbols = re.findall(r"^[0-9a-f ]+ ([TtU]) (.+)$", said("nm", path), re.M)
    crates = set(re.findall(r"^(\w+)(?: staticlib)?:", read("crates.txt"), re.M))
    known = {"T": lambda name: name.startswith("tillerclover_"), "U": C_LIBRARY.__contains__}
    known["t"] = lambda name: name.split("::")[0] in crates
    unknown = [name for kind, name in symbols if not known[kind](name)]
    if unknown or not symbols:
        sys.exit(f"sbom: {path}: unknown symbols: {unknown}")
    return own("libtillerclover", path, version, name="libtillerclover.a", description="The access decision, proved.")


def package(name, version):
    """A package of Debian, with the licences that its file of copyrights states."""
    try:
        text = read(f"/usr/share/doc/{name}/copyright")
    except OSError:
        text = ""
    stated = [MAIN[name]] if name in MAIN else sorted(set(re.findall(r"^License: *(\S.*?) *$", text, re.M)))
    ref = f"deb:{name}"
    licences = stated or [f"as /usr/share/doc/{name}/copyright states"]
    return component(ref, licences, name=name, version=version, purl=f"pkg:deb/debian/{name}@{version}")


def shared(program):
    """The packages of the shared libraries that the loader finds for a program; merged folders have two names."""
    found = {}
    for file in re.findall(r"(?:=> |^\s*)(/\S+) \(0x", said("ldd", program), re.M):
        names = {
            form(path) for path in (file, os.path.realpath(file)) for form in (str, lambda p: re.sub("^/usr", "", p))
        }
        told = subprocess.run(["dpkg", "-S", *names], capture_output=True, text=True, check=False).stdout
        if ":" not in told:
            sys.exit(f"sbom: {file} is of no package")
        name, version = said(
            "dpkg-query", "-W", "-f", "${Package} ${Version}", told.split(": ")[0].split(",")[0]
        ).split()
        found[name] = package(name, version)
    return list(found.values())


def crates():
    """The crates that cargo links into the command; those that run in the compiler are none."""
    words = ["--format-version", "1", "--filter-platform", "x86_64-unknown-linux-gnu"]
    graph = json.loads(said("cargo", "metadata", *words, *os.environ.get("CARGOFLAGS", "").split()))
    packages = {one["id"]: one for one in graph["packages"]}
    nodes = {node["id"]: node["deps"] for node in graph["resolve"]["nodes"]}
    seen, ahead = set(), [graph["resolve"]["root"]]
    while ahead:
        place = ahead.pop()
        compiled = any("proc-macro" in target["kind"] for target in packages[place]["targets"])
        if place not in seen and not compiled:
            seen.add(place)
            ahead += [x["pkg"] for x in nodes[place] if any(kind["kind"] is None for kind in x["dep_kinds"])]
    for one in sorted((packages[place] for place in seen), key=lambda one: (one["name"], one["version"])):
        if one["source"] is not None:
            name, version, licence = one["name"], one["version"], one["license"].replace("/", " OR ")
            purl = f"pkg:cargo/{name}@{version}"
            yield component(f"cargo:{name}@{version}", [licence], name=name, version=version, purl=purl)
    std = "Rust's standard library"
    yield component("rust-std", ["MIT OR Apache-2.0"], name=std, version=said("rustc", "--version").split()[1])


def document(archive, programs):
    version = ".".join(
        re.findall(r"TILLERCLOVER_INTERFACE_M(?:AJ|IN)OR (\d+)$", read("include/tillerclover.h"), re.M)[:2]
    )
    parts, edges = {"libtillerclover": library(archive, version)}, {}
    for program in programs:
        name = os.path.basename(program)
        inside = shared(program) + (list(crates()) if name == "tillerclover" else [])
        parts |= {one["bom-ref"]: one for one in inside}
        parts[f"program:{name}"] = own(f"program:{name}", program, version, name=name)
        edges[f"program:{name}"] = ["libtillerclover"] + sorted(one["bom-ref"] for one in inside)
    seconds = os.environ.get("SOURCE_DATE_EPOCH") or said("git", "log", "-1", "--format=%ct")
    time = datetime.datetime.fromtimestamp(int(seconds), datetime.timezone.utc)
    kit = re.search(r"^kit (.+)$", read("packaging/KIT"), re.M).group(1)
    made = {
        "$schema": "http://cyclonedx.org/schema/bom-1.5.schema.json",
        "bomFormat": "CycloneDX",
        "specVersion": "1.5",
        "version": 1,
        "metadata": {
            "timestamp": time.strftime("%Y-%m-%dT%H:%M:%SZ"),
            "tools": {"components": [{"type": "application", "name": name} for name in ("packaging/sbom.py", kit)]},
            "component": own("tillerclover", None, version, name="tillerclover"),
        },
        "components": list(parts.values()),
        "dependencies": [{"ref": ref, "dependsOn": others} for ref, others in edges.items()],
    }
    return {**made, "serialNumber": f"urn:uuid:{uuid.uuid5(uuid.NAMESPACE_URL, json.dumps(made, sort_keys=True))}"}


# ---- the check: as much of JSON Schema as packaging/cyclonedx.json uses


def faults_of(value, schema, definitions, place="the file"):
    if "$ref" in schema:
        schema = definitions[schema["$ref"].split("/")[-1]]
    types = {"object": dict, "array": list, "string": str, "integer": int}
    if "type" in schema and (not isinstance(value, types[schema["type"]]) or isinstance(value, bool)):
        return [f"{place} is no {schema['type']}"]
    found = []
    if "const" in schema and value != schema["const"]:
        found.append(f"{place} is not '{schema['const']}'")
    if "enum" in schema and value not in schema["enum"]:
        found.append(f"{place} is none of {schema['enum']}")
    if "pattern" in schema and not re.search(schema["pattern"], value):
        found.append(f"{place}, '{value}', has another form")
    if len(value) < schema.get("minLength", 0) if isinstance(value, str) else False:
        found.append(f"{place} is empty")
    if isinstance(value, int) and value < schema.get("minimum", value):
        found.append(f"{place} is too small")
    if isinstance(value, list):
        if schema.get("uniqueItems") and len(set(value)) != len(value):
            found.append(f"{place} has one thing twice")
        for at, item in enumerate(value):
            found += faults_of(item, schema.get("items", {}), definitions, f"{place}[{at}]")
    if isinstance(value, dict):
        known = schema.get("properties", {})
        found += [f"{place} has no {name}" for name in schema.get("required", []) if name not in value]
        if schema.get("additionalProperties") is False:
            found += [f"{place} has an unknown {name}" for name in value if name not in known]
        for name, part in value.items():
            found += faults_of(part, known.get(name, {}), definitions, f"{place}.{name}")
    return found


def by_standard(made, folder):
    """What CycloneDX's own schema says against a file. It cites two others, which become definitions of its own."""
    import jsonschema  # no part of Python, and asked for here alone

    def part(name):
        return read(os.path.join(os.path.abspath(folder), f"{name}.SNAPSHOT.schema.json"))

    def no_more(_, allowed, value, within):
        # In Debian 12 the module fails where it has to say which items are too many.
        if allowed is False and isinstance(value, list) and len(value) > len(within["items"]):
            yield jsonschema.ValidationError(f"{len(value)} items, and {len(within['items'])} are allowed")

    schema = json.loads(
        re.sub(r'"(spdx|jsf-0\.82)\.SNAPSHOT\.schema\.json(?:#/definitions)?', r'"#/definitions/\1', part("bom-1.5"))
    )
    schema["definitions"]["spdx"] = json.loads(part("spdx"))
    schema["definitions"]["jsf-0.82"] = {"signature": False}
    for inner in (schema, schema["definitions"]["spdx"]):
        inner.pop("$id")
    validator = jsonschema.validators.extend(jsonschema.Draft7Validator, {"additionalItems": no_more})
    validator.check_schema(schema)
    faults = validator(schema, format_checker=jsonschema.FormatChecker()).iter_errors(made)
    return [f"by CycloneDX's schema, {fault.json_path}: {fault.message[:200]}" for fault in faults]


def check(path, folder=None):
    schema = json.loads(read("packaging/cyclonedx.json"))
    made = json.loads(read(os.path.abspath(path)))
    found = faults_of(made, schema, schema["definitions"])
    if not found:
        refs = [component["bom-ref"] for component in [made["metadata"]["component"], *made["components"]]]
        found += [f"two components are called {ref}" for ref in sorted(set(refs)) if refs.count(ref) > 1]
        used = {ref for edge in made["dependencies"] for ref in [edge["ref"], *edge["dependsOn"]]}
        found += [f"there is no component {ref}" for ref in sorted(used - set(refs))]
        found += [
            f"{component['name']} states no licence"
            for component in made["components"]
            if not component.get("licenses")
        ]
    if folder:
        found += by_standard(made, folder)
    for line in found:
        print(f"sbom: {line}", file=sys.stderr)
    return 1 if found else 0


if len(sys.argv) in (3, 4) and sys.argv[1] == "--check":
    sys.exit(check(*sys.argv[2:]))
if len(sys.argv) < 2 or sys.argv[1].startswith("-"):
    sys.exit(__doc__.strip())
print(json.dumps(document(*[os.path.abspath(sys.argv[1]), [os.path.abspath(path) for path in sys.argv[2:]]]), indent=2))
