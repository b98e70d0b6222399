"""vendor.py FROM TO WORKSPACE: the crates that Debian keeps beside rustc, for cargo on Linux and for the workspace. Debian leaves out crates
of other systems, on which cargo insists all the same: here empty ones stand for them. varisat-formula takes the versions of proptest and rand that are there."""
import glob
import json
import os
import re
import sys
import tomllib

source, target, workspace = sys.argv[1:4]
os.makedirs(target, exist_ok=True)
there = {re.sub(r"-\d.*", "", name) for name in os.listdir(source)}
# The crates that are not there: the features that others ask of each, and the least version that serves all of a series.
features, versions = {}, {}
shared = tomllib.load(open(f"{workspace}/Cargo.toml", "rb"))["workspace"]["dependencies"]


def miss(text):
    manifest = tomllib.loads(text)
    for system in [manifest, *manifest.get("target", {}).values()]:
        for name, wanted in (system.get("dependencies", {}) | system.get("build-dependencies", {})).items():
            more = wanted.get("features", []) if isinstance(wanted, dict) else []
            if isinstance(wanted, dict) and wanted.get("workspace"):
                wanted = shared[name]
            wanted = {"version": wanted} if isinstance(wanted, str) else wanted
            package = wanted.get("package", name)
            if package in there:
                continue
            asked = [it.split("/")[1] for all in manifest.get("features", {}).values() for it in all if re.match(name + r"\??/", it)]
            features.setdefault(package, set()).update(wanted.get("features", []), more, asked)
            numbers = re.findall(r"\d+", wanted.get("version", "1").split(",")[0])
            least = tuple(int(number) for number in (numbers + ["0", "0"])[:3])
            series = least[: next((i for i, number in enumerate(least) if number), 0) + 1]
            versions[package, series] = max(least, versions.get((package, series), least))


def put(folder, manifest, checksum=None):
    open(f"{folder}/Cargo.toml", "w").write(manifest)
    json.dump({"files": {}, "package": checksum}, open(f"{folder}/.cargo-checksum.json", "w"))


for manifest in glob.glob(f"{workspace}/**/Cargo.toml", recursive=True):
    if "/tests/" not in manifest:
        miss(open(manifest).read())
for name in os.listdir(source):
    folder, made = f"{source}/{name}", f"{target}/{name}"
    os.makedirs(made, exist_ok=True)
    for entry in os.listdir(folder):
        if entry not in ("Cargo.toml", ".cargo-checksum.json") and not os.path.lexists(f"{made}/{entry}"):
            os.symlink(f"{folder}/{entry}", f"{made}/{entry}")
    text = open(f"{folder}/Cargo.toml").read()
    miss(text)
    if name.startswith("varisat-formula"):
        text = text.replace('"0.10.1"', '"1"').replace('"0.7.3"', '"0.8"')
    put(made, text, json.load(open(f"{folder}/.cargo-checksum.json"))["package"])

for (package, _), least in versions.items():
    version = ".".join(map(str, least))
    folder = f"{target}/{package}-{version}"
    os.makedirs(folder + "/src", exist_ok=True)
    open(folder + "/src/lib.rs", "w").close()
    lines = "".join(f'"{feature}" = []\n' for feature in sorted(features[package]) if not feature.startswith("dep:"))
    put(folder, f'[package]\nname = "{package}"\nversion = "{version}"\n[features]\n{lines}')
