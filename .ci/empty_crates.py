#!/usr/bin/env python3
"""Makes an empty crate for each of those that a Cargo.lock lists, and the configuration by which
cargo takes them for those of crates.io. To pack a crate, cargo looks up what the lock file lists,
and compiles none of it. So `cargo package --locked` needs no network.

    empty_crates.py PACKAGE FOLDER     of the lock file of the package in this folder; writes FOLDER/config.toml
"""

import json
import pathlib
import sys
import tomllib


def main(package, folder):
    package, folder = pathlib.Path(package), pathlib.Path(folder)
    asked = tomllib.loads((package / "Cargo.toml").read_text())["dependencies"]
    for crate in tomllib.loads((package / "Cargo.lock").read_text())["package"]:
        if "checksum" not in crate:
            continue
        name, place = crate["name"], folder / crate["name"]
        manifest = [
            "[package]",
            f'name = "{name}"',
            f'version = "{crate["version"]}"',
            "[lib]",
            'path = "lib.rs"',
            "[features]",
        ]
        manifest += [f"{feature} = []" for feature in asked.get(name, {}).get("features", [])]
        manifest += ["[dependencies]", *(f'{it} = "*"' for it in crate.get("dependencies", []))]
        place.mkdir(parents=True)
        (place / "Cargo.toml").write_text("\n".join(manifest))
        (place / "lib.rs").touch()
        (place / ".cargo-checksum.json").write_text(
            json.dumps({"package": crate["checksum"], "files": {}})
        )
    source = f'[source.crates-io]\nreplace-with = "empty"\n[source.empty]\ndirectory = {json.dumps(str(folder.resolve()))}\n'
    (folder / "config.toml").write_text(source)


if __name__ == "__main__":
    main(*sys.argv[1:])
