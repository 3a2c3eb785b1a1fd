#!/usr/bin/env python3
"""Installs the clients as docs/CLIENTS.md says, without a network: the package of Python with the pip of a fresh environment, that of Node with npm,
that of Go by a line of go.mod. What is installed is used from elsewhere. A tool that is not there is told as not run.
"""
import json
import os
import shutil
import subprocess
import sys
import tempfile
from pathlib import Path

from lib.running_server import TOP, Report

OFFLINE = {**os.environ, "PIP_NO_INDEX": "1", "PIP_DISABLE_PIP_VERSION_CHECK": "1", "npm_config_offline": "true", "npm_config_audit": "false",
           "npm_config_fund": "false", "PYTHONPATH": "", "npm_config_update_notifier": "false", "GOPROXY": "off", "GOFLAGS": "", "CGO_ENABLED": "0"}
GO = """package main

import (
	"fmt"
	"pathclient"
)

func main() {
	_, err := pathclient.Connect(pathclient.Options{Address: "http://a"})
	fmt.Println(err != nil)
}
"""


def run(words, folder, **more):
    ran = subprocess.run(list(map(str, words)), cwd=folder, env={**OFFLINE, **more}, stdout=subprocess.PIPE, stderr=subprocess.STDOUT, timeout=300)
    return ran.returncode, ran.stdout.decode()


def check_python(report, folder):
    made = run([sys.executable, "-m", "venv", "env"], folder)
    if made[0]:
        print("pip: not run, since this Python makes no environments (Debian's package python3-venv)")
        return
    report.case("pip install", "", 0, run(["env/bin/pip", "install", TOP / "clients/python"], folder)[0])
    script = "import path_client, importlib.metadata as m; print(m.version('path-client'), m.metadata('path-client')['License'], path_client.__file__)"
    status, output = run(["env/bin/python", "-c", script], folder)
    words = output.split()
    report.case("the package", "", (0, "0.2.0", "MIT", True), (status, *words[:2], str(folder) in words[2]))
    report.case("its types", "", True, (Path(words[2]).parent / "py.typed").is_file())
    report.case("pip uninstall", "", 0, run(["env/bin/pip", "uninstall", "-y", "path-client"], folder)[0])


def check_node(report, folder):
    (folder / "package.json").write_text("{}")
    status, output = run(["npm", "install", "--install-links", TOP / "clients/node"], folder)
    report.case("npm install", "", (0, ""), (status, "" if status == 0 else output))
    installed = folder / "node_modules/path-client"
    about = json.loads((installed / "package.json").read_text())
    report.case("the package", "", ("0.2.0", "MIT", False, True),
                (about["version"], about["license"], installed.is_symlink(), (installed / "index.d.ts").is_file()))
    script = "import { connect } from 'path-client'; await connect({ at: 'http://a', key: '' }).catch((fault) => console.log(fault.name));"
    report.case("its use", "", (0, "RangeError\n"), run(["node", "--input-type=module", "-e", script], folder))


def check_go(report, folder):
    (folder / "go.mod").write_text("module user\n\ngo 1.19\n")
    (folder / "main.go").write_text(GO)
    edit = ["go", "mod", "edit", "-require=pathclient@v0.0.0", f"-replace=pathclient={TOP / 'clients/go'}"]
    report.case("go mod edit", "", (0, ""), run(edit, folder))
    report.case("its use", "", (0, "true\n"), run(["go", "run", "."], folder, GOCACHE=str(folder / "cache")))


def main():
    report = Report()
    for tool, check in (("python3", check_python), ("npm", check_node), ("go", check_go)):
        if shutil.which(tool):
            with tempfile.TemporaryDirectory(prefix="path-client-install-") as made:
                check(report, Path(made).resolve())
        else:
            print(f"{tool}: not run, since it is not installed")
    report.close("installed clients")


if __name__ == "__main__":
    main()
