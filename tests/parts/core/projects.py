#!/usr/bin/env -S python3 -B
"""Reads the project files of core/: dvg.core as YAML, and dvg.qip as Tcl, by yosys.

    projects.py CORE           the folder of them

Both must name the same files, which must be there: those of the Verilog must be all that the
modules of TOPS want, as yosys reads them, and all dvg_*.v of the folder. Prints how many files they
name, or what is wrong (status 1). Neither FuseSoC nor Quartus is asked."""

import glob
import os
import subprocess
import sys
import tempfile

TOPS = ("dvg_named", "dvg_socket", "dvg_monitor", "dvg_raster", "dvg_enable", "dvg_machine",
        "dvg_game", "dvg_sound")
READER = """proc set_global_assignment {option kind path} { puts "$option $kind $path" }
array set ::quartus {qip_path .}
source dvg.qip
"""


def run(words, folder):
    ran = subprocess.run(words, cwd=folder, capture_output=True, text=True)
    if ran.returncode:
        sys.exit(f"{words[0]}: {ran.stderr.strip()}")
    return ran.stdout


def files_of_core(folder):
    """The files of dvg.core, by kinds."""
    import yaml
    with open(f"{folder}/dvg.core", encoding="utf-8") as file:
        head = file.readline()
        core = yaml.safe_load(file)
    if head != "CAPI=2:\n":
        sys.exit(f"dvg.core begins with {head}")
    for target in core["targets"].values():
        if not set(target["filesets"]) <= set(core["filesets"]):
            sys.exit(f"a target of unknown files: {target}")
    return {name: part["files"] for name, part in core["filesets"].items()}


def files_of_qip(folder):
    """The files of dvg.qip, by kinds."""
    with tempfile.NamedTemporaryFile("w", suffix=".tcl") as reader:
        reader.write(READER)
        reader.flush()
        lines = run(["yosys", "-q", "-c", reader.name], folder).splitlines()
    files = {"verilog": [], "vhdl": []}
    for line in lines:
        option, kind, path = line.split()
        if option != "-name":
            sys.exit(f"dvg.qip: {line}")
        files[kind.replace("_FILE", "").lower()].append(path.removeprefix("./"))
    return files


def main(folder):
    files = files_of_core(folder)
    if files != files_of_qip(folder):
        sys.exit(f"dvg.core names {files}, dvg.qip {files_of_qip(folder)}")
    for top in TOPS:
        run(["yosys", "-q", "-p", f"read_verilog {' '.join(files['verilog'])}; "
             f"hierarchy -check -top {top}"], folder)
    here = {os.path.basename(path) for path in glob.glob(f"{folder}/dvg_*.v")}
    if here != {*files["verilog"]}:
        sys.exit(f"not named: {' '.join(sorted(here - {*files['verilog']}))}")
    for name in files["vhdl"]:
        with open(f"{folder}/{name}", encoding="utf-8"):
            pass
    print(f"{sum(map(len, files.values()))} files")


main(*sys.argv[1:])
