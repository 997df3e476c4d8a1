"""Whether the structs of the Python modules are those of the headers: sizes.py PROGRAM, which is sizes.c."""

import ctypes
import subprocess
import sys

from nvmesgl import _library, controller, host, machine

STRUCTS = {
    "nvmesgl_options": machine.Options,
    "nvmesgl_pages": machine.Pages,
    "nvmesgl_piece": _library.CPiece,
    "nvmesgl_request": _library.CRequest,
    "nvmesgl_range": _library.CRange,
    "nvmesgl_iovec": _library.IoVec,
    "nvmesgl_answer": _library.Answer,
    "nvmesgl_page_owner": _library.PageOwner,
    "nvmectl_options": controller.COptions,
    "nvmectl_queue": controller.CQueue,
    "nvmectl_region": controller.CRegion,
    "nvmectl_job": controller.CJob,
    "nvmectl_step": controller.CStep,
    "nvmehost": _library.Handle,
    "nvmehost_options": host.COptions,
    "nvmehost_doorbell": host.CDoorbell,
    "nvmehost_ended": host.CEnded,
    "nvmehost_queue": host.CQueue,
    "nvmehost_run": host.CRun,
    "nvmehost_place": host.CPlace,
    "nvmehost_pages": host.CPages,
    "nvmehost_memory": host.CMemory,
}

ran = subprocess.run([sys.argv[1]], capture_output=True, text=True, check=True)
told = {name: [int(word) for word in words] for name, *words in (line.split() for line in ran.stdout.splitlines())}
for name, struct in STRUCTS.items():
    here = [ctypes.sizeof(struct), *(getattr(struct, field[0]).offset for field in struct._fields_)]
    assert here == told[name], (name, here, told[name])
assert told.keys() == STRUCTS.keys()

print("done")
