#!/usr/bin/env python3
"""Refuses each request for memory of a proved run in turn, then each of its reads and writes.

    bench/faults.py PROGRAM [DEFINITION TERM]

The run is that of examples/addition if no other is named. A small library, made by `cc` and loaded in front of the C library,
counts the calls and fails the one with the number that it is given. Each end has to be that of the undisturbed run, or code 1
for memory, 3 for a read and 4 for a write. The file of the proof has to be absent or a front of the proof of the undisturbed
run, and the output a front of its lines; if the output has got anything, the proof has to be whole. It prints how many calls
of each kind failed, and the codes of the ends."""
import collections
import os
import pathlib
import shutil
import subprocess
import sys
import tempfile

TOP = pathlib.Path(__file__).resolve().parent.parent

LIBRARY = r"""
#define _GNU_SOURCE
#include <dlfcn.h>
#include <errno.h>
#include <stdlib.h>
#include <string.h>
#include <sys/types.h>

static long left = -1;
static const char *kind = "";

__attribute__((constructor)) static void begin(void) {
    const char *number = getenv("FAIL_NUMBER");
    kind = getenv("FAIL_KIND");
    if (kind == NULL) kind = "";
    left = number == NULL ? -1 : atol(number);
}

static int fails(const char *of) {
    if (left < 0 || strcmp(kind, of) != 0) return 0;
    return left-- == 0;
}

#define REAL(name) ((__typeof__(&name))dlsym(RTLD_NEXT, #name))

extern void *__libc_malloc(size_t);
extern void *__libc_calloc(size_t, size_t);
extern void *__libc_realloc(void *, size_t);

void *malloc(size_t size) { return fails("memory") ? NULL : __libc_malloc(size); }
void *calloc(size_t count, size_t size) { return fails("memory") ? NULL : __libc_calloc(count, size); }
void *realloc(void *old, size_t size) { return fails("memory") ? NULL : __libc_realloc(old, size); }

ssize_t read(int file, void *to, size_t size) {
    if (fails("read")) { errno = EIO; return -1; }
    return REAL(read)(file, to, size);
}

ssize_t write(int file, const void *from, size_t size) {
    if (fails("write")) { errno = ENOSPC; return -1; }
    return REAL(write)(file, from, size);
}
"""

CODES = {"memory": 1, "read": 3, "write": 4}

# How many runs in a row have to meet no failure before there is no call left to fail.
QUIET = 3


def main():
    if len(sys.argv) not in (2, 4):
        sys.exit(__doc__)
    example = TOP / "examples/addition"
    files = sys.argv[2:] or [example / "definition.kore", example / "term.kore"]
    with tempfile.TemporaryDirectory() as folder:
        folder = pathlib.Path(folder)
        (folder / "fail.c").write_text(LIBRARY)
        subprocess.run(["cc", "-shared", "-fPIC", "-O1", "-fno-builtin", "-o", folder / "fail.so", folder / "fail.c", "-ldl"], check=True)
        shutil.copy(files[0], folder / "d.kore")
        shutil.copy(files[1], folder / "t.kore")
        program = pathlib.Path(sys.argv[1]).resolve()
        whole = ended(program, folder, None, 0)
        if whole[0] not in (0, 10, 11) or not whole[2]:
            sys.exit(f"the undisturbed run ended with code {whole[0]}")
        bad = sum(tried(program, folder, kind, whole) for kind in CODES)
    sys.exit(1 if bad else 0)


def ended(program, folder, kind, number):
    """The exit code, the output and the file of the proof of a run in which the call of this kind and number fails."""
    proof = folder / "p.mm"
    proof.unlink(missing_ok=True)
    given = {"LD_PRELOAD": str(folder / "fail.so"), "FAIL_KIND": kind, "FAIL_NUMBER": str(number)} if kind else {}
    run = subprocess.run([program, "run", "d.kore", "t.kore", "--limit", "100", "--proof", "p.mm"], cwd=folder,
                         env={**os.environ, **given}, capture_output=True)
    return run.returncode, run.stdout, proof.read_bytes() if proof.exists() else b""


def tried(program, folder, kind, whole):
    """Fails each call of this kind until a run meets no failure. Returns how many ends are wrong."""
    codes, bad, number, same = collections.Counter(), 0, 0, 0
    while same < QUIET:
        code, out, proof = ended(program, folder, kind, number)
        front = whole[1].startswith(out) and whole[2].startswith(proof) and (not out or proof == whole[2])
        right = (code, out, proof) == whole or (code == CODES[kind] and front)
        if not right:
            bad += 1
            print(f"{kind} {number}: code {code}, {len(out)} bytes of output, {len(proof)} bytes of proof")
        codes[code] += 1
        same = same + 1 if (code, out, proof) == whole else 0
        number += 1
    codes[whole[0]] -= QUIET
    print(f"{kind}: {number - QUIET} calls failed, ends by code {dict(sorted(codes.items()))}, {bad} wrong")
    return bad


if __name__ == "__main__":
    main()
