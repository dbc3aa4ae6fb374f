"""Six C programs, compiled for RV64I at -O2 and at -O0 by clang and ld.lld, as files of headers and one segment."""

import os
import struct
import subprocess

HERE = os.path.dirname(os.path.abspath(__file__))
NAMES = ("squares", "quicksort", "checksum", "kernels", "match", "sha256")
LEVELS = ("O2", "O0")
CODE, PAGE = 0x10000, 0x1000
FOR_RISC_V = (
    "--target=riscv64 -march=rv64i -mabi=lp64 -mno-relax -mcmodel=medany -ffreestanding -nostdlib -fno-builtin".split()
)


def headed(code):
    """An ELF file of this segment, which begins with its first instruction and stands at a page, so that qemu maps it."""
    ident = b"\x7fELF\x02\x01\x01".ljust(16, b"\0")
    header = struct.pack("<16sHHIQQQIHHHHHH", ident, 2, 243, 1, CODE, 64, 0, 0, 64, 56, 1, 0, 0, 0)
    length = len(code)
    segment = struct.pack("<IIQQQQQQ", 1, 7, PAGE, CODE, CODE, length, length, PAGE)
    return (header + segment).ljust(PAGE, b"\0") + code


def compiled(name, level, room):
    """The file of a program at a level; its exit status is the same at each."""
    folder = f"{HERE}/programs"
    objects = []
    for source, flag in (("runtime", "O2"), (name, level)):
        objects.append(f"{room}/{source}.{level}.o")
        subprocess.run(["clang", *FOR_RISC_V, f"-{flag}", "-c", f"{folder}/{source}.c", "-o", objects[-1]], check=True)
    flat, program = f"{room}/{name}.{level}.flat", f"{room}/{name}.{level}"
    subprocess.run(["ld.lld", "-static", "-T", f"{folder}/link.ld", "--oformat", "binary", "-o", flat, *objects], check=True)
    with open(flat, "rb") as file:
        code = file.read()
    with open(program, "wb") as file:
        file.write(headed(code))
    os.chmod(program, 0o755)
    return program
