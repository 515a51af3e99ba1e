"""What is known of the machine."""
from __future__ import annotations

import ctypes
import os
import sys


class MemoryStatus(ctypes.Structure):
    """MEMORYSTATUSEX of Windows."""

    _fields_ = [("size", ctypes.c_uint32), ("load", ctypes.c_uint32), ("total", ctypes.c_uint64)] + [
        (f"unused{n}", ctypes.c_uint64) for n in range(6)
    ]


def memory() -> int:
    """The machine's memory in bytes."""
    if sys.platform != "win32":
        return os.sysconf("SC_PAGE_SIZE") * os.sysconf("SC_PHYS_PAGES")
    status = MemoryStatus(size=ctypes.sizeof(MemoryStatus))
    if not ctypes.windll.kernel32.GlobalMemoryStatusEx(ctypes.byref(status)):
        raise OSError("the size of the memory isn't known")
    return status.total
