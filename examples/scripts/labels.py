"""Stands for an extension that makes labels of 32 bytes, and writes 33. It calls PyMem_Malloc and PyMem_Free through ctypes, so that
nothing need be compiled."""

import ctypes

memory = ctypes.pythonapi
memory.PyMem_Malloc.restype = ctypes.c_void_p
memory.PyMem_Malloc.argtypes = [ctypes.c_size_t]
memory.PyMem_Free.argtypes = [ctypes.c_void_p]


def make_label():
    label = memory.PyMem_Malloc(32)
    ctypes.memset(label, 0x20, 33)
    return label


def read_label(label):
    return ctypes.string_at(label, 32)


def drop_label(label):
    memory.PyMem_Free(label)
