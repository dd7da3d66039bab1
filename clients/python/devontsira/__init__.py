"""A store of Devontsira, driven through pipes: an incremental memory checkpointer whose crash safety is proved.

    import devontsira

    with devontsira.open("store") as store:
        store.mmap(1, 0x10000, 4096, "rw")
        store.write(1, 0x10000, b"hello")
        print(store.checkpoint())
"""
from .errors import Damaged, DeviceFailed, Ended, Error, Locked, Refused, Segv, Unfit
from .store import Batch, Store, open

__all__ = [
    "Batch",
    "Damaged",
    "DeviceFailed",
    "Ended",
    "Error",
    "Locked",
    "Refused",
    "Segv",
    "Store",
    "Unfit",
    "open",
]
