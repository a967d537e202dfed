"""Event records for the tests."""


def record(kind, stamp, thread=0, partition=0, priority=0, mask=0, policy=0):
    return bytes([kind, thread, partition, priority]) + (stamp % 2**32).to_bytes(4, "little") + bytes([mask, policy, 0, 0])
