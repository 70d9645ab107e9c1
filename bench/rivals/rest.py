"""The row of run.py that shows what this disk allows."""
import os
import time


def disk(folder):
    """Writes to a file in a folder: a line with milliseconds a synced append, MB a second, and the values a second that they allow."""
    file = os.open(f"{folder}/appended", os.O_CREAT | os.O_WRONLY | os.O_APPEND)

    def append(block, times):
        """The seconds of so many writes of a block and one sync."""
        start = time.perf_counter()
        for _ in range(times):
            os.write(file, block)
        os.fdatasync(file)
        return time.perf_counter() - start

    syncs = sorted(append(b"x" * 1024, 1) for _ in range(1000))
    low, median, high = syncs[100], syncs[500], syncs[900]
    speed = 512 * 2**20 / 1e6 / append(os.urandom(2**20), 512)
    return (f"1 KiB append with fdatasync: median {median * 1e3:.3f} ms (10% {low * 1e3:.3f},"
            f" 90% {high * 1e3:.3f}); sequential writing {speed:,.0f} MB/s; limit of durable"
            f" batches of 64 at the median: {32 / median:,.0f} values/s with two syncs a batch,"
            f" {64 / median:,.0f} with one")
