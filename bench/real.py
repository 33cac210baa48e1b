"""Times gsd.fl on the images of the benchmark: real.py FOLDER prints lines "key microseconds"."""

import os
import sys
import time

import numpy
import gsd.fl

NAMES = ["probe", "heater", "setpoint"]
PROBES = ["probe/00/reading", "probe/01/reading", "probe/02/reading"]
FRAMES = 1440


def best(work, seconds=1.5):
    """The best time in microseconds."""
    times = []
    end = time.perf_counter() + seconds
    while not times or time.perf_counter() < end:
        begin = time.perf_counter()
        work()
        times.append(time.perf_counter() - begin)
    return 1e6 * min(times)


def open_file(path):
    def work():
        gsd.fl.open(path, "rb").close()
    return work


def lookup_day(path):
    file = gsd.fl.open(path, "rb")

    def work():
        assert file.chunk_exists(700, "heater")
    return work


def read_day(path):
    file = gsd.fl.open(path, "rb")

    def work():
        for frame in range(FRAMES):
            for name in NAMES:
                file.read_chunk(frame, name)
    return work


def walk_readings(path):
    """The least and the greatest reading of each probe, frame by frame."""
    file = gsd.fl.open(path, "rb")

    def work():
        readings = {name: [] for name in PROBES}
        for frame in range(file.nframes):
            for name in PROBES:
                try:
                    readings[name].append(file.read_chunk(frame, name)[0])
                except KeyError:  # no such chunk
                    pass
        extremes = [(min(values), max(values)) for values in readings.values()]
        assert sum(map(len, readings.values())) == 40000 and extremes[0][0] == 20
    return work


def append_day(path):
    probe = numpy.array([20, 21, 22], dtype=numpy.float32)
    heater = numpy.array([40], dtype=numpy.uint8)
    setpoint = numpy.array([21.5], dtype=numpy.float64)

    def work():
        with gsd.fl.open(path, "wb", application="a", schema="s", schema_version=[1, 0]) as file:
            for _ in range(FRAMES):
                file.write_chunk("probe", probe)
                file.write_chunk("heater", heater)
                file.write_chunk("setpoint", setpoint)
                file.end_frame()
    return work


def append_large(path):
    data = numpy.zeros(1 << 20, dtype=numpy.uint8)
    file = gsd.fl.open(path, "wb", application="a", schema="s", schema_version=[1, 0])

    def work():
        file.write_chunk("trace", data)
        file.end_frame()
    return work


def main():
    folder = sys.argv[1]
    month, names, day, readings, new = (
        os.path.join(folder, f"{name}.gsd")
        for name in ["month", "names", "day", "readings", "new"])
    print("open_month", best(open_file(month)))
    print("open_names", best(open_file(names)))
    print("lookup_day", best(lookup_day(day)))
    print("read_day", best(read_day(day)))
    print("walk_readings", best(walk_readings(readings)))
    print("append_day", best(append_day(new)))
    print("append_large", best(append_large(new), 0.3))


if __name__ == "__main__":
    main()
