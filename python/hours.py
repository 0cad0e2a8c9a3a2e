#!/usr/bin/env python3
"""hours COPY..: a table of bearing hours by station, from the copies of its drives' modules: the newest record of kind 1, such as
'4120 hours', and a bar. A copy that cannot be read to its end is said, and its records before that count."""

import os
import sys

import drivelog

BEARING_HOURS = 1
BAR_HOURS = 250  # hours a character


def newest_hours(path: str) -> int:
    hours = 0
    try:
        for record in drivelog.records(path):
            if record.kind == BEARING_HOURS and record.text and record.text.split()[:1] and record.text.split()[0].isdigit():
                hours = int(record.text.split()[0])
    except (OSError, drivelog.Refused) as error:
        print(f"hours: {path}: {error}", file=sys.stderr)
    return hours


def main() -> None:
    rows = [(os.path.splitext(os.path.basename(path))[0], newest_hours(path)) for path in sys.argv[1:]]
    for station, hours in sorted(rows, key=lambda row: -row[1]):
        print(f"{station:<20} {hours:>6} {'#' * (hours // BAR_HOURS)}")


if __name__ == "__main__":
    main()
