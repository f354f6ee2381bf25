#!/usr/bin/env python3
"""The best of a DataFrame of Dask, with prices, gaps and texts as they stand in its files.

    python3 examples/cluster/cluster.py 'data/*.csv' 'low("Price (EUR)") * low("Distance (km)")' [SCHEDULER]
    python3 examples/cluster/cluster.py --make FOLDER [FILES]        # writes some files to try it with: examples/hotels.csv again and again, at other prices

Without the address of a scheduler it starts a cluster on this machine. Needs Dask (Debian: python3-dask, python3-distributed, python3-pandas), and the package
`prefq` where this runs and on each worker.
"""
import csv
import random
import sys
from pathlib import Path

HOTELS = Path(__file__).resolve().parent.parent / "hotels.csv"
COPIES = 100


def make(folder, files="5"):
    """Writes files of hotels, whose prices are the example's and up to forty euros more; in every third one they are whole."""
    chance = random.Random(1)
    with open(HOTELS, newline="", encoding="utf-8") as file:
        names, *hotels = csv.reader(file)
    price = names.index("Price (EUR)")
    Path(folder).mkdir(parents=True, exist_ok=True)
    for number in range(int(files)):
        with open(Path(folder, f"hotels-{number:03}.csv"), "w", newline="", encoding="utf-8") as file:
            writer = csv.writer(file)
            writer.writerow(names)
            writer.writerows([dearer(hotel, price, chance.randrange(40), is_whole=number % 3 == 0) for _ in range(COPIES) for hotel in hotels])


def dearer(hotel, price, more, *, is_whole):
    """A hotel that costs so much more, if its price is known."""
    if hotel[price] == "n/a":
        return hotel
    whole, _, cents = hotel[price].partition(".")
    return [*hotel[:price], f"{int(whole) + more}{'' if is_whole else f'.{cents}'}", *hotel[price + 1:]]


def ask(pattern, question, scheduler=None):
    """Prints the rows that a preference prefers."""
    from dask import dataframe
    from distributed import Client
    import prefq
    options = {"address": scheduler} if scheduler else {"threads_per_worker": 1, "dashboard_address": None}
    with Client(**options):
        hotels = dataframe.read_csv(pattern)
        try:
            print(prefq.psel(hotels, question).to_csv(index=False), end="")
        except prefq.Error as why:
            sys.exit(str(why))


if __name__ == "__main__":
    if sys.argv[1:2] == ["--make"] and len(sys.argv) > 2:
        make(*sys.argv[2:])
    elif len(sys.argv) > 2:
        ask(*sys.argv[1:])
    else:
        sys.exit(__doc__)
