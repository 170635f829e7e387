#!/usr/bin/env python3
"""pyModeS as an adapter: a template. `vectors/run vectors/templates/pymodes.py` where pyModeS is installed.

Each function takes what a case asks and answers it, or {"refused": why}, or UNSUPPORTED. Copy it for a decoder of
your own."""
import argparse
import json
import sys
from fractions import Fraction
from typing import Optional

argparse.ArgumentParser(description=__doc__, formatter_class=argparse.RawDescriptionHelpFormatter).parse_args()
try:
    import pyModeS as pms
except ImportError:
    sys.exit("pyModeS is not installed")

UNSUPPORTED = {"unsupported": True}


def position(given: Optional[dict]) -> list:
    """A latitude and a longitude in doubles; none where no site is given."""
    return [float(Fraction(given["lat"])), float(Fraction(given["lon"]))] if given else [None, None]


def place(found: Optional[tuple]) -> dict:
    """A place, or that there is none."""
    return {"refused": "no place"} if found is None else {"lat": found[0], "lon": found[1]}


def parity(asked: dict) -> dict:
    rest = pms.crc(asked["frame"])
    return {"correct": rest == 0, "remainder": f"{rest:06X}"}


def fields(asked: dict) -> dict:
    frame = asked["frame"]
    if pms.df(frame) != 17 or pms.crc(frame) != 0:
        return {"refused": "no correct squitter"}
    found = {"type": pms.adsb.typecode(frame), "address": pms.adsb.icao(frame).upper()}
    if 5 <= found["type"] <= 22 and found["type"] != 19:
        bits = pms.hex2bin(frame)
        found.update(lat=pms.bin2int(bits[54:71]), lon=pms.bin2int(bits[71:88]))
        found["parity"] = ("even", "odd")[pms.adsb.oe_flag(frame)]
    return found


def altitude(asked: dict) -> dict:
    feet = pms.adsb.altitude(asked["frame"])
    return {"form": "none"} if feet is None else {"form": "feet", "feet": feet}


def nl(asked: dict) -> dict:
    return {"zones": pms.common.cprNL(float(Fraction(asked["lat"])))}


def local(asked: dict) -> dict:
    return place(pms.adsb.position_with_ref(asked["frame"], *position(asked["reference"])))


def pair(asked: dict) -> dict:
    """pyModeS takes the two frames with a time each; the newer one has the later."""
    if any(pms.df(asked[key]) != 17 or pms.crc(asked[key]) for key in ("older", "newer")):
        return {"refused": "no correct squitter"}
    lat, lon = position(asked.get("site"))
    return place(pms.adsb.position(asked["older"], asked["newer"], 0, 1, lat_ref=lat, lon_ref=lon))


ANSWERS = {
    "parity": parity,
    "fields": fields,
    "altitude": altitude,
    "nl": nl,
    "local": local,
    "pair": pair,
    "surface-pair": pair,
}


def main() -> None:
    print(json.dumps({"adapter": "pyModeS", "version": getattr(pms, "__version__", "")}), flush=True)
    for line in sys.stdin:
        case = json.loads(line)
        try:
            answer = ANSWERS.get(case["op"], lambda asked: UNSUPPORTED)(case["input"])
        except Exception as why:  # what a decoder raises is that it has no answer
            answer = {"refused": f"{type(why).__name__}: {why}"}
        print(json.dumps({"id": case["id"], **answer}), flush=True)


if __name__ == "__main__":
    main()
