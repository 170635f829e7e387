"""faces_python.py JOBS: decodes logs as faces.c does, with squitter.Log, or for `rows` with squitter.batch."""
import io
import itertools
import sys
from fractions import Fraction
from typing import Optional

import squitter

GOOD = b"\n0 8D406B902015A678D4D220AA4BDA\n"


def texts(data: bytes, pieces: str, *settings: object, form: int) -> bytes:
    """Decodes a log in pieces of these sizes, which repeat, and returns its output."""
    at, told = 0, []
    with squitter.Log(*settings, format=squitter.Format(form)) as log:  # type: ignore[arg-type]
        for size in itertools.cycle(map(int, pieces.split(","))):
            if at >= len(data):
                break
            told.append(log.take_text(data[at:at + size]))
            at += size
        return b"".join([*told, log.finish_text()])


def rows(path: str, window: int, site: Optional[squitter.Position], limit: int) -> bytes:
    """Decodes a file to a data frame, and returns rows of CSV that are written from its columns."""
    from squitter import batch

    def degrees(e7: object) -> str:
        whole, part = divmod(abs(int(e7)), 10**7)  # type: ignore[call-overload]
        return f"{'-' if int(e7) < 0 else ''}{whole}.{part:07}"  # type: ignore[call-overload]

    try:
        frame = batch.dataframe(path, window, site, limit)
    except ValueError:
        # A log in which no line is good, nor any has a frame, is refused. So a good line is added, and its row is
        # dropped.
        with open(path, "rb") as log:
            data = log.read() + GOOD
        frame = batch.dataframe(io.BytesIO(data), window, site, limit)[:-1]
    told = [",".join(batch.COLUMNS)]
    columns = (frame[name].astype(object).where(frame[name].notna(), None).tolist()
               for name in ("line", "moment", "answer", "address", "kind", "lat_e7", "lon_e7", "feet"))
    for line, moment, answer, address, kind, lat, lon, feet in zip(*columns):
        place = [degrees(lat), degrees(lon)] if lat is not None else ["", ""]
        texts_of = ["" if one is None else str(one) for one in (line, moment, answer, address, kind)]
        told.append(",".join([*texts_of, *place, "" if feet is None else str(feet)]))
    return "".join(f"{row}\n" for row in told).encode()


def main() -> None:
    with open(sys.argv[1], encoding="ascii") as jobs:
        for job in jobs:
            path, out, window, limit, lat, lon, form, pieces = job.split()
            site = None if lat == "-" else squitter.Position(Fraction(lat), Fraction(lon))
            if form == "rows":
                told = rows(path, int(window), site, int(limit))
            else:
                with open(path, "rb") as log:
                    told = texts(log.read(), pieces, int(window), site, int(limit), form=int(form))
            with open(out, "wb") as file:
                file.write(told)


if __name__ == "__main__":
    main()
