# Made by clib/bindings from clib/squitter.h and clib/texts. Edit these and run the script.
"""The answers of `squitter track`: its columns, and its words."""

COLUMNS = ["line", "moment", "answer", "address", "kind", "lat", "lon", "feet"]
PLACES = ("fix", "followed")  # the answers with a position
KINDS = ("", "air", "ground")
# Patterns of all other answers.
OTHERS = (
    r"waiting", r"split", r"far", r"no site", r"no position", r"bad wrapping", r"short frame", r"bad length [0-9]+",
    r"bad digit [0-9]+", r"not DF17 [0-9]+", r"parity [0-9A-F]{6}", r"long line", r"bad moment", r"moment back [0-9]+",
    r"table full",
)
