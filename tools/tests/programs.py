"""What the checks of the built program share."""
import sys
from pathlib import Path

sys.dont_write_bytecode = True
CRATES = Path(__file__).resolve().parents[2] / "crates"
CRATE = CRATES / "moka_replay"


def programs_of(crate):
    """Both builds of a crate, that of LLVM and that of the toolchain's own compiler, which have to be there."""
    return those_there([CRATES / crate / "out" / f"{crate}{ending}" for ending in ("", ".by-rattle")])


def programs():
    """The programs named as arguments, or else both builds of the replay, which have to be there."""
    named = [Path(it).resolve() for it in sys.argv[1:]]
    return those_there(named) if named else programs_of("moka_replay")


def those_there(built):
    missing = [it for it in built if not it.is_file()]
    if missing:
        sys.exit(f"not built: {' '.join(map(str, missing))}")
    return [str(it) for it in built]
