"""Oatmarten from Python: exact sight lines through a voxel model of a venue, by the proved library.

Every call of the library is here by its name in C, with the same arguments but for two: lent memory is any object with bytes (bytes, bytearray,
memoryview, array.array, mmap.mmap, a numpy array, without a copy; read-only where a call only reads), and its length is its own. A cell is (x, y, z), counts
are (nx, ny, nz), a placement is (ox, oy, oz, edge), a point (x, y, z), a manner (start, rule); the structs of the header stand for them too. An answer is
the header's struct. A refusal is raised as Refused, with number, end, axis and words; nothing was written then.

    import oatmarten as oat

    with oat.Venue.open("ground.venue") as venue:
        hit = oat.oat_plain(venue.counts, venue.held, (20, 12, 7), (36, 8, 0))
        print((hit.x, hit.y, hit.z) if hit.hit else "clear")

The bytes of a grid lie x fastest, then y, then z: as an array they are a[z, y, x] in C order, of shape (nz, ny, nx)."""
from .header import *  # noqa: F401,F403
from .header import __all__ as _names
from .library import LibraryError, Refused
from .memory import Lent
from .venues import Venue, record_of

__all__ = [*_names, "LibraryError", "Lent", "Refused", "Venue", "record_of"]
