"""Volumes by SFCGAL (Debian's libsfcgal1), which computes exactly and tells a double."""
import ctypes
import ctypes.util

import pytest


def library():
    path = ctypes.util.find_library("SFCGAL")
    if not path:
        pytest.skip("libsfcgal1 is not there")
    found = ctypes.CDLL(path)
    for name, answer, words in (("io_read_wkt", ctypes.c_void_p, [ctypes.c_char_p, ctypes.c_size_t]),
                                ("geometry_convexhull_3d", ctypes.c_void_p, [ctypes.c_void_p]),
                                ("geometry_make_solid", ctypes.c_void_p, [ctypes.c_void_p]),
                                ("geometry_union_3d", ctypes.c_void_p, [ctypes.c_void_p, ctypes.c_void_p]),
                                ("geometry_volume", ctypes.c_double, [ctypes.c_void_p])):
        call = getattr(found, f"sfcgal_{name}")
        call.restype, call.argtypes = answer, words
    found.sfcgal_init()
    return found


def solid(polygons):
    """The volume of the solid that polygons of GeoJSON with heights go round, or -1 where they are none."""
    def text_of(ring):
        return f"({','.join(' '.join(map(repr, point)) for point in ring)})"

    faces = ",".join(f"({','.join(map(text_of, polygon))})" for polygon in polygons)
    text, found = f"SOLID(({faces}))".encode(), library()
    return found.sfcgal_geometry_volume(found.sfcgal_io_read_wkt(text, len(text)))


def volume(bodies):
    """The volume of what is in one of the `bodies` at least, each given by its corners, triples of fractions."""
    found, whole = library(), None
    for corners in bodies:
        text = f"MULTIPOINT({','.join('(%s)' % ' '.join(map(str, corner)) for corner in corners)})".encode()
        solid = found.sfcgal_geometry_make_solid(found.sfcgal_geometry_convexhull_3d(found.sfcgal_io_read_wkt(text, len(text))))
        whole = found.sfcgal_geometry_union_3d(whole, solid) if whole else solid
    return found.sfcgal_geometry_volume(whole)
