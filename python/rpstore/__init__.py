"""What surrounds the store: shows lots, measures them, takes them into a GIS and out of it, and explains refusals. docs/gis.md
has an example of each.

command   the grammar of a script line, and its first fault with its place
report    a report, answer by answer; what is no report is refused
points    exact points of a plan and of space
notes     which lines of a script are notes, and on which lines and deeds
place     where a script lies on the map: the note on its grid and its local origin, written and read
outline   areas of a plan: outlines with holes of what convex polygons have together
shape     convex bodies: corners, faces, volumes, and what several have together
store     the program: what it writes of a text, and what its `check` says
book      a book in a file: its script, and the last line of a date
script    a script: its front, its live lots, and lines after it
lots      the bodies and slices that a report shows; the store is asked for those of a script
told      how numbers are printed, rounded there and nowhere else
view      one page for a browser, of what is in the folder page
picture   a picture in SVG of sections; colours, and fitting for its names
times     the lots as they were after every line
measures  a table of areas and volumes
gis       GeoJSON; surface makes boundaries of flat polygons
city      CityJSON
postgis   SQL for PostGIS
explain   what is wrong with each refused line, with hints
limits    the limits of the store, and which of them a refused line met; tree reads an expression
conflicts the refused lines of a script as GeoJSON
meets     which lots a region meets, asked of the store by region; meets_forms writes them, drawn reads a region of polygons
crosses   which lots a line crosses, asked of the store by region, with line; crosses_forms writes them
walls     what lots have in common with those that touch them; touch finds it, walls_forms writes it
extract   the lines of a script on which some lots rest
words     the words of the command line
plan      a script of a plan in any format and grid that GDAL and PROJ read, by grid, rings and usage
solids    a script of the solids of a model: citymodel reads CityJSON, ifc reads IFC by step and ifcclip, model is what they read;
          corners makes planes and sees that corners stay, plane finds planes, solid cuts solids into convex parts, solid_region
          spells them

All but `plan` and `meets --drawn` need Python 3.9 and nothing else; `solids` needs PROJ if a model names a grid.
"""


class Fault(Exception):
    """Why nothing is written, with the status of the program and, unless `said` has it, what to do."""

    def __init__(self, said: str, status: int = 1, remedy: str = "") -> None:
        super().__init__(f"{said}. Nothing was written: {remedy}." if remedy else said)
        self.said, self.status = said, status
