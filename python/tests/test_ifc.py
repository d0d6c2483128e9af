"""Spaces of IFC become regions: extruded areas, boundary representations, places, units and properties."""
from decimal import Decimal
from fractions import Fraction

import pytest
import regions
from conftest import ROOT
from rpstore import Fault, ifc, shape, solids, step
from test_words import ran

ROOMS = (ROOT / "examples/rooms.ifc").read_bytes()


def made(text, **given):
    """The status, the lines of the lots, and the lines on standard error."""
    status, told, said = solids.script_of(text, solids.Options(**{"bare": True, "prefix": "r", **given}))
    return status, told.split("\n")[3:-1], said


def registered(text, **given):
    status, lines, said = made(text, **given)
    assert (status, said) == (0, [])
    return lines


def cubic_metres(lines):
    return {name: shape.volume(cells) / 10**9 for name, (cells, _) in regions.lots_of("\n".join(lines)).items()}


# In the coordinates of the storey the room is an L of 5 m by 2 m and 3 m by 2 m, 2.5 m high. Its origin is (2, 1, 3), its x axis (3, 4) / 5.
KITCHEN = "register r101 prism 3.000 5.500 6 -1.200 3.400 2.000 1.000 5.000 5.000 3.400 6.200 2.200 4.600 0.600 5.800"
ATTIC = "register r102 and box 10.000 0.000 0.000 15.000 2.000 3.000 half 0 1 -2 4000"
HALL = ("register r103 minus prism 0.000 3.000 4 20.000 0.000 26.000 0.000 26.000 4.000 20.000 4.000 "
        "prism 0.000 3.000 4 22.000 1.000 22.000 2.000 23.000 2.000 23.000 1.000")


def test_the_rooms_of_the_example():
    assert registered(ROOMS) == [KITCHEN, ATTIC, HALL]
    assert cubic_metres(registered(ROOMS)) == {"r101": 40, "r102": 25, "r103": 69}


def test_properties_are_noted():
    lines = registered(ROOMS, bare=False)
    assert lines[1] == ('# {"id": "101", "Name": "101", "GlobalId": "0a$Xy_Space000000000001", "Description": "K\\u00fcche", "LongName": "Kitchen", '
                        '"storey": "Upper floor", "Usage": "kitchen; 2 windows"}')
    assert [line.split(" ")[1] for line in registered(ROOMS, id="LongName", prefix="")] == ["Kitchen", "Attic", "Hall"]
    assert registered(ROOMS.replace(b"kitchen; 2 windows", b"rights"), layer="Usage")[0] == "layer rights"


def test_sets_of_property_sets():
    text = changed(b"(#20),#31)", b"(#20),IFCPROPERTYSETDEFINITIONSET((#31,#34)))")
    text = text.replace(b"#32=", b"#33=IFCPROPERTYSINGLEVALUE('Let',$,IFCBOOLEAN(.T.),$);\n#34=IFCPROPERTYSET('0a$Xy_Set00000000000002',$,'Own',$,(#33));\n#32=")
    assert registered(text, bare=False)[1].endswith('"Usage": "kitchen; 2 windows", "Let": true}')


def changed(before, after, count=1):
    assert ROOMS.count(before) >= count
    return ROOMS.replace(before, after)


def test_units():
    """The same numbers in metres, and in feet of 0.3048 m: 2500 of these are 762 m."""
    assert "prism 0.000 3.000 4 20.000 0.000" in registered(changed(b".MILLI.", b"$").replace(b"000.", b"."))[2]
    feet = changed(b"#5=IFCSIUNIT(*,.LENGTHUNIT.,.MILLI.,.METRE.);",
                   b"#5=IFCCONVERSIONBASEDUNIT(#90,.LENGTHUNIT.,'FOOT',#91);#90=IFCDIMENSIONALEXPONENTS(1,0,0,0,0,0,0);"
                   b"#91=IFCMEASUREWITHUNIT(IFCRATIOMEASURE(0.3048),#92);#92=IFCSIUNIT(*,.LENGTHUNIT.,$,.METRE.);")
    assert "prism 0.000 914.400 4 6096.000 0.000" in registered(feet, origin=[Decimal(0)] * 2)[2]
    with pytest.raises(Fault, match="the model names no unit of length") as fault:
        made(changed(b"LENGTHUNIT", b"AREAUNIT"))
    assert fault.value.status == 3


def test_a_place_on_the_map():
    """The project is turned by (4, 3): its point (20, 0) comes to lie at (16, 12) from E 500000, N 5700000, which is in the middle."""
    text = changed(b"ENDSEC;\nEND-ISO", b"#95=IFCMAPCONVERSION(#8,#96,500000.,5700000.,10.,4.,3.,$);\n"
                   b"#96=IFCPROJECTEDCRS('EPSG:25832',$,$,$,$,$,#97);\n#97=IFCSIUNIT(*,.LENGTHUNIT.,$,.METRE.);\nENDSEC;\nEND-ISO")
    status, told, said = solids.script_of(text, solids.Options(bare=True, prefix="r"))
    if solids.grid.MISSING:
        pytest.skip("python3-pyproj is not there")
    assert (status, said) == (0, []) and told.split("\n")[1] == "# Grid: EPSG:25832. Local origin: E 500000, N 5700000."
    # (20, 0), (26, 0), (26, 4), (20, 4) of the project.
    assert "register r103 minus prism 10.000 13.000 4 13.600 15.200 16.000 12.000 20.800 15.600 18.400 18.800 " in told
    with pytest.raises(Fault, match="another scale on the map than in the project: 0.9996"):
        solids.script_of(text.replace(b"4.,3.,$);", b"4.,3.,0.9996);"), solids.Options(prefix="r"))


BREP = b"""#44=IFCFACETEDBREP(#110);
#110=IFCCLOSEDSHELL((#111,#112,#113,#114,#115));
#111=IFCFACE((#121));#112=IFCFACE((#122));#113=IFCFACE((#123));#114=IFCFACE((#124));#115=IFCFACE((#125));
#121=IFCFACEOUTERBOUND(#131,.T.);#122=IFCFACEOUTERBOUND(#132,.T.);#123=IFCFACEOUTERBOUND(#133,.T.);#124=IFCFACEOUTERBOUND(#134,.F.);#125=IFCFACEOUTERBOUND(#135,.T.);
#131=IFCPOLYLOOP((#144,#143,#142,#141));#132=IFCPOLYLOOP((#141,#142,#145));#133=IFCPOLYLOOP((#142,#143,#145));#134=IFCPOLYLOOP((#144,#143,#145));#135=IFCPOLYLOOP((#144,#141,#145));
#141=IFCCARTESIANPOINT((0.,0.,0.));#142=IFCCARTESIANPOINT((6000.,0.,0.));#143=IFCCARTESIANPOINT((6000.,6000.,0.));#144=IFCCARTESIANPOINT((0.,6000.,0.));
#145=IFCCARTESIANPOINT((3000.,3000.,4000.));
"""


def of_attic(items):
    """The rooms with another shape of the attic."""
    front, _, rest = ROOMS.partition(b"#44=")
    return front + items + rest[rest.index(b"/* A hall"):]


def test_a_boundary_representation():
    """A pyramid of 6 m by 6 m and 4 m: 48 cubic metres."""
    assert cubic_metres(registered(of_attic(BREP)))["r102"] == 48


def test_triangles():
    """A tetrahedron of 6 m, 6 m and 4 m at a corner: 24 cubic metres."""
    points = b"#45=IFCCARTESIANPOINTLIST3D(((0.,0.,0.),(6000.,0.,0.),(0.,6000.,0.),(0.,0.,4000.)));\n"
    text = of_attic(b"#44=IFCTRIANGULATEDFACESET(#45,$,.T.,((1,3,2),(1,2,4),(2,3,4),(3,1,4)),$);\n" + points)
    assert cubic_metres(registered(text))["r102"] == 24


def test_a_rectangle_that_is_extruded_aslant():
    """4 m by 2 m, 3 m along (0, 3, 4) / 5: 2.4 m high, so 19.2 cubic metres."""
    text = of_attic(b"#44=IFCEXTRUDEDAREASOLID(#46,$,#47,3000.);\n#46=IFCRECTANGLEPROFILEDEF(.AREA.,$,$,4000.,2000.);\n#47=IFCDIRECTION((0.,3.,4.));\n")
    lines = registered(text)
    assert cubic_metres(lines)["r102"] == Fraction("19.2") and lines[1] == (
        "register r102 and and box -2.000 -1.000 0.000 2.000 2.800 2.400 half 0 4 -3 4000 half 0 -4 3 4000")


def test_a_curve_of_several_lines():
    """A triangle of 4 m by 3 m, 2 m high, whose second line goes the other way: 12 cubic metres."""
    text = of_attic(b"#44=IFCEXTRUDEDAREASOLID(#46,$,#2,2000.);\n#46=IFCARBITRARYCLOSEDPROFILEDEF(.AREA.,$,#47);\n#47=IFCCOMPOSITECURVE((#48,#49),.F.);\n"
                    b"#48=IFCCOMPOSITECURVESEGMENT(.CONTINUOUS.,.T.,#50);#49=IFCCOMPOSITECURVESEGMENT(.CONTINUOUS.,.F.,#51);\n"
                    b"#50=IFCPOLYLINE((#52,#53));#51=IFCPOLYLINE((#52,#54,#53));\n"
                    b"#52=IFCCARTESIANPOINT((0.,0.));#53=IFCCARTESIANPOINT((4000.,0.));#54=IFCCARTESIANPOINT((0.,3000.));\n")
    assert registered(text)[1] == "register r102 prism 0.000 2.000 3 0.000 0.000 4.000 0.000 0.000 3.000"


MAPPED = (b"#44=IFCMAPPEDITEM(#46,#47);\n#46=IFCREPRESENTATIONMAP(#4,#48);\n#47=IFCCARTESIANTRANSFORMATIONOPERATOR3D(#50,$,#51,$,$);\n"
          b"#48=IFCSHAPEREPRESENTATION(#8,'Body','SweptSolid',(#49));\n#49=IFCEXTRUDEDAREASOLID(#52,$,#2,2000.);\n#50=IFCDIRECTION((0.,2.,0.));\n"
          b"#51=IFCCARTESIANPOINT((1000.,500.,250.));\n#52=IFCRECTANGLEPROFILEDEF(.AREA.,$,$,4000.,2000.);\n")


def test_a_mapped_item():
    """A room of 4 m by 2 m round the origin, turned so that its x axis is north, and moved by (1, 0.5, 0.25)."""
    assert registered(of_attic(MAPPED))[1] == "register r102 prism 0.250 2.250 4 0.000 -1.500 2.000 -1.500 2.000 2.500 0.000 2.500"
    for before, after, told in ((b"$,#51,$,$)", b"$,#51,2.,$)", "that is scaled"), (b"(#4,#48)", b"(#14,#48)", "that is scaled or has an origin of its own"),
                                (b"(#49)", b"(#44)", "mapped items refer to each other in a circle")):
        assert told in made(of_attic(MAPPED.replace(before, after)))[2][0]


# A room of 5 m by 2 m and 3 m at (10, 0), and the plane z = 2 m + y/2.
CLIPPED = (b"#45=IFCEXTRUDEDAREASOLID(#46,#47,#2,3000.);\n#46=IFCARBITRARYCLOSEDPROFILEDEF(.AREA.,$,#48);\n#47=IFCAXIS2PLACEMENT3D(#49,$,$);\n"
           b"#48=IFCPOLYLINE((#50,#51,#52,#53,#50));\n#49=IFCCARTESIANPOINT((10000.,0.,0.));\n#50=IFCCARTESIANPOINT((0.,0.));#51=IFCCARTESIANPOINT((5000.,0.));"
           b"#52=IFCCARTESIANPOINT((5000.,2000.));#53=IFCCARTESIANPOINT((0.,2000.));\n#54=IFCPLANE(#55);\n#55=IFCAXIS2PLACEMENT3D(#56,#57,#3);\n"
           b"#56=IFCCARTESIANPOINT((0.,0.,2000.));\n#57=IFCDIRECTION((0.,-1.,2.));\n#98=IFCPOLYLINE((#99,#100,#101,#102,#99));\n"
           b"#99=IFCCARTESIANPOINT((10000.,-1000.));#100=IFCCARTESIANPOINT((12000.,-1000.));#101=IFCCARTESIANPOINT((12000.,3000.));#102=IFCCARTESIANPOINT((10000.,3000.));\n"
           b"#103=IFCEXTRUDEDAREASOLID(#104,#105,#2,9000.);\n#104=IFCRECTANGLEPROFILEDEF(.AREA.,$,$,1000.,1000.);\n#105=IFCAXIS2PLACEMENT3D(#106,$,$);\n"
           b"#106=IFCCARTESIANPOINT((13000.,1000.,-1000.));\n")
UNDER = b"#44=IFCBOOLEANCLIPPINGRESULT(.DIFFERENCE.,#45,#58);\n#58=IFCHALFSPACESOLID(#54,.F.);\n"
RESULTS = [
    # Under the plane the mean height is 2.5 m, and over it 0.5 m.
    (UNDER, 25), (UNDER.replace(b".F.", b".T."), 5), (UNDER.replace(b"CLIPPINGRESULT(.DIFFERENCE.", b"RESULT(.INTERSECTION."), 5),
    # Over the plane and over the first 2 of the 5 m: 2*2*0.5 are taken away.
    (b"#44=IFCBOOLEANCLIPPINGRESULT(.DIFFERENCE.,#45,#58);\n#58=IFCPOLYGONALBOUNDEDHALFSPACE(#54,.F.,#4,#98);\n", 28),
    # A column of 1 m by 1 m, from 1 m under the floor to 8 m: 3 cubic metres are in the room, and 6 are not.
    (b"#44=IFCBOOLEANRESULT(.DIFFERENCE.,#45,#103);\n", 27), (b"#44=IFCBOOLEANRESULT(.INTERSECTION.,#45,#103);\n", 3),
    (b"#44=IFCBOOLEANRESULT(.UNION.,#45,#103);\n", 36),
    # One after the other: the column is 2.5 m high under the plane, on the mean.
    (b"#44=IFCBOOLEANRESULT(.DIFFERENCE.,#59,#103);\n" + UNDER.replace(b"#44", b"#59"), 22.5),
]


@pytest.mark.parametrize("item, volume", RESULTS)
def test_results_of_several_solids(item, volume):
    lines = registered(of_attic(item + CLIPPED))
    assert cubic_metres(lines)["r102"] == volume and (item != UNDER or lines[1] == ATTIC)


def test_results_that_do_not_do():
    told = [made(of_attic(item + CLIPPED))[2][0] for item in (
        b"#44=IFCBOOLEANRESULT(.DIFFERENCE.,#45,#45);\n", b"#44=IFCBOOLEANRESULT(.DIFFERENCE.,#44,#45);\n", b"#44=IFCBOOLEANRESULT(.OTHER.,#45,#45);\n",
        b"#44=IFCBOOLEANRESULT(.DIFFERENCE.,#45,#60);\n", UNDER.replace(b"#54", b"#98"))]
    assert told == ["feature 2, r102: nothing is left of a solid that is clipped", "feature 2, r102: its shape does not read as IFC",
                    "feature 2, r102 (OTHER): solids are joined in a way that is not known", "feature 2, r102 (IFCSPACE): a solid of a kind that is not read",
                    "feature 2, r102 (#98): a IFCPOLYLINE is not read here, where a IFCPLANE is"]


def test_a_clipped_solid_with_corners_that_are_not_whole():
    """The plane z = 2 m + y/3 meets the far wall at 2666.666.. mm: the two corners there are rounded."""
    lines = registered(of_attic(UNDER + CLIPPED.replace(b"(0.,-1.,2.)", b"(0.,-1.,3.)")))
    assert lines[0] == "# Rounded to the millimetre: 2 of 108 coordinates." and lines[2] == "register r102 and box 10.000 0.000 0.000 15.000 2.000 2.667 half 0 667 -2000 4000000"


# An item in the place of the attic's, and what is told of it.
UNFIT = [
    (b"#44=IFCEXTRUDEDAREASOLID(#46,$,#2,3000.);\n#46=IFCCIRCLEPROFILEDEF(.AREA.,$,$,1000.);\n",
     "feature 2, r102 (IFCCIRCLEPROFILEDEF): a profile that is not of straight lines"),
    (b"#44=IFCSWEPTDISKSOLID(#46,1.,$,$,$);\n", "feature 2, r102 (IFCSWEPTDISKSOLID): a solid of a kind that is not read"),
    (b"#44=IFCEXTRUDEDAREASOLID(#46,$,#2,3000.);\n#46=IFCARBITRARYCLOSEDPROFILEDEF(.AREA.,$,#47);\n#47=IFCINDEXEDPOLYCURVE(#48,(IFCARCINDEX((1,2,3))),.F.);\n"
     b"#48=IFCCARTESIANPOINTLIST2D(((0.,0.),(1.,1.),(2.,0.)));\n", "feature 2, r102 (IFCARCINDEX): a curve that is not of straight lines"),
    (b"#44=IFCEXTRUDEDAREASOLID(#999,$,#2,3000.);\n", "feature 2, r102 (#999): the file refers to an instance that is not there"),
    (b"#44=IFCEXTRUDEDAREASOLID(7,$,#2,3000.);\n", "feature 2, r102 (7): the file refers to an instance that is not there"),
    (b"#44=IFCEXTRUDEDAREASOLID(#46,$,#2);\n#46=IFCRECTANGLEPROFILEDEF(.AREA.,$,$,4000.,2000.);\n", "feature 2, r102: its shape does not read as IFC"),
    (b"#44=IFCEXTRUDEDAREASOLID(#46,$,#2,3000.);\n#46=IFCRECTANGLEPROFILEDEF(.AREA.,$,$,'4000.',2000.);\n", "feature 2, r102 ('4000.'): a coordinate is no number"),
    (b"#44=IFCTRIANGULATEDFACESET(#45,$,.T.,((1,3,2),(1,2,4),(2,3,4)),$);\n#45=IFCCARTESIANPOINTLIST3D(((0.,0.,0.),(6.,0.,0.),(0.,6.,0.),(0.,0.,4.)));\n",
     "feature 2, r102 (the surface, 3 edges; the first from 0.000 0.000 0.000 to 0.000 0.000 0.004): a surface is not closed"),
]


@pytest.mark.parametrize("items, told", UNFIT)
def test_what_cannot_be_registered(items, told):
    status, lines, said = made(of_attic(items))
    assert (status, lines) == (4, []) and said[0].startswith(told)
    status, lines, said = made(of_attic(items), leave_out=True)
    assert status == 1 and lines[1].startswith("# left out: feature 2") and [lines[0], lines[2]] == [KITCHEN, HALL]


def test_spaces_without_a_solid():
    assert made(changed(b"$,#21,#22,'Kitchen'", b"$,#21,$,'Kitchen'"))[2][0] == "feature 1, r101 (no representation): no solid"
    assert made(changed(b"'Body','SweptSolid',(#24)", b"'FootPrint','Curve2D',(#24)"))[2][0] == "feature 1, r101 (FootPrint): no solid"


@pytest.mark.parametrize("text", [b"ISO-10303-21;", b"ISO-10303-21;DATA;#1=IFCSPACE('x';", changed(b"IFCSPACE", b"IFCWALL"), changed(b"#7=IFCUNITASSIGNMENT((#6,#5));", b""),
                                  changed(b"IFCUNITASSIGNMENT((#6,#5))", b"IFCUNITASSIGNMENT(#6,#5)"), changed(b"('0a$Xy_Space000000000001',", b"(('0a$Xy_Space000000000001',"),
                                  changed(b"IFCRELAGGREGATES('0a$Xy_Aggregate000000001',$,$,$,#11,(#20,#40,#60))", b"IFCRELAGGREGATES(1)")])
def test_what_is_no_model(text):
    with pytest.raises(Fault) as found:
        made(text)
    assert found.value.status == 3 and "Nothing was written" in str(found.value)


@pytest.mark.parametrize("depth", [b"2500.E-999999999", b"2500.E999999999", b"0.E999999999"])
def test_numbers_that_would_fill_the_memory(depth):
    status, _, said = made(changed(b"#4,#2,2500.)", b"#4,#2,%s)" % depth))
    assert status == 4 and said[0].startswith("feature 1, r101")


def test_a_text_that_does_not_end_is_read_fast():
    with pytest.raises(Fault):
        made(b"ISO-10303-21;DATA;#1=IFCSPACE(" + b"''" * 20000)


def test_a_world_that_is_moved():
    with pytest.raises(Fault, match="the world coordinate system of a context is not that of the project: .*: #8. Nothing was written"):
        made(changed(b"3,1.E-05,#4,$)", b"3,1.E-05,#14,$)"))


def test_placements_in_a_circle():
    assert made(changed(b"#21=IFCLOCALPLACEMENT(#13,#4);", b"#21=IFCLOCALPLACEMENT(#21,#4);"))[2][0] == "feature 1, r101: placements refer to each other in a circle"


@pytest.mark.parametrize("text, values", [
    ("'it''s',$,*,.T.,#7,(1,(2.5,-3)),IFCLABEL('a;b')", ["it's", None, None, step.Enumeration("T"), step.Reference(7), [1, [2.5, -3]], step.Typed("IFCLABEL", ["a;b"])]),
    ("'\\X2\\00E4201E\\X0\\ \\X\\E9'", ["\u00e4\u201e \u00e9"]), ("1.E-3", [0.001]), ("", [])])
def test_values_of_step(text, values):
    assert step.values_of(text) == values


def test_a_direction_is_exact_if_its_length_is():
    assert ifc.unit((Fraction(3), Fraction(4), Fraction(0))) == (Fraction(3, 5), Fraction(4, 5), 0)
    x, y, _ = ifc.unit((Fraction(1), Fraction(1), Fraction(0)))
    assert x == y and abs(2 * x * x - 1) < Fraction(1, 10**28)


def test_the_words_of_the_command_line():
    status, told, said = ran(["solids", str(ROOT / "examples/rooms.ifc"), "--prefix", "r", "--bare"])
    assert (status, said, told.decode().split("\n")[3:-1]) == (0, "", [KITCHEN, ATTIC, HALL])
