"""Scripts that tests and pictures are made of."""

FLATS = [
    "11 9 3 3 6 0 13 0 13 5 15 5 15 9", "15 9 15 5 13 5 13 0 24 0 27 3 19 9", "19 9 27 3 30 6 30 18 27 21 19 15",
    "19 15 27 21 24 24 17 24 17 19 14 19 14 15", "14 15 14 19 17 19 17 24 6 24 3 21 11 15",
    "11 9 11 15 3 21 0 18 0 14 2 14 2 10 0 10 0 6 3 3",
]

# A house round a court.
COURT = "prism 0 10 11 10 0 10 10 10 20 20 20 20 10 10 10 10 0 30 0 30 30 0 30 0 0"


def lines(*told):
    return "\n".join(told) + "\n"


def metres(number):
    return f"{number:.3f}"


def prism(low, high, corners):
    numbers = [float(word) for word in corners.split()]
    return f"prism {metres(low)} {metres(high)} {len(numbers) // 2} {' '.join(map(metres, numbers))}"


def tower(storeys=20):
    """A building with six flats to the storey round a stair and a lift that go through it; shops with a passage below, a garage
    under it, roof terraces above, and the passage as a right of way in a layer of its own."""
    top = 4 + 3 * (storeys - 1)
    yield "rp 2"
    yield f"register lift box 16.500 12.500 -3.000 19.000 15.000 {metres(top)}"
    yield f"register stair minus box 11.000 9.000 -3.000 19.000 15.000 {metres(top + 2.5)} lot lift"
    yield "let passage = box 13.000 -5.000 0.000 17.000 9.000 3.200"
    yield "register garage minus box -4.000 -4.000 -3.000 34.000 28.000 0.000 box 11.000 9.000 -3.000 19.000 15.000 0.000"
    ground = prism(0, 4, "3 3 6 0 24 0 27 3 30 6 30 18 27 21 24 24 6 24 3 21 0 18 0 6")
    core = "box 11.000 9.000 0.000 19.000 15.000 4.000"
    yield f"register shops minus minus {ground} {core} name passage"
    yield f"register arcade and {ground} name passage"
    for storey in range(1, storeys):
        low = 4 + 3 * (storey - 1)
        for number, corners in enumerate(FLATS, 1):
            if storey >= storeys - 4 and number in (1, 2):
                continue
            flat = prism(low, low + 3, corners)
            if number == 5 and storey % 2:
                flat = f"or {flat} and box 8.000 24.000 {metres(low)} 12.000 25.000 {metres(low + 2)} and half 1 -1 0 16000 half -1 -1 0 36000"
            yield f"register flat-{storey:02}-{number} {flat}"
    layer = 4 + 3 * (storeys - 5)
    for number in (1, 2):
        yield f"register terrace-{number} {prism(layer, layer + 3, FLATS[number - 1])}"
    yield "layer rights"
    yield "register way box 13.500 -5.000 0.000 16.500 9.000 2.500"
    yield "register duct box 12.000 11.000 0.000 12.400 12.000 " + metres(top)
    yield "audit"
    yield "section lot flat-01-5 5.000"


def town(towers=25, storeys=20):
    """Towers in a grid, with ten flats to the storey, wall to wall, whose inner walls are slanted: 5,000 lots."""
    yield "rp 2"
    for tower in range(towers):
        east, north = 45 * (tower % 5), 32 * (tower // 5)
        for storey in range(storeys - tower % 4 + 2 * (tower % 3 == 0)):
            for flat in range(10):
                place, row = flat % 5, flat // 5
                walls = [east + 6 * place + (1.5 if 0 < place < 5 and row else 0), east + 6 * (place + 1) + (1.5 if place < 4 and row else 0)]
                ends = [east + 6 * place + (1.5 if 0 < place and not row else 0), east + 6 * (place + 1) + (1.5 if place < 4 and not row else 0)]
                y = north + 9 * row
                yield (f"register t{tower}.{storey}.{flat} "
                       + prism(3 * storey, 3 * storey + 3, f"{walls[0]} {y} {walls[1]} {y} {ends[1]} {y + 9} {ends[0]} {y + 9}"))


if __name__ == "__main__":
    import sys
    print("\n".join({"tower": tower, "town": town}[sys.argv[1]](*map(int, sys.argv[2:]))))
