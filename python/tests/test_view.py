import base64
import gzip
import json
import re
from fractions import Fraction

import browsing
import buildings
import pytest
from rpstore import Fault, colours, lots, shape, view

TWO = "rp 2\nregister a box 0.000 0.000 0.000 4.000 5.000 3.000\nlayer rights\nregister way box 1.000 0.000 3.000 2.000 5.000 6.000\n"


def data_of(page):
    return json.loads(gzip.decompress(base64.b64decode(re.search(r'<script id="data" type="text/plain">(.*?)</script>', page)[1])))


def box(*ends):
    """A body of whole metres."""
    low, high = ([1000 * end for end in side] for side in (ends[:3], ends[3:]))
    return shape.cell([(1, 0, 0, -low[0]), (-1, 0, 0, high[0]), (0, 1, 0, -low[1]), (0, -1, 0, high[1]), (0, 0, 1, -low[2]), (0, 0, -1, high[2])])


def lot(label, *cells, layer="base"):
    return lots.Body(label, True, layer, 1, (), list(cells))


def shown(*bodies):
    return lots.Seen(list(bodies), [], lots.Place(), 0, "accepted", 2)


# ---- the bytes of the page

def test_the_numbers_of_a_page(seen):
    data = data_of(view.page(seen(TWO), "a plan"))
    first, way = data["lots"]
    assert first["box"] == ["0.000", "0.000", "0.000", "4.000", "5.000", "3.000"] and (first["volume"], first["area"]) == ("60.000", "20.000")
    assert data["layers"] == ["base", "rights"] and data["storeys"] == ["0.00 m", "3.00 m"] and (way["layer"], way["storey"]) == (1, 1)
    # A box has 8 corners, 12 triangles and 12 edges, whatever its parts.
    assert [len(first[key]) for key in ("points", "triangles", "edges")] == [24, 36, 24]


def test_parts_leave_no_edges_within_a_lot():
    [found] = data_of(view.page(shown(lot("a", box(0, 0, 0, 4, 5, 3), box(4, 0, 0, 9, 5, 3))), "a plan"))["lots"]
    assert len(found["edges"]) == 24 and found["parts"] == 2


def test_a_page_asks_no_network_and_escapes():
    page = view.page(shown(lot("a", box(0, 0, 0, 4, 5, 3))), "<b>&\"__DATA__")
    assert "<title>&lt;b&gt;&amp;&quot;__DATA__</title>" in page
    assert not re.search(r"(?:src|href)\s*=|https?://|@import|url\(|fetch\(|XMLHttpRequest", page)


def test_nothing_to_draw():
    with pytest.raises(Fault, match="no lot"):
        view.page(shown(lot("a", shape.cell([]))), "a plan")


@pytest.mark.parametrize("lows, step, storeys, names", [
    ([0, 3000, 3100, -2800], 2000, [1, 2, 2, 0], ["-2.80 m", "0.00 m", "3.00 to 3.10 m"]), ([0, 1500, 2000], 2000, [0, 0, 1], ["0.00 to 1.50 m", "2.00 m"]),
    ([Fraction(-18940603, 1000), Fraction(-55000, 3)], 2000, [0, 0], ["-18.941 to -18.333 m"])])
def test_storeys(lows, step, storeys, names):
    assert view.storeys_of(lows, step) == (storeys, names)


# ---- what the page shows

@pytest.fixture(scope="module")
def block(tmp_path_factory):
    """A page of two storeys of four flats of 10 m by 10 m, one of two parts, a cellar under all, and a way in a layer of its own."""
    flats = [lot(f"flat-{storey}{place}", *([box(x, y, z, x + 5, y + 10, z + 3), box(x + 5, y, z, x + 10, y + 10, z + 3)] if place == 3
                                             else [box(x, y, z, x + 10, y + 10, z + 3)]))
             for storey, z in enumerate((0, 3)) for place, (x, y) in enumerate(((0, 0), (10, 0), (0, 10), (10, 10)))]
    path = tmp_path_factory.mktemp("page") / "block.html"
    path.write_text(view.page(shown(lot("cellar", box(0, 0, -3, 20, 20, 0)), *flats, lot("way", box(8, -6, 0, 12, 0, 2), layer="rights")), "A block"), encoding="utf-8")
    return path


def place(browser, name):
    """Where on the window the middle of a lot is."""
    return browser.execute_script("""const lot = lots.find(lot => lot.name === arguments[0]), box = document.getElementById('canvas').getBoundingClientRect();
        const [x, y] = screen(lifted([...lot.middle.slice(0, 2), Math.min(lot.middle[2], cutHeight())], lot)); return [box.left + x, box.top + y]""", name)


def hand(browser, x, y, click=False):
    """Moves the hand to a place of the window, as a mouse does, and may click there."""
    for kind in ("mouseMoved", *(("mousePressed", "mouseReleased") if click else ())):
        browser.execute_cdp_cmd("Input.dispatchMouseEvent", {"type": kind, "x": x, "y": y, "button": "left" if kind != "mouseMoved" else "none", "clickCount": 1})


def text(browser, name):
    """The lines that an element shows, if it is shown."""
    return browser.execute_script("const it = document.getElementById(arguments[0]); return it.offsetParent ? it.innerText : ''", name).replace("\t", " ").splitlines()


def slide(browser, name, value):
    browser.execute_script("const it = document.getElementById(arguments[0]); it.value = arguments[1]; it.dispatchEvent(new Event('input'))", name, value)
    browsing.rested(browser)


def press(browser, path):
    browser.find_element("xpath", path).click()
    browsing.rested(browser)


def names(browser):
    return set(browser.execute_script("return [...document.querySelectorAll('#labels span')].map(each => each.textContent)"))


def lit(browser, name):
    """How a lot has to look from above, and where it is cut open."""
    colour = browser.execute_script("return colourOf(lots.find(lot => lot.name === arguments[0])).map(part => 255 * part)", name)
    return [part * 0.92 for part in colour]


def colour_at(browser, name):
    """The colour beside the middle of a lot, where no name and no line of the ground is."""
    return browsing.pixel(browser, *(part + 20 for part in place(browser, name)))


def is_near(found, wanted):
    return all(abs(a - b) < 8 for a, b in zip(found, wanted))


def test_what_is_seen_has_the_colour_of_its_lot(browser, block):
    browsing.opened(browser, block, "yaw=0&pitch=90&names=0")
    for name in ("flat-10", "flat-11", "flat-12", "flat-13", "way"):
        assert is_near(colour_at(browser, name), lit(browser, name))
    palette = {tuple(map(round, lit(browser, f"flat-1{each}"))) for each in range(4)}
    assert len(palette) == 4 and set(colours.PALETTE) == set(browser.execute_script("return data.palette"))


def test_the_hand_and_a_click_tell_exact_numbers(browser, block):
    browsing.opened(browser, block, "yaw=0&pitch=90")
    hand(browser, *place(browser, "flat-13"))
    assert text(browser, "tip") == ["flat-13", " from to m", "east 10.000 20.000 10.000", "north 10.000 20.000 10.000", "height 3.000 6.000 3.000",
                                    "area in plan   100.000 m²", "volume   300.000 m³"]
    assert text(browser, "card") == []
    hand(browser, *place(browser, "flat-13"), click=True)
    hand(browser, 5, 5)
    card = text(browser, "card")
    assert card[:3] == ["fit", "×", "flat-13"] and "volume   300.000 m³" in card and card[-3:] == ["layer base", "came in line 1", "parts 2"]
    assert "lot=flat-13" in browser.current_url
    browser.find_element("css selector", "body").send_keys("\ue00c")
    assert text(browser, "card") == [] and "lot=" not in browser.current_url


def test_a_lot_is_found_by_its_name(browser, block):
    browsing.opened(browser, block, "storeys=2")
    browser.find_element("id", "find").send_keys("cellar")
    browsing.rested(browser)
    assert "height -3.000 0.000 3.000" in text(browser, "card")
    # Its storey is switched on, and its middle is in the middle of the picture.
    assert browser.execute_script("return state.storeys[0]")
    assert browser.execute_script("""const lot = lots.find(lot => lot.name === 'cellar'), [x, y] = screen([0, 1, 2].map(axis => (lot.low[axis] + lot.high[axis]) / 2));
        return Math.abs(x - canvas.clientWidth / 2) + Math.abs(y - canvas.clientHeight / 2)""") < 1


def test_a_cut_is_a_floor_plan(browser, block):
    browsing.opened(browser, block, "yaw=0&pitch=90&names=1")
    assert names(browser) == {"flat-10", "flat-11", "flat-12", "flat-13", "way"}
    # From -3 to 6 m: 0.5 is at 1.5 m, where the lower storey is cut open; at 3 m it is the upper one, and at -1 m the cellar.
    slide(browser, "cut", 500)
    assert names(browser) == {"flat-00", "flat-01", "flat-02", "flat-03", "way"} and text(browser, "cutValue") == ["1.50 m"]
    assert is_near(colour_at(browser, "flat-00"), lit(browser, "flat-00"))
    hand(browser, *place(browser, "flat-03"))
    assert text(browser, "tip")[0] == "flat-03"
    slide(browser, "cut", 667)
    assert text(browser, "cutValue") == ["3.00 m"] and names(browser) == {"flat-10", "flat-11", "flat-12", "flat-13", "way"}
    slide(browser, "cut", 222)
    assert names(browser) == {"cellar"}


def test_layers_and_storeys_are_switched(browser, block):
    browsing.opened(browser, block, "yaw=0&pitch=90&names=0")
    assert is_near(colour_at(browser, "way"), lit(browser, "way"))
    press(browser, "//div[@id='layers']//span[text()='rights']/preceding-sibling::input")
    assert min(colour_at(browser, "way")) > 230
    press(browser, "//div[@id='storeys']//span[text()='0.00 m']/following-sibling::button")
    hand(browser, *place(browser, "flat-01"))
    assert text(browser, "tip")[0] == "flat-01"
    assert [box.is_selected() for box in browser.find_elements("css selector", "#storeys input")] == [False, True, False]
    press(browser, "//button[text()='none']")
    assert browser.execute_script("return counts") == [0, 0, 0] and min(colour_at(browser, "flat-01")) > 230
    press(browser, "//button[text()='all']")
    hand(browser, *place(browser, "flat-11"))
    assert text(browser, "tip")[0] == "flat-11"


def test_storeys_are_spread(browser, block):
    browsing.opened(browser, block, "yaw=0&pitch=0&names=0")
    before = [place(browser, f"flat-{storey}0")[1] for storey in (0, 1)]
    slide(browser, "spread", 50)
    press(browser, "//button[@id='fit']")
    after = [place(browser, f"flat-{storey}0")[1] for storey in (0, 1)]
    assert before[0] - before[1] > 10 and text(browser, "spreadValue") == ["4.5 m"]
    # Between two storeys there is nothing now: half way between the roof of the one and the floor of the other.
    x, zoom = place(browser, "flat-00")[0], browser.execute_script("return state.zoom")
    assert after[0] - after[1] == pytest.approx(7.5 * zoom, abs=1)
    assert min(browsing.pixel(browser, x, after[0] - 2.25 * zoom)) > 200


def test_the_address_holds_the_view(browser, block):
    browsing.opened(browser, block)
    slide(browser, "cut", 600)
    press(browser, "//button[text()='south']")
    press(browser, "//div[@id='layers']//span[text()='rights']/preceding-sibling::input")
    kept, colour = browser.current_url, colour_at(browser, "flat-00")
    view_ = browser.execute_script("return JSON.stringify(state)")
    browsing.opened(browser, block, kept.partition("#")[2])
    assert browser.execute_script("return JSON.stringify(state)") == view_ and colour_at(browser, "flat-00") == colour


@pytest.fixture(scope="module")
def site(tmp_path_factory):
    """A page of four flats of 10 m by 10 m round a shaft of 1 m by 1 m, and a crane that reaches 100 m far, in a layer of its own."""
    flats = [lot(f"flat-{number}", box(x, y, 0, x + 10, y + 10, 3)) for number, (x, y) in enumerate(((0, 0), (11, 0), (0, 10), (11, 10)))]
    path = tmp_path_factory.mktemp("page") / "site.html"
    path.write_text(view.page(shown(*flats, lot("service-shaft", box(10, 0, 0, 11, 1, 3)), lot("crane", box(-90, -90, 10, 110, 110, 12), layer="crane")), "A site"),
                    encoding="utf-8")
    return path


def width_of(browser, name):
    """How wide a lot is on the screen, seen from above."""
    return browser.execute_script("const lot = lots.find(lot => lot.name === arguments[0]); return (lot.high[0] - lot.low[0]) * state.zoom", name)


def test_what_reaches_far_leaves_the_frame_to_the_lots(browser, site):
    browsing.opened(browser, site, "yaw=0&pitch=90&names=0")
    # The crane is over all flats, and see-through: a flat keeps the colour of its lot, mixed with that of the crane.
    assert width_of(browser, "flat-0") > 200 and browser.execute_script("return state.clear") == [False, True]
    hand(browser, *place(browser, "flat-3"))
    assert text(browser, "tip")[0] == "flat-3"
    press(browser, "//button[@id='fit']")
    assert 400 < width_of(browser, "crane") < 928 and width_of(browser, "flat-0") < 50
    press(browser, "//div[@id='layers']//span[text()='base']/following-sibling::button[text()='fit']")
    assert width_of(browser, "flat-0") > 200
    hand(browser, *place(browser, "flat-1"), click=True)
    press(browser, "//button[@id='near']")
    assert 500 < width_of(browser, "flat-1") < 928


def test_a_layer_that_is_switched_off_is_looked_at(browser, site):
    browsing.opened(browser, site, "yaw=0&pitch=90&names=0&layers=0")
    press(browser, "//div[@id='layers']//span[text()='crane']/following-sibling::button[text()='fit']")
    assert browser.execute_script("return state.layers") == [True, True] and 400 < width_of(browser, "crane") < 928


@pytest.mark.parametrize("width, height", [(390, 780), (1200, 800), (1920, 1080)])
def test_a_name_is_led_out_of_its_shaft(browser, site, width, height):
    browsing.sized(browser, width, height)
    browsing.opened(browser, site, "yaw=0&pitch=90&names=1&layers=0")
    assert names(browser) == {"flat-0", "flat-1", "flat-2", "flat-3", "service-shaft"}
    led, boxes, lead = browser.execute_script("""const box = it => { const at = it.getBoundingClientRect(); return [at.left, at.top, at.right, at.bottom]; };
        const line = document.querySelector('#leads line'), [left, top] = box($('canvas')), end = name => +line.getAttribute(name);
        return [[...document.querySelectorAll('#labels .led')].map(it => it.textContent), [...document.querySelectorAll('#labels span')].map(box),
          [end('x1') + left, end('y1') + top, end('x2') + left, end('y2') + top]]""")
    assert led == ["service-shaft"]
    # No name is over another one, and the line begins in the shaft and ends at its name.
    for at, one in enumerate(boxes):
        for other in boxes[:at]:
            assert one[2] <= other[0] or other[2] <= one[0] or one[3] <= other[1] or other[3] <= one[1]
    assert lead[:2] == pytest.approx(place(browser, "service-shaft"), abs=1)
    west, north, east, south = boxes[-1]
    assert west - 1 <= lead[2] <= east + 1 and north - 1 <= lead[3] <= south + 1


def test_many_small_lots_have_no_names(browser, tmp_path):
    path = tmp_path / "small.html"
    path.write_text(view.page(shown(*(lot(f"n{number}", box(number % 20, number // 20, 0, number % 20 + 1, number // 20 + 1, 3)) for number in range(400))), "Small"),
                    encoding="utf-8")
    browsing.sized(browser, 390, 780)
    browsing.opened(browser, path, "yaw=0&pitch=90&names=1")
    assert names(browser) == set() and not browser.execute_script("return document.querySelectorAll('#leads *').length")


@pytest.mark.parametrize("width, height", [(390, 780), (1200, 800), (1920, 1080)])
def test_sizes_of_screens(browser, block, width, height):
    browsing.sized(browser, width, height)
    browsing.opened(browser, block, "yaw=0&pitch=90")
    inside = browser.execute_script("const box = document.getElementById('canvas').getBoundingClientRect(); return [box.width, box.height]")
    assert inside == [width if width < 720 else width - 272, height] and browser.execute_script("return document.body.scrollWidth") <= width
    menu, panel = browser.find_element("id", "menu"), browser.find_element("css selector", "aside")
    assert (menu.is_displayed(), panel.is_displayed()) == ((True, False) if width < 720 else (False, True))
    hand(browser, *place(browser, "flat-12"), click=True)
    card = browser.execute_script("const box = document.getElementById('card').getBoundingClientRect(); return [box.left, box.top, box.right, box.bottom]")
    assert 0 <= card[0] < card[2] <= width and 0 <= card[1] < card[3] <= height and "flat-12" in text(browser, "card")
    if width < 720:
        menu.click()
        assert panel.is_displayed()


def test_nothing_is_asked_of_a_network(browser, block):
    browser.get_log("performance")
    browsing.opened(browser, block)
    asked = [json.loads(entry["message"])["message"] for entry in browser.get_log("performance")]
    urls = {each["params"]["request"]["url"] for each in asked if each["method"] == "Network.requestWillBeSent"}
    assert {url.partition(":")[0] for url in urls} <= {"file", "about"} and not browser.execute_script("return performance.getEntriesByType('resource').length")


def test_5000_lots_in_the_browser(browser, tmp_path):
    bodies = [lot(f"n{number}", box(x, y, z, x + 8, y + 9, z + 3)) for number, (x, y, z) in
              enumerate((8 * (number % 25), 9 * (number // 25 % 10), 3 * (number // 250)) for number in range(5000))]
    path = tmp_path / "many.html"
    path.write_text(view.page(shown(*bodies), "Many lots"), encoding="utf-8")
    assert path.stat().st_size < 500_000
    browsing.opened(browser, path, "yaw=0&pitch=90")
    hand(browser, *place(browser, "n4999"))
    assert text(browser, "tip")[0] == "n4999" and text(browser, "about") == ["5,000 lots, report accepted."]
    slide(browser, "cut", 500)
    hand(browser, *place(browser, "n2500"))
    assert text(browser, "tip")[0] == "n2500" and text(browser, "cutValue") == ["30.00 m"]


def test_a_tower_of_20_storeys(browser, seen, tmp_path):
    path = tmp_path / "tower.html"
    path.write_text(view.page(seen("\n".join(buildings.tower(20))), "A tower"), encoding="utf-8")
    browsing.opened(browser, path, "yaw=0&pitch=90&names=1")
    hand(browser, *place(browser, "stair"))
    assert text(browser, "tip")[:3] == ["stair", " from to m", "east 11.000 19.000 8.000"] and "stair" in names(browser)
    # Cut open at 5.5 m the flats of that storey are seen, and none above.
    browsing.opened(browser, path, "yaw=0&pitch=90&names=1&cut=0.13")
    found = names(browser)
    assert {"flat-01-1", "flat-01-6", "stair", "lift"} <= found and not any(name.startswith("flat-05") for name in found)
