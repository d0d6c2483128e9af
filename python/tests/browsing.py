"""A real browser, Debian's Chromium without a screen, and what it shows."""
import shutil
import struct
import time
import zlib
from base64 import b64decode

import pytest


def started():
    """A browser, or a reason to skip."""
    webdriver = pytest.importorskip("selenium.webdriver", reason="python3-selenium is not there")
    if not (shutil.which("chromium") and shutil.which("chromedriver")):
        pytest.skip("chromium or chromium-driver is not there")
    options = webdriver.ChromeOptions()
    for word in ("--headless", "--no-sandbox", "--use-angle=swiftshader", "--enable-unsafe-swiftshader", "--force-device-scale-factor=1"):
        options.add_argument(word)
    options.binary_location = shutil.which("chromium")
    options.set_capability("goog:loggingPrefs", {"browser": "ALL", "performance": "ALL"})
    return webdriver.Chrome(service=webdriver.chrome.service.Service(shutil.which("chromedriver")), options=options)


def sized(browser, width, height):
    """Makes the inside of the window so large."""
    browser.execute_cdp_cmd("Emulation.setDeviceMetricsOverride", {"width": width, "height": height, "deviceScaleFactor": 1, "mobile": False})


def rested(browser):
    """Waits until the picture has come to rest."""
    for _ in range(600):
        if browser.execute_script("return document.body.dataset.ready") == "yes":
            return
        time.sleep(0.02)
    raise AssertionError("the picture does not come to rest")


def opened(browser, path, address=""):
    """Opens a page with an address, and sees that it says nothing on the console."""
    browser.get("about:blank")
    browser.get(f"file://{path}#{address}")
    rested(browser)
    assert not browser.get_log("browser")


def pixel(browser, x, y):
    """The colour, from 0 to 255, that the window shows at a place: a picture of one pixel, in a PNG without an earlier line."""
    clip = {"x": int(x), "y": int(y), "width": 1, "height": 1, "scale": 1}
    png = b64decode(browser.execute_cdp_cmd("Page.captureScreenshot", {"format": "png", "clip": clip})["data"])
    width, height, depth, kind = struct.unpack(">IIBB", png[16:26])
    assert (width, height, depth) == (1, 1, 8) and kind in (2, 6)
    at, packed = 8, b""
    while at < len(png):
        length, name = struct.unpack(">I4s", png[at:at + 8])
        packed += png[at + 8:at + 8 + length] if name == b"IDAT" else b""
        at += length + 12
    return tuple(zlib.decompress(packed)[1:4])
