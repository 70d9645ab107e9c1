"""browser.py: a headless Chromium for the tests of the board's pages.

Debian's python3-selenium belongs to the system's Python, which may not be the one that runs here. `with_selenium` then starts the script
again with that one."""
import contextlib
import importlib.util
import os
import shutil
import sys
import time

SYSTEM_PYTHON = "/usr/bin/python3"
PACKAGES = "apt-get install chromium-driver python3-selenium libjs-dygraphs"
DYGRAPHS = "/usr/share/javascript/dygraphs/dygraph.min.js"
LONGEST = 20  # seconds that a page may take


def has_selenium():
    return importlib.util.find_spec("selenium") is not None


def with_selenium():
    """Starts this script again with the system's Python if that one may have selenium and this one has it not."""
    again = "BOARD_TESTS_AGAIN"
    if not has_selenium() and os.path.exists(SYSTEM_PYTHON) and again not in os.environ:
        os.execve(SYSTEM_PYTHON, [SYSTEM_PYTHON, *sys.argv], dict(os.environ, **{again: "1"}))


def missing():
    """What is missing to open pages, in words; empty if nothing is."""
    found = [name for name, is_there in (("chromium-driver", shutil.which("chromedriver")), ("python3-selenium", has_selenium()),
                                         ("libjs-dygraphs", os.path.exists(DYGRAPHS))) if not is_there]
    return "%s %s missing (%s)" % (", ".join(found), "is" if len(found) == 1 else "are", PACKAGES) if found else ""


@contextlib.contextmanager
def opened(width=1300, height=900):
    """A browser without a window. It opens files alone, and ends with the block."""
    from selenium import webdriver
    from selenium.webdriver.chrome.options import Options
    from selenium.webdriver.chrome.service import Service
    options = Options()
    for word in ("--headless=new", "--no-sandbox", "--disable-gpu", "--disable-dev-shm-usage", "--hide-scrollbars", "--no-first-run",
                 "--disable-background-networking", "--window-size=%d,%d" % (width, height)):
        options.add_argument(word)
    options.set_capability("goog:loggingPrefs", {"browser": "ALL"})
    driver = webdriver.Chrome(options=options, service=Service(shutil.which("chromedriver")))
    driver.set_script_timeout(LONGEST)
    try:
        yield driver
    finally:
        driver.quit()


def go(driver, path, part=""):
    """Opens a page from the disk, and waits until it shows its data. Fails if the console has an error."""
    driver.get("about:blank")
    driver.get("file://" + os.path.abspath(path) + part)
    wait_for(driver, "return board.shown !== undefined")
    require_no_errors(driver)


def wait_for(driver, question, *words):
    """Waits until a question is answered with something true: the answer."""
    end = time.monotonic() + LONGEST
    while True:
        answer = driver.execute_script(question, *words)
        if answer:
            return answer
        assert time.monotonic() < end, "the page did not come to: %s; %s" % (question, driver.get_log("browser"))
        time.sleep(0.02)


def require_no_errors(driver):
    """Fails if the console of the page has something."""
    log = driver.get_log("browser")
    assert not log, log
