"""Where a play happens: a host with a season, and windows of one Chromium."""
import time
from pathlib import Path

from selenium import webdriver
from selenium.common.exceptions import NoSuchElementException, SessionNotCreatedException, StaleElementReferenceException
from selenium.webdriver.chrome.service import Service
from selenium.webdriver.common.by import By

from seasons import Generated, played_season
from served import Program, StandIn
from wanted import Wrong, need

SECONDS = 60  # the page may take, on a machine that is busy
KEYS = {"Tab": 9, "Enter": 13, "Escape": 27}  # their numbers in key events
TELEPHONE = 500  # pixels, below which a window is a telephone's
ARGUMENTS = ("--headless=new", "--no-sandbox", "--disable-dev-shm-usage", "--lang=en-GB", "--disable-background-timer-throttling")
EXPECTED = ("Failed to load resource", "net::ERR_")  # what Chromium says of answers that are refusals, and of a host that is gone
# The page's clock stands at a moment that a play tells, and goes on from there.
CLOCK = "{{ const gone = {0} - Date.now(); const now = Date.now.bind(Date); Date.now = () => now() + gone; }}"


def begun(options, tries=3):
    """A Chromium. One that does not begin in time, on a machine that is busy, is begun again."""
    try:
        return webdriver.Chrome(options=options, service=Service("/usr/bin/chromedriver"))
    except SessionNotCreatedException:
        if tries == 1:
            raise
        return begun(options, tries - 1)


class Stage:
    def __init__(self, top, program, shots):
        self.top, self.program, self.shots = Path(top), program, Path(shots)
        self.web, self.served, self.driver, self.width = self.top / "web", None, None, None
        self.is_used = False  # whether a play has opened the page
        self.played = {}  # by how many gameweeks were played, what the host held then, and the season
        self.shots.mkdir(parents=True, exist_ok=True)

    def play(self, play):
        try:
            play(self)
            self.need_quiet()
        except Exception:
            self.picture_of_failure(play.__name__)
            raise
        finally:
            if self.served:
                try:
                    self.served.stop()
                except Exception:
                    pass  # a play may have stopped it
            self.served = None
            if self.is_used:
                self.one_window()

    def host(self):
        self.served = StandIn(self.web) if self.program is None else Program(self.web, self.program)
        return self.served

    def serve(self):
        """A fresh host."""
        return self.host().start()

    def serve_played(self, gameweeks):
        """A host with the small season, of which so many gameweeks were played. They are played once, and then copied."""
        if gameweeks not in self.played:
            season = played_season(self.serve(), gameweeks)
            self.served.stop()
            self.played[gameweeks] = self.served.holds(), season
        held, season = self.played[gameweeks]
        self.host().hold(held)
        self.served.start()
        return season.at(self.served)

    def serve_generated(self):
        """A host with the season of `generate`."""
        if self.program is None:
            Generated(self.serve()).make()
        else:
            self.host().generate()
            self.served.start()

    # Windows

    def open(self, width=1280):
        """A Chromium, whose windows are as wide as this."""
        self.width = width
        if self.driver:
            self.is_used = True
            return
        options = webdriver.ChromeOptions()
        options.binary_location = "/usr/bin/chromium"
        for argument in ARGUMENTS:
            options.add_argument(argument)
        options.set_capability("goog:loggingPrefs", {"browser": "ALL"})
        self.driver = begun(options)
        self.driver.set_script_timeout(SECONDS)

    def close(self):
        if self.driver:
            self.driver.quit()
        self.driver = None

    def one_window(self):
        """Closes all windows but a fresh one."""
        played = self.driver.window_handles
        self.driver.switch_to.new_window("window")
        fresh = self.driver.current_window_handle
        for window in played:
            self.driver.switch_to.window(window)
            self.driver.close()
        self.driver.switch_to.window(fresh)
        self.is_used = False

    def window(self, key=None, moment=None, is_new=False):
        """A window with the page, in which this key is signed in."""
        if is_new:
            self.driver.switch_to.new_window("window")
        window = Window(self, self.driver.current_window_handle).sized()
        if moment is not None:
            self.driver.execute_cdp_cmd("Page.addScriptToEvaluateOnNewDocument", {"source": CLOCK.format(moment * 1000)})
        self.driver.get(self.served.url)
        if key is not None:
            window.sign_in(key)
        return window

    def need_quiet(self):
        """Nothing in the page's console but what is expected of it."""
        if self.driver:
            said = [it["message"] for it in self.driver.get_log("browser") if it["level"] in ("SEVERE", "WARNING")]
            strange = [it for it in said if not any(word in it for word in EXPECTED)]
            need(not strange, f"the console says {strange}")

    def picture_of_failure(self, name):
        if self.driver:
            try:
                (self.shots / f"failed-{name}.png").write_bytes(self.driver.get_screenshot_as_png())
                print(self.driver.find_element(By.TAG_NAME, "body").text[:2000])
            except Exception as fault:
                print(f"no picture: {fault}")


class Window:
    """A window of the browser, with the page in it."""

    def __init__(self, stage, handle):
        self.stage, self.handle, self.driver = stage, handle, stage.driver

    def here(self):
        self.driver.switch_to.window(self.handle)
        return self

    def sized(self, height=740):
        """As wide as the stage says; a narrow window is that of a telephone."""
        is_telephone = self.stage.width < TELEPHONE
        metrics = {"width": self.stage.width, "height": height, "deviceScaleFactor": 1, "mobile": is_telephone}
        self.driver.execute_cdp_cmd("Emulation.setDeviceMetricsOverride", metrics)
        self.driver.execute_cdp_cmd("Emulation.setTouchEmulationEnabled", {"enabled": is_telephone})
        return self

    # Waiting

    def until(self, told, what):
        """Waits until something is told that is not nothing, and gives it."""
        end = time.monotonic() + SECONDS
        while time.monotonic() < end:
            try:
                found = told()
                if found:
                    return found
            except (NoSuchElementException, StaleElementReferenceException):
                pass
            time.sleep(0.05)
        raise Wrong(f"not within {SECONDS} seconds: {what}")

    def find(self, selector):
        return self.until(lambda: self.driver.find_element(By.CSS_SELECTOR, selector), selector)

    def all(self, selector):
        return self.driver.find_elements(By.CSS_SELECTOR, selector)

    def text(self, selector="#main"):
        """The text of an element, as it is seen."""
        return self.until(lambda: self.driver.find_element(By.CSS_SELECTOR, selector).text, f"a text in {selector}")

    def sees(self, words, selector="#main"):
        self.until(lambda: words in self.driver.find_element(By.CSS_SELECTOR, selector).text, f"{words!r} in {selector}")
        return self

    def needs_no(self, selector):
        need(not self.all(selector), f"there is {selector}")

    def settled(self):
        """Waits until nothing is being read any more."""
        self.until(lambda: self.driver.find_element(By.ID, "main").get_attribute("aria-busy") == "false", "the page at rest")
        return self

    # Acting

    def sign_in(self, key):
        """Signs in; a window of a browser in which somebody is signed in begins with his key."""
        self.find("#key, #sign-out")
        if not self.all("#key"):
            self.tap("sign-out").tap("yes")
        self.type("key", key)
        self.tap("sign-in")

    def tap(self, id):
        def tapped():
            element = self.driver.find_element(By.ID, id)
            if not element.is_enabled():
                return False
            self.driver.execute_script("arguments[0].scrollIntoView({block: 'center'})", element)
            element.click()
            return True

        self.until(tapped, f"a tap on {id}")
        return self

    def type(self, id, text):
        field = self.find(f"#{id}")
        field.clear()
        field.send_keys(text)
        return self

    def press(self, *keys):
        """Presses keys, by their names or their letters, where the focus is."""
        for key in keys:
            text = {"Enter": "\r"}.get(key, key if len(key) == 1 else "")
            event = {"key": key, "code": key, "windowsVirtualKeyCode": KEYS.get(key, 0), "text": text}
            self.driver.execute_cdp_cmd("Input.dispatchKeyEvent", {"type": "keyDown", **event})
            self.driver.execute_cdp_cmd("Input.dispatchKeyEvent", {"type": "keyUp", **event, "text": ""})
        return self

    def focus(self):
        return self.driver.execute_script("return document.activeElement.id")

    def reach(self, id):
        """Moves the focus on by the keyboard until it is there."""
        for _ in range(120):
            if self.focus() == id:
                return self
            self.press("Tab")
        raise Wrong(f"{id} is not reached by the keyboard")

    def set(self, id, value):
        """The value of a field, as if it was chosen there."""
        script = "const it = document.getElementById(arguments[0]); it.value = arguments[1]; it.dispatchEvent(new Event('input', {bubbles: true})); it.dispatchEvent(new Event('change', {bubbles: true}))"
        self.find(f"#{id}")
        self.driver.execute_script(script, id, str(value))
        return self

    def unfold(self, id):
        self.find(f"#{id}")
        self.driver.execute_script("document.getElementById(arguments[0]).open = true", id)
        return self

    def go(self, place):
        self.driver.execute_script("location.hash = '#/' + arguments[0]", place)
        self.until(lambda: self.driver.execute_script("return document.activeElement.tagName") == "H1", f"the place {place}")
        return self.settled()

    def reload(self):
        self.driver.refresh()
        return self

    def refresh(self):
        """What happens each minute."""
        self.driver.execute_script("document.dispatchEvent(new Event('visibilitychange'))")
        return self.settled()

    def media(self, **features):
        """Dark, print, reduced motion."""
        told = {"media": features.pop("media", "")}
        told["features"] = [{"name": name.replace("_", "-"), "value": value} for name, value in features.items()]
        self.driver.execute_cdp_cmd("Emulation.setEmulatedMedia", told)

    # Looking

    def overflow(self):
        """By how many pixels the page is wider than the window."""
        return self.driver.execute_script("return document.documentElement.scrollWidth - document.documentElement.clientWidth")

    def picture(self, name, height=None):
        """A picture of the whole place, for a person to look at."""
        whole = self.driver.execute_script("return Math.max(document.documentElement.scrollHeight, 740)")
        self.sized(height or min(whole, 2600))
        path = self.stage.shots / f"{name}.png"
        path.write_bytes(self.driver.get_screenshot_as_png())
        self.sized()
        return path

    def tree(self):
        """What a screen reader gets: roles and names."""
        nodes = self.driver.execute_cdp_cmd("Accessibility.getFullAXTree", {})["nodes"]
        told = lambda node, member: node.get(member, {}).get("value", "")
        return [(told(node, "role"), told(node, "name")) for node in nodes if not node.get("ignored")]
