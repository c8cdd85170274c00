"""A headless Chromium with the page, opened from its folder as a user opens it."""
import base64
import os
import time

from selenium import webdriver
from selenium.webdriver.chrome.options import Options
from selenium.webdriver.chrome.service import Service
from selenium.webdriver.common.action_chains import ActionChains

# The corners of the rectangle around some boxes of the page.
CORNERS = '''
    const boxes = arguments[0].map((name) => document.querySelector(name).getBoundingClientRect());
    const least = (side) => Math.min(...boxes.map((box) => box[side]));
    const most = (side) => Math.max(...boxes.map((box) => box[side]));
    return [least('left') + scrollX, least('top') + scrollY,
        most('right') + scrollX, most('bottom') + scrollY];
'''
PAGE = os.path.join(os.path.dirname(os.path.dirname(os.path.abspath(__file__))), 'index.html')


class Page:
    def __init__(self, downloads):
        options = Options()
        options.binary_location = '/usr/bin/chromium'
        for word in (
            '--headless=new',
            '--no-sandbox',
            '--disable-gpu',
            '--window-size=1400,1000',
            '--force-device-scale-factor=1',
            '--hide-scrollbars',
        ):
            options.add_argument(word)
        options.set_capability('goog:loggingPrefs', {'browser': 'ALL'})
        # A script's clicks are no hand's, so saving twice must be allowed.
        options.add_experimental_option(
            'prefs',
            {
                'download.default_directory': downloads,
                'profile.default_content_setting_values.automatic_downloads': 1,
            },
        )
        self.driver = webdriver.Chrome(options=options, service=Service('/usr/bin/chromedriver'))
        self.driver.execute_cdp_cmd('Performance.enable', {})
        self.open()

    def open(self):
        self.driver.get('file://' + PAGE)

    def close(self):
        self.driver.quit()

    def settle(self):
        """Waits until the page has drawn what was asked of it."""
        self.driver.execute_async_script(
            'requestAnimationFrame(() => requestAnimationFrame(arguments[0]))'
        )

    def find(self, selector):
        return self.driver.find_element('css selector', selector)

    def all(self, selector):
        return self.driver.find_elements('css selector', selector)

    def text(self, selector):
        """A box's text, asked at once: the page may make the box anew at any moment."""
        return self.run(
            'const box = document.querySelector(arguments[0]);'
            'return box === null ? "" : box.innerText',
            selector,
        )

    def run(self, script, *words):
        return self.driver.execute_script(script, *words)

    def resize(self, width, height):
        """The size of the page itself, smaller than a window of the system may be."""
        self.driver.execute_cdp_cmd(
            'Emulation.setDeviceMetricsOverride',
            {'width': width, 'height': height, 'deviceScaleFactor': 1, 'mobile': False},
        )
        time.sleep(0.2)
        self.settle()

    def drop(self, paths, selector=None):
        """Drops files or folders as the system's file manager does."""
        x, y = 700, 480
        if selector is not None:
            box = self.run(
                'const box = document.querySelector(arguments[0]).getBoundingClientRect();'
                'return [box.left + 20, box.top + 10]',
                selector,
            )
            x, y = box
        data = {
            'items': [],
            'files': [os.path.abspath(path) for path in paths],
            'dragOperationsMask': 1,
        }
        for kind in ('dragEnter', 'dragOver', 'drop'):
            self.driver.execute_cdp_cmd(
                'Input.dispatchDragEvent', {'type': kind, 'x': x, 'y': y, 'data': data}
            )

    def wait(self, condition, words, seconds=90):
        until = time.time() + seconds
        while time.time() < until:
            if condition():
                return
            time.sleep(0.05)
        raise AssertionError(f'waited {seconds} s in vain: {words}')

    def wait_for_runs(self, names, seconds=90):
        def shown():
            maps = (
                'return [...document.querySelectorAll(".map strong")].map((box) => box.innerText)'
            )
            return self.run(maps) == names

        self.wait(shown, f'the maps of {names}; the page says: {self.text("#messages")}', seconds)
        self.settle()

    def keys(self, *keys):
        ActionChains(self.driver).send_keys(*keys).perform()
        self.settle()

    def keys_fast(self, *keys):
        ActionChains(self.driver, duration=0).send_keys(*keys).perform()

    def choose(self, selector, value):
        self.run(
            'const box = document.querySelector(arguments[0]); box.value = arguments[1];'
            'for (const kind of ["input", "change"]) box.dispatchEvent(new Event(kind))',
            selector,
            value,
        )
        self.settle()

    def click(self, selector):
        self.run('document.querySelector(arguments[0]).click()', selector)
        self.settle()

    def rows(self, selector):
        """The texts of a table's body."""
        return self.run(
            'return [...document.querySelector(arguments[0]).querySelectorAll("tbody tr")]'
            '.map((row) => [...row.cells].map((cell) => cell.textContent))',
            selector,
        )

    def step(self):
        return int(self.find('#slider').get_attribute('value'))

    def pictures(self):
        return int(self.run('return document.body.dataset.pictures'))

    def processor_seconds(self, of='ProcessTime'):
        """Seconds of the processor that the page has taken: with all its threads, or those of the
        one that draws as ThreadTime."""
        metrics = self.driver.execute_cdp_cmd('Performance.getMetrics', {})['metrics']
        return next(one['value'] for one in metrics if one['name'] == of)

    def errors(self):
        """What the console has told since the last call, but for mere notes."""
        return [
            entry['message']
            for entry in self.driver.get_log('browser')
            if entry['level'] in ('SEVERE', 'WARNING')
        ]

    def picture(self, selector, path):
        self.find(selector).screenshot(path)

    def picture_of(self, selectors, path):
        """One picture of several boxes of the page that stand together."""
        left, top, right, bottom = self.run(CORNERS, selectors)
        shot = self.driver.execute_cdp_cmd(
            'Page.captureScreenshot',
            {
                'format': 'png',
                'captureBeyondViewport': True,
                'clip': {
                    'x': left - 8,
                    'y': top - 8,
                    'width': right - left + 16,
                    'height': bottom - top + 16,
                    'scale': 1,
                },
            },
        )
        with open(path, 'wb') as out:
            out.write(base64.b64decode(shot['data']))
