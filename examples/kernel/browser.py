"""A notebook in a headless browser: Debian's jupyter-notebook on loopback, and chromium by selenium."""

import contextlib
import json
import os
import pathlib
import shutil
import socket
import subprocess
import sys
import time
import urllib.request

from selenium import webdriver
from selenium.common.exceptions import WebDriverException
from selenium.webdriver.common.by import By
from selenium.webdriver.chrome.service import Service

SECONDS, WAITS = 120, 30  # a machine may be busy with proofs


def until(what, call, seconds=SECONDS):
    """Calls until that gives something true, and gives it."""
    end = time.monotonic() + seconds
    while True:
        try:
            found = call()
        except WebDriverException:
            found = None
        if found:
            return found
        if time.monotonic() > end:
            raise TimeoutError(what)
        time.sleep(0.1)


class Server:
    """jupyter-notebook over a folder that has notebooks of these cells, one for each kernel."""

    def __init__(self, folder, cells, package):
        self.folder = pathlib.Path(folder)
        with socket.socket() as free:
            free.bind(("127.0.0.1", 0))
            self.port = free.getsockname()[1]
        data = self.folder / "data"
        (self.folder / "notebooks").mkdir()
        home = {
            "HOME": str(self.folder),
            "JUPYTER_DATA_DIR": str(data),
            "JUPYTER_CONFIG_DIR": str(self.folder / "config"),
        }
        environment = {**os.environ, **home, "IPYTHONDIR": str(self.folder / "ipython")}
        environment.pop("ROLGUNAI_BROWSER_PROTOCOL", None)
        newer = environment.pop("PYTHONPATH", None)  # for the kernels, and for the browser; the server is Debian's
        paths = os.pathsep.join([package, newer] if newer else [package])
        if newer:
            data.mkdir()
            (data / "nbextensions").symlink_to(pathlib.Path(newer).parents[2] / "share/jupyter/nbextensions")
        for kernel, module in (("python3", "ipykernel"), ("rolgunai", "rolgunai.kernel")):
            words = [sys.executable, "-B", "-m", module, "install", "--user"]
            subprocess.run(words, env={**environment, "PYTHONPATH": paths}, check=True, stdout=subprocess.DEVNULL)
            spec = data / "kernels" / kernel / "kernel.json"
            spec.write_text(json.dumps({**json.loads(spec.read_text()), "env": {"PYTHONPATH": paths}}))
            self.write(kernel, cells)
        settings = {"token": "", "password": "", "open_browser": False, "ip": "127.0.0.1", "port": self.port}
        settings |= {"notebook_dir": str(self.folder / "notebooks"), "allow_root": True, "port_retries": 0}
        words = ["jupyter-notebook", *(f"--NotebookApp.{key}={value}" for key, value in settings.items())]
        self.log = open(self.folder / "log", "w")
        self.process = subprocess.Popen(words, env=environment, stdout=self.log, stderr=self.log)
        until("the notebook's server", self.answers)

    def write(self, kernel, cells):
        made = [
            {"cell_type": "code", "execution_count": None, "metadata": {}, "outputs": [], "source": cell.strip()}
            for cell in cells
        ]
        spec = {"name": kernel, "display_name": kernel, "language": "python"}
        notebook = {"cells": made, "metadata": {"kernelspec": spec}, "nbformat": 4, "nbformat_minor": 2}
        (self.folder / "notebooks" / f"{kernel}.ipynb").write_text(json.dumps(notebook))

    def answers(self):
        try:
            return urllib.request.urlopen(f"http://127.0.0.1:{self.port}/api", timeout=5).status == 200
        except OSError:
            return False

    def address(self, kernel):
        return f"http://127.0.0.1:{self.port}/notebooks/{kernel}.ipynb"

    def close(self):
        self.process.terminate()
        self.process.wait(60)
        self.log.close()


class Page:
    """A notebook in a browser."""

    def __init__(self, address, picture=None):
        self.file = picture
        options = webdriver.ChromeOptions()
        for word in (
            "--headless=new",
            "--no-sandbox",
            "--disable-gpu",
            "--disable-dev-shm-usage",
            "--window-size=1000,1750",
        ):
            options.add_argument(word)
        options.binary_location = shutil.which("chromium")
        options.set_capability("goog:loggingPrefs", {"browser": "ALL"})
        self.driver = webdriver.Chrome(service=Service(shutil.which("chromedriver")), options=options)
        self.driver.set_script_timeout(SECONDS)
        self.driver.get(address)
        self.wait_for_kernel()

    def script(self, words, *values):
        return self.driver.execute_script(words, *values)

    def wait_for_kernel(self):
        ready = "return window.Jupyter && Jupyter.notebook && Jupyter.notebook.kernel && Jupyter.notebook._fully_loaded"
        until("the kernel", lambda: self.script(f"{ready} && Jupyter.notebook.kernel.is_connected()"))
        self.run("0")

    def run(self, code):
        """Runs code in the kernel, outside of the cells; gives what it prints."""
        words = """
            var code = arguments[0], done = arguments[arguments.length - 1], text = "";
            Jupyter.notebook.kernel.execute(code, {
              shell: {reply: function (message) { setTimeout(function () { done(text); }, 50); }},
              iopub: {output: function (message) {
                var content = message.content;
                text += content.text || (content.ename ? content.ename + ": " + content.evalue : "");
              }}
            }, {silent: false, store_history: false});
        """
        return self.driver.execute_async_script(words, code)

    def run_cells(self):
        self.script("Jupyter.notebook.execute_all_cells()")
        waits = "return Jupyter.notebook.get_cells().some(function (c) { return c.input_prompt_number === '*'; })"
        until("the cells", lambda: not self.script(waits))
        self.run("0")

    def add_cell(self, code):
        """Adds a cell at the end, and runs it."""
        words = """
            var cell = Jupyter.notebook.insert_cell_at_bottom("code");
            cell.set_text(arguments[0]);
            cell.execute();
        """
        self.script(words, code)
        self.run("0")

    def find(self, where):
        """The first element that is shown."""
        return until(
            where, lambda: [it for it in self.driver.find_elements(By.CSS_SELECTOR, where) if it.is_displayed()]
        )[0]

    def all(self, where):
        return [it.text for it in self.driver.find_elements(By.CSS_SELECTOR, where) if it.is_displayed()]

    def cell(self, number):
        """What selects in the output of a cell: the notebook's cells have one parent."""
        return f"#notebook-container .cell:nth-child({number + 1})"

    def show(self, where, wanted, of=lambda texts: texts):
        """Waits until the elements shown have these texts; gives the ones that they have."""
        with contextlib.suppress(TimeoutError):
            until(where, lambda: of(self.all(where)) == wanted, WAITS)
        return self.all(where)

    def shows(self, where, text):
        """So of the first element."""
        return (self.show(where, [text], lambda texts: texts[:1]) or [None])[0]

    def show_value(self, where, wanted, seconds):
        """Waits until an input has a value, so long at most."""
        words = "return document.querySelector(arguments[0]).value"
        with contextlib.suppress(TimeoutError):
            until(where, lambda: self.script(words, where) == wanted, seconds)

    def prints(self, code, wanted):
        """Runs code until it prints what is wanted; gives what it prints."""
        with contextlib.suppress(TimeoutError):
            until(code, lambda: self.run(code) == wanted, WAITS)
        return self.run(code)

    def finds(self, call):
        """What a call gives, once that is something true."""
        with contextlib.suppress(TimeoutError):
            return until("something", call, WAITS)
        return call()

    def errors(self):
        """The errors of the page's scripts."""
        return [entry["message"] for entry in self.driver.get_log("browser") if entry["level"] == "SEVERE"]

    def picture(self):
        if self.file:
            self.script("document.querySelector('#site').scrollTop = 0; Jupyter.notebook.get_cells()[0].focus_cell()")
            self.driver.save_screenshot(self.file)

    def keys(self, where, *keys):
        """Clicks an element, and types."""
        element = self.find(where)
        self.script("arguments[0].scrollIntoView({block: 'center'})", element)
        if element.tag_name == "input":
            element.click()
        self.script("arguments[0].focus()", element)
        for key in keys:
            element.send_keys(key)

    def click(self, where):
        element = self.find(where)
        self.script("arguments[0].scrollIntoView({block: 'center'})", element)
        element.click()

    def save(self):
        self.script("Jupyter.notebook.save_notebook()")
        until("the save", lambda: not self.script("return Jupyter.notebook.dirty"))

    def reload(self):
        self.script("$(window).off('beforeunload'); window.onbeforeunload = null")
        self.driver.refresh()
        self.wait_for_kernel()

    def break_websocket(self):
        """Closes the websocket, as where a network fails, and connects again."""
        self.script("Jupyter.notebook.kernel.ws.close()")
        until("the break", lambda: not self.script("return Jupyter.notebook.kernel.is_connected()"))
        self.script("Jupyter.notebook.kernel.reconnect()")
        self.wait_for_kernel()

    def end(self):
        self.driver.quit()
