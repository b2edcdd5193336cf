"""JupyterLab of a tree that fetch_newer filled, on loopback, and its pages in headless chromium by selenium."""

import ast
import contextlib
import json
import os
import pathlib
import re
import shutil
import socket
import subprocess
import time
import urllib.request

from selenium import webdriver
from selenium.webdriver.common.by import By
from selenium.webdriver.chrome.service import Service

import browser

SECONDS, ANSWERS, WAITS = 600, 180, 60  # a machine may be busy with proofs
SIZE, PICTURE = (1100, 800), (940, 690)  # of windows
HANDLES, READOUTS = ".jp-OutputArea .noUi-handle", ".jp-OutputArea .widget-readout"
KERNEL = "window.jupyterapp?.shell.currentWidget?.sessionContext?.session?.kernel"
RUNS = f"""
    const done = arguments[1], kernel = {KERNEL};
    let said = "";
    const cell = kernel.requestExecute({{code: arguments[0]}});
    cell.onIOPub = message => {{ said += message.content.text || message.content.evalue || ""; }};
    cell.done.then(() => done(said), error => done(String(error)));
"""
DOES = """
    const done = arguments[1];
    window.jupyterapp.commands.execute(arguments[0]).then(() => done(""), error => done(String(error)));
"""
NOTEBOOKS_WIDGETS = "usr/share/jupyter/nbextensions/jupyter-js-widgets/extension.js"
STYLES = re.compile(r'/css/[\w-]+\.css"\][^\[]*\[\][^\[]*sourcesContent:\[("(?:[^"\\]|\\.)*"|\'(?:[^\'\\]|\\.)*\')')
NEWS = {"disabledExtensions": {"@jupyterlab/apputils-extension:announcements": True}}


def until(what, call, seconds=SECONDS):
    return browser.until(what, call, seconds)


def styles(tree):
    """The widgets' styles: Debian's jupyterlab_widgets is built without, and a slider that has none can't be moved."""
    words = (pathlib.Path(tree) / NOTEBOOKS_WIDGETS).read_text()
    return "\n".join(ast.literal_eval(found) for found in STYLES.findall(words))


class Server:
    """JupyterLab over a folder that has a notebook of these cells for each kernel, by a tree's Python."""

    def __init__(self, tree, folder, cells, package):
        self.folder = pathlib.Path(folder)
        with socket.socket() as free:
            free.bind(("127.0.0.1", 0))
            self.port = free.getsockname()[1]
        home = {"HOME": str(self.folder), "JUPYTER_DATA_DIR": str(self.folder / "data"), "PYTHONPATH": package}
        home |= {"JUPYTER_CONFIG_DIR": str(self.folder / "config"), "IPYTHONDIR": str(self.folder / "ipython")}
        environment = {**os.environ, **home}
        environment.pop("ROLGUNAI_BROWSER_PROTOCOL", None)
        for name, words in (("custom/custom.css", styles(tree)), ("labconfig/page_config.json", json.dumps(NEWS))):
            (self.folder / "config" / name).parent.mkdir(parents=True)
            (self.folder / "config" / name).write_text(words)
        (self.folder / "notebooks").mkdir()
        for kernel, module in (("python3", "ipykernel"), ("rolgunai", "rolgunai.kernel")):
            words = [tree + "/python3", "-B", "-m", module, "install", "--user"]
            subprocess.run(words, env=environment, check=True, stdout=subprocess.DEVNULL)
            self.write(kernel, cells)
        settings = {"ServerApp.port": self.port, "ServerApp.ip": "127.0.0.1", "ServerApp.port_retries": 0}
        settings |= {"ServerApp.root_dir": self.folder / "notebooks", "ServerApp.allow_root": True}
        settings |= {"ServerApp.open_browser": False, "IdentityProvider.token": ""}
        settings |= {"ServerApp.disable_check_xsrf": True, "LabApp.expose_app_in_browser": True}
        settings |= {"LabApp.custom_css": True}
        words = [tree + "/python3", "-B", "-m", "jupyterlab", *(f"--{key}={value}" for key, value in settings.items())]
        self.log = open(self.folder / "log", "w")
        self.process = subprocess.Popen(words, env=environment, stdout=self.log, stderr=self.log)
        until("JupyterLab's server", self.answers)

    def write(self, kernel, cells):
        made = [
            {"cell_type": "code", "execution_count": None, "id": f"c{at}", "metadata": {}, "outputs": [], "source": cell}
            for at, cell in enumerate(map(str.strip, cells))
        ]
        spec = {"name": kernel, "display_name": kernel, "language": "python"}
        notebook = {"cells": made, "metadata": {"kernelspec": spec}, "nbformat": 4, "nbformat_minor": 5}
        (self.folder / "notebooks" / f"{kernel}.ipynb").write_text(json.dumps(notebook))

    def answers(self):
        if self.process.poll() is not None:
            raise RuntimeError((self.folder / "log").read_text()[-2000:])
        try:
            return urllib.request.urlopen(f"http://127.0.0.1:{self.port}/api", timeout=5).status == 200
        except OSError:
            return False

    def address(self, kernel, words=""):
        return f"http://127.0.0.1:{self.port}/lab/tree/{kernel}.ipynb{words}"

    def close(self):
        self.process.terminate()
        self.process.wait(60)
        self.log.close()


class Page:
    """A notebook in JupyterLab, in a browser of its own."""

    def __init__(self, address, picture=None):
        self.file = picture
        options = webdriver.ChromeOptions()
        for word in ("--headless=new", "--no-sandbox", "--disable-gpu", "--disable-dev-shm-usage"):
            options.add_argument(word)
        options.add_argument("--window-size={},{}".format(*SIZE))
        options.binary_location = shutil.which("chromium")
        options.set_capability("goog:loggingPrefs", {"browser": "ALL"})
        self.driver = webdriver.Chrome(service=Service(shutil.which("chromedriver")), options=options)
        self.driver.set_script_timeout(ANSWERS)
        self.open(address)

    def script(self, words, *values):
        return self.driver.execute_script(words, *values)

    def open(self, address):
        """Opens a notebook, and waits until it is connected with its kernel."""
        self.driver.get("about:blank")
        self.driver.get(address)
        until("the kernel", lambda: self.script(f"return {KERNEL}?.connectionStatus == 'connected'"))

    def rest(self):
        until("an idle kernel", lambda: self.script(f"return {KERNEL}?.status == 'idle'"))

    def do(self, command):
        return self.driver.execute_async_script(DOES, command)

    def run(self, code):
        """Runs code in the kernel, outside of the cells; gives what it prints."""
        return self.driver.execute_async_script(RUNS, code)

    def cell(self, number, waits=True):
        """Runs a cell of the notebook."""
        self.script("window.jupyterapp.shell.currentWidget.content.activeCellIndex = arguments[0]", number)
        if waits:
            self.do("notebook:run-cell")
        else:
            self.script("window.jupyterapp.commands.execute('notebook:run-cell')")

    def restart(self):
        """Has the kernel start again."""
        words = f"const done = arguments[0]; {KERNEL}.restart().then(() => done(''), error => done(String(error)))"
        self.driver.execute_async_script(words)
        self.rest()

    def prints(self, code, wanted):
        """Runs code until it prints what is wanted; gives what it prints."""
        with contextlib.suppress(TimeoutError):
            until(code, lambda: self.run(code) == wanted, WAITS)
        return self.run(code)

    def handles(self):
        return [it for it in self.driver.find_elements(By.CSS_SELECTOR, HANDLES) if it.is_displayed()]

    def moved(self, *keys):
        """Moves the first slider by the keyboard."""
        handle = until("a slider", self.handles)[0]
        self.script("arguments[0].focus()", handle)
        for key in keys:
            handle.send_keys(key)

    def shows(self, wanted):
        """Waits until the first slider's readout is that; gives what it is."""

        def text():
            return [it.text for it in self.driver.find_elements(By.CSS_SELECTOR, READOUTS)][:1]

        with contextlib.suppress(TimeoutError):
            until("the readout", lambda: text() == [wanted], WAITS)
        return (text() or [None])[0]

    def errors(self):
        """The errors of the page's scripts. JupyterLab asks for a server of languages, which isn't here."""
        told = [entry["message"] for entry in self.driver.get_log("browser") if entry["level"] == "SEVERE"]
        return [message for message in told if "/lsp/status" not in message]

    def picture(self):
        """Writes a picture of the notebook alone."""
        if self.file:
            self.do("application:toggle-left-area")
            self.driver.set_window_size(*PICTURE)
            time.sleep(2)  # for the page to settle
            self.driver.save_screenshot(self.file)
            self.driver.set_window_size(*SIZE)

    def close(self):
        self.driver.quit()
