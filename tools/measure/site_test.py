#!/usr/bin/env python3
"""Tries the site of `make site` in a browser that nobody sees: no link is broken, what the site shows comes from no
network, each call of the contracts is there, the way from the first page to a clause and to its word is short, search
finds a call, and each picture has its size and its text, by day and by night. Leaves pictures of five pages in
bin/site-shots. Needs chromium and chromedriver (on Debian: chromium, chromium-driver).
usage: tools/measure/site_test.py"""
import base64
import html.parser
import json
import os
import re
import socket
import subprocess
import sys
import time
import urllib.error
import urllib.parse
import urllib.request

ROOT = os.path.dirname(os.path.dirname(os.path.dirname(os.path.abspath(__file__))))
SITE = os.path.join(ROOT, "bin/site")
SHOTS = os.path.join(ROOT, "bin/site-shots")


class Page(html.parser.HTMLParser):
    """The addresses that a page names, the places that it has, and its calls."""

    def __init__(self, path):
        super().__init__()
        self.links, self.resources, self.ids, self.calls = [], [], set(), 0
        with open(path, encoding="utf-8") as file:
            self.feed(file.read())

    def handle_starttag(self, tag, attributes):
        has = dict(attributes)
        if has.get("id"):
            self.ids.add(has["id"])
        if tag == "a" and has.get("name"):
            self.ids.add(has["name"])
        if tag == "a" and has.get("href"):
            self.links.append(has["href"])
        if tag == "div" and has.get("class") == "call":
            self.calls += 1
        if tag in ("img", "script", "iframe") and has.get("src"):
            self.resources.append(has["src"])
        if tag == "link" and has.get("href") and has.get("rel") != "canonical":
            self.resources.append(has["href"])


def check(holds, what):
    if not holds:
        sys.exit(f"site: {what}")


def links():
    """Follows each address of each page, but those within what `cargo doc` wrote. Gives how many there are, and how many
    calls."""
    pages, followed, calls = {}, 0, 0
    for folder, _, names in os.walk(SITE):
        within = os.path.relpath(folder, SITE).split(os.sep)
        if within[0] == "rust" and not (within == ["rust"]):
            continue
        for name in names:
            if name.endswith(".html") and (within != ["rust"] or name in ("README.html", "reference.html")):
                pages[os.path.join(folder, name)] = Page(os.path.join(folder, name))
    for path, page in pages.items():
        calls += page.calls
        shown = os.path.relpath(path, SITE)
        for address in page.resources:
            check(not re.match(r"(\w+:)?//", address), f"{shown} takes {address} from a network")
        for address in page.links + page.resources:
            if re.match(r"[a-z]+:", address) or address in ("#", ""):
                continue
            name, _, anchor = address.partition("#")
            target = os.path.normpath(os.path.join(os.path.dirname(path), urllib.parse.unquote(name.split("?")[0]))) \
                if name else path
            check(os.path.exists(target), f"{shown} leads to {address}, which isn't there")
            if anchor and target in pages:
                check(urllib.parse.unquote(anchor) in pages[target].ids, f"{shown} leads to {address}: no such place")
            followed += 1
    return len(pages), followed, calls


class Browser:
    """A browser, by the protocol of WebDriver."""

    def __init__(self):
        with socket.socket() as free:
            free.bind(("127.0.0.1", 0))
            port = free.getsockname()[1]
        self.driver = subprocess.Popen(["chromedriver", f"--port={port}"], stdout=subprocess.DEVNULL, stderr=subprocess.DEVNULL)
        self.base = f"http://127.0.0.1:{port}"
        self.session = ""
        for _ in range(100):
            try:
                urllib.request.urlopen(self.base + "/status").close()
                break
            except OSError:
                time.sleep(0.1)
        options = {"args": ["--headless=new", "--no-sandbox", "--disable-gpu", "--window-size=1500,1300",
                            "--host-resolver-rules=MAP * ~NOTFOUND"]}
        made = self.call("POST", "/session", {"capabilities": {"alwaysMatch": {"goog:chromeOptions": options}}})
        self.session = "/session/" + made["sessionId"]

    def call(self, method, path, body=None):
        data = None if body is None else json.dumps(body).encode()
        request = urllib.request.Request(self.base + self.session + path, data, {"Content-Type": "application/json"},
                                         method=method)
        try:
            with urllib.request.urlopen(request, timeout=120) as answer:
                return json.load(answer)["value"]
        except urllib.error.HTTPError as refused:
            sys.exit(f"site: {method} {path}: {json.load(refused)['value']['message']}")

    def open(self, page):
        self.call("POST", "/url", {"url": "file://" + os.path.join(SITE, page)})

    def run(self, script, *arguments):
        return self.call("POST", "/execute/sync", {"script": script, "args": list(arguments)})

    def wait(self, script, what):
        for _ in range(100):
            answer = self.run(script)
            if answer:
                return answer
            time.sleep(0.1)
        sys.exit(f"site: {what}")

    def click(self, text, within="return document.querySelector('article')"):
        """Clicks the first link of these words in a part of the page, as a reader does."""
        found = self.run(f"""const part = (() => {{ {within} }})();
            const link = [...part.querySelectorAll("a")].find(link => link.textContent.trim() === arguments[0]);
            link?.scrollIntoView({{block: "center", behavior: "instant"}});
            return link""", text)
        check(found, f"{self.run('return location.href')} has no link of the words {text}")
        self.call("POST", "/element/" + next(iter(found.values())) + "/click", {})
        # The page moves for a while.
        time.sleep(1.5)

    def night(self, dark):
        self.call("POST", "/goog/cdp/execute", {"cmd": "Emulation.setEmulatedMedia", "params": {
            "features": [{"name": "prefers-color-scheme", "value": "dark" if dark else "light"}]}})

    def shoot(self, name):
        with open(os.path.join(SHOTS, name + ".png"), "wb") as file:
            file.write(base64.b64decode(self.call("GET", "/screenshot")))

    def close(self):
        try:
            self.call("DELETE", "")
        finally:
            self.driver.terminate()
            self.driver.wait()


# The section that an address leads to.
SECTION = "return document.getElementById(location.hash.slice(1)).closest('section')"

# How light a colour is, from 0 to 1.
SHADE = """
const shade = color => {
    const [r, g, b] = color.match(/[\\d.]+/g).map(Number);
    return (0.2126 * r + 0.7152 * g + 0.0722 * b) / 255;
};
"""
# The pictures of a page: their sizes, titles and descriptions, and how far their texts are from the page's colour.
PICTURES = SHADE + """
const page = shade(getComputedStyle(document.body).backgroundColor);
return [...document.querySelectorAll("figure.picture svg")].map(svg => {
    const box = svg.getBoundingClientRect();
    const texts = [...svg.querySelectorAll("text")].filter(text => !text.closest(".on-bar"));
    return {title: svg.querySelector("title")?.textContent ?? "", desc: svg.querySelector("desc")?.textContent ?? "",
            width: box.width, height: box.height, texts: texts.length,
            contrast: Math.min(...texts.map(text => Math.abs(shade(getComputedStyle(text).fill) - page)))};
})"""


# The pages with pictures.
PICTURED = ["index.html", "docs/ARCHITECTURE.html", "docs/PERFORMANCE.html"]


def pictures(browser):
    count = 0
    for page in PICTURED:
        for dark in (False, True):
            browser.night(dark)
            browser.open(page)
            for picture in browser.run(PICTURES):
                shown = f"the picture {picture['title']!r} of {page}"
                check(picture["title"] and len(picture["desc"]) > 20, f"{shown} has no title or no description")
                check(picture["width"] > 200 and picture["height"] > 80, f"{shown} has no size")
                check(picture["texts"] > 2 and picture["contrast"] > 0.3, f"{shown} can't be read: {picture}, dark: {dark}")
                count += not dark
    browser.night(False)
    return count


def main():
    check(os.path.exists(os.path.join(SITE, "index.html")), "there is none: make site")
    os.makedirs(SHOTS, exist_ok=True)
    pages, followed, calls = links()
    extracted = subprocess.run([os.path.join(ROOT, "tools/ship/extract.sh")], check=True, capture_output=True, text=True)
    wanted = sum(line.startswith("C\t") for line in extracted.stdout.splitlines())
    check(calls == wanted, f"it has {calls} calls, and the contracts have {wanted}")
    browser = Browser()
    try:
        # Two clicks to the clause that says what a refused push leaves, and one more to its word.
        browser.open("index.html")
        browser.shoot("first")
        browser.click("EcoVec")
        browser.shoot("type")
        browser.click("push", "return document.querySelector('article .calls')")
        clause = browser.run(SECTION + ".innerText")
        check("Refuses" in clause and "RejectsPast" in clause, "no clause of push says what a refusal leaves")
        browser.shoot("call")
        browser.click("RejectsPast", SECTION)
        word = browser.run(SECTION + ".innerText")
        check("pub record RejectsPast" in word and "unchanged" in word, "RejectsPast leads to no definition")
        browser.shoot("word")
        browser.open("search.html?q=push")
        found = browser.wait("""const all = [...document.querySelectorAll("#search-results li a")];
            return all.length ? all.map(link => link.textContent + " " + link.getAttribute("href")) : null""",
            "search finds no push")
        time.sleep(1)
        found = browser.run("""return [...document.querySelectorAll("#search-results li a")].map(
            link => link.textContent + " " + link.getAttribute("href"))""")
        check(any("EcoVec" in each and "push" in each for each in found), f"search finds no push of EcoVec, but {found}")
        # The button for the night, and the night of the reader's system.
        browser.open("index.html")
        browser.run("document.querySelector('button.theme-toggle').click()")
        check(browser.run("return document.body.dataset.theme") != "auto", "its button for the night does nothing")
        browser.run("localStorage.clear()")
        browser.night(True)
        browser.open("index.html")
        check(browser.run(SHADE + "return shade(getComputedStyle(document.body).backgroundColor)") < 0.2, "its night is light")
        shown = pictures(browser)
        drawn = len(os.listdir(os.path.join(ROOT, "docs/pictures")))
        check(shown == drawn, f"it has {shown} pictures, and docs/pictures {drawn}")
        browser.night(True)
        browser.open("docs/PERFORMANCE.html")
        browser.shoot("pictures")
    finally:
        browser.close()
    print(f"site: {pages} pages, {followed} links, {calls} calls, {len(found)} answers to push, {shown} pictures")


main()
