"""A real browser without a window (Chromium), for pages that the tools write."""
import html
import json
import re
import shutil
import subprocess
import tempfile
import unittest

CHROMIUM = shutil.which("chromium") or shutil.which("chromium-browser")
needs_chromium = unittest.skipUnless(CHROMIUM, "no Chromium: apt-get install chromium")
# Runs in the page after its own script: each error counts, and what the body of the test gives is shown at the end.
PROBE = """<script>
(() => {
  const told = { errors: window.pageErrors };
  const steps = () => { %s };
  try { told.result = steps(); } catch (why) { told.errors.push(String(why)); }
  const shown = document.createElement("pre");
  shown.id = "told-by-the-test";
  shown.textContent = JSON.stringify(told);
  document.body.append(shown);
})();
</script></body>"""
ERRORS = """<script>window.pageErrors = [];
const note = event => window.pageErrors.push(event.message || String(event.target.src));
window.addEventListener("error", note, true);</script>"""


def run_in_page(page: str, steps: str) -> dict:
    """Opens a page, runs steps (JavaScript with a return) in it, and gives their result and the page's errors."""
    probed = page.replace("<head>", f"<head>{ERRORS}", 1).replace("</body>", PROBE % steps, 1)
    with tempfile.TemporaryDirectory() as folder:
        with open(f"{folder}/page.html", "w", encoding="utf-8") as file:
            file.write(probed)
        words = [CHROMIUM, "--headless=new", "--no-sandbox", "--disable-gpu", f"--user-data-dir={folder}/profile"]
        words += ["--virtual-time-budget=2000", "--dump-dom", f"file://{folder}/page.html"]
        ran = subprocess.run(words, capture_output=True, text=True, check=False, timeout=120)
    found = re.search(r'<pre id="told-by-the-test">(.*?)</pre>', ran.stdout, re.S)
    if not found:
        raise AssertionError(f"the page did not run to its end: {ran.stderr[-600:]}")
    return json.loads(html.unescape(found[1]))
