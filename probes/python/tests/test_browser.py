"""The page of `view` in a browser: its keys, and that every text has room. With DIFFTEST_WHOLE=1 alone."""

from __future__ import annotations

import re
import shutil
import subprocess
import unittest

from .support import IS_WHOLE, CommandCase, made_pair
from .test_explaining import FAILING, IMAGE, PASSING

BROWSER = shutil.which("chromium")
# Presses keys, notes what is then said, and looks for texts that leave their boxes or meet another.
PROBE = """<script>
window.addEventListener("load", () => {
  const said = () => document.getElementById("said").textContent.split(" ")[0];
  const steps = [said()];
  for (const key of ["ArrowLeft", "ArrowUp", "ArrowRight", "ArrowDown", "Home"]) {
    document.dispatchEvent(new KeyboardEvent("keydown", { key, cancelable: true }));
    steps.push(said());
  }
  let outside = 0, crossed = 0;
  for (const record of document.querySelectorAll(".record")) {
    const box = record.querySelector("rect").getBBox();
    const texts = Array.from(record.querySelectorAll("text"), (text) => text.getBBox());
    for (const text of texts) {
      if (text.x < box.x || text.x + text.width > box.x + box.width) { outside += 1; }
      if (text.y < box.y || text.y + text.height > box.y + box.height + 1) { outside += 1; }
    }
    for (const one of texts) {
      for (const two of texts) {
        if (one !== two && one.y === two.y && one.x <= two.x && one.x + one.width > two.x) { crossed += 1; }
      }
    }
  }
  const found = document.createElement("p");
  found.id = "found";
  found.textContent = `steps ${steps.join(" ")} outside ${outside} crossed ${crossed}`
    + ` focus ${document.activeElement.id} wide ${document.body.scrollWidth > window.innerWidth}`;
  document.body.append(found);
});
</script>"""


@unittest.skipUnless(IS_WHOLE and BROWSER, "tried with DIFFTEST_WHOLE=1, where there is chromium")
class Browser(CommandCase):
    """Pages in a headless browser, 1400 pixels wide."""

    def found_in(self, image: str, probes: str) -> str:
        """What the probe says of the page of a run."""
        self.assertEqual(self.run_command("view", image, probes, "-o", self.path("run.html"))[0], 0)
        page = self.get("run.html").decode().replace("</body>", PROBE + "</body>")
        path = self.put("probed.html", page.encode())
        words = [
            str(BROWSER),
            "--headless",
            "--no-sandbox",
            "--disable-gpu",
            "--window-size=1400,900",
            "--dump-dom",
        ]
        done = subprocess.run(
            [*words, "file://" + path],
            stdout=subprocess.PIPE,
            stderr=subprocess.DEVNULL,
            timeout=120,
            check=False,
        )
        match = re.search(r'<p id="found">(.*?)</p>', done.stdout.decode())
        assert match, done.stdout[-400:]
        return match.group(1)

    def test_keys(self) -> None:
        self.assertEqual(
            self.found_in(IMAGE, FAILING),
            "steps 12.1.3 3.1.2 3.0.2 4.0.3 3.1.2 12.1.3 outside 0 crossed 0 focus record-12.1.3 wide false",
        )

    def test_texts_have_room(self) -> None:
        self.assertIn("outside 0 crossed 0", self.found_in(IMAGE, PASSING))
        for number in (4, 8, 44, 59):
            files = (self.put(name, part) for name, part in zip(("image", "probes"), made_pair(number)))
            found = self.found_in(*files)
            self.assertIn("outside 0 crossed 0", found, number)
            self.assertIn("wide false", found)


if __name__ == "__main__":
    unittest.main()
