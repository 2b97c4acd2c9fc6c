"""page.py PAGE [PNG [HASH]] [--dark]: opens a page in headless Chromium (Debian: apt-get install chromium), clicks
through it and reads back, and says how long it took to open.

With a second argument, takes a picture of the page there, where it opens or at a line, as #L40.
"""
import html
import json
import os
import re
import subprocess
import sys
import tempfile

CHROMIUM = ["chromium", "--headless", "--no-sandbox", "--disable-gpu", "--hide-scrollbars", "--disable-dev-shm-usage"]
DARK = ["--blink-settings=preferredColorScheme=0"]
LARGEST = 20_000_000

# Stands at the end of a copy of the page, and leaves what it found in the title.
CLICKS = r"""
const seen = { opened_in: Math.round(performance.now()), title: document.title };
const text = id => byId(id).textContent;
const facts = () => [...details.querySelectorAll('dd')].map(node => node.textContent);
const drawnRows = () => [...sheet.querySelectorAll('.row i')].map(node => Number(node.textContent));
const type = words => {
  byId('find').value = words;
  byId('find').dispatchEvent(new Event('input'));
};
const enter = () => byId('find').dispatchEvent(new KeyboardEvent('keydown', { key: 'Enter' }));
// How light a color is, without its hue.
const gray = value => {
  const pen = document.createElement('canvas').getContext('2d');
  over.style.color = value;
  pen.fillStyle = getComputedStyle(over).color;
  over.style.color = '';
  pen.fillRect(0, 0, 1, 1);
  const [r, g, b] = pen.getImageData(0, 0, 1, 1).data;
  return Math.round(.2126 * r + .7152 * g + .0722 * b);
};
seen.opened = facts();
seen.in_sight = chosen * ROW >= view.scrollTop && chosen * ROW < view.scrollTop + view.clientHeight - ROW;
seen.part = text('part');
seen.entries = entries.length;
seen.scripts = document.scripts.length;
seen.harmed = typeof harmed !== 'undefined';
seen.drawn = sheet.querySelectorAll('.row').length;
const edge = sheet.getBoundingClientRect().right + 1;
const isCut = node => node.scrollWidth > node.clientWidth + 1 || node.getBoundingClientRect().right > edge;
seen.cut = [...sheet.querySelectorAll('.spot')].filter(isCut).length;
seen.dark = matchMedia('(prefers-color-scheme: dark)').matches;
seen.ground = gray('var(--ground)');
seen.grays = threads.slice(0, 4).map(t => gray(color(t)));
seen.marks = ['wakes', 'spawns', 'races'].map(kind => {
  const path = document.createElementNS('http://www.w3.org/2000/svg', 'path');
  path.setAttribute('class', kind);
  sheet.querySelector('svg').append(path);
  return getComputedStyle(path).strokeDasharray;
});
// The overview: which threads have something in it, and what a wheel makes of it.
const inked = () => threads.map((t, place) => {
  const column = (map.width - 8) / threads.length;
  const data = map.getContext('2d').getImageData(4 + place * column, 0, Math.max(1, column - 1), map.height).data;
  return data.some((value, at) => at % 4 === 3 && value > 0);
});
seen.inked = inked().every(Boolean);
const whole = zoom.to - zoom.from;
byId('in').click();
byId('in').click();
seen.zoomed = (zoom.to - zoom.from) / whole;
byId('out').click();
byId('out').click();
seen.unzoomed = (zoom.to - zoom.from) / whole;
view.scrollTop = 0;
draw();
sheet.querySelectorAll('.row')[2].click();
seen.clicked = facts();
chosen = -1;
type('spawns t');
seen.found = text('count');
enter();
seen.first = [text('count'), ...facts()];
const button = [...details.querySelectorAll('button')].find(node => node.textContent.startsWith('spawns'));
if (button) button.click();
seen.spawned = facts();
type('');
const before = performance.now();
for (let part = 0; part < 100; part++) {
  view.scrollTop = sheet.clientHeight * part / 100;
  draw();
}
seen.milliseconds = Math.round((performance.now() - before) / 100 * 10) / 10;
choose(entries.length - 1);
seen.end = facts();
seen.last = drawnRows().pop();
seen.shown = sheet.querySelectorAll('.row.chosen').length;
seen.arrows = arrows.length;
if (entries.length <= 5000) {
  dispatchEvent(new Event('beforeprint'));
  seen.printed = byId('paper').tBodies[0].rows.length;
}
document.title = JSON.stringify(seen);
"""


def run(path, *switches):
    done = subprocess.run([*CHROMIUM, *switches, path], capture_output=True, text=True, timeout=120)
    return done.stdout


def click(page, *switches):
    with tempfile.TemporaryDirectory() as folder:
        path = os.path.join(folder, "page.html")
        with open(path, "w") as file:
            file.write(page.replace("</script>\n</body>", CLICKS + "</script>\n</body>"))
        dom = run("file://" + path, "--dump-dom", *switches)
    return json.loads(html.unescape(re.search(r"<title>(.*?)</title>", dom, re.S).group(1)))


def element(page, name):
    return json.loads(page.split(f'id="{name}">')[1].split("</script>")[0])


def apart(numbers):
    return all(abs(a - b) >= 12 for at, a in enumerate(numbers) for b in numbers[:at])


def main():
    words = [word for word in sys.argv[1:] if word != "--dark"]
    switches = DARK if "--dark" in sys.argv else []
    page = open(words[0]).read()
    assert len(page.encode()) <= LARGEST
    head, *told = element(page, "run")
    ends = [line["ended"] for line in told if "ended" in line]
    events = element(page, "events")
    slices = [event for event in events if event["ph"] == "X"]
    seen = click(page, *switches)
    print(json.dumps(seen, indent=1))

    def facts(entry):
        more = [f"{entry['dur']} entries"] if entry["dur"] > 1 else []
        return [str(entry["args"]["line"]), f"t{entry['tid']}", entry["name"], entry["args"]["place"] or "unknown", *more]

    failed = [entry for entry in slices if entry["ts"] <= head["failure"]] or slices
    spawns = [entry for entry in slices if "spawns t" in entry["name"]]
    assert seen["entries"] == len(slices) and seen.get("printed", len(slices)) == len(slices)
    assert all(ended in seen["title"] for ended in ends) and seen["title"].startswith(head["call"])
    assert seen["opened"] == facts(failed[-1]) and seen["in_sight"]
    assert bool(seen["part"]) == (head["chosen"] > len(slices))
    assert seen["scripts"] == 3 and not seen["harmed"] and seen["drawn"] < 200 and seen["shown"] == 1
    assert seen["cut"] == 0 and seen["inked"]
    assert seen["unzoomed"] == 1 and (seen["zoomed"] < 1 or len(slices) <= 40)
    assert apart([seen["ground"], *seen["grays"]]) and len(set(seen["marks"])) == 3
    assert seen["dark"] == ("--dark" in sys.argv) == (seen["ground"] < 64)
    assert seen["clicked"] == facts(slices[2]) and seen["end"] == facts(slices[-1])
    if spawns:
        name = spawns[0]["name"].split()[1]
        first = next(entry for entry in slices if f"t{entry['tid']}" == name)
        assert seen["found"] == f"{len(spawns)} found"
        assert seen["first"] == [f"1 of {len(spawns)}", *facts(spawns[0])]
        assert seen["spawned"] == facts(first)
    assert seen["arrows"] == sum(event["ph"] == "f" for event in events)
    assert seen["opened_in"] <= 2000
    if len(words) > 1:
        path = "file://" + os.path.abspath(words[0]) + "".join(words[2:3])
        run(path, "--window-size=1000,620", "--screenshot=" + os.path.abspath(words[1]), *switches)
    print("ok")


main()
