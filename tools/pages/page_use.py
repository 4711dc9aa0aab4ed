"""A page in a reader's hands, in a browser: by keys alone, how well it can be read, how soon it is there. For tools/check_page."""
import re
import time

from pages import page_worked

# The least of what WCAG 2.2 asks for at level AA: contrast of text and of large text, of a focus's outline; pixels of what is clicked.
CONTRAST, LARGE_CONTRAST, OUTLINE_CONTRAST, TARGET, LETTERS = 4.5, 3, 3, 24, 12
WINDOWS = [(1280, 800), (390, 844)]
# What a page may be: bytes, and milliseconds until it is there, and in the mean from moment to moment. A machine may be busy.
MOST_BYTES, MOST_OPENING, MOST_MOMENT = 20_000_000, 8000, 500

# Notes what is listened to for clicks, before a page's scripts run.
CLICKS = """
(() => {
  window.clicked = new Set();
  const listen = EventTarget.prototype.addEventListener;
  EventTarget.prototype.addEventListener = function (type, ...rest) {
    if (type === 'click' && this instanceof Element) window.clicked.add(this);
    return listen.call(this, type, ...rest);
  };
})();
"""

# What has the focus: marks it as seen, and answers what it is and what shows that it has the focus.
FOCUSED = """
const at = document.activeElement;
if (!at || at === document.body) return null;
const again = Boolean(at.seenByTab);
at.seenByTab = true;
const halo = at.querySelector(':scope > .halo');
const style = getComputedStyle(halo || at);
const outline = halo ? style.stroke : style.outlineColor;
const width = parseFloat(halo ? style.strokeWidth : style.outlineStyle === 'none' ? '0' : style.outlineWidth);
const panel = at.closest('section, #told, #object, #region, #roots, #what, #objects, #naming');
return {
  tag: at.tagName.toLowerCase(), id: at.id, panel: panel ? panel.id : '', text: (at.textContent || at.value || '').trim().slice(0, 60),
  label: at.getAttribute('aria-label') || '', name: at.dataset.name || null, stop: at.dataset.stop || null, outline, width,
  again, paper: getComputedStyle(document.body).backgroundColor, drawn: outline !== 'none' && width >= 2,
};
"""

# What is clicked and can't be reached: no focus came to it.
UNREACHED = """
const seen = (element) => element.getClientRects().length > 0 && getComputedStyle(element).visibility === 'visible';
const own = [...document.querySelectorAll('button, a, input, textarea, summary, select')];
const all = [...new Set([...window.clicked, ...own])].filter((each) => each.isConnected && seen(each) && !each.closest('[hidden]'));
return all.filter((each) => !each.seenByTab).map((each) => each.outerHTML.slice(0, 90));
"""

# The texts of a page that are seen: their colour on what is below them, and their size.
TEXTS = """
const colour = (text) => {
  const numbers = (text.match(/-?[\\d.]+(?:e-?\\d+)?/g) || []).map(Number);
  const scale = text.startsWith('color(') ? 255 : 1;
  return { r: numbers[0] * scale, g: numbers[1] * scale, b: numbers[2] * scale, a: numbers.length > 3 ? numbers[3] : 1 };
};
const over = (top, below) => ({
  r: top.r * top.a + below.r * (1 - top.a), g: top.g * top.a + below.g * (1 - top.a), b: top.b * top.a + below.b * (1 - top.a), a: 1,
});
const light = ({ r, g, b }) => {
  const even = (part) => (part / 255 <= 0.04045 ? part / 255 / 12.92 : ((part / 255 + 0.055) / 1.055) ** 2.4);
  const [x, y, z] = [r, g, b].map(even);
  return 0.2126 * x + 0.7152 * y + 0.0722 * z;
};
const contrast = (one, other) => {
  const [low, high] = [light(one), light(other)].sort((a, b) => a - b);
  return (high + 0.05) / (low + 0.05);
};
const opacity = (element) => {
  let product = 1;
  for (let each = element; each; each = each.parentElement) product *= Number(getComputedStyle(each).opacity);
  return product;
};
const paint = (element) => {
  const style = getComputedStyle(element);
  const drawn = element instanceof SVGElement && !(element instanceof SVGSVGElement);
  const text = drawn ? (element.tagName === 'text' || element.tagName === 'line' ? 'none' : style.fill) : style.backgroundColor;
  if (text === 'none' || text.startsWith('url(')) return null;
  const found = colour(text);
  found.a *= opacity(element);
  return found.a > 0 ? found : null;
};
const blend = (layers) => layers.reverse().reduce((below, top) => over(top, below), { r: 255, g: 255, b: 255, a: 1 });
const ground = (element) => {
  const style = getComputedStyle(element);
  const framed = style.paintOrder.startsWith('stroke') && parseFloat(style.strokeWidth) >= 3;
  if (element instanceof SVGElement && framed) return colour(style.stroke);
  const layers = [];
  if (element instanceof SVGElement) {
    element.scrollIntoView({ block: 'center', inline: 'center' });
    const box = element.getBoundingClientRect();
    const below = document.elementsFromPoint(box.x + box.width / 2, box.y + box.height / 2);
    layers.push(...below.slice(below.indexOf(element) + 1).map(paint).filter((layer) => layer));
  } else {
    for (let each = element; each; each = each.parentElement) layers.push(paint(each));
  }
  return blend(layers.filter((layer) => layer));
};
const rule = document.createElement('style');
rule.textContent = '* { pointer-events: all !important; }';
document.head.append(rule);
const found = [];
const note = (element, text, style) => {
  if (!text.trim() || !element.getClientRects().length || getComputedStyle(element).visibility !== 'visible') return;
  const drawn = element instanceof SVGElement;
  const top = colour(drawn ? style.fill : style.color);
  top.a *= opacity(element);
  const below = ground(element);
  const size = parseFloat(style.fontSize);
  const large = size >= 24 || (size >= 18.66 && Number(style.fontWeight) >= 700);
  found.push({ text: text.trim().slice(0, 40), contrast: contrast(over(top, below), below), size, large });
};
const walker = document.createTreeWalker(document.body, NodeFilter.SHOW_TEXT);
for (let node = walker.nextNode(); node; node = walker.nextNode()) {
  const parent = node.parentElement;
  if (!parent.closest('script, style, title, defs, textarea')) note(parent, node.data, getComputedStyle(parent));
}
const field = document.getElementById('wanted');
note(field, field.placeholder, getComputedStyle(field, '::placeholder'));
rule.remove();
window.scrollTo(0, 0);
return found;
"""

# What is clicked, and how large it is; how wide the page is; what is seen without scrolling.
SIZES = """
const seen = (element) => element.getClientRects().length > 0 && getComputedStyle(element).visibility === 'visible';
const boxes = [...document.querySelectorAll('button, input, summary, textarea')].filter(seen).map((each) => {
  const { width, height } = each.getBoundingClientRect();
  return { what: each.id || each.textContent.trim() || each.className, width, height };
});
const inside = (query) => {
  const { top, bottom } = document.querySelector(query).getBoundingClientRect();
  return top >= 0 && bottom <= window.innerHeight;
};
return {
  boxes, wide: document.documentElement.scrollWidth - window.innerWidth,
  curves: inside('#plots'), lane: inside('.lane .bed'), step: inside('#steps [aria-current]'),
};
"""

# Milliseconds from moment to moment, over so many moments of all.
MOMENTS = """
const count = heapLife.life.moments.length;
const times = [];
for (let number = 0; number < arguments[0]; number += 1) {
  const start = performance.now();
  heapLife.show(Math.floor(((number * 7919) % arguments[0]) / arguments[0] * count));
  document.body.getBoundingClientRect();
  times.push(performance.now() - start);
}
return times;
"""


def light(text):
    """How light a colour is, as WCAG says, of its text in CSS."""
    parts = [float(part) / 255 for part in re.findall(r"[\d.]+", text)[:3]]
    even = [it / 12.92 if it <= 0.04045 else ((it + 0.055) / 1.055) ** 2.4 for it in parts]
    return sum(share * it for share, it in zip((0.2126, 0.7152, 0.0722), even))


def contrast(one, other):
    low, high = sorted((light(one), light(other)))
    return (high + 0.05) / (low + 0.05)


def focused(browser):
    return browser.run(FOCUSED)


def tab_to(browser, is_it, most=300):
    """Strikes Tab until something is reached, and answers it, or nothing where it isn't among so many."""
    for _ in range(most):
        browser.strike("Tab")
        found = focused(browser)
        if found and is_it(found):
            return found
    return None


def event_of(browser):
    return browser.run("return Number(document.body.dataset.event)")


def address_of(browser):
    time.sleep(0.35)
    return browser.run("return window.location.hash")


def open_object(browser):
    """The name of the object whose life is open, by its head, if the head has the focus."""
    found = focused(browser)
    return found["text"].removeprefix("The life of #") if found and found["panel"] == "object" and found["tag"] == "h3" else None


def check_address(count, browser, name, path, last):
    """A link to an event, the address after a move, an address that is changed, and one that is no event."""
    browser.open(path, 7)
    count.note(f"{name}: a link to an event", event_of(browser) == 7, event_of(browser))
    browser.strike("End")
    count.note(f"{name}: the address after a move", address_of(browser) == f"#{last}", address_of(browser))
    browser.run("window.location.hash = '#3'")
    time.sleep(0.1)
    count.note(f"{name}: another address", event_of(browser) == 3, event_of(browser))
    browser.open(path, "nowhere")
    fullest = browser.run("return heapLife.life.moments[fullest].event")
    most = browser.run("return heapLife.life.moments.reduce((so, moment) => (moment.handedOut >= so.handedOut ? moment : so)).event")
    count.note(f"{name}: the fullest moment first", event_of(browser) == fullest == most, (event_of(browser), fullest, most))


def check_file(count, browser, name, file):
    """The name of the script's file in the title and the heading of the page that is open."""
    title = browser.run("return [document.title, document.querySelector('h1').textContent, document.querySelectorAll('h1 *').length]")
    # Of blanks and control characters a title has one blank, and none at its ends.
    last = " ".join(re.split("[\x00- \x7f]+", f"{file.split('/')[-1]}: the life of a heap")).strip()
    wanted = [last, f"The life of a heap: {file}", 1]
    count.note(f"{name}: the file's name in title and heading", title == wanted, (title, wanted))


def check_finding(count, browser, name, path):
    """The field, by keys: an event, an object, a root, an object of another moment, and what isn't there."""
    def asked(words):
        browser.strike(*([] if (focused(browser) or {}).get("id") == "wanted" else ["/"]), words, "Enter")
        return browser.run("return document.getElementById('answer').textContent")

    browser.open(path, 24)
    asked("12")
    count.note(f"{name}: an event is found", event_of(browser) == 12, event_of(browser))
    asked("#2")
    count.note(f"{name}: a name is found", open_object(browser) == "2", focused(browser))
    browser.strike("Escape")
    count.note(f"{name}: the focus comes back", (focused(browser) or {}).get("id") == "wanted", focused(browser))
    browser.strike("Escape")
    asked("r0")
    count.note(f"{name}: a root is found", open_object(browser) == "0", focused(browser))
    browser.strike("Home")
    said = asked("#5")
    found = open_object(browser), event_of(browser)
    count.note(f"{name}: a name of another moment is found", found == ("5", 15), (said, found))
    for words in ("#99", "r99", "a word"):
        before = event_of(browser)
        said = asked(words)
        count.note(f"{name}: {words} isn't found", bool(said) and event_of(browser) == before, said)


def check_by_keys(count, browser, name, path):
    """By keys alone: a link to an event, a register's object, an event of its life, a step, the curves, a region."""
    browser.open(path, 24)
    root = tab_to(browser, lambda it: it["panel"] == "roots")
    browser.strike("Enter")
    wanted = root and root["label"].rsplit("#", 1)[1]
    count.note(f"{name}: a register's object by keys", wanted is not None and open_object(browser) == wanted, (root, focused(browser)))
    browser.strike("Escape")
    count.note(f"{name}: the focus comes back to the register", (focused(browser) or {}).get("stop") == root["stop"], focused(browser))
    browser.strike("Enter")
    note = tab_to(browser, lambda it: it["panel"] == "object" and it["text"].startswith("event "))
    browser.strike("Enter")
    event = note and int(note["text"].split()[1])
    count.note(f"{name}: an event of its life by keys", note and event_of(browser) == event, (note, event_of(browser)))
    count.note(f"{name}: and the event in the address", address_of(browser) == f"#{event}", address_of(browser))
    browser.strike("End")
    step = tab_to(browser, lambda it: it["panel"] == "record-view")
    before = event_of(browser)
    browser.strike("ArrowUp", "ArrowUp", "ArrowDown", "ArrowUp", "Enter")
    count.note(f"{name}: a step by keys", step and event_of(browser) == before - 2, (before, event_of(browser)))
    count.note(f"{name}: the focus stays at the step", focused(browser)["text"].startswith(str(before - 2)), focused(browser))
    curve = tab_to(browser, lambda it: it["id"] == "curve-slider")
    browser.strike("PageUp")
    count.note(f"{name}: the curves by keys", curve and event_of(browser) == before - 3, event_of(browser))
    browser.strike("Escape")
    lane = tab_to(browser, lambda it: it["tag"] == "g")
    browser.strike("ArrowRight", "Enter")
    count.note(f"{name}: a region by keys", lane and browser.run("return heapLife.view.region") is not None)
    tab_to(browser, lambda it: it["panel"] == "region" and it["text"] == "Close")
    browser.strike("Enter")
    count.note(f"{name}: a region closed by keys", browser.run("return heapLife.view.region") is None)


def check_stops(count, browser, name, path):
    """Each thing that is listened to for clicks gets the focus, by Tab or by arrows in its list, and shows that it has it."""
    browser.open(path, 24)
    browser.run("heapLife.chooseName('0'); document.getElementById('naming').open = true; document.getElementById('legend').open = true;"
                " document.activeElement.blur(); window.scrollTo(0, 0);")
    stops = []
    for _ in range(300):
        browser.strike("Tab")
        found = focused(browser)
        if found is None:
            continue
        if found["again"]:
            break
        stops.append(found)
        arrows = {"heap": ["ArrowRight"] * 40, "record-view": [*["ArrowUp"] * 40, *["ArrowDown"] * 40]}
        for key in arrows.get(found["panel"], []) if found["tag"] == "g" or found["panel"] == "record-view" else []:
            browser.strike(key)
            stops.append(focused(browser))
    unreached = browser.run(UNREACHED)
    count.note(f"{name}: what is clicked and no key reaches", not unreached and len(stops) > 30, unreached)
    undrawn = [it for it in stops if not it["drawn"] or contrast(it["outline"], it["paper"]) < OUTLINE_CONTRAST]
    count.note(f"{name}: a focus that isn't seen", not undrawn, undrawn[:5])


def check_names(count, browser, name, path):
    """Names for shapes, written by keys and of a file; a line that is none."""
    browser.open(path, 8)
    tab_to(browser, lambda it: it["tag"] == "summary" and it["panel"] == "naming")
    browser.strike("Enter")
    tab_to(browser, lambda it: it["id"] == "names")
    browser.strike("12 0 8 * array", "Enter", "0 0 1 0 box", "Enter", "nothing")
    shapes = browser.run("return [...document.querySelectorAll('#objects tbody tr')].map((row) => row.dataset.shape).sort()")
    said = browser.run("return document.getElementById('naming-said').textContent")
    count.note(f"{name}: names for shapes", shapes == ["1 0 4", "2 0 0", "array", "box"], shapes)
    count.note(f"{name}: a line that is no name", said == "2 lines read. Not read: line 3.", said)
    names = path.with_name("names.txt")
    names.write_text("# any object of one data word\n* * 1 0 leaf\n* * * * rest of them\n")
    browser.choose_file("#names-file", names)
    time.sleep(0.3)
    shapes = browser.run("return [...document.querySelectorAll('#objects tbody tr')].map((row) => row.dataset.shape).sort()")
    count.note(f"{name}: names for shapes of a file", shapes == ["leaf", "rest of them"], shapes)
    label = browser.run("heapLife.chooseName('1'); return document.querySelector('#object h3').textContent")
    count.note(f"{name}: an object's name for its shape", label == "The life of #1, leaf", label)
    tiles = browser.run("return [...document.querySelectorAll('.tile-name')].map((tile) => tile.textContent)")
    count.note(f"{name}: its name at its tile", "#1 leaf" in tiles, tiles)


SHAPES = "return [...document.querySelectorAll('#objects tbody tr')].map((row) => row.dataset.shape).sort()"
# What names for shapes could have brought into a page, were they no plain text.
BROUGHT = """
const inside = document.querySelectorAll('#objects b, #object b, #lanes b, #naming b').length;
return [inside, document.querySelectorAll('script').length, window.broken === undefined];
"""


def labels_in(text):
    """The names that lines give, by their shapes and first words, and which lines are none: what page/reach.js reads, said again."""
    rules, wrong = [], []
    for number, line in enumerate(text.split("\n"), 1):
        words = line.split("#", 1)[0].split()
        if len(words) > 4 and all(re.fullmatch("[*]|[0-9]+", word) for word in words[:4]):
            rules.append((words[:4], " ".join(words[4:])))
        elif words:
            wrong.append(number)
    return rules, wrong


def check_told_names(count, browser, name, path, told):
    """Names for shapes that a page of examples/trace.heap tells: each is seen, as text alone, and lines that are none are told at once."""
    browser.open(path, 8)
    text = re.sub("\r\n?", "\n", told.decode("utf-8", "replace").removeprefix("\ufeff"))
    rules, wrong = labels_in(text)

    def label_of(words):
        return next((label for rule, label in rules if all(one in ("*", other) for one, other in zip(rule, words))), None)

    # What is there after event 8: pointers, weak slots, data words, and the first of these.
    objects = ["2 0 0 none", "0 0 1 0", "1 0 4 0", "12 0 8 0"]
    wanted = sorted({label_of(it.split()) or it.rsplit(" ", 1)[0] for it in objects})
    shapes = browser.run(SHAPES)
    count.note(f"{name}: what is named so", shapes == wanted, (shapes, wanted))
    said, is_open = browser.run("return [document.getElementById('naming-said').textContent, document.getElementById('naming').open]")
    lines = f" Not read: line{'s' if len(wrong) > 1 else ''} " if wrong else ""
    counted = f"{len(rules):,} line{'' if len(rules) == 1 else 's'} read." if rules or wrong else ""
    count.note(f"{name}: what is said of the lines", said.startswith(counted + lines) and is_open == bool(wrong), (said, is_open))
    box = browser.run("return document.getElementById('names').value")
    count.note(f"{name}: the box", box == text, (box[:300], text[:300]))
    brought = browser.run(BROUGHT)
    count.note(f"{name}: plain text alone", brought == [0, 3, True], brought)
    label = browser.run("heapLife.chooseName('0'); return document.querySelector('#object h3').textContent")
    named = label_of(["2", "0", "0", "none"])
    count.note(f"{name}: an object's name", label == "The life of #0" + (f", {named}" if named else ""), label)


def check_use(count, browser, name, path, last):
    """All that keys do in the page of examples/trace.heap, which is small enough to be known by heart."""
    check_address(count, browser, name, path, last)
    check_finding(count, browser, name, path)
    check_by_keys(count, browser, name, path)
    check_stops(count, browser, name, path)
    check_names(count, browser, name, path)


def check_bundles(count, browser, name, path, event):
    """The arrows of a pause that copies much: few, and together as many as its copies."""
    browser.open(path, event)
    copies = browser.run("return pauseAt(heapLife.life, heapLife.view.moment).copies.length")
    bundles = browser.run("return [...document.querySelectorAll('.arrow.copy')].map((arrow) => Number(arrow.dataset.count || 1))")
    few = 0 < len(bundles) < copies / 2
    count.note(f"{name}: arrows in bundles", copies > 24 and few and sum(bundles) == copies, (copies, bundles))


BOXES = """
return [...document.querySelectorAll('.lane')].map((lane) => {
  const fold = lane.matches('.fold');
  const first = Number(lane.dataset.region);
  return [first, fold ? Number(lane.dataset.to) : first, fold ? lane.querySelector('text:last-of-type').textContent : ''];
});
"""


def boxes_of(moments, place):
    """What is drawn of the regions at a moment: each that is in use then or at the moment before, and free ones side by side as one box."""
    used, kinds = set(), {}
    for at, moment in enumerate(moments[:place + 1]):
        kinds.update({region: lines[0].split()[2] for region, lines in moment.regions.items()})
        used |= {region for region, kind in kinds.items() if kind != "f"} if at >= place - 1 else set()
    boxes = []
    for region in sorted(kinds):
        if boxes and region not in used and boxes[-1][1] not in used:
            boxes[-1][1] = region
        else:
            boxes.append([region, region])
    return [[first, last, f"{last - first + 1:,} free" if first < last else ""] for first, last in boxes]


def check_folds(count, browser, name, path, moments):
    """Free regions side by side are one box with their count; a click or Enter shows them, and a button folds all or none."""
    browser.open(path)
    last, regions = len(moments) - 1, browser.run("return heapLife.life.sizes.regions")
    for place in sorted({0, 1, last // 3, last // 2, last - 1, last}):
        browser.run("heapLife.show(arguments[0])", place)
        boxes, wanted = browser.run(BOXES), boxes_of(moments, place)
        count.note(f"{name}: the boxes of moment {place}", boxes == wanted, (boxes[:20], wanted[:20]))
    folds = [box for box in boxes if box[0] < box[1]]
    count.note(f"{name}: many folds", len(folds) > 20 and len(boxes) < regions / 4, (len(folds), len(boxes)))

    def whole():
        found = browser.run(BOXES)
        return [region for first, end, _ in found for region in range(first, end + 1)] == list(range(regions)), len(found)

    first, end, _ = folds[3]
    click = "dispatchEvent(new MouseEvent('click', { bubbles: true }))"
    browser.run(f"document.querySelector(`.lane[data-region='${{arguments[0]}}']`).{click}", first)
    count.note(f"{name}: a fold that is clicked", whole() == (True, len(boxes) + end - first), whole())
    word = "return document.getElementById('fold').textContent"
    count.note(f"{name}: the button after it", browser.run(word) == "Fold", browser.run(word))
    tab_to(browser, lambda it: it["id"] == "fold")
    browser.strike("Enter")
    count.note(f"{name}: folded by the button", whole() == (True, len(boxes)) and browser.run(word) == "Unfold", whole())
    browser.strike("Enter")
    count.note(f"{name}: unfolded by the button", whole() == (True, regions) and browser.run(word) == "Fold", whole())
    browser.strike("Enter")
    tab_to(browser, lambda it: it["tag"] == "g")
    at = next(at for at, box in enumerate(boxes) if box[0] < box[1])
    browser.strike(*["ArrowRight"] * at)
    there = browser.run("return document.activeElement.classList.contains('fold')")
    browser.strike("Enter")
    here = browser.run("return Number(document.activeElement.dataset.region)")
    well = there and here == boxes[at][0] and whole() == (True, len(boxes) + boxes[at][1] - boxes[at][0])
    count.note(f"{name}: a fold by keys", well, (there, here, whole()))
    count.note(f"{name}: no region is open", browser.run("return heapLife.view.region") is None)
    browser.strike("ArrowDown", "ArrowUp", "ArrowLeft")
    count.note(f"{name}: arrows", browser.run("return document.activeElement.matches('.lane')"))
    chosen = boxes[-1][1] - 7
    browser.run("heapLife.openRegion(arguments[0])", chosen)
    boxes = browser.run(BOXES)
    shown = [chosen, chosen, ""] in boxes and browser.run("return document.querySelectorAll('.lane.chosen').length") == 1
    count.note(f"{name}: a free region that is open", shown, boxes[-3:])
    browser.run("heapLife.openRegion(null)")


# What is drawn of a run that moved: the regions in broken frames and in whole ones, and the rows that these are in; the pale regions; the
# regions between which arrows lead; what is said.
MOVED = """
heapLife.show(heapLife.life.moments.findIndex((moment) => moment.event === arguments[0]));
heapLife.setTiles(arguments[1]);
const lanes = [...document.querySelectorAll('#lanes .lane:not(.fold)')].map((lane) => {
  return { region: Number(lane.dataset.region), box: lane.querySelector('.bed').getBBox(), at: lane.transform.baseVal[0].matrix };
});
const spots = lanes.map(({ region, box, at }) => ({ region, x: at.e + box.width / 2, y: at.f + box.height / 2, box, at }));
const frames = [...document.querySelectorAll('#lanes .evacuated')];
const framed = (frame) => {
  const { x, y, width, height } = frame.getBBox();
  return spots.filter((spot) => x < spot.x && spot.x < x + width && y < spot.y && spot.y < y + height).map(({ region }) => region);
};
const isWhole = (frame) => getComputedStyle(frame).strokeDasharray === 'none';
const rows = (regions) => new Set(spots.filter(({ region }) => regions.includes(region)).map(({ y }) => y)).size;
const told = (some) => { const regions = some.flatMap(framed); return [regions, some.length === rows(regions)]; };
const regionAt = ({ x, y }) => {
  const found = spots.find(({ box, at }) => at.e <= x && x <= at.e + box.width && at.f <= y && y <= at.f + box.height);
  return found ? found.region : null;
};
const cornerOf = ({ transform }) => ({ x: transform.baseVal[0].matrix.e, y: transform.baseVal[0].matrix.f });
const ends = (arrow) => [regionAt(arrow.getPointAtLength(0)), regionAt(arrow.getPointAtLength(arrow.getTotalLength()))];
return {
  broken: told(frames.filter((frame) => !isWhole(frame))), whole: told(frames.filter(isWhole)),
  pale: [...document.querySelectorAll('#lanes .ghost')].map((ghost) => cornerOf(ghost)).map(regionAt),
  arrows: [...document.querySelectorAll('#lanes .arrow.copy')].map(ends),
  said: [...document.querySelectorAll('#what li')].map((line) => line.textContent),
};
"""


def regions_said(regions):
    return f"region {regions[0]}" if len(regions) == 1 else f"regions {regions[0]} to {regions[-1]}"


def check_moved_runs(count, browser, name, path, lives, tells_objects):
    """A run that a compaction moved is shown as one object with its old and its new place; what else a compaction did as ever."""
    browser.open(path)
    steps = browser.run("return [...heapLife.life.events.values()].filter((event) => event.verb === 'compact').map((event) => event.count)")
    moves = 0
    for event in steps:
        run = page_worked.moved_run(lives[event - 1], lives[event])
        for tiles in (False, True):
            shown = browser.run(MOVED, event, tiles)
            where = f"{name}: a compaction, event {event}, {'tiles' if tiles else 'shares'}"
            if not run:
                is_none = not shown["whole"][0] and not any("moved as one" in line for line in shown["said"])
                count.note(f"{where}: no run moved", is_none and shown["said"][0].startswith("Its set"), shown)
                continue
            object_name, words, was, now = run
            own = f"#{object_name}, the object of a run," if tells_objects else "The object of a run"
            freed = [region for region in was if region not in now]
            wanted = {
                "broken": [was, True], "whole": [now, True], "pale": freed, "arrows": [[was[0], now[0]]],
                "said": [f"{own} moved as one: {words:,} words from {regions_said(was)} to {regions_said(now)}.",
                         f"Free now: {'region' if len(freed) == 1 else 'regions'} {', '.join(map(str, freed[:24]))}"
                         f"{f' and {len(freed) - 24} more' if len(freed) > 24 else ''}."],
            }
            count.note(f"{where}: a run moved", {**shown, "said": shown["said"][:2]} == wanted, (shown, wanted))
            moves += 1
    count.note(f"{name}: runs moved", moves > 0)
    legend = browser.run("return document.getElementById('marks').textContent")
    count.note(f"{name}: the legend", "where a compaction moved a run" in legend, legend)
    said = browser.said()
    count.note(f"{name}: the console", not said, said)


def check_end_of_objects(count, browser, name, path):
    """A page whose objects end before its moments do says so at its last moment, and leads to the last moment that has them."""
    ends = "return life.moments[life.tilesEnd - 1].event"
    browser.open(path)
    browser.strike("End")
    said = browser.run("return [document.getElementById('told').textContent, document.getElementById('thinned').textContent]")
    event = browser.run(ends)
    count.note(f"{name}: where objects end", all(f"objects are told up to event {event:,}" in it.lower() for it in said), (event, said))
    none = "return !document.getElementById('lost') && placesAt(life, view.moment).size === 0"
    count.note(f"{name}: no objects after it", browser.run(none))
    tab_to(browser, lambda it: it["panel"] == "told")
    browser.strike("Enter")
    told = browser.run("return placesAt(life, view.moment).size > 0 && !document.querySelector('#told p')")
    count.note(f"{name}: the last moment with objects by keys", told and event_of(browser) == event, event_of(browser))
    browser.strike("ArrowRight")
    count.note(f"{name}: none at the next", browser.run(none), event_of(browser))


def check_reading(count, browser, name, path, event, act):
    """Contrast and sizes in both windows and both themes, with a page's panels open; answers the least of them."""
    least = []
    for width, height in WINDOWS:
        browser.size(width, height)
        browser.open(path, event)
        sizes = browser.run(SIZES)
        if width > 1000:
            seen = [part for part in ("curves", "lane", "step") if not sizes[part]]
            count.note(f"{name}: what isn't seen at once at {width}x{height}", not seen, seen)
        for dark in (False, True):
            where = f"{name}, {width}x{height}, {'dark' if dark else 'light'}"
            browser.run("heapLife.setTheme(arguments[0])", dark)
            browser.run(act)
            texts, sizes = browser.run(TEXTS), browser.run(SIZES)
            pale = [it for it in texts if it["contrast"] < (LARGE_CONTRAST if it["large"] else CONTRAST)]
            small = [it for it in texts if it["size"] < LETTERS]
            count.note(f"{where}: texts of little contrast", len(texts) > 40 and not pale, pale[:9])
            count.note(f"{where}: small letters", not small, small[:9])
            tiny = [it for it in sizes["boxes"] if min(it["width"], it["height"]) < TARGET]
            count.note(f"{where}: what is small to be clicked", not tiny, tiny[:9])
            count.note(f"{where}: wider than the window", sizes["wide"] <= 0, sizes["wide"])
            least += [(it["contrast"], it["size"], min(box["width"], box["height"])) for it in texts for box in sizes["boxes"]]
    browser.size(1500, 1000)
    contrasts, letters, targets = map(min, zip(*least))
    return f"{name}: contrast at least {contrasts:.2f}, letters of {letters:.0f} pixels, what is clicked {targets:.0f} pixels"


def check_speed(count, browser, name, path):
    """How large a page is, how soon it is there, and how soon a moment is; answers these."""
    size = path.stat().st_size
    browser.open(path)
    opening = browser.run("return performance.getEntriesByType('navigation')[0].loadEventEnd")
    moments = browser.run(MOMENTS, 40)
    count.note(f"{name}: its bytes", size <= MOST_BYTES, size)
    count.note(f"{name}: how soon it is there", 0 < opening <= MOST_OPENING, opening)
    mean = sum(moments) / len(moments)
    count.note(f"{name}: how soon a moment is there", mean <= MOST_MOMENT, mean)
    return f"{name}: {size:,} bytes, there after {opening:.0f} ms, a moment in {mean:.0f} ms, the slowest in {max(moments):.0f} ms"
