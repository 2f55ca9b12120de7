"""The service's page: its files and tiles over HTTP, its colours, and in a browser."""
import json
import math
import os
import pathlib
import re

import pytest
from browser import Browser
from service_case import ServiceCase
from tool_case import PYTHON, contrast

import domethyme
from domethyme_service import static

PAGE = PYTHON / "domethyme_service/page"
HIGH = "#0.0003,0.00001;0.0077,-0.00002"
PICTURES = os.environ.get("PICTURES_OF_PAGE")


def test_files_and_their_policy():
    """All that the page names is there, and the policy allows no more than these files."""
    text = (PAGE / "index.html").read_text()
    assert not re.search(r"<script>| style=| on[a-z]+=|//", text)
    named = [*re.findall(r'(?:src|href)="(map/[^"]+)"', text)]
    named += [f"map/{name}" for file in PAGE.iterdir() for name in re.findall(r'from "\./([^"]+)"', file.read_text())]
    assert {f"/{name}" for name in named} <= {*static.PAGE_FILES}
    wanted = {"'self'": "script-src style-src img-src connect-src", "'none'": "default-src base-uri form-action frame-ancestors"}
    assert {*static.POLICY.split("; ")} == {f"{name} {value}" for value, names in wanted.items() for name in names.split()}


# The front and the back of what is shown, by names of colours.
SHAPES = "route ground,other ground,arrow route,edge panel,focus panel,focus ground,start ground,end ground,via ground,route road"
WORDS = "ink panel,ink ground,soft panel,soft ground,name ground,name road,fault fault-ground,ink hover,soft hover,on-mark start,on-mark end"


def test_contrast():
    """Shapes have a contrast of 3:1 or more to their background, and texts of 4.5:1, in light and in dark."""
    light, dark = re.findall(r":root \{(.*?)\}", (PAGE / "style.css").read_text(), re.DOTALL)
    for colours in (dict(re.findall(r"--([a-z0-9-]+): (#[0-9a-f]{6})", text)) for text in (light, dark)):
        shapes, words = [*SHAPES.split(","), *(f"road-{kind} ground" for kind in range(6))], [*WORDS.split(","), "on-mark via"]
        for pairs, least in ((shapes, 3), (words, 4.5)):
            assert [pair for pair in pairs if contrast(*(colours[name] for name in pair.split())) < least] == []


@pytest.mark.needs("chromium")
class BrowserCase(ServiceCase):
    """At the end the console has no error, except of the paths `refused`, and no other server was requested."""

    network, options, refused = "v", (), ()

    def setUp(self):
        super().setUp()
        self.serve("--network", self.folder / self.network, *self.options)
        self.browser = Browser()
        self.addCleanup(self.browser.close)
        self.addCleanup(self.be_quiet)

    def open(self, fragment="", **window):
        self.browser.open(f"http://127.0.0.1:{self.port}/{fragment}", **window)
        self.browser.until("document.getElementById('scale').textContent !== '' && document.getElementById('hint').textContent !== ''")

    def be_quiet(self):
        faults = [each for each in self.browser.faults if not any(path in json.dumps(each) for path in self.refused)]
        own = f"http://127.0.0.1:{self.port}/", "about:"
        self.assertEqual((faults, [each for each in self.browser.asked if not each.startswith(own)]), ([], []))

    def steps(self, *wanted):
        texts = "[...document.querySelectorAll('#steps .text')].map(each => each.textContent)"
        self.browser.until(f"JSON.stringify({texts}) === JSON.stringify({json.dumps(wanted)})")

    def text_of(self, name):
        return self.browser.value(f"document.getElementById('{name}').textContent")

    def keep(self, name):
        if PICTURES:
            self.browser.picture(pathlib.Path(PICTURES) / f"{name}.png")


# What words.js makes of numbers, streets and manoeuvres.
SAID = {
    "[29.9, 30, 89.9, 90, 3569, 3570, 7500, 360000].map(long)":
        ["< 1 min", "1 min", "1 min", "2 min", "59 min", "1 h 0 min", "2 h 5 min", "100 h 0 min"],
    "[0, 94.4, 95, 994, 995, 99499, 99500].map(far)": ["0 m", "94 m", "100 m", "990 m", "1.0 km", "99.5 km", "100 km"],
    "[[9.5, 47.1], [-0.5, -1]].map(where)": ["47.1000° N, 9.5000° E", "1.0000° S, 0.5000° W"],
    "['0.2 5', '600', '600.1', '0', '1,1', '1;2;3;4;5'].map((text) => limitsOf(text, 600))":
        ["0.2,5", "600", None, None, None, None],
    "[['A', 'B1'], ['A', 'A'], ['', 'B1'], ['A']].map(([name, ref]) => street({name, ref}))": ["A (B1)", "A", "B1", "A"],
    "['distance', 'weight'].map((weight_name) => takes({duration: null, weight: 5, weight_name}))": ["", "weight 5"],
    "[1, 2, 3, 4, 11, 12, 13, 21, 0].map((exit) => told({name: 'A', maneuver: {type: 'rotary', exit}}))":
        [f"At the roundabout take the {which} onto A" for which in (
            "1st exit", "2nd exit", "3rd exit", "4th exit", "11th exit", "12th exit", "13th exit", "21st exit", "exit")],
    """[['turn', 'uturn'], ['turn', 'straight'], ['fork', 'slight left'], ['turn', 'right'], ['new name', 'straight'],
       ['continue', 'left']].map(([type, modifier]) => told({name: 'A', destinations: 'B', maneuver: {type, modifier}}))""":
        ["Make a U-turn onto A", *(f"{what} A towards B" for what in (
            "Go straight on onto", "Keep left onto", "Turn right onto", "Continue onto", "Turn left and stay on"))],
    "['start', 'end', 'via'].map((role) => told({name: '', maneuver: {type: 'arrive'}}, role))":
        ["Arrive back at the start", "Arrive at the destination", "Arrive at the stop"],
}
STRAIGHT = ("Start on High Street", "Arrive at the destination")


class TablesCase(BrowserCase):
    """A network w of weights alone, without seconds, of the rows of its tables."""

    network, nodes, arcs = "w", "", ""

    def serve(self, *words, **options):
        tables = [self.write("firm.nodes.csv", f"node,lon,lat\n{self.nodes}"), self.write("firm.arcs.csv", f"from,to,oneway,weight,name\n{self.arcs}")]
        self.run_tool("to_network", *tables, "w")
        domethyme.prepare(self.folder / "w.gr", self.folder / "v.rch", workers=1).close()
        return super().serve(*words, **options)


class ChoiceTests(TablesCase):
    """Of two routes the longer one has a middle of which each part is a shortest path, so it's worth to be chosen."""

    options = ("--towards",)
    nodes = "0,0,0\n1,0.004,0.002\n2,0.008,0\n3,0.003,-0.002\n4,0.005,-0.002\n"
    arcs = "0,1,0,500,Upper\n1,2,0,500,Upper\n0,3,0,350,Lower\n3,4,0,400,Lower\n4,2,0,350,Lower\n"
    ROWS = "[...document.querySelectorAll('#choices label')].map(each => each.textContent.trim().split(',')[0]).join()"

    def chosen(self, weight, street, number):
        self.browser.until(f"document.getElementById('total').textContent.startsWith('weight {weight}')")
        self.steps(f"Start on {street}", "Arrive at the destination")
        self.assertRegex(self.text_of("total"), rf"^weight {weight}[\d.]+ k?m$")  # (and no minutes)
        self.assertNotIn("min", self.text_of("steps"))
        self.assertEqual(self.browser.value("[...document.querySelectorAll('#choices input')].findIndex(each => each.checked)"), number)
        self.assertEqual(self.browser.drawn("return document.querySelectorAll('#route .others .other').length"), 1)

    def test_another_route_is_chosen(self):
        """On the map, and by keys; between three places there is no choice."""
        self.open("#0,0;0.008,0")
        self.browser.until(f"{self.ROWS} === 'weight 1000,weight 1100'")
        self.chosen(1000, "Upper", 0)
        self.keep("choices")
        self.browser.click(self.browser.pixel(0.004, -0.002))
        self.chosen(1100, "Lower", 1)
        self.browser.click(self.browser.pixel(0.002, 0.001))
        self.chosen(1000, "Upper", 0)
        self.assertEqual(self.browser.value("document.querySelector('#choices :checked').focus(), document.querySelectorAll('.mark').length"), 2)
        self.browser.press("ArrowRight")
        self.chosen(1100, "Lower", 1)
        self.open("#0,0;0.004,0.002;0.008,0")
        self.steps("Start on Upper", "Arrive at the stop", "Continue on Upper", "Arrive at the destination")
        self.assertTrue(self.browser.value("document.getElementById('choices').hidden"))


class TripTests(TablesCase):
    """A ring of one-way streets: its places are in the best order in the streets' direction."""

    nodes = "0,0,0\n1,0.004,0.002\n2,0.008,0\n3,0.004,-0.002\n"
    arcs = "0,1,1,500,North\n1,2,1,500,East\n2,3,1,500,South\n3,0,1,500,West\n"
    HASH = "#trip;0.00000,0.00000;0.00400,0.00200;0.00800,0.00000;0.00400,-0.00200"
    TRIP = ("Start on North", "Arrive at the stop", "Continue on East", "Arrive at the stop", "Continue on South", "Arrive at the stop",
            "Continue on West", "Arrive back at the start")

    def arrived(self, count):
        self.browser.until(f"[...document.querySelectorAll('#steps .text')].filter(each => each.textContent.startsWith('Arrive')).length === {count}")

    def test_places_take_the_best_order(self):
        self.open()
        self.browser.value("document.querySelector('#modes [value=trip]').click()")
        for number, place in enumerate([(0, 0), (0.004, -0.002), (0.008, 0), (0.004, 0.002)]):
            self.browser.until(f"document.getElementById('hint').textContent === 'Click the map to {'add a place to visit.' if number else 'set the start.'}'")
            self.browser.click(self.browser.pixel(*place))
            self.arrived(number + 1 if number else 0)
        self.steps(*self.TRIP)
        marks = self.browser.value("[...document.querySelectorAll('.mark')].map(each => each.textContent).join()")
        self.assertEqual((self.text_of("total")[:11], marks), ("weight 2000", "A,1,2,3"))
        places = [[float(side) for side in place.split(",")] for place in self.browser.value("location.hash").split(";")[1:]]
        for got, wanted in zip(places, ((0, 0), (0.004, 0.002), (0.008, 0), (0.004, -0.002)), strict=True):
            self.assertLess(math.dist(got, wanted), 1e-4)
        self.assertTrue(self.browser.value("document.getElementById('reverse').hidden && document.title.endsWith('Round trip')"))
        self.keep("trip")

    def test_a_link_a_drag_and_keys(self):
        """A place that is dragged is asked for once it is released. The focus stays with its place."""
        self.open(self.HASH)
        self.steps(*self.TRIP)
        trips = lambda: sum("/trip/" in each for each in self.browser.asked)  # noqa: E731
        self.assertEqual(trips(), 1)
        x, y = self.browser.pixel(0.004, 0.002)
        self.browser.drag((x, y - 20), (x + 20, y - 10))  # (along East, as steep as that is)
        self.steps("Start on North", "Turn right onto East", "Arrive at the stop", "Continue on East", *self.TRIP[3:])
        self.assertEqual(trips(), 2)
        focused = "import('/map/main.js').then(({places}) => [...places.marks.children].indexOf(document.activeElement))"
        self.browser.value("document.querySelectorAll('.mark')[1].focus()")
        self.browser.value("import('/map/main.js').then(({places}) => places.reorder([0, 2, 1, 3]))")
        self.assertEqual(self.browser.value(focused), 2)
        self.browser.press("Delete")
        self.arrived(3)
        self.assertEqual(self.browser.value(focused), 2)
        self.browser.value("document.querySelector('#modes [value=route]').click()")
        self.steps("Start on North", "Turn right onto East", "Arrive at the stop", "Continue on South", "Arrive at the destination")
        self.assertEqual(self.browser.value("location.hash.split(';').length"), 3)


class PointerTests(BrowserCase):
    def test_two_clicks_a_drag_and_a_via(self):
        self.open()
        self.assertEqual(self.text_of("hint"), "Click the map to set the start.")
        self.browser.click(self.browser.pixel(0.0003, 0))
        self.browser.until("document.getElementById('hint').textContent.includes('destination')")
        self.browser.click(self.browser.pixel(0.0077, 0))
        self.steps(*STRAIGHT)
        self.assertEqual(self.text_of("total"), "1 min820 m")
        self.assertRegex(self.browser.value("location.hash"), r"^#0\.000[23]\d+,-?0\.0000\d;0\.0077\d,")
        self.keep("two_places")
        # (the start by nine tenths of a step, and the line to Mill Road and back)
        self.browser.drag(self.mark(0), self.mark(0, east=self.browser.pixel(0.0012, 0)[0] - self.browser.pixel(0.0003, 0)[0]))
        self.browser.until("document.getElementById('total').textContent === '1 min720 m'")
        self.browser.drag(self.browser.pixel(0.0045, 0), self.browser.pixel(0.006, 0.0006))
        self.browser.until("document.querySelectorAll('#steps .text').length === 6")
        self.steps("Start on High Street", "Turn left onto Mill Road", "Arrive at the stop", "Continue on Mill Road",
                   "Turn left onto High Street", "Arrive at the destination")
        self.assertEqual(self.browser.value("[...document.querySelectorAll('.mark')].map(each => each.textContent).join()"), "A,1,B")
        self.assertEqual(self.browser.value("location.hash.split(';').length"), 3)
        self.browser.until("document.querySelectorAll('#route .arrow').length > 2")
        self.browser.until("[...document.querySelectorAll('#route text')].some(each => each.textContent === 'High Street')")
        self.keep("via")
        self.browser.value("document.querySelectorAll('.remove')[1].click()")
        self.steps(*STRAIGHT)
        self.browser.value("document.getElementById('reverse').click()")
        self.browser.until("location.hash.startsWith('#0.0077')")
        self.steps(*STRAIGHT)
        self.browser.value("document.getElementById('clear').click()")
        self.browser.until("document.querySelectorAll('.mark').length === 0 && location.hash === ''")

    def mark(self, number, east=0):
        """The middle of a mark, or a point this many pixels east of it."""
        box = f"document.querySelectorAll('.mark')[{number}].getBoundingClientRect()"
        x, y = self.browser.drawn(f"const {{x, y, width, height}} = {box}; return [x + width / 2, y + height / 2];")
        return x + east, y

    def test_roads_are_drawn_and_refusals_are_said(self):
        self.refused = "/route/v1/car/",
        self.open("#0,0;0.02,0.005")
        self.browser.until("document.getElementById('fault').textContent.includes('no route between')")
        colours = """new Set(new Uint32Array(document.getElementById('roads').getContext('2d')
            .getImageData(0, 0, document.getElementById('roads').width, document.getElementById('roads').height).data.buffer)).size"""
        self.browser.until(f"{colours} > 3")
        self.open("#0,0;0.5,0.5")
        self.browser.until("document.getElementById('fault').textContent.includes('no road near the destination')")
        self.keep("no_road")
        self.open("#0,0;x")
        self.assertEqual(self.browser.value("document.querySelectorAll('.mark').length"), 0)

    def test_coordinates_that_are_typed_and_words(self):
        self.open()
        cases = {"0.00001, 0.0003": [0.0003, 0.00001], "47.1 9.5": [9.5, 47.1], " -1.5;+2 ": [2, -1.5], "9.5E 47.1N": [9.5, 47.1],
                 "47.1° N, 9.5° W": [-9.5, 47.1], "1S,2E": [2, -1], "91,0": None, "0,181": None, "1": None, "": None, "1,2,3": None,
                 "1N,2N": None, "1N,2": None, "a,b": None, "1e5,2": None}
        script = "import('/map/words.js').then(({placeOf}) => %s.map(placeOf))" % json.dumps([*cases])
        self.assertEqual(self.browser.value(script), [*cases.values()])
        for text in ("nonsense", "0.00001, 0.0003", "-0.00002, 0.0077"):
            self.browser.value(f"document.getElementById('at').value = {json.dumps(text)}")
            self.browser.value("document.querySelector('#typed button').click()")
            self.assertEqual("isn't a place" in self.text_of("how"), text == "nonsense")
        self.steps(*STRAIGHT)
        self.assertEqual(self.browser.value("location.hash"), "#0.00030,0.00001;0.00770,-0.00002")
        self.keep("typed")
        for script, wanted in SAID.items():
            words = "import('/map/words.js').then(({far, limitsOf, long, street, takes, told, where}) => %s)"
            self.assertEqual(self.browser.value(words % script), wanted)
        # (the box and the least of a line of more points than a call takes as arguments)
        script = """import('/map/lines.js').then(({boxOf, least}) => {
            const line = Array.from({length: 300000}, (_, number) => [number % 7 - 3, number % 5]);
            return [...boxOf(line), least(line.map(([x]) => x))]; })"""
        self.assertEqual(self.browser.value(script), [-3, 0, 3, 4, -3])

    def test_the_route_is_shown_whole(self):
        """Though it leads far beyond its places."""
        self.open("#0.008,0.0015;0.008,0.0005", height=150)
        self.browser.until("document.querySelectorAll('#steps .text').length > 1")
        corners = "[[0, 1], [2, 3], [0, 3], [2, 1]].every((at) => view.has(at.map((side) => route.box[side]), 5))"
        self.browser.until(f"import('/map/main.js').then(({{route, view}}) => {corners})")

    def test_names_stay_clear_of_the_scale(self):
        self.open(HIGH)
        self.steps(*STRAIGHT)
        self.browser.until("document.querySelectorAll('#route text').length > 0")
        # (the end of High Street is a little to the right of the scale, and its line below it, above which its name is written)
        onto = """import('/map/main.js').then(({view}) => {
            const scale = document.getElementById('scale').getBoundingClientRect(), map = view.element.getBoundingClientRect();
            const [x, y] = view.pixel([0.0077, 0]);
            view.pan(x - (scale.right - map.left) - 82, y - view.height + 3);
        })"""
        self.browser.value(onto)
        overlaps = """return [...document.querySelectorAll('#route text')].filter((each) => {
            const one = each.getBoundingClientRect(), other = document.getElementById('scale').getBoundingClientRect();
            return one.left < other.right && one.right > other.left && one.top < other.bottom && one.bottom > other.top; }).length"""
        self.assertEqual(self.browser.drawn(overlaps), 0)
        self.keep("scale")

    def test_a_narrow_window_and_a_dark_one(self):
        self.open(width=390, height=844)
        self.assertEqual(self.text_of("hint"), "Tap the map to set the start.")
        self.open(HIGH, width=390, height=844)
        self.steps(*STRAIGHT)
        self.assertLess(*self.browser.value("['map', 'panel'].map(each => document.getElementById(each).getBoundingClientRect().top)"))
        self.assertLessEqual(self.browser.value("document.documentElement.scrollWidth"), 390)
        self.keep("narrow")
        colour = "[...document.getElementById('roads').getContext('2d').getImageData(2, 2, 1, 1).data].join()"
        for is_dark, ground in ((False, "247,246,243,255"), (True, "21,24,28,255")):
            self.open(HIGH, is_dark=is_dark)
            self.steps(*STRAIGHT)
            self.browser.value("document.querySelectorAll('#steps button')[0].click()")
            self.browser.until(f"{colour} === '{ground}'")
            self.keep("dark" if is_dark else "light")


class ReachCase(BrowserCase):
    LEGEND = "[...document.querySelectorAll('#legend li')].map(each => each.textContent).join()"

    def reached(self, legend):
        self.browser.until(f"{self.LEGEND} === {json.dumps(legend)}")
        self.browser.until(f"document.querySelectorAll('#reach path').length === {len(legend.split(','))}")


class ReachTests(ReachCase):
    def test_a_click_numbers_and_a_file(self):
        self.open()
        self.browser.value("document.querySelector('#modes [value=reach]').click()")
        self.assertEqual(self.text_of("hint"), "Click the map to set the place.")
        self.browser.click(self.browser.pixel(0.002, 0))
        self.reached("5 min,10 min,15 min")
        self.assertRegex(self.browser.value("location.hash"), r"^#reach=5,10,15;0\.00(2|19)")
        for text, is_wrong in (("nothing", True), ("5, 4", True), ("1 2 3 4 5", True), ("700", True), ("0.2; 0.5", False)):
            self.browser.value(f"document.getElementById('numbers').value = {json.dumps(text)}")
            self.browser.value("document.querySelector('#limits button').click()")
            self.assertEqual(self.browser.value("document.getElementById('limits-how').classList.contains('wrong')"), is_wrong)
        self.reached("0.2 min,0.5 min")
        self.assertEqual(self.browser.value("document.title"), "0.2, 0.5 min · Isochrones")
        self.keep("reach")
        self.browser.value("""{ const make = URL.createObjectURL;
            URL.createObjectURL = (blob) => { window.saved = blob; return make.call(URL, blob); }; }""")
        self.browser.value("document.getElementById('save').click()")
        saved = json.loads(self.browser.value("window.saved.text()"))
        self.assertEqual([each["properties"]["contour"] for each in saved["features"]], [0.5, 0.2])
        self.browser.click(self.browser.pixel(0.004, 0))  # (another place, and never a second one)
        self.browser.until("/^#reach=0.2,0.5;0.00(4|39)/.test(location.hash)")
        self.assertEqual(self.browser.value("document.querySelectorAll('.mark').length"), 1)
        self.browser.value("document.querySelector('#modes [value=route]').click()")
        self.browser.until("!document.querySelector('#reach path') && !location.hash.includes('reach') && limits.hidden && save.hidden")

    def test_what_is_not_offered(self):
        """Without --towards there are no other routes, and nobody who gets here."""
        self.open(HIGH)
        self.steps(*STRAIGHT)
        self.assertTrue(self.browser.value("document.getElementById('choices').hidden"))
        shown = "[...document.querySelectorAll('#modes label')].filter(each => !each.hidden).map(each => each.textContent.trim())"
        self.assertEqual(self.browser.value(shown), ["Route", "Round trip", "Isochrones"])
        self.open("#towards=0.2;0.00200,0.00000")
        self.browser.until("document.querySelector('#modes [value=route]').checked")
        self.assertFalse(any("alternatives" in each or "reverse" in each for each in self.browser.asked))

    def test_by_keys_alone(self):
        self.open("#reach=0.2;0.00200,0.00000")
        self.reached("0.2 min")
        before = self.browser.value("location.hash")
        self.browser.value("document.querySelector('.mark').focus()")
        self.browser.press("ArrowRight", True)
        self.browser.until(f"location.hash !== {json.dumps(before)}")
        self.reached("0.2 min")
        self.browser.press("Delete")
        self.browser.until("document.querySelectorAll('#reach path').length === 0")
        self.browser.value("document.querySelector('#modes [value=reach]').focus()")
        for kind in ("trip", "route"):
            self.browser.press("ArrowLeft")
            self.browser.until(f"document.querySelector('#modes [value={kind}]').checked && document.getElementById('limits').hidden")


class TowardsTests(ReachCase):
    options, refused = ("--towards",), ("/isochrone/v1/car/",)

    def test_links_on_a_phone(self):
        """They have the mode, the numbers and the place; another place without a road is refused, and the map stays narrow."""
        for mode, title, mark, place in (("reach", "Isochrones", "A", "start"), ("towards", "Who gets here", "B", "destination")):
            self.open(f"#{mode}=0.2,0.5;0.00200,0.00000", width=390, height=844)
            self.reached("0.2 min,0.5 min")
            shown = "[document.querySelector('#modes :checked').value, numbers.value, document.title, document.querySelector('.mark').innerText]"
            self.assertEqual(self.browser.value(shown), [mode, "0.2, 0.5", f"0.2, 0.5 min · {title}", mark])
            drawn = self.browser.value("import('/map/main.js').then(({reach}) => reach.found)")
            query = "contours_minutes=0.2,0.5&polygons=true" + "&reverse=true" * (mode == "towards")
            self.assertEqual((200, drawn), self.ask(f"/isochrone/v1/car/0.002,0?{query}"))
            self.assertLessEqual(self.browser.value("document.documentElement.scrollWidth"), 390)
            self.keep(f"{mode}_narrow")
            self.open(f"#{mode}=5;0.5,0.5")
            self.browser.until(f"document.getElementById('fault').textContent.includes('no road near the {place}')")
        self.open("#reach=9,5;0,0")
        self.browser.until("document.querySelector('#modes [value=route]').checked")


class KeyboardTests(BrowserCase):
    def test_a_route_by_keys_alone(self):
        self.open()
        self.tab("map")
        self.browser.press("ArrowDown")
        self.browser.press("Enter")
        self.browser.press("+")
        self.browser.press("-")
        for _ in range(2):
            self.browser.press("ArrowLeft")
        self.browser.press("Enter")
        # (the second place is beside Down Street, which is open to the south alone)
        self.steps("Start on High Street", "Turn right onto Up Street", "Turn right onto Top Street",
                   "Turn right onto Down Street", "Arrive at the destination")
        before = self.browser.value("location.hash")
        self.keep("keys")
        self.browser.press("Tab")
        self.ring()
        self.assertTrue(self.browser.value("document.activeElement.classList.contains('start')"))
        self.browser.press("ArrowRight", True)
        self.browser.until(f"location.hash !== {json.dumps(before)}")
        self.assertEqual(self.browser.value("document.querySelectorAll('.mark').length"), 2)
        self.browser.press("Delete")
        left = "[document.querySelectorAll('.mark').length, document.activeElement.classList.contains('mark')]"
        self.assertEqual(self.browser.value(left), [1, True])

    def tab(self, name):
        """Moves to an element by Tab, and asserts that each on the way shows the focus."""
        for _ in range(30):
            self.browser.press("Tab")
            self.ring()
            if self.browser.value("document.activeElement.id") == name:
                return
        self.fail(f"the focus never comes to {name}")

    def ring(self):
        style = "(({outlineStyle, outlineWidth}) => [outlineStyle, parseFloat(outlineWidth)])(getComputedStyle(document.activeElement))"
        self.assertEqual(self.browser.value(style), ["solid", 3])


del BrowserCase, TablesCase, ReachCase
