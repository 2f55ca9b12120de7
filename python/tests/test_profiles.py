"""Tests of the profiles of vehicles, and of the members that a profile may have."""
import json
import math
import re

import pytest
from domethyme.errors import MapError
from domethyme.maps.vehicle_profile import PROFILES, blocks_way, judge, read_profile, way_keys

CAR = json.loads((PROFILES / "car.json").read_text(encoding="utf-8"))
del CAR["about"]
VEHICLES = ("car", "lorry", "bicycle", "foot")
# The km/h forward and backward (- where it may not be taken) of ways with these tags, by vehicle: of primary roads where no class
# is named. A ~ is a blank.
WAYS = {
    "car": """
        110 -: highway=motorway | 60 60: highway=motorway_link | 30 30: highway=residential | 10 10: highway=living_street |
        15 15: highway=service area=no | 130 130: maxspeed=none | 7 7: maxspeed=walk | 50 50: maxspeed=RO:urban |
        100 100: maxspeed=DE:rural | 90 90: maxspeed=XY:rural | 70 70: access=permissive, access=destination, access=customers,
        motor_vehicle=agricultural;destination, access=no vehicle=yes, vehicle=no motor_vehicle=yes, motor_vehicle=no motorcar=yes |
        - -: highway=construction, highway=track motorcar=yes, access=private, motor_vehicle=forestry;~private,
        access=no bicycle=yes, vehicle=no, access=yes motorcar=no | 70 -: junction=roundabout, junction=circular
    """,
    "lorry": """
        60 60: highway=primary, hgv=destination, hgv=delivery, motor_vehicle=no hgv=yes, motorcar=no, bicycle=no, maxheight=4,
        maxheight=13'2", maxheight=default, maxheight=tall, maxwidth=2.6~m, maxweight=44, maxweight=45~st, maxaxleload=11.5 |
        - -: hgv=no, maxheight=3.8, maxheight=13'1", maxheight=380~cm, maxwidth=2.5, maxlength=12, maxweight=7.5,
        maxweight=7500~kg, maxweight=40~st, maxweightrating:hgv=3.5, maxaxleload=10, highway=cycleway | 80 -: highway=motorway,
        highway=motorway maxspeed=120 | 50 50: maxspeed=70 maxspeed:hgv=50, maxspeed:forward=70 maxspeed:hgv=50 |
        30 70: maxspeed=70 maxspeed:hgv:forward=30
    """,
    "bicycle": """
        - -: highway=motorway, highway=trunk, highway=trunk vehicle=yes, motorroad=yes, highway=footway,
        highway=footway bicycle=no, highway=cycleway bicycle=dismount, bicycle=use_sidepath, highway=residential vehicle=no |
        17 17: highway=residential, highway=residential maxspeed=10, highway=residential oneway=yes oneway:bicycle=no,
        highway=residential oneway=yes cycleway=opposite, highway=residential oneway=yes cycleway:left=opposite_lane,
        highway=residential oneway=yes cycleway:left:oneway=-1, highway=residential vehicle=no bicycle=yes,
        highway=residential motor_vehicle=no |
        16 16: maxspeed=100, highway=trunk bicycle=yes, motorroad=yes bicycle=yes, motorroad=no, maxheight=2 |
        17 -: highway=residential oneway=yes, highway=residential oneway:bicycle=yes,
        highway=residential oneway=yes cycleway:right=lane | 6 6: highway=footway bicycle=yes,
        highway=footway bicycle=yes surface=gravel | 18 18: highway=cycleway |
        - 17: highway=residential oneway=yes oneway:bicycle=-1 | 16 -: junction=roundabout | 10 10: highway=track surface=gravel |
        13 13: highway=track surface=asphalt
    """,
    "foot": """
        5 5: highway=footway, highway=residential oneway=yes, highway=residential oneway=reversible, junction=roundabout,
        highway=residential vehicle=no, highway=residential access=no foot=yes, highway=cycleway foot=designated,
        highway=trunk foot=yes |
        - -: highway=residential access=no, highway=residential foot=no, highway=cycleway, highway=motorway,
        highway=pedestrian area=yes | 2.5 2.5: highway=steps | 5 -: highway=footway oneway:foot=yes |
        3 3: highway=path surface=sand
    """,
}
# Which of these nodes part the roads of car, lorry, bicycle and foot
BARRIERS = [
    ("barrier=bollard", "car lorry"), ("barrier=bollard motor_vehicle=yes", ""), ("barrier=gate", ""),
    ("barrier=gate access=private", "car lorry bicycle foot"),
    ("barrier=gate access=private foot=yes", "car lorry bicycle"), ("barrier=stile", "car lorry bicycle"),
    ("barrier=wall", "car lorry bicycle foot"), ("barrier=toll_booth", ""), ("barrier=gate access=no", "car lorry bicycle foot"),
    ("barrier=gate access=private motor_vehicle=yes", "bicycle foot"), ("barrier=bollard access=yes motorcar=no", "car"),
    ("barrier=bollard access=yes", ""), ("barrier=bollard bicycle=yes", "car lorry"), ("access=private", ""),
    ("highway=crossing", ""),
]


def tags_of(text):
    return dict(word.replace("~", " ").split("=", 1) for word in text.split())


def ways_of(vehicle):
    """The rows of WAYS: tags, and the km/h in both directions, None for none."""
    for group in WAYS[vehicle].split(" |"):
        speeds, texts = group.split(": ", 1)
        found = [None if speed == "-" else float(speed) for speed in speeds.split()]
        for text in re.split(r",\s+", texts.strip()):
            yield text if "highway=" in text else f"highway=primary {text}", *found


@pytest.mark.parametrize("vehicle", WAYS)
def test_ways(vehicle):
    profile = read_profile(vehicle)
    for text, *wanted in ways_of(vehicle):
        tags = tags_of(text)
        found = judge({key: tags[key] for key in way_keys(profile) if key in tags}, profile)
        assert [found.forward, found.backward] == wanted, text


@pytest.mark.parametrize("text, parted", BARRIERS)
def test_barriers(text, parted):
    assert parted.split() == [name for name in VEHICLES if blocks_way(tags_of(text), read_profile(name))]


# The km/h of profiles, in the order of their files
KMH = [
    ("car", "speeds", "110 60 90 50 70 50 60 45 50 40 45 30 10 15 30 5"),
    ("lorry", "speeds", "80 50 75 45 60 45 50 40 40 35 35 20 7 10 25 5"),
    ("bicycle", "speeds", "18 16 16 17 17 18 18 18 17 10 14 14 13 12 16 16 8 6 6 16 5"),
    ("foot", "speeds", "5 5 5 5 2.5 5 5 5 5 5 5 5 5 5 5 5 5 5 5 5 4 5"),
    ("bicycle", "surfaces", "15 15 10 9 11 10 10 11 8 10 5 5 6 8 12 10 8 12 12"),
    ("foot", "surfaces", "2.5 3 3"),
    ("car", "maxspeed_words", "130 7 50 90 100 120 20 30 100 130 80 130 7 100 130 80 130 90 80 130 112.65 112.65 48.28 96.56 "
     "130 130 80 130 80 100 80 140 130 70 130 130"),
]


def test_figures():
    """They change on purpose alone. A lorry's rules differ from a car's by what the page names, and closed words by the vehicle."""
    for name, member, wanted in KMH:
        assert " ".join(f"{speed:g}" for speed in getattr(read_profile(name), member).values()) == wanted, (name, member)
    car, lorry, bicycle, foot = map(read_profile, VEHICLES)
    for name in ("maxspeed_words", "barriers", "oneway_highways", "oneway_junctions"):
        assert getattr(lorry, name) == getattr(car, name)
    assert [{*car.closed} ^ {*each.closed} for each in (lorry, bicycle, foot)] == [{"delivery"}, {"bicycle", "dismount"}, {"foot"}]
    assert [*map(len, (car.closed, car.barriers, bicycle.barriers, foot.barriers, lorry.measures))] == [16, 22, 12, 5, 11]
    assert {*foot.barriers} < {*bicycle.barriers} < {*car.barriers}
    sizes = {"maxheight": 4, "maxwidth": 2.55, "maxlength": 16.5, "maxweight": 40, "maxaxleload": 11.5}
    assert {(re.split("rating|:", key)[0], size) for key, size in lorry.measures.items()} == {*sizes.items()}


def test_each_profile_is_listed():
    text = (PROFILES / "README.md").read_text(encoding="utf-8")
    assert all(f"({path.name})" in text for path in PROFILES.glob("*.json"))


@pytest.mark.parametrize("members, says", [
    ('{\n"speeds": {},\n}\n', ", row 3: isn't JSON"), ("[]", ": is no object with the members of a profile"),
    (json.dumps({key: CAR[key] for key in CAR if key != "closed"}), ": has no member closed"),
    (b'{"about": "\xe9"}', ": isn't UTF-8"), ({"colour": "red"}, ": has the unknown member colour"),
    ({"driving_side": "middle"}, ": driving_side isn't one of right, left"),
    ({"mode": ["driving"]}, ": mode isn't one of driving, cycling, walking"),
    ({"turns": {"around": 5}}, ": turns isn't hundredths of a second from 0 to 360000 by the words left, right, back"),
    *(({"turns": {"left": penalty}}, ": turns isn't hundredths") for penalty in (1.5, -1, 360001, True)),
    ({"turns": [5]}, ": turns isn't hundredths"),
    ({"fastest": 0}, ": fastest isn't a speed from 1 to 1000"), ({"fastest": math.nan}, ": fastest isn't"),
    ({"speeds": {"primary": 1001}}, ": speeds isn't speeds from 1 to 1000 by names: primary is 1001"),
    ({"speeds": {"primary": "70"}}, ": speeds isn't speeds"), ({"maxspeed_words": {"none": True}}, ": maxspeed_words isn't speeds"),
    ({"measures": {"maxheight": "4"}}, ': measures isn\'t measures in metres or tonnes by names: maxheight is "4"'),
    ({"surfaces": {"mud": 0}}, ": surfaces isn't speeds"), ({"measures": {"maxheight": -0.1}}, ": measures isn't measures"),
    *(({"both_ways": [word]}, ": both_ways isn't a list of words KEY=VALUE") for word in ("cycleway", "a=b=c")),
    ({"closed_by": "motorroad=yes"}, ": closed_by isn't a list of words KEY=VALUE"),
    ({"oneway": "oneway"}, ": oneway isn't a list of words"),
    ({"barriers": "bollard"}, ": barriers isn't a list of words"), ({"restrictions": [1]}, ": restrictions isn't a list of words"),
])
def test_members_with_faults(tmp_path, members, says):
    path = own(tmp_path, **(members if isinstance(members, dict) else {}))
    if not isinstance(members, dict):
        path.write_bytes(members if isinstance(members, bytes) else members.encode())
    with pytest.raises(MapError, match=re.escape(f"own.json{says}")):
        read_profile(str(path))


def own(folder, **members):
    """The path of a car's profile with other members."""
    path = folder / "own.json"
    path.write_text(json.dumps({**CAR, **members}), encoding="utf-8")
    return path


def test_members_at_their_bounds(tmp_path):
    """Of the most km/h of the vehicle and of a surface the less counts."""
    bounds = {"fastest": 1, "speeds": {"primary": 1000}, "measures": {"maxheight": 0}, "surfaces": {"mud": 5}}
    profile = read_profile(str(own(tmp_path, turns={"left": 360_000, "right": 0}, **bounds)))
    assert profile.turns == {"left": 360_000, "right": 0}
    assert [judge({"highway": "primary", "surface": surface}, profile).forward for surface in ("mud", "asphalt")] == [1, 1]
