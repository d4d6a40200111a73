"""Plans of other ground stations: `plan import` and `plan export`.

The golden files were written by hand after the MAVLink guide's page on file formats (QGC WPL 110 text) and
QGroundControl's page on the Plan file format; the words of floats after IEEE 754.
"""

import json
import os
import tempfile

from bench import bevuntri, golden, prints, refuses, same

MISSION, SURVEY = "mission.waypoints", "survey.plan"


def without_comments(name):
    return b"".join(line for line in golden(name).splitlines(True) if not line.startswith(b"#"))


def test_import_of_a_text():
    prints(golden("mission.items"), "plan", "import", MISSION)
    prints(golden("mission.items"), "plan", "import", "-", stdin=golden(MISSION).replace(b"\n", b"\r\n"))


def test_import_of_a_plan():
    prints(golden("survey.mission"), "plan", "import", SURVEY)
    prints(golden("survey.corners"), "plan", "import", "--fence", SURVEY)
    prints(golden("survey.rally"), "plan", "import", SURVEY, "--rally")


def test_import_of_a_text_with_a_fence():
    """Mission Planner has fences and rally points in the same form, behind a home."""
    text = (b"QGC WPL 110\n0 1 0 16 0 0 0 0 1 2 3 1\n1 0 3 5001 3 0 0 0 1 2 0 1\n2 0 3 5001 3 0 0 0 1.5 2 0 1\n"
            b"3 0 3 5001 3 0 0 0 1 2.5 0 1\n4 0 3 5002 2 0 0 0 1 2 0 1\n5 0 2 5001 3 0 0 0 1 2 0 1\n"
            b"6 0 3 5100 0 0 0 0 -1 -2 40 1\n")
    corner = b" 00000000 40400000 00000000 00000000 00000000\n"
    prints(b"# line 2: command 16 isn't 5000, 5001 or 5002\nitem 6 5001 10000000 20000000" + corner
           + b"item 6 5001 15000000 20000000" + corner + b"item 6 5001 10000000 25000000" + corner
           + b"# line 6: the first parameter of a corner isn't a whole number from 3 to 70\n"
           b"# line 7: command 5001 needs a location, and frame 2 has none\n"
           b"# line 8: command 5100 isn't 5000, 5001 or 5002\n", "plan", "import", "--fence", "-", stdin=text)
    came = bevuntri("plan", "import", "--rally", "-", stdin=text)[0]
    same("rally", came.split(b"\n")[-2], b"item 6 5100 -10000000 -20000000 42200000" + b" 00000000" * 4)


def test_import_of_pictures():
    """QGroundControl has null for what a picture doesn't use, also for x and y."""
    picture = b'{"fileType": "Plan", "mission": {"items": [{"type": "SimpleItem", "frame": 2, "command": 2000, ' \
        b'"params": [0, 0, 1, null, null, null, null], "autoContinue": true}]}}'
    item = b"item 2 2000 0 0 7fc00000 00000000 00000000 3f800000 7fc00000\n"
    prints(item, "plan", "import", "-", stdin=picture)
    prints(item, "plan", "import", "-", stdin=b"QGC WPL 110\n0 0 2 2000 0 0 1 nan nan NaN nan 1\n")
    prints(b"# line 2: latitude is no number\n", "plan", "import", "-",
           stdin=b"QGC WPL 110\n0 0 2 2000 0 0 1 0 inf 0 0 1\n")


def test_numbers_of_many_digits():
    """Halfway between two floats the even one is taken, and right above halfway the upper one; degrees alike."""
    half = "1.000000059604644775390625"
    lines = [f"QGC WPL 110\n0 0 0 16 {half} {half}{'0' * 20}1 0 0 0.00000005 -0.00000005{'0' * 40}1 0 1\n",
             f"0 0 0 16 0 0 0 0 90.{'0' * 40}1 0 0 1\n"]
    prints(b"item 5 16 0 -1 00000000 3f800000 3f800001 00000000 00000000\n"
           b"# line 3: latitude 90." + b"0" * 40 + b"1 isn't from -90 to 90\n",
           "plan", "import", "-", stdin="".join(lines).encode())


def test_strict_import():
    refuses(1, "line 6: latitude 91 isn't from -90 to 90", "plan", "import", "--strict", MISSION)
    refuses(1, "item 3: command 206", "plan", "import", "--strict", SURVEY)
    refuses(1, "circle 0", "plan", "import", "--strict", "--fence", SURVEY)
    prints(golden("survey.rally"), "plan", "import", "--strict", "--rally", SURVEY)


def test_export_of_what_a_station_got():
    prints(golden("station.waypoints"), "plan", "export", "station.got")


def test_export_as_a_plan():
    came, _, status = bevuntri("plan", "export", "--plan", "station.got")
    plan = json.loads(came)
    same("form", (status, plan["fileType"], plan["version"], plan["mission"]["version"]), (0, "Plan", 1, 2))
    found = [(item["type"], item["autoContinue"], item["frame"], item["command"], item["params"])
             for item in plan["mission"]["items"]]
    same("items", found, [
        ("SimpleItem", True, 3, 22, [15, 0, 0, None, 47.397742, 8.545594, 50]),
        ("SimpleItem", True, 2, 2000, [0, 0, 1, 0, 0, 0, 0]),
        ("SimpleItem", False, 0, 16, [0, 0, 0, 0.1, -5e-07, -180, -100]),
    ])


def test_sections_of_a_plan():
    for name, flag in (("survey.corners", "geoFence"), ("survey.rally", "rallyPoints")):
        plan = json.loads(bevuntri("plan", "export", "--plan", "-", stdin=golden(name))[0])
        wanted = json.loads(golden(SURVEY))[flag]
        wanted.pop("circles", None)
        plan[flag].pop("circles", None)
        same(flag, plan[flag], wanted)


def test_import_after_export():
    """Floats of many magnitudes, the extremes of a location, and each frame that a file has."""
    words = ["00000001", "807fffff", "7f7fffff", "3dcccccd", "4b800001", "3a83126f", "c0490fdb", "80000000",
             "7fc00000", "5d5e0b6b"]
    lines = [f"item {frame} 16 {x} {y} {words[at]} {words[at - 1]} {words[at - 2]} {words[at - 3]} {words[at - 4]}\n"
             for at, (frame, x, y) in enumerate([(5, 900000000, -1800000000), (6, -900000000, 1800000000), (6, 1, -1),
                                                 (5, 473977421, 85455949), (6, 0, 7), (6, 10, 100), (5, 99, 3)] * 2)
             if at < 10]
    lines += ["item 2 2000 -2147483648 2147483647 " + " ".join(words[:5]) + "\n"]
    text = "".join(lines).encode()
    for plan in ([], ["--plan"]):
        exported = bevuntri("plan", "export", *plan, "-", stdin=text)[0]
        prints(text, "plan", "import", "-", stdin=exported)
    names = ("survey.mission", "survey.corners", "survey.rally")
    whole = b"".join(map(without_comments, names))
    for name, flag in zip(names, ([], ["--fence"], ["--rally"])):
        for plan, lines in (([], without_comments(name)), (["--plan"], without_comments(name)), (["--plan"], whole)):
            exported = bevuntri("plan", "export", *plan, "-", stdin=lines)[0]
            prints(without_comments(name), "plan", "import", *flag, "-", stdin=exported)


def test_items_lines():
    prints(b"QGC WPL 110\n0\t0\t3\t16\t0\t0\t0\t0\t47.397742\t8.545594\t0\t1\n"
           b"1\t0\t3\t16\t0\t0\t0\t0\t47.3977421\t8.545594\t0\t1\n", "plan", "export", "-",
           stdin=b"items 2 6 16 473977420 85455940\n")


def test_wrong_files():
    with tempfile.TemporaryDirectory() as folder:
        def case(status, sentence, data, *words):
            with open(os.path.join(folder, "file"), "wb") as file:
                file.write(data)
            refuses(status, sentence, "plan", *words, "file", folder=folder)
        for words in (["import"], ["export"], ["import", "--fence"]):
            case(3, "file", b"\xff\xfe\x00\x80" * 100, *words)
            case(3, "at most 16777216 bytes", b"1 " * 25_000_000, *words)
            refuses(4, "nothing", "plan", *words, "nothing", folder=folder)
            refuses(4, "'.'", "plan", *words, ".", folder=folder)
        case(3, "line 1", b"", "import")
        case(3, "line 1", b"QGC WPL 120\n", "import")
        case(3, "line 1", b"1 " * 8_000_000, "import")
        case(3, "line 2: expected 12 numbers", b"QGC WPL 110\n" + b"1 " * 8_000_000, "import")
        case(3, "line 3", b"QGC WPL 110\n\n0\t0\t3\t16\t0\t0\t0\tx\t1\t1\t1\t1\n", "import")
        case(3, "line 2", b"QGC WPL 110\n0\t0\t3\t16\t0\t0\t0\t1e99999\t1\t1\t1\t1\n", "import")
        case(3, "line 2", b"QGC WPL 110\n0\t0\t3.5\t16\t0\t0\t0\t0\t1\t1\t1\t1\n", "import")
        case(3, "nested", b'{"a":' + b"[" * 1_000_000, "import")
        case(3, "JSON", b'{"fileType": "Plan", "mission": {"items": [NaN]}}', "import")
        case(3, "line 1", b"[]", "import")
        case(3, "Plan", b"{}", "import")
        case(3, "items", b'{"fileType": "Plan", "mission": {"items": 7}}', "import")
        short = b'{"fileType": "Plan", "mission": {"items": [{"frame": 3, "command": 16, "params": [1]}]}}'
        case(3, "item 0: params", short, "import")
        case(3, "line 1", b"mission\n", "export")
        case(3, "line 1", b"item 6 16 1 2147483648\n", "export")
        case(3, "line 2", b"item 6 16 1 2\nitem 6 16 1 2 3\n", "export")
        case(3, "line 1", b"outcome 255.190 got 3\n", "export")
        case(3, "no infinite", b"item 6 16 1 2 7f800000\n", "export", "--plan")
        case(3, "as many corners", b"items 3 5 5001 1 2 00000000 40800000\n", "export", "--plan")
        case(3, "one return point", b"item 6 5000 1 2\nitems 3 5 5001 1 2 00000000 40400000\n", "export", "--plan")
        case(3, "corner 0: expected 2 or 3 numbers",
             b'{"fileType": "Plan", "geoFence": {"polygons": [{"polygon": [[1], 2, 3]}]}}', "import", "--fence")
        case(3, "no place", b"items 3 5 5001 1 2 3f800000 40400000\n", "export", "--plan")
