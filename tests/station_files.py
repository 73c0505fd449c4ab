#!/usr/bin/env python3
"""Holds the files, frames and words of a ground station against those of others: tests/station_files.py

What tools/station.py reads, writes and sends is compared with files and numbers in the forms that MAVLink's,
ArduPilot's and QGroundControl's documents show, with frames by tests/mavlink_described.py, and with what was written by
hand. No vehicle is needed. The last line counts what passed and what failed.
"""
import json
import os
import struct
import sys
import unittest

TOP = os.path.join(os.path.dirname(os.path.abspath(__file__)), "..")
sys.path.insert(0, os.path.join(TOP, "tools"))
sys.dont_write_bytecode = True
import counted  # noqa: E402
import decimals  # noqa: E402
import mavlink  # noqa: E402
import mavlink_described as described  # noqa: E402
import mission_items  # noqa: E402
import missions  # noqa: E402
import parameter_files  # noqa: E402
import plan_files  # noqa: E402
from mission_items import Item  # noqa: E402

# the example of MAVLink's page on file formats, with its x and y as they stand there
MAVLINK_TEXT = """QGC WPL 110
0	1	0	16	0.149999999999999994	0	0	0	8.54800000000000004	47.3759999999999977	550	1
1	0	0	16	0.149999999999999994	0	0	0	8.54800000000000004	47.3759999999999977	550	1
2	0	0	16	0.149999999999999994	0	0	0	8.54800000000000004	47.3759999999999977	550	1
"""
# as Mission Planner writes, with its line ends and its frame 3 for commands without a place
PLANNER_TEXT = """QGC WPL 110
0	1	0	16	0	0	0	0	-35.362938	149.165085	584.210022	1
1	0	3	22	15.00000000	0.00000000	0.00000000	0.00000000	0.00000000	0.00000000	30.000000	1
2	0	3	177	1.00000000	-1.00000000	0.00000000	0.00000000	0.00000000	0.00000000	0.000000	1
""".replace("\n", "\r\n")
PLANNER_FENCE = """QGC WPL 110
0	1	0	16	0	0	0	0	47.397742	8.545597	488.000000	1
1	0	3	5003	50.00000000	0.00000000	0.00000000	0.00000000	47.39800000	8.54600000	0.000000	1
""".replace("\n", "\r\n")
PROXY_FENCE = """QGC WPL 110
# kept away from the river
0 0 0 5002 3 0 0 0 47.1 8.1 0 1
1 0 0 5002 3 0 0 0 47.2 8.1 0 1
2 0 0 5002 3 0 0 0 47.1 8.2 0 1
3 0 3 5000 0 0 0 0 47.3 8.3 25 1
"""
# QGroundControl's guide on the plan file format: a home position, an item, and a fence
GUIDE_PLAN = """{
    "fileType": "Plan",
    "geoFence": {
        "circles": [
            {
                "circle": {
                    "center": [
                        47.39756763610029,
                        8.544649762407738
                    ],
                    "radius": 319.85
                },
                "inclusion": true,
                "version": 1
            }
        ],
        "polygons": [
            {
                "inclusion": true,
                "polygon": [
                    [
                        47.39807773798406,
                        8.543834631785785
                    ],
                    [
                        47.39983519888905,
                        8.550024648373267
                    ],
                    [
                        47.39641100087146,
                        8.54499282423751
                    ],
                    [
                        47.395590322265186,
                        8.539435808992085
                    ]
                ],
                "version": 1
            }
        ],
        "version": 2
    },
    "groundStation": "QGroundControl",
    "mission": {
        "cruiseSpeed": 15,
        "firmwareType": 12,
        "globalPlanAltitudeMode": 1,
        "hoverSpeed": 5,
        "items": [
            {
                "AMSLAltAboveTerrain": null,
                "Altitude": 50,
                "AltitudeMode": 0,
                "autoContinue": true,
                "command": 22,
                "doJumpId": 1,
                "frame": 3,
                "params": [
                    15,
                    0,
                    0,
                    null,
                    47.3985099,
                    8.5451002,
                    50
                ],
                "type": "SimpleItem"
            }
        ],
        "plannedHomePosition": [
            47.3977419,
            8.545594,
            487.989
        ],
        "vehicleType": 2,
        "version": 2
    },
    "rallyPoints": {
        "points": [
        ],
        "version": 2
    },
    "version": 1
}
"""
# MAV_MISSION_RESULT of an item, and the word that the text has for it
RESULT_WORDS = {
    1: "error", 2: "frame", 3: "command", 4: "space", 5: "make no fence", 6: "parameter 1", 7: "parameter 2",
    8: "parameter 3", 9: "parameter 4", 10: "latitude", 11: "longitude", 12: "whole number of centimetres",
    13: "sequence", 14: "another station", 15: "cancelled",
}


def pattern(value):
    """The binary32 pattern of a value."""
    return f"{struct.unpack('<I', struct.pack('<f', value))[0]:08X}"


class Frames(unittest.TestCase):
    def test_messages_are_those_of_the_common_message_set(self):
        self.assertEqual({layout.name for layout in mavlink.LAYOUTS.values()},
                         set(described.MESSAGES) - described.NOT_SPOKEN)
        for number, layout in mavlink.LAYOUTS.items():
            with self.subTest(layout.name):
                message = described.MESSAGES[layout.name]
                known = [field for field in message.fields if field.name not in described.NOT_KNOWN]
                self.assertEqual((number, layout.extra), (message.number, message.extra))
                self.assertEqual(layout.length, message.length(1))
                self.assertEqual(layout.names, [field.name for field in known])
                self.assertEqual(struct.calcsize(layout.whole_form), sum(field.length for field in known))

    def test_frames_are_those_of_the_description(self):
        """Frames that tools/mavlink.py makes are read apart from it, and it reads those that are made apart from it."""
        for version in (1, 2):
            for number, layout in mavlink.LAYOUTS.items():
                with self.subTest(f"{layout.name}, version {version}"):
                    message = described.MESSAGES[layout.name]
                    spoken = message.base + (message.extensions if version == 2 else ())
                    given = {field.name: b"FENCE_RADIUS" if field.type == "char" else 1 + place
                             for place, field in enumerate(spoken) if field.name not in described.NOT_KNOWN}
                    made = mavlink.frame_of(number, 77, version, **given)
                    found = described.read(made)
                    self.assertEqual((found.version, found.sequence, found.sender, found.name),
                                     (version, 77, mavlink.STATION, layout.name))
                    wanted = {name: value.ljust(16, b"\0") if name == "param_id" else value
                              for name, value in given.items()}
                    zero = {field.name: 0 for field in message.fields}
                    self.assertEqual(found.fields, {**zero, **wanted})
                    self.assertEqual(described.frame(layout.name, version, 77, mavlink.STATION, **given), made)
                    again = mavlink.fields_of(mavlink.read_frame(made))
                    self.assertEqual({name: again[name] for name in wanted}, wanted)

    def test_an_item_has_its_bytes(self):
        item = Item(16, 3, (5.0, 0.0, 0.0, 0.0), 473977420, 85455970, 30.48)
        payload = bytes.fromhex("0000A040" + "00" * 12 + "4C52401C" "62F41705" "0AD7F341" "0000" "1000" "0101" "030001")
        for version, extension in ((1, b""), (2, b"\1")):
            found = mavlink.mission_item(0, item, mavlink.FENCE, version=version)
            self.assertEqual(found[10 if version == 2 else 6:-2], payload + extension)
            fields = mavlink.fields_of(mavlink.read_frame(found))
            self.assertEqual((fields["y"], fields["command"], fields["frame"], fields["mission_type"]),
                             (85455970, 16, 3, version - 1))

    def test_a_payload_has_its_length(self):
        # trailing zeros stay away in version 2, extensions in version 1
        self.assertEqual(mavlink.mission_count(5, mavlink.MISSION, version=2)[:14].hex(),
                         "fd04" "0000" "00" "ffbe" "2c0000" "05000101")
        self.assertEqual(mavlink.mission_ack(15, mavlink.FENCE, version=1)[:9].hex(), "fe03" "00" "ffbe" "2f" "01010f")
        self.assertEqual(mavlink.mission_clear(mavlink.FENCE, version=2)[1], 3)


class Steps(unittest.TestCase):
    """An upload goes on by what the vehicle says to it, and by nothing that an older one left."""

    def test_a_step_is_of_this_upload(self):
        upload = missions.Upload(mavlink.MISSION, [Item(16, 3)] * 3)
        ask, old_ask, ack = mavlink.MISSION_REQUEST_INT, mavlink.MISSION_REQUEST, mavlink.MISSION_ACK
        for sent, message, fields, wanted in (
                (-1, ask, {"seq": 0}, ("give", 0)), (-1, old_ask, {"seq": 0}, ("give", 0)),
                (-1, ask, {"seq": 2}, None), (-1, ack, {"type": 15}, None), (-1, ack, {"type": 14}, ("end", 14)),
                (1, ask, {"seq": 1}, ("give", 1)), (1, ask, {"seq": 2}, ("give", 2)), (1, ask, {"seq": 0}, None),
                (1, ack, {"type": 0}, None), (1, ack, {"type": 6}, ("end", 6)), (1, ack, {"type": 15}, ("end", 15)),
                (2, ask, {"seq": 3}, None), (2, ack, {"type": 0}, ("end", 0))):
            with self.subTest((sent, message, fields)):
                upload.sent = sent
                self.assertEqual(upload.step(message, fields), wanted)


class Numbers(unittest.TestCase):
    def test_degrees_are_rounded_by_their_digits(self):
        for text, wanted in (("47.3977420", 473977420), ("8.5455970", 85455970), ("-0.00000005", 0),
                             ("-0.00000015", -2), ("0.00000004999999999999999999999999999999999999", 0),
                             ("0.00000005000000000000000000000000000000000001", 1), ("1.8e2", 1800000000)):
            self.assertEqual(decimals.nearest_whole(decimals.number_of(text), 7), wanted, text)

    def test_altitudes_are_whole_centimetres(self):
        # 3C23D70A is 0.01 and 41F3D70A is 30.48
        for text, wanted in (("0.01", "3C23D70A"), ("0.0149", "3C23D70A"), ("30.48", "41F3D70A"),
                             ("30.4779999999", "41F3D70A"), ("-0.001", "00000000")):
            item = mission_items.item_of(16, 3, [decimals.number_of(word) for word in (*"000000", text)])
            self.assertEqual(pattern(item.z), wanted, text)

    def test_a_value_has_the_fewest_digits_that_give_it_back(self):
        for digits, text in (("42F6CCCD", "123.4"), ("3DCCCCCD", "0.1"), ("7F7FFFFF", "3.4028235e+38"),
                             ("00000001", "1e-45"), ("80000000", "-0"), ("43FA0000", "500"), ("4B800001", "16777218")):
            value = struct.unpack(">f", bytes.fromhex(digits))[0]
            self.assertEqual(decimals.shortest(value), text)
            self.assertEqual(pattern(float(text)), digits)

    def test_what_is_no_number_is_refused(self):
        for text in ("", "1_0", "0x10", "inf", "one", "--1", "\u0663"):
            with self.assertRaises(ValueError, msg=text):
                decimals.number_of(text)
        for text in ("1e39", "-3.5e38", "nan"):
            with self.assertRaises(ValueError, msg=text):
                parameter_files.value_of(text)


class Texts(unittest.TestCase):
    """`QGC WPL 110` text."""

    def test_the_example_of_mavlink(self):
        items = plan_files.read_mission(MAVLINK_TEXT)
        self.assertEqual([item.current for item in items], [1, 0, 0])
        self.assertEqual(items[2]._replace(params=()), Item(16, 0, (), 85480000, 473760000, 550.0))
        self.assertEqual(list(map(pattern, items[2].params)), ["3E19999A", "00000000", "00000000", "00000000"])
        self.assertEqual(plan_files.read_mission(plan_files.write_mission(items, "kept.waypoints")), items)

    def test_a_mission_of_mission_planner(self):
        items = plan_files.read_mission(PLANNER_TEXT)
        self.assertEqual(items[0]._replace(z=0.0), Item(16, 0, x=-353629380, y=1491650850, current=1))
        self.assertEqual(pattern(items[0].z), pattern(584.21))
        self.assertEqual(items[1:], [Item(22, 3, (15.0, 0.0, 0.0, 0.0), z=30.0), Item(177, 3, (1.0, -1.0, 0.0, 0.0))])
        self.assertEqual(plan_files.read_mission(plan_files.write_mission(items, "kept.txt")), items)

    def test_an_unknown_home_position_of_mission_planner(self):
        items = plan_files.read_mission("QGC WPL 110\n0\t1\t0\t0\t0\t0\t0\t0\t0\t0\t0\t1\n" +
                                        PLANNER_TEXT.split("\r\n")[2] + "\n")
        self.assertEqual(items[0], Item(16, 0, current=1))

    def test_a_text_is_written_in_its_columns(self):
        items = [Item(16, 0, x=473977420, y=85455970, z=488.0), Item(178, 2, (1.0, 6.5, -1.0, 0.0))]
        wanted = ("QGC WPL 110\n0\t1\t0\t16\t0\t0\t0\t0\t47.3977420\t8.5455970\t488\t1\n"
                  "1\t0\t2\t178\t1\t6.5\t-1\t0\t0\t0\t0\t1\n")
        self.assertEqual(plan_files.write_mission(items, "route.waypoints"), wanted)

    def test_fences_of_mission_planner_and_of_mavproxy(self):
        # the home position that Mission Planner writes in front is no item of a fence
        circle = Item(5003, 3, (50.0, 0.0, 0.0, 0.0), 473980000, 85460000)
        self.assertEqual(plan_files.read_fence(PLANNER_FENCE), [circle])
        items = plan_files.read_fence(PROXY_FENCE)
        vertices = [(471000000, 81000000), (472000000, 81000000), (471000000, 82000000)]
        self.assertEqual(items, [Item(5002, 0, (3.0, 0.0, 0.0, 0.0), x, y) for x, y in vertices] +
                         [Item(5000, 3, x=473000000, y=83000000, z=25.0)])
        written = plan_files.write_fence(items, "fence.waypoints")
        self.assertEqual(written.splitlines()[1], "0\t0\t0\t5002\t3\t0\t0\t0\t47.1000000\t8.1000000\t0\t1")
        self.assertEqual(plan_files.read_fence(written), items)

    def test_what_is_wrong_is_named_by_its_line(self):
        line = "1\t0\t3\t16\t0\t0\t0\t0\t47.4\t8.5\t30\t1"
        for wrong, words in (
                (line[:-2], "line 3: 11 columns stand where an item has 12"),
                (line.replace("47.4", "47,4"), "line 3: 47,4 is no number"),
                (line.replace("47.4", "nan"), "line 3: it has no latitude"),
                (line.replace("8.5", "215"), "line 3: longitude 215 is out of range"),
                (line.replace("30", "1e39"), "line 3: 1e+39 is out of range"),
                ("2" + line[1:], "line 3: index 2 stands where 1 comes next"),
                (line.replace("\t3\t", "\t256\t"), "line 3: 256 stands where a whole number from 0 to 255 does")):
            with self.subTest(words), self.assertRaises(plan_files.PlanFileError) as caught:
                plan_files.read_mission("\n".join([*MAVLINK_TEXT.splitlines()[:2], wrong]))
            self.assertTrue(str(caught.exception).startswith(words), caught.exception)
        for read, content, words in (
                (plan_files.read_mission, "QGC WPL 120\n", "neither QGC WPL 110 text nor a .plan"),
                (plan_files.read_mission, PROXY_FENCE, "`fence upload` sends it"),
                (plan_files.read_mission, "QGC WPL 110\n", "it has no mission"),
                (plan_files.read_fence, MAVLINK_TEXT, "line 3: NAV_WAYPOINT is no item of a fence"),
                (plan_files.read_fence, "QGC WPL 110\n", "it has no fence")):
            with self.subTest(words), self.assertRaises(plan_files.PlanFileError) as caught:
                read(content)
            self.assertIn(words, str(caught.exception))


class Plans(unittest.TestCase):
    """QGroundControl's `.plan`."""

    def changed(self, change):
        plan = json.loads(GUIDE_PLAN)
        change(plan)
        return json.dumps(plan)

    def test_the_mission_of_the_guide(self):
        home, takeoff = plan_files.read_mission(GUIDE_PLAN)
        self.assertEqual(home._replace(z=0.0), Item(16, 0, x=473977419, y=85455940, current=1))
        self.assertEqual(pattern(home.z), pattern(487.99))
        self.assertEqual(takeoff._replace(params=takeoff.params[:3]),
                         Item(22, 3, (15.0, 0.0, 0.0), 473985099, 85451002, 50.0))
        self.assertNotEqual(takeoff.params[3], takeoff.params[3])  # null is a number that isn't given

    def test_the_fence_of_the_guide(self):
        inside = (4.0, 0.0, 0.0, 0.0)
        wanted = [Item(5001, 0, inside, 473980777, 85438346), Item(5001, 0, inside, 473998352, 85500246),
                  Item(5001, 0, inside, 473964110, 85449928), Item(5001, 0, inside, 473955903, 85394358),
                  Item(5003, 0, (decimals.as_float(319.85), 0.0, 0.0, 0.0), 473975676, 85446498)]
        self.assertEqual(plan_files.read_fence(GUIDE_PLAN), wanted)

    def test_what_is_written_is_read_back(self):
        plan = json.loads(plan_files.write_mission(plan_files.read_mission(GUIDE_PLAN), "new.plan"))
        wanted = json.loads(GUIDE_PLAN)
        item = {key: value for key, value in wanted["mission"]["items"][0].items() if "lt" not in key}
        self.assertEqual(plan["mission"]["items"], [item])
        self.assertEqual(plan["mission"]["plannedHomePosition"], [47.3977419, 8.545594, 487.99])
        self.assertEqual({key: plan[key] for key in ("fileType", "rallyPoints", "version")},
                         {key: wanted[key] for key in ("fileType", "rallyPoints", "version")})
        fence = [Item(5002, 0, (3.0, 0.0, 0.0, 0.0), x, y) for x, y in ((10, 20), (30, 20), (10, 40))]
        fence += [Item(5004, 0, (25.5, 0.0, 0.0, 0.0), -473977420, -85455970), Item(5000, 3, x=1, y=-1, z=12.5)]
        written = plan_files.write_fence(fence, "new.PLAN")
        self.assertEqual(plan_files.read_fence(written), fence)
        self.assertEqual(json.loads(written)["geoFence"]["breachReturn"], [1e-7, -1e-7, 12.5])

    def test_the_other_parts_of_a_plan_are_kept(self):
        circle = [Item(5003, 0, (10.0, 0.0, 0.0, 0.0), 473980000, 85460000)]
        old, new = json.loads(GUIDE_PLAN), json.loads(plan_files.write_fence(circle, "old.plan", GUIDE_PLAN))
        self.assertEqual(new.pop("geoFence")["circles"][0]["circle"], {"center": [47.398, 8.546], "radius": 10})
        del old["geoFence"]
        self.assertEqual(new, old)
        new = json.loads(plan_files.write_mission([Item(16, 0), Item(20, 2)], "old.plan", GUIDE_PLAN))
        self.assertEqual(new["geoFence"], json.loads(GUIDE_PLAN)["geoFence"])
        self.assertEqual((new["mission"]["firmwareType"], len(new["mission"]["items"])), (12, 1))

    def test_jumps_go_to_the_numbers_of_items(self):
        def jump(plan):
            first = plan["mission"]["items"][0]
            plan["mission"]["items"] += [{**first, "doJumpId": 12},
                                         {"type": "SimpleItem", "autoContinue": True, "command": 177, "doJumpId": 13,
                                          "frame": 2, "params": [12, 3, 0, 0, 0, 0, 0]}]

        self.assertEqual(plan_files.read_mission(self.changed(jump))[3], Item(177, 2, (2.0, 3.0, 0.0, 0.0)))
        with self.assertRaisesRegex(plan_files.PlanFileError, "item 2: DO_JUMP goes to doJumpId 12, which no item has"):
            plan_files.read_mission(self.changed(lambda plan: (jump(plan), plan["mission"]["items"].pop(1))))

    def test_what_a_plan_may_not_hold_is_named(self):
        survey = {"type": "ComplexItem", "complexItemType": "survey", "version": 5, "TransectStyleComplexItem": {}}
        for change, words in (
                (lambda plan: plan["mission"]["items"].append(survey),
                 "item 2: a survey is no single command; upload the plan from QGroundControl"),
                (lambda plan: plan["mission"]["items"][0]["params"].pop(), "item 1: 6 params stand where there are 7"),
                (lambda plan: plan["mission"]["items"][0].update(params=[0, 0, 0, 0, None, 0, 0]),
                 "item 1: it has no latitude"),
                (lambda plan: plan["mission"]["items"][0].update(command="22"), "item 1: command isn't as"),
                (lambda plan: plan["mission"].pop("plannedHomePosition"),
                 "plannedHomePosition: latitude and longitude aren't there"),
                (lambda plan: plan.update(fileType="Params"), "its fileType isn't Plan")):
            with self.subTest(words), self.assertRaises(plan_files.PlanFileError) as caught:
                plan_files.read_mission(self.changed(change))
            self.assertTrue(str(caught.exception).startswith(words), caught.exception)
        with self.assertRaisesRegex(plan_files.PlanFileError, "circle 1 of the fence: None stands where a number does"):
            plan_files.read_fence(self.changed(lambda plan: plan["geoFence"]["circles"][0]["circle"].pop("radius")))
        with self.assertRaisesRegex(plan_files.PlanFileError, "item 0 is NAV_TAKEOFF at 0.0000000 0.0000000, 20 m "
                                                              "above home, and not the home position"):
            plan_files.write_mission([Item(22, 3, z=20.0)], "new.plan")

    def test_both_examples_are_the_same_mission(self):
        contents = {}
        for name in ("route.waypoints", "route.plan"):
            with open(os.path.join(TOP, "examples", name), encoding="utf-8") as file:
                contents[name] = file.read()
        items = plan_files.read_mission(contents["route.waypoints"])
        self.assertEqual(plan_files.read_mission(contents["route.plan"]), items)
        self.assertEqual([item.command for item in items], [16, 22, 178, 16, 16, 18, 16, 21])
        self.assertEqual(items[0], Item(16, 0, x=473977420, y=85455970, z=488.0, current=1))
        self.assertEqual([item.command for item in plan_files.read_fence(contents["route.plan"])], [5001] * 5)


class ParameterFiles(unittest.TestCase):
    def test_both_forms_are_read(self):
        proxy = "# saved\nACRO_BAL_PITCH   1.000000\nFENCE_RADIUS     123.100000 # metres\n\n"
        planner = "#NOTE: 6/1/2024 10:00:00 AM Frame : X\r\nACRO_BAL_PITCH,1\r\nFENCE_RADIUS,123.1\r\n"
        wanted = {"ACRO_BAL_PITCH": 1.0, "FENCE_RADIUS": decimals.as_float(123.1)}
        self.assertEqual(parameter_files.read(proxy), wanted)
        self.assertEqual(parameter_files.read(planner), wanted)

    def test_both_forms_are_written(self):
        values = {"SERVO16_FUNCTION": 33.0, "FENCE_RADIUS": decimals.as_float(123.1)}
        for name, wanted in (("kept.parm", "FENCE_RADIUS     123.1\nSERVO16_FUNCTION 33\n"),
                             ("kept.param", "FENCE_RADIUS,123.1\nSERVO16_FUNCTION,33\n")):
            self.assertEqual(parameter_files.write(values, name), wanted)
            self.assertEqual(parameter_files.read(wanted), values)

    def test_what_is_wrong_is_named_by_its_line(self):
        for line, words in (("1\t1\tACRO_BAL_PITCH\t1.0\t9", "line 2: 5 columns stand where a name and a value do"),
                            ("FENCE_RADIUS far", "line 2: far is no number"),
                            ("SERVO16_FUNCTIONS 1", "line 2: SERVO16_FUNCTIONS is no name of a parameter"),
                            ("FENCE_RADIUS nan", "line 2: nan is no number that a parameter can have")):
            with self.subTest(line), self.assertRaises(parameter_files.ParameterFileError) as caught:
                parameter_files.read("RTL_ALT 1500\n" + line)
            self.assertEqual(str(caught.exception), words)


class Words(unittest.TestCase):
    def test_each_refusal_names_its_item_and_its_reason(self):
        for result, word in RESULT_WORDS.items():
            text = mission_items.item_refusal(4, Item(178, 2), result)
            self.assertTrue(text.startswith("item 4 (DO_CHANGE_SPEED) is refused: "), text)
            self.assertIn(word, text)
        self.assertEqual(len({mission_items.item_refusal(4, Item(178, 2), result) for result in RESULT_WORDS}),
                         len(RESULT_WORDS))
        self.assertEqual(mission_items.item_refusal(0, Item(9999, 2), 77),
                         "item 0 (command 9999) is refused: result 77")

    def test_a_whole_mission_or_fence_is_refused_in_words(self):
        for kind, done, result, words in (
                (mavlink.FENCE, "shown", 3, "the fence is not shown: the vehicle does not have this kind"),
                (mavlink.MISSION, "taken", 4, "the mission is not taken: there is no space for so many items, "),
                (mavlink.MISSION, "cleared", 14, "the mission is not cleared: denied: another station uploads")):
            self.assertTrue(mission_items.whole_refusal(kind, done, result).startswith(words))

    def test_an_item_is_a_line(self):
        for item, line in (
                (Item(18, 3, (2.0, 0.0, -15.0, 0.0), 473977420, -85455970, decimals.as_float(30.48)),
                 "7 NAV_LOITER_TURNS at 47.3977420 -8.5455970, 30.48 m above home, parameter 1 = 2, parameter 3 = -15"),
                (Item(20, 2), "7 NAV_RETURN_TO_LAUNCH"),
                (Item(5003, 0, (50.0, 0.0, 0.0, 0.0), 1, 0),
                 "7 NAV_FENCE_CIRCLE_INCLUSION at 0.0000001 0.0000000, parameter 1 = 50")):
            self.assertEqual(mission_items.line_of(7, item), line)


if __name__ == "__main__":
    counted.no_words(__doc__)
    counted.passes(verbosity=1)
