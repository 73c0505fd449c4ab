#!/usr/bin/env python3
"""Uses the built program by pymavlink, the library of MAVProxy: tests/with_pymavlink.py PROGRAM

A connection of pymavlink.mavutil says its HEARTBEAT each second, fetches all parameters, sets one, sends a mission and
a fence and reads them back, and arms the vehicle, over a real socket. Where pymavlink isn't installed the tests are
left out by their names, and the last line, which counts what passed and what failed, counts them as skipped.
"""
import os
import re
import subprocess
import sys
import tempfile
import textwrap
import time
import unittest

TOP = os.path.join(os.path.dirname(os.path.abspath(__file__)), "..")
sys.path.insert(0, os.path.join(TOP, "tools"))
sys.dont_write_bytecode = True
# pymavlink speaks version 1 unless this is set before it is imported
os.environ["MAVLINK20"] = "1"
import counted  # noqa: E402
import server  # noqa: E402

try:
    from pymavlink import mavutil  # noqa: E402
except ImportError:
    mavutil = None

PROGRAM = ""
ROWS = 240
PATIENCE = 20  # seconds until an answer is given up
MISSION, FENCE = 0, 1
# frame, command, parameter 1, x, y, z
ROUTE = ((0, 16, 0.0, 473977420, 85455970, 488.0), (3, 22, 15.0, 473977420, 85455970, 20.0),
         (3, 16, 5.0, 473991500, -85468200, 30.5), (2, 20, 0.0, 0, 0, 0.0))
CIRCLES = ((0, 5003, 50.0, 473980000, 85460000, 0.0), (0, 5004, 12.5, -353629380, 1491650850, 0.0))


@unittest.skipUnless(mavutil, "pymavlink isn't installed")
class WithPymavlink(unittest.TestCase):
    def setUp(self):
        folder = tempfile.TemporaryDirectory()
        self.addCleanup(folder.cleanup)
        vehicle = server.served(PROGRAM, os.path.join(folder.name, "vehicle.img"))
        self.vehicle = vehicle.__enter__()
        self.addCleanup(vehicle.__exit__, None, None, None)
        self.vehicle.wait()
        self.link = mavutil.mavlink_connection(f"udpout:127.0.0.1:{self.vehicle.port}", source_system=255,
                                               source_component=190)
        self.addCleanup(self.link.close)
        self.spoke = 0.0
        self.assertIsNotNone(self.hear("HEARTBEAT"))
        # it takes the system from the HEARTBEAT, and the component in newer versions alone
        self.assertEqual(self.link.target_system, 1)
        self.assertIn(self.link.target_component, (0, 1))

    def hear(self, *names, seconds=PATIENCE):
        """The next message of one of these names, or None. A HEARTBEAT goes out each second meanwhile."""
        end = time.monotonic() + seconds
        while time.monotonic() < end:
            if time.monotonic() - self.spoke >= 1:
                self.spoke = time.monotonic()
                self.link.mav.heartbeat_send(mavutil.mavlink.MAV_TYPE_GCS, mavutil.mavlink.MAV_AUTOPILOT_INVALID, 0, 0,
                                             mavutil.mavlink.MAV_STATE_ACTIVE)
            found = self.link.recv_match(type=[*names, "BAD_DATA"], blocking=True, timeout=0.2)
            if found is not None:
                self.assertNotEqual(found.get_type(), "BAD_DATA")
                return found
        return None

    def target(self):
        """Whom messages are for."""
        return self.link.target_system, self.link.target_component

    def test_all_parameters_are_fetched_and_one_is_set(self):
        self.link.param_fetch_all()
        shown = {}
        while len(shown) < ROWS:
            found = self.hear("PARAM_VALUE")
            self.assertIsNotNone(found, f"{len(shown)} parameters came")
            self.assertEqual(found.param_count, ROWS)
            shown[found.param_index] = found
        self.assertEqual(sorted(shown), list(range(ROWS)))
        self.assertEqual(len({found.param_id for found in shown.values()}), ROWS)
        self.assertEqual((shown[1].param_id, shown[1].param_value, shown[1].param_type), ("RTL_ALT", 1500.0, 6))
        self.link.param_set_send("FENCE_RADIUS", 123.5)
        found = self.hear("PARAM_VALUE")
        self.assertEqual((found.param_id, found.param_value, found.param_index), ("FENCE_RADIUS", 123.5, 12))
        self.link.param_fetch_one("FENCE_RADIUS")
        self.assertEqual(self.hear("PARAM_VALUE").param_value, 123.5)

    def send(self, kind, items):
        """Sends items, each when it is asked for, and gives the result."""
        self.link.mav.mission_count_send(*self.target(), len(items), kind)
        while (found := self.hear("MISSION_REQUEST", "MISSION_REQUEST_INT", "MISSION_ACK")) is not None:
            self.assertEqual((found.target_system, found.target_component, found.mission_type), (255, 190, kind))
            if found.get_type() == "MISSION_ACK":
                return found.type
            frame, command, param1, x, y, z = items[found.seq]
            self.link.mav.mission_item_int_send(*self.target(), found.seq, frame, command, 0, 1, param1, 0, 0, 0, x, y,
                                                z, kind)
        return None

    def read_back(self, kind):
        """The items that the vehicle has."""
        self.link.mav.mission_request_list_send(*self.target(), kind)
        found, items = self.hear("MISSION_COUNT"), []
        self.assertEqual(found.mission_type, kind)
        for seq in range(found.count):
            self.link.mav.mission_request_int_send(*self.target(), seq, kind)
            one = self.hear("MISSION_ITEM_INT")
            self.assertEqual((one.seq, one.autocontinue, one.mission_type), (seq, 1, kind))
            items.append((one.frame, one.command, one.param1, one.x, one.y, one.z))
        self.link.mav.mission_ack_send(*self.target(), mavutil.mavlink.MAV_MISSION_ACCEPTED, kind)
        return tuple(items)

    def test_a_mission_and_a_fence_go_up_and_come_down(self):
        for kind, items in ((MISSION, ROUTE), (FENCE, CIRCLES)):
            with self.subTest(kind=kind):
                self.assertEqual(self.read_back(kind), ())
                self.assertEqual(self.send(kind, items), mavutil.mavlink.MAV_MISSION_ACCEPTED)
                self.assertEqual(self.read_back(kind), items)
        self.assertEqual(self.read_back(MISSION), ROUTE)
        self.link.mav.mission_clear_all_send(*self.target(), MISSION)
        self.assertEqual(self.hear("MISSION_ACK").type, mavutil.mavlink.MAV_MISSION_ACCEPTED)
        self.assertEqual(self.read_back(MISSION), ())
        self.assertEqual(self.read_back(FENCE), CIRCLES)

    def test_the_lines_that_the_document_shows_print_a_parameter(self):
        with open(os.path.join(TOP, "docs", "USING.md"), encoding="utf-8") as document:
            shown = re.search(r"(?:^    (?:from pymavlink|link|print).*\n){6}", document.read(), re.M)[0]
        code = textwrap.dedent(shown).replace("14550", str(self.vehicle.port))
        done = subprocess.run([sys.executable, "-c", code], capture_output=True, text=True, timeout=60, check=False)
        self.assertEqual(done.returncode, 0, done.stderr)
        self.assertIn("FORMAT_VERSION", done.stdout)

    def test_the_vehicle_is_armed_and_disarmed(self):
        order = mavutil.mavlink.MAV_CMD_COMPONENT_ARM_DISARM
        for param1, armed in ((1, mavutil.mavlink.MAV_MODE_FLAG_SAFETY_ARMED), (0, 0)):
            self.link.mav.command_long_send(*self.target(), order, 0, param1, 0, 0, 0, 0, 0, 0)
            found = self.hear("COMMAND_ACK")
            self.assertEqual((found.command, found.result), (order, mavutil.mavlink.MAV_RESULT_ACCEPTED))
            mode = self.hear("HEARTBEAT").base_mode
            self.assertEqual(mode & mavutil.mavlink.MAV_MODE_FLAG_SAFETY_ARMED, armed)


if __name__ == "__main__":
    PROGRAM = counted.program_named(__doc__)
    if mavutil is None:
        names = unittest.defaultTestLoader.getTestCaseNames(WithPymavlink)
        print(f"left out, since pymavlink isn't installed: {', '.join(names)}")
    counted.passes()
