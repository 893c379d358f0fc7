"""The tables and settings that benches/commission tries."""

from __future__ import annotations

from typing import Dict, List, Optional, Sequence, Tuple

HEAD = "room,name,bus,kind,address,group,device,instance,settings"

# Of a device and an instance: the words that are set, and what the bus answers to queries then (IEC 62386-103 and its
# parts 301, 303 and 304, written down here once more).
SETTINGS: Sequence[Tuple[int, int, str, Dict[int, Optional[int]]]] = (
    (2, 0, "scheme=device-instance", {0x8B: 2}),
    (2, 0, "enabled=no", {0x86: None}),
    (2, 0, "enabled=yes", {0x86: 255}),
    (2, 0, "events=short+double+long-start", {0x90: 0x1C, 0x91: 0, 0x92: 0}),
    (2, 0, "short=600ms double=300ms repeat=200ms stuck=1min", {0x0A: 30, 0x0C: 15, 0x0E: 10, 0x0F: 60}),
    (2, 0, "double=off scheme=instance", {0x0C: 0, 0x8B: 0}),
    (2, 1, "scheme=device-instance events=all", {0x8B: 2, 0x90: 255}),
    (5, 0, "events=occupied+vacant hold=5min report=off dead=200ms", {0x90: 3, 0x2D: 30, 0x2E: 0, 0x2C: 4}),
    (5, 1, "events=none report=1min hysteresis=10 hysteresis-min=20", {0x90: 0, 0x3E: 60, 0x3F: 10, 0x3C: 20}),
    (5, 1, "dead=1500ms events=level", {0x3D: 30, 0x90: 1}),
    (5, 2, "scheme=device filter=0x010203", {0x8B: 1, 0x90: 3, 0x91: 2, 0x92: 1}),
)
REFUSED_SETTINGS = (
    (2, 0, "double=305ms", "double=305ms: it is off, or 200ms to 2s, in steps of 20ms"),
    (2, 0, "hold=5min", "hold=5min: there is scheme, enabled, events, filter, short, double, repeat, stuck, each with"),
    (2, 0, "short=500ms short=600ms", "short=600ms: short stands there twice"),
    (2, 0, "events=short filter=0xFF", "events and filter are one setting in two forms"),
    (2, 0, "scheme=3", "scheme=3: it is one of instance, device, device-instance, device-group, instance-group"),
    (2, 0, "events=long", "events=long: it is all, none, or with + between them some of released, pressed"),
    (5, 2, "filter=0x1000000", "filter=0x1000000: it is 0x and hexadecimal digits, 24 bits at most"),
    (5, 1, "hysteresis=26", "hysteresis=26: it is 0 to 25"),
    (2, 2, "enabled=yes", "device 2 instance 2 does not say which type it is"),
)

FAULTY_LINES = f"""{HEAD}
# room,and so on
Hall,ceiling,0,lamp,5,,,,min=10 fade=1s
Hall,wall,64,lamp,64,16,,,min=0
Hall,door,0,bell,,,2,1,
,stairs,0,button,7,,2,32,
Hall,ceiling,0,lamp,5,,1,,
Gear,level,0,lamp,6,,,,
???,!!,0,lamp,7,,,,
Hall,all,0,group,,3,,,fade=1s
Hall,upper,0,button,,,2,1,scheme=device-group
Hall,lower,0,button,,,2,2,short=5s short=6s
Hall,other,0,input,,,3,2,scheme=instance
Hall,few
"""
SAME_LINES = f"""{HEAD}
Hall,ceiling,0,lamp,5,,,,
Hall,Ceiling!,1,lamp,5,,,,
Hall,wall,0,lamp,5,,,,
Hall,all,0,group,,3,,,
Hall,door,0,button,,,2,1,
Hall,door_said,0,lamp,6,,,,
Hall,bell,0,button,,,2,1,enabled=no
Hall,panel 1,0,button,,,3,0,scheme=device
Hall,panel 2,0,button,,,3,1,scheme=device
"""
WRONG_HEAD = "1: the first line has the columns room, name, bus, kind, address, group, device, instance, settings"
# A table, and what is said of it.
FAULTS: Dict[str, Tuple[str, List[str]]] = {
    "lines": (
        FAULTY_LINES,
        [
            "4: address: it is 0 to 63, and not '64'",
            "4: bus: it is 0 to 63, and not '64'",
            "4: group: each is 0 to 15, and not '16'",
            "4: settings: min=0: it is 1 to 254",
            "5: kind: it is one of lamp, group, button, motion, brightness, input, and not 'bell'",
            "6: address: a button has none",
            "6: instance: it is 0 to 31, and not '32'",
            "6: room: it is missing",
            "7: device: a lamp has none",
            "8: name: the language has gear_level as a word of its own",
            "9: name: no letter or digit in it can stand in a name of a text",
            "10: settings: a group has none",
            "11: settings: scheme is instance, device, device-instance here, since a table has no groups of devices",
            "12: settings: short=6s: short stands there twice",
            "13: settings: the scheme of an input is device-instance, since its type is not known",
            "14: there are 2 cells, and 9 columns",
        ],
    ),
    "same": (
        SAME_LINES,
        [
            "3: a text would call it hall_ceiling, as line 2: give it another name",
            "4: gear 5 of bus 0 stands in line 2 already",
            "5: no lamp of bus 0 is in group 3",
            "7: a text would call it hall_door_said, as line 6: give it another name",
            "8: device 2 instance 1 of bus 0 stands in line 6 already",
            "10: its events are those of line 9 too: give both the scheme device-instance",
        ],
    ),
    "empty": ("", [WRONG_HEAD]),
    "head": (HEAD.replace("room", "floor") + "\nHall,ceiling,0,lamp,5,,,,\n", [WRONG_HEAD]),
    "none": (HEAD + "\n# nothing\n,,,,,,,,\n", ["1: no line below the first one says anything"]),
    "quote": (HEAD + '\nHall,"ceiling"x,0,lamp,5,,,,\n', ["2: ',' expected after '\"'"]),
    "latin": (HEAD + "\nHall,ceiling,0,lamp,5,,,,\nKüche,table,0,lamp,6,,,,\n", ["3: it is not written in UTF-8"]),
    "places": (
        HEAD + "\n" + "".join(f"Hall,door {it},0,button,,,{it // 32},{it % 32},\n" for it in range(66)),
        ["66: bus 0 has more than 64 inputs, and a binding has 64 places"],
    ),
}

BUTTONS = "".join(
    f"Hall,button {number} of {device},0,button,,,{device},{number},"
    f"{'enabled=no' if number == 3 else 'events=short+double+long-start+long-stop double=300ms'}\n"
    for device in range(15)
    for number in range(4)
)
SENSORS = "".join(
    f"Küche & Bad,motion {device},0,motion,,,{device},0,events=occupied+vacant hold=5min\n"
    f"Küche & Bad,window {device},0,brightness,,,{device},1,report=60s\n"
    for device in range(15, 20)
)
HOUSE = f"""{HEAD}
Hall,ceiling,0,lamp,0,3,,,min=10 power-on=last
Hall,wall,0,lamp,1,3 15,,,fade=1.4s
Hall,stairs,0,lamp,2,,,,
Hall,all lamps,0,group,,3,,,
Küche & Bad,table,0,lamp,3,,,,scene-2=100 scene-3=none max=200 min=50
Küche & Bad,stove,0,lamp,4,,,,failure=keep rate=5
Küche & Bad,mirror,0,lamp,5,,,,
{BUTTONS}{SENSORS}"""
# What the bus answers to frames of 24 bits, once the house is carried out.
CARRIED_OUT: Sequence[Tuple[Sequence[int], Optional[int]]] = (
    ([0x010090], 0x5C),
    ([0x01000C], 15),
    ([0x01008B], 2),
    ([0x010386], None),
    ([0x1D0290], 0x5C),
    ([0x1F002D], 30),
    ([0x27012E], None),
    ([0x27013E], 60),
    ([0x27008B], 2),
)

PLACED = "\n".join(
    [HEAD]
    + [f"Hall,lamp {it},0,lamp,{it},,,," for it in range(5)]
    + [f"Hall,panel {it} right,0,button,,,{it},1," for it in range(4)]
)

SMALL = f"""{HEAD}
Hall,ceiling,0,lamp,5,,,,
Hall,wall,0,lamp,6,,,,
Hall,door,0,button,,,1,0,
Hall,panel,0,button,,,2,0,
Hall,panel 3,0,button,,,2,2,
House,clock,1,input,,,63,0,
"""
SMALL_LEFT = [
    "bus 0: gear 6 (Hall, wall) is missing",
    "bus 0: device 9 is there and not in the table",
    "bus 0: device 1 instance 1 is there and not in the table",
    "bus 0: device 1 instance 0 (Hall, door) is of type 3, motion, and the table has button",
    "bus 0: device 2 instance 1 is there and not in the table",
    "bus 0: device 2 instance 2 (Hall, panel 3) is missing: the device has 2 instances",
]

TEXT = """PROGRAM sw
VAR_EXTERNAL
  hall_button_0_of_0_said : UINT (0..1023);
  hall_all_lamps : USINT (0..254);
END_VAR
  LD hall_button_0_of_0_said
  MIN 254
  ST hall_all_lamps
END_PROGRAM

CONFIGURATION house
{block}
TASK push (SINGLE := hall_button_0_of_0, PRIORITY := 1);
PROGRAM s1 WITH push : sw;
END_CONFIGURATION
"""
