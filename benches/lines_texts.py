"""The texts and bindings of benches/lines."""

PRESS = 0x0A8809  # information 9 of instance 2 of the device with short address 5
SOURCE = "device-instance 5 2"

# A button that switches a lamp, two lamps that stay as they are, and a task each 100 ms that stores nothing new.
HALL = """PROGRAM sw
VAR_EXTERNAL lamp : USINT (0..254); END_VAR
LD 200
SUB lamp
MAX 0
ST lamp
END_PROGRAM
PROGRAM idle
VAR_EXTERNAL presses : UINT; END_VAR
LD presses
END_PROGRAM
CONFIGURATION hall
VAR_GLOBAL
pressed AT %IX0.0 : BOOL;
presses AT %IW0.192 : UINT;
lamp AT %QB0.5 : USINT (0..254);
sign AT %QB0.6 : USINT (0..254) := 120;
group AT %QB0.65 : USINT (0..254) := 254;
END_VAR
TASK push (SINGLE := pressed, PRIORITY := 0);
TASK clock (INTERVAL := T#100ms, PRIORITY := 1);
PROGRAM light WITH push : sw;
PROGRAM look WITH clock : idle;
END_CONFIGURATION
"""
# What is sent of it at a start, and which of these no press sends.
HALL_LEVELS = {0x0A00, 0x0C78, 0x82FE}
SET_ONCE = {0x0C78, 0x82FE}

# Counts its scans, and those whose event was not the next one: the events are numbered by their information.
STORM = """PROGRAM count
VAR_EXTERNAL event : UINT (0..1023); scans : UINT; wrong : UINT; END_VAR
VAR next : UINT (0..1023); END_VAR
LD scans
ADD 1
MOD 65536
ST scans
LD event
EQ next
JMPC known
LD wrong
ADD 1
MIN 65535
ST wrong
known:
LD event
ADD 1
MOD 1024
ST next
END_PROGRAM
CONFIGURATION storm
VAR_GLOBAL
pressed AT %IX0.0 : BOOL;
event AT %IW0.128 : UINT (0..1023);
presses AT %IW0.192 : UINT;
scans : UINT;
wrong : UINT;
END_VAR
TASK push (SINGLE := pressed, PRIORITY := 0);
PROGRAM counts WITH push : count;
END_CONFIGURATION
"""


def town(buses: int) -> str:
    """A lamp on each bus, which is lit where the button of the bus was pressed an odd number of times."""
    programs = "".join(
        f"PROGRAM follow{bus}\nVAR_EXTERNAL presses{bus} : UINT; lamp{bus} : USINT (0..254); END_VAR\n"
        f"LD presses{bus}\nMOD 2\nMUL 200\nST lamp{bus}\nEND_PROGRAM\n"
        for bus in range(buses)
    )
    globals_ = "".join(
        f"presses{bus} AT %IW{bus}.192 : UINT;\nlamp{bus} AT %QB{bus}.5 : USINT (0..254);\n" for bus in range(buses)
    )
    instances = "".join(f"PROGRAM light{bus} WITH clock : follow{bus};\n" for bus in range(buses))
    return (
        f"{programs}CONFIGURATION town\nVAR_GLOBAL\n{globals_}END_VAR\nTASK clock (INTERVAL := T#50ms, PRIORITY := 0);\n"
        f"{instances}END_CONFIGURATION\n"
    )


def busy() -> str:
    """Four tasks each millisecond: some 9,000 events a second."""
    tasks = "".join(f"TASK t{task} (INTERVAL := T#1ms, PRIORITY := {task});\n" for task in range(4))
    instances = "".join(f"PROGRAM x{task} WITH t{task} : p;\n" for task in range(4))
    return (
        "PROGRAM p\nVAR n : UINT; END_VAR\nLD n\nADD 1\nMOD 65536\nST n\nEND_PROGRAM\n"
        f"CONFIGURATION busy\n{tasks}{instances}END_CONFIGURATION\n"
    )


def binding(buses: int) -> str:
    return f"buses {buses}\n" + "".join(f"source {bus}.0 {SOURCE}\n" for bus in range(buses))
