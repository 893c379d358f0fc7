"""Numbers that the programs share: addresses and codes (IEC 62386-102 and -103), and places in a text."""

ADDRESSES, GROUPS, INSTANCES, INFORMATIONS = 64, 16, 32, 1024
# The addresses of groups and of all gear, as a text has them.
FIRST_GROUP, ALL = 64, 80
MASK = 0xFF  # no level, and no short address
# What gear is sent, and what it is asked.
OFF, RECALL_MAX_LEVEL, RECALL_MIN_LEVEL, GO_TO_SCENE, SET_SHORT_ADDRESS = 0x00, 0x05, 0x06, 0x10, 0x80
QUERY_STATUS, QUERY_CONTROL_GEAR_PRESENT, QUERY_MISSING_SHORT_ADDRESS, QUERY_ACTUAL_LEVEL = 0x90, 0x91, 0x96, 0xA0
# The sources of a bus, and where their information and their counts begin among its places %IW (docs/LANGUAGE.md).
SOURCES = 64
FIRST_INFORMATION, FIRST_COUNT = 128, 192
