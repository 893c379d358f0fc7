"""What commissions a house: `address.py` and `house.py` are made of it.

`device_codes`, `device_wire` and `instances` speak to control devices, and `lamps` to gear; `settings`
and `values` are what they are set to, in words. `table` reads the table of a house with the `names` of
a text, `bus` compares it with a bus and carries it out, `place` brings each to its place, and `files`
and `page` write what is made of it. It needs nothing but the standard library.
"""
